/*
 * A million seeded events on boards of all sizes, with damaged records, boards, logs and readers among them, as one running number of
 * every answer, record, table, reader and byte that the library gives. It is the same on every machine; the counts say what went into
 * it.
 */
#include <inttypes.h>
#include <stdio.h>
#include <string.h>

#include "events.h"

/* The events, and how many boards more go on until their log ends, which then comes in deliveries. */
enum { EVENTS = 1000000, DELIVERED = 200 };

/* ---- The running number ---- */

static uint64_t number;

/* Each step can be undone: two numbers that differ stay apart while the same words follow. */
static void take(uint64_t word)
{
    number = (number ^ word) * UINT64_C(0x9E3779B97F4A7C15);
    number ^= number >> 32;
}

static void take_bytes(const void *from, size_t length)
{
    for (size_t at = 0; at < length; at += sizeof(uint64_t)) {
        uint64_t word = 0;
        size_t left = length - at;
        memcpy(&word, (const uint8_t *)from + at, left < sizeof word ? left : sizeof word);
        take(word);
    }
}

#define TAKE(given) take_bytes(&(given), sizeof(given))

/* All but the padding, which is the last byte of each component. */
static void take_record(const struct lfa_record *r)
{
    take_bytes(&r->board, offsetof(struct lfa_board, component));
    for (size_t i = 0; i < LFA_MOST_COMPONENTS; i++)
        take_bytes(&r->board.component[i], offsetof(struct lfa_component, optional) + 1);
    take_bytes(r->pending, sizeof *r - offsetof(struct lfa_record, pending));
}

/* All of a reader's bytes but the padding, which is behind them. */
enum { LEAD_BYTES = offsetof(struct lfa_lead, kept) + LFA_MOST_KEPT };

/* ---- What was met ---- */

enum { REFUSALS = LFA_REFUSAL_NO_READER + 1 };

static uint64_t states[LFA_STATE_WITHDRAWN + 1], callers[LFA_CALLER_GONE + 1], releases[LFA_RELEASE_BY_ENTRY + 1];
static uint64_t refused_events[REFUSALS], refused_boards[REFUSALS], refused_logs[REFUSALS], refused_starts[REFUSALS];
static uint64_t refused_reasons[REFUSALS], reasons[LFA_REASON_WITHDRAWN + 1];
static uint64_t refused_deliveries[REFUSALS], refused_closes[REFUSALS], standings[LFA_STANDING_REFUSED + 1];
static uint64_t prepared_places, started_places, held_places;

#define COUNT(list, at) count(list, sizeof(list) / sizeof *(list), at)
#define PRINT(list) print(#list, list, sizeof(list) / sizeof *(list))

static void count(uint64_t *list, size_t length, uint64_t at)
{
    if (at < length) list[at]++;
}

/* The numbers that were met, each with how often. */
static void print(const char *name, const uint64_t *list, size_t length)
{
    printf("%s:", name);
    for (size_t i = 0; i < length; i++)
        if (list[i]) printf(" %zu: %" PRIu64, i, list[i]);
    printf("\n");
}

/* ---- The board and its log ---- */

/* What a walk has: a board's description, its record, the two tables and the log. */
static struct {
    uint8_t board[LFA_BOARD_BYTES(LFA_MOST_COMPONENTS) + 1];
    size_t board_length;
    struct lfa_record rec;
    uint64_t entries[LFA_MOST_CPUS];
    uint64_t contexts[LFA_MOST_CPUS];
    uint8_t log[LFA_MOST_LOG_RECORDS * LFA_LOG_RECORD_BYTES];
    size_t logged;
} walked;

/* Changes one bit of some bytes. */
static void damage(void *bytes, size_t length)
{
    size_t at = below(length);
    ((uint8_t *)bytes)[at] ^= (uint8_t)(1 << below(8));
}

/* A description with a bit that is another, or with the UUID of component 0 for component 1. */
static void damage_board(uint8_t *board)
{
    if (walked.rec.board.components > 1 && one_in(4))
        memcpy(board + LFA_BOARD_BYTES(1), board + LFA_BOARD_BYTES(0), LFA_UUID_BYTES);
    else damage(board, walked.board_length);
}

static size_t describe(uint8_t *board, size_t room, const struct lfa_board *parts)
{
    struct lfa_written w = lfa_describe(board, room, *parts);
    TAKE(w);
    take_bytes(board, sizeof walked.board);
    COUNT(refused_boards, w.refusal);
    return w.bytes;
}

static struct lfa_fresh fresh(const uint8_t *board, size_t length)
{
    struct lfa_fresh f = lfa_fresh(board, length);
    take(f.refusal);
    take_record(&f.rec);
    COUNT(refused_boards, f.refusal);
    return f;
}

/* The same board with a bit, a count or a length that is another: from its parts, and from its bytes. */
static void start_damaged(struct lfa_board parts)
{
    static const uint64_t COUNTS[] = {0, LFA_MOST_COMPONENTS + 1, LFA_MOST_CPUS + 1, UINT64_MAX};
    static uint8_t bytes[sizeof walked.board];
    memcpy(bytes, walked.board, sizeof bytes);
    size_t length = one_in(2) ? walked.board_length : below(sizeof bytes + 1);
    damage_board(bytes);
    fresh(bytes, length);
    damage(&parts, offsetof(struct lfa_board, component) + parts.components * sizeof(struct lfa_component));
    if (one_in(4)) parts.cpus = ONE_OF(COUNTS);
    if (one_in(4)) parts.components = ONE_OF(COUNTS);
    if (one_in(4)) parts.component[1] = parts.component[0];
    describe(bytes, below(sizeof bytes + 1), &parts);
}

static void start(void)
{
    struct lfa_board parts = any_board();
    walked.board_length = describe(walked.board, sizeof walked.board, &parts);
    walked.rec = fresh(walked.board, walked.board_length).rec;
    walked.logged = 0;
    start_damaged(parts);
}

/* ---- Steps and questions ---- */

static struct lfa_answer step(struct lfa_record *r, struct lfa_event e)
{
    size_t entries = LFA_MOST_CPUS - (one_in(64) ? below(LFA_MOST_CPUS) : 0);
    size_t contexts = LFA_MOST_CPUS - (one_in(64) ? below(LFA_MOST_CPUS) : 0);
    struct lfa_answer a = lfa_step(r, e, walked.entries, entries, walked.contexts, contexts);
    TAKE(a);
    take_record(r);
    TAKE(walked.entries);
    TAKE(walked.contexts);
    COUNT(refused_events, a.refusal);
    return a;
}

/* The same event on a record of which a bit is another. */
static void step_damaged(struct lfa_event e)
{
    struct lfa_record other = walked.rec;
    if (one_in(2)) damage(&other.pending, sizeof other - offsetof(struct lfa_record, pending));
    else damage(&other, sizeof other);
    step(&other, e);
}

/* Logs what was accepted, and reads it back. */
static void log_event(struct lfa_event e, struct lfa_answer a)
{
    uint8_t *at = walked.log + walked.logged;
    struct lfa_written w = lfa_log(at, sizeof walked.log - walked.logged, e, a);
    TAKE(w);
    COUNT(refused_logs, w.refusal);
    take_bytes(at, w.bytes);
    struct lfa_read r = lfa_read_record(at, w.bytes);
    TAKE(r);
    walked.logged += w.bytes;
}

/* The same with an event and an answer of which a bit is another, and with any room. */
static void log_damaged(struct lfa_event e, struct lfa_answer a)
{
    uint8_t room[LFA_LOG_RECORD_BYTES] = {0};
    if (one_in(2)) damage(&e, sizeof e);
    if (one_in(2)) damage(&a, sizeof a);
    struct lfa_written w = lfa_log(room, one_in(2) ? sizeof room : below(sizeof room), e, a);
    TAKE(w);
    TAKE(room);
    COUNT(refused_logs, w.refusal);
    struct lfa_read r = lfa_read_record(room, below(sizeof room));
    TAKE(r);
    COUNT(refused_logs, r.refusal);
}

/* Why the call, as an ACTIVATE, would get its answer. */
static void ask_why(const uint8_t *board, size_t length, size_t place, struct lfa_call c)
{
    struct lfa_activate a = {.cpu = c.cpu, .x1 = c.x1, .x2 = one_in(2) ? c.x2 : below(3), .x3 = c.x3, .x4 = c.x4};
    struct lfa_why w = lfa_why(board, walked.board_length, walked.log, length, place, a);
    TAKE(w);
    COUNT(refused_reasons, w.refusal);
    if (w.refusal == LFA_REFUSAL_NONE) COUNT(reasons, w.reason);
}

/* The powered CPUs and the held ones. */
static void ask_cpus(size_t length, size_t place)
{
    struct lfa_cpus_at powered = lfa_powered(walked.log, length, place);
    struct lfa_cpus_at held = lfa_held(walked.log, length, place);
    TAKE(powered);
    TAKE(held);
    COUNT(refused_logs, powered.refusal);
    COUNT(refused_logs, held.refusal);
    held_places += held.cpus.bits != 0;
}

/* The questions to the log, at its end, or at any place of it and one behind; now and then with a damaged board. */
static void ask(void)
{
    size_t records = walked.logged / LFA_LOG_RECORD_BYTES;
    size_t place = one_in(2) ? records : below(records + 2);
    size_t length = walked.logged - (one_in(16) ? below(walked.logged + 1) : 0);
    struct lfa_prepared p = lfa_prepared(length ? walked.log : NULL, length, place);
    struct lfa_event next = onward(&walked.rec);
    uint8_t board[sizeof walked.board];
    memcpy(board, walked.board, sizeof board);
    if (one_in(4)) damage_board(board);
    struct lfa_started s = lfa_starts(board, walked.board_length, walked.log, length, place, next.call);
    TAKE(p);
    TAKE(s);
    COUNT(refused_logs, p.refusal);
    COUNT(refused_starts, s.refusal);
    prepared_places += p.prepared.found;
    started_places += s.started.found;
    ask_why(board, length, place, next.call);
    ask_cpus(length, place);
}

/* The same with a log of which one bit is another, and the record of that bit. */
static void ask_damaged(void)
{
    size_t at = below(walked.logged);
    uint8_t kept = walked.log[at];
    damage(walked.log + at, 1);
    size_t record = at - at % LFA_LOG_RECORD_BYTES;
    struct lfa_read r = lfa_read_record(walked.log + record, walked.logged - record);
    TAKE(r);
    COUNT(refused_logs, r.refusal);
    ask();
    walked.log[at] = kept;
}

/* ---- Deliveries ---- */

static struct lfa_taken deliver(struct lfa_lead lead, const uint8_t *bytes, size_t length)
{
    struct lfa_taken t = lfa_lead_take(lead, length ? bytes : NULL, length);
    take_bytes(&t.lead, LEAD_BYTES);
    take_bytes(&t.refusal, sizeof t - offsetof(struct lfa_taken, refusal));
    COUNT(refused_deliveries, t.refusal);
    return t;
}

static struct lfa_lead end(struct lfa_lead lead)
{
    struct lfa_closed c = lfa_lead_close(lead);
    take_bytes(&c.lead, LEAD_BYTES);
    take_bytes(&c.refusal, sizeof c - offsetof(struct lfa_closed, refusal));
    COUNT(refused_closes, c.refusal);
    return c.lead;
}

/* The same delivery to a reader of which a byte or one of the five numbers before them is another, and its end. */
static void deliver_damaged(struct lfa_lead lead, const uint8_t *bytes, size_t length)
{
    static const uint64_t NUMBERS[] = {
        0, 1, 2, 3, 29, 30, 31, 32, 33, 34, LFA_MOST_KEPT, LFA_MOST_KEPT + 1, LFA_MOST_LOG_RECORDS - 1, LFA_MOST_LOG_RECORDS,
        LFA_MOST_LOG_RECORDS + 1, UINT64_C(1) << 32,
    };
    uint64_t other = ONE_OF(NUMBERS);
    size_t field = below(5);
    if (one_in(4)) damage(lead.kept, sizeof lead.kept);
    else memcpy((uint8_t *)&lead + field * sizeof other, &other, sizeof other);
    deliver(lead, bytes, length);
    end(lead);
}

/* Bytes in deliveries of any length, to their end or a refusal; then what comes after that. */
static void deliver_all(const uint8_t *bytes, size_t length)
{
    struct lfa_lead lead = lfa_lead_open();
    for (size_t at = 0; at < length && lead.standing == LFA_STANDING_OPEN;) {
        size_t most = one_in(4) ? 3 : 4 * LFA_LOG_RECORD_BYTES;
        size_t some = below(most);
        if (some > length - at) some = length - at;
        if (one_in(16)) deliver_damaged(lead, bytes + at, some);
        struct lfa_taken t = deliver(lead, bytes + at, some);
        lead = t.lead;
        at += t.used;
    }
    lead = end(lead);
    COUNT(standings, lead.standing);
    deliver_damaged(lead, bytes, length);
    deliver(lead, bytes, below(2));
    end(lead);
}

/* The log, and the same cut short or with zeros behind it, now and then with a bit that is another. */
static void deliver_log(void)
{
    static uint8_t log[sizeof walked.log + LFA_LOG_RECORD_BYTES];
    memcpy(log, walked.log, walked.logged);
    memset(log + walked.logged, 0, sizeof log - walked.logged);
    deliver_all(log, walked.logged);
    size_t length = one_in(2) ? walked.logged + 1 : 1 + below(sizeof log);
    if (one_in(2)) damage(log, length);
    deliver_all(log, length);
}

static void event(void)
{
    struct lfa_event e = one_in(4) ? any_event(&walked.rec) : onward(&walked.rec);
    if (one_in(8)) step_damaged(e);
    COUNT(states, walked.rec.state);
    struct lfa_answer a = step(&walked.rec, e);
    if (a.refusal != LFA_REFUSAL_NONE) return;
    COUNT(callers, a.caller);
    COUNT(releases, a.release);
    log_event(e, a);
    if (one_in(8)) log_damaged(e, a);
}

/* A board, until its log is full or it is dead for a while. */
static uint64_t walk(uint64_t events)
{
    uint64_t done = 0;
    start();
    while (done < events && walked.logged < sizeof walked.log && !(walked.rec.state == LFA_STATE_DEAD && one_in(32))) {
        event();
        done++;
        if (walked.logged != 0 && one_in(256)) one_in(2) ? ask() : ask_damaged();
    }
    return done;
}

int main(void)
{
    uint64_t boards = 0;
    for (uint64_t done = 0; done < EVENTS; boards++) done += walk(EVENTS - done);
    for (size_t i = 0; i < DELIVERED; i++) {
        walk(EVENTS);
        deliver_log();
    }
    printf("%d events on %" PRIu64 " boards, and the logs of %d more in deliveries\n", EVENTS, boards, DELIVERED);
    PRINT(states);
    PRINT(callers);
    PRINT(releases);
    PRINT(refused_events);
    PRINT(refused_boards);
    PRINT(refused_logs);
    PRINT(refused_starts);
    PRINT(refused_reasons);
    PRINT(reasons);
    PRINT(refused_deliveries);
    PRINT(refused_closes);
    PRINT(standings);
    printf("places where a component is prepared: %" PRIu64 ", where one starts: %" PRIu64 ", where CPUs are held: %" PRIu64 "\n",
           prepared_places, started_places, held_places);
    printf("the running number is %" PRIx64 "\n", number);
    return 0;
}
