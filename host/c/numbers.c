/*
 * Every number of lfa.h, as the library has it. A run of a board with 64 CPUs and 32 components through the monitor of monitor.c,
 * with every function, code, flag and state, each refusal of an event, and CPU 63; then the CPUs that the log tells, each reason,
 * each other refusal, the limits, and a reader of deliveries. What comes from the library is printed in the header's words, and
 * numbers.stdout has the words that documents 01 and 02 give for it.
 */
#include <inttypes.h>
#include <stdio.h>
#include <string.h>

#include "printing.h"

/* The components of the run: one that resets, one that may skip the rendezvous, and one that can't be activated live. */
enum { RESETS = 0, FIXED = 30, SKIPS = 31 };

enum { NO_KIND = 5, POSTPONED = 2, FAILED_FOR_GOOD = 5 };

#define CALL(number, function, ...) {.kind = LFA_KIND_CALL, .call = {.cpu = (number), .x0 = LFA_FUNCTION_##function, __VA_ARGS__}}
#define PRIMED(id, of) {.kind = LFA_KIND_PRIME_REPORT, .report = {.component = (id), .code = (of)}}
#define ACTIVATED(id, of) {.kind = LFA_KIND_ACTIVATE_REPORT, .report = {.component = (id), .code = (of)}}
#define IMAGE(id, of) {.kind = LFA_KIND_IMAGE, .image = {.component = (id), .version = (of)}}

static const struct lfa_event RUN[] = {
    /* the calls that change nothing, and the power calls */
    CALL(0, VERSION, .x1 = 0),
    CALL(0, FEATURES, .x1 = LFA_FUNCTION_CANCEL),
    CALL(0, FEATURES, .x1 = LFA_FUNCTION_CANCEL + 1),
    CALL(0, GET_INVENTORY, .x1 = SKIPS),
    CALL(0, GET_INFO, .x1 = 0),
    CALL(0, GET_INVENTORY, .x1 = SKIPS),
    CALL(0, GET_INVENTORY, .x1 = FIXED),
    CALL(0, CPU_ON, .x1 = 62, .x2 = 0x2000),
    CALL(0, CPU_ON, .x1 = 63, .x2 = 0x1000, .x3 = 0xC3F),
    CALL(0, CPU_ON, .x1 = 64, .x2 = 0x1000),
    CALL(64, VERSION, .x1 = 0),
    CALL(62, VERSION, .x1 = 0),
    /* an update that skips the rendezvous, each of its jobs in two parts, after one that is cancelled */
    IMAGE(FIXED, 5),
    PRIMED(SKIPS, LFA_CODE_DONE),
    IMAGE(SKIPS, 4),
    CALL(63, PRIME, .x1 = SKIPS),
    IMAGE(SKIPS, 5),
    CALL(63, PRIME, .x1 = SKIPS),
    IMAGE(SKIPS, 6),
    CALL(63, VERSION, .x1 = 0),
    PRIMED(SKIPS, LFA_CODE_BY_RESET),
    PRIMED(SKIPS, LFA_CODE_AGAIN),
    CALL(63, PRIME, .x1 = SKIPS),
    PRIMED(SKIPS, LFA_CODE_DONE),
    CALL(63, ACTIVATE, .x1 = SKIPS),
    CALL(0, CANCEL, .x1 = SKIPS),
    CALL(63, PRIME, .x1 = SKIPS),
    PRIMED(SKIPS, LFA_CODE_DONE),
    CALL(63, ACTIVATE, .x1 = SKIPS, .x2 = LFA_SKIP),
    CALL(0, CANCEL, .x1 = SKIPS),
    ACTIVATED(SKIPS, LFA_CODE_AGAIN),
    CALL(63, ACTIVATE, .x1 = SKIPS, .x2 = LFA_SKIP),
    ACTIVATED(SKIPS, LFA_CODE_DONE),
    /* a rendezvous that is cancelled, one that is postponed, and one that is done by reset */
    IMAGE(RESETS, 5),
    CALL(0, GET_INFO, .x1 = 0),
    CALL(0, GET_INVENTORY, .x1 = RESETS),
    CALL(0, PRIME, .x1 = RESETS),
    PRIMED(RESETS, LFA_CODE_DONE),
    CALL(63, ACTIVATE, .x1 = RESETS, .x3 = 0x2000),
    CALL(63, ACTIVATE, .x1 = RESETS, .x3 = 0x1100),
    CALL(0, CPU_ON, .x1 = 1, .x2 = 0x1000),
    CALL(0, CPU_OFF, .x1 = 0),
    CALL(0, CANCEL, .x1 = RESETS),
    CALL(63, PRIME, .x1 = RESETS),
    PRIMED(RESETS, LFA_CODE_DONE),
    CALL(63, ACTIVATE, .x1 = RESETS, .x3 = 0x1100),
    CALL(0, ACTIVATE, .x1 = RESETS, .x3 = 0x1200),
    ACTIVATED(RESETS, POSTPONED),
    CALL(0, ACTIVATE, .x1 = RESETS, .x3 = 0x1200, .x4 = 0xA0),
    CALL(63, ACTIVATE, .x1 = RESETS, .x3 = 0x1100, .x4 = 0xA3F),
    ACTIVATED(RESETS, LFA_CODE_BY_RESET),
    /* a preparation that is withdrawn, and a rendezvous that fails for good */
    IMAGE(SKIPS, 5),
    CALL(63, PRIME, .x1 = SKIPS),
    CALL(0, CANCEL, .x1 = RESETS),
    CALL(0, CANCEL, .x1 = SKIPS),
    CALL(0, CANCEL, .x1 = SKIPS),
    CALL(0, PRIME, .x1 = SKIPS),
    IMAGE(SKIPS, 6),
    PRIMED(SKIPS, LFA_CODE_DONE),
    IMAGE(RESETS, 5),
    CALL(0, PRIME, .x1 = RESETS),
    PRIMED(RESETS, LFA_CODE_DONE),
    CALL(63, CPU_OFF, .x1 = 0),
    CALL(0, ACTIVATE, .x1 = RESETS, .x3 = 0x1200),
    ACTIVATED(RESETS, FAILED_FOR_GOOD),
    {.kind = NO_KIND},
};

/* Places of the run's log: where a preparation was withdrawn, where its report has come, and its end. */
enum { WITHDRAWN = 48, REPORTED = 51, END = 57 };

/* Asked at a place of the run's log: why an ACTIVATE of this CPU would get its answer. */
static const struct question {
    size_t place;
    struct lfa_activate a;
} QUESTIONS[] = {
    {1, {.cpu = 0, .x1 = SKIPS}},
    /* preparing, then half-prepared */
    {14, {.cpu = 0, .x1 = SKIPS}},
    {14, {.cpu = 64, .x1 = SKIPS}},
    {14, {.cpu = 62, .x1 = SKIPS}},
    {14, {.cpu = 63, .x1 = SKIPS}},
    {15, {.cpu = 0, .x1 = SKIPS}},
    /* ready, then gathering */
    {17, {.cpu = 0, .x1 = RESETS}},
    {17, {.cpu = 0, .x1 = SKIPS, .x2 = LFA_SKIP << 1}},
    {17, {.cpu = 0, .x1 = SKIPS}},
    {17, {.cpu = 0, .x1 = SKIPS, .x2 = LFA_SKIP}},
    {18, {.cpu = 0, .x1 = SKIPS, .x2 = LFA_SKIP}},
    {18, {.cpu = 0, .x1 = SKIPS}},
    /* alone, ready to reset, withdrawn, dead, and past the end */
    {22, {.cpu = 0, .x1 = SKIPS}},
    {22, {.cpu = 0, .x1 = SKIPS, .x2 = LFA_SKIP}},
    {31, {.cpu = 0, .x1 = RESETS, .x2 = LFA_SKIP}},
    {31, {.cpu = 0, .x1 = RESETS, .x3 = 0x2000}},
    {WITHDRAWN, {.cpu = 0, .x1 = SKIPS}},
    {END, {.cpu = 0, .x1 = RESETS}},
    {END + 1, {.cpu = 0, .x1 = RESETS}},
};

static struct lfa_board large_board(void)
{
    struct lfa_board b = {.components = LFA_MOST_COMPONENTS, .cpus = LFA_MOST_CPUS, .first = 0x1000, .last = 0x1FFF};
    for (size_t i = 0; i < LFA_MOST_COMPONENTS; i++) {
        b.component[i].uuid[0] = (uint8_t)(100 + i);
        b.component[i].svn = 5;
        b.component[i].capable = i != FIXED;
    }
    b.component[RESETS].may_reset = 1;
    b.component[SKIPS].optional = 1;
    return b;
}

static void line(const char *what, uint64_t refusal)
{
    printf("%s:", what);
    print_refusal(refusal);
    printf("\n");
}

/* A description, as it is but for one byte and its length. */
static void read_board(const struct monitor *m, const char *what, size_t length, size_t at, uint8_t byte)
{
    static uint8_t board[LFA_BOARD_BYTES(LFA_MOST_COMPONENTS) + 1];
    memcpy(board, m->board, sizeof m->board);
    board[at] = byte;
    line(what, lfa_fresh(board, length).refusal);
}

static void boards(const struct monitor *m)
{
    enum { FLAGS = LFA_BOARD_BYTES(0) + LFA_UUID_BYTES, BOTH = 0x60 };
    size_t all = m->board_length;
    printf("a board of %zu bytes, %d by its components\n", all, LFA_BOARD_BYTES(LFA_MOST_COMPONENTS));
    read_board(m, "as it is", all, 0, m->board[0]);
    read_board(m, "a byte less", all - 1, 0, m->board[0]);
    read_board(m, "a byte more", all + 1, 0, m->board[0]);
    read_board(m, "a bit without meaning", all, 1, 0xFF);
    read_board(m, "a range that ends before it starts", all, 2, 0xFF);
    read_board(m, "both flags", all, FLAGS, BOTH);
    read_board(m, "component 1 with the UUID of component 0", all, LFA_BOARD_BYTES(1), 100);
    struct lfa_board b = large_board();
    uint8_t room[LFA_BOARD_BYTES(LFA_MOST_COMPONENTS)];
    line("no room to write", lfa_describe(room, sizeof room - 1, b).refusal);
    b.component[1] = b.component[0];
    line("to write one UUID twice", lfa_describe(room, sizeof room, b).refusal);
    b.cpus = LFA_MOST_CPUS + 1;
    line("to write a CPU more", lfa_describe(room, sizeof room, b).refusal);
    b.component[0].capable = 2;
    line("to write a flag of 2", lfa_describe(room, sizeof room, b).refusal);
}

static void log_records(void)
{
    uint8_t record[LFA_LOG_RECORD_BYTES];
    struct lfa_event image = IMAGE(0, 5);
    struct lfa_answer none = {.refusal = LFA_REFUSAL_NONE};
    line("a record", lfa_log(record, sizeof record, image, none).refusal);
    line("no room for it", lfa_log(record, sizeof record - 1, image, none).refusal);
    line("a byte of it less", lfa_read_record(record, sizeof record - 1).refusal);
    record[LFA_LOG_RECORD_BYTES - 1] = 1;
    line("word 6 of an image", lfa_read_record(record, sizeof record).refusal);
    record[0] = 0;
    line("no kind", lfa_read_record(record, sizeof record).refusal);
}

/* Questions to a log of the most records, and to one of a record more. */
static void long_logs(void)
{
    static uint8_t log[(LFA_MOST_LOG_RECORDS + 1) * LFA_LOG_RECORD_BYTES];
    struct lfa_event image = IMAGE(0, 5);
    struct lfa_answer none = {.refusal = LFA_REFUSAL_NONE};
    for (size_t at = 0; at < sizeof log; at += LFA_LOG_RECORD_BYTES) lfa_log(log + at, sizeof log - at, image, none);
    size_t most = sizeof log - LFA_LOG_RECORD_BYTES;
    line("a log of the most records", lfa_prepared(log, most, LFA_MOST_LOG_RECORDS).refusal);
    line("a place behind them", lfa_prepared(log, most, LFA_MOST_LOG_RECORDS + 1).refusal);
    line("a log of a record more", lfa_prepared(log, sizeof log, 0).refusal);
}

static struct lfa_lead deliver(const char *what, struct lfa_lead lead, const uint8_t *delivery, size_t length)
{
    struct lfa_taken t = lfa_lead_take(lead, delivery, length);
    printf("%s:", what);
    print_refusal(t.refusal);
    printf(" place %zu, used %zu, %s;", t.place, t.used, t.given ? "a record" : "no record");
    print_lead(&t.lead);
    return t.lead;
}

static struct lfa_lead close_lead(const char *what, struct lfa_lead lead)
{
    struct lfa_closed c = lfa_lead_close(lead);
    printf("%s:", what);
    print_refusal(c.refusal);
    printf(" place %zu, records %zu;", c.place, c.records);
    print_lead(&c.lead);
    return c.lead;
}

/* A reader after some good records. */
static struct lfa_lead after(const uint8_t *record, size_t count)
{
    struct lfa_lead lead = lfa_lead_open();
    for (size_t i = 0; i < count; i++) lead = lfa_lead_take(lead, record, LFA_LOG_RECORD_BYTES).lead;
    return lead;
}

/* A record and a byte in deliveries, each refusal of a reader, and its limits. */
static void deliveries(void)
{
    uint8_t record[LFA_LOG_RECORD_BYTES + 1] = {0};
    struct lfa_event image = IMAGE(0, 5);
    struct lfa_answer none = {.refusal = LFA_REFUSAL_NONE};
    lfa_log(record, sizeof record, image, none);
    struct lfa_lead lead = deliver("nothing to a new reader", lfa_lead_open(), record, 0);
    lead = deliver("all but a byte of a record", lead, record, LFA_MOST_KEPT);
    lead = deliver("that byte and one more", lead, record + LFA_MOST_KEPT, 2);
    lead = deliver("the one more", lead, record + LFA_LOG_RECORD_BYTES, 1);
    lead = close_lead("closed there", lead);
    deliver("a record then", lead, record, LFA_LOG_RECORD_BYTES);
    lead = close_lead("closed after the most records", after(record, LFA_MOST_LOG_RECORDS));
    deliver("nothing then", lead, record, 0);
    close_lead("closed again", lead);
    lead = deliver("a byte past the most records", after(record, LFA_MOST_LOG_RECORDS), record, 1);
    close_lead("closed there", lead);
    lead = after(record, 2);
    record[LFA_LOG_RECORD_BYTES - 1] = 1;
    deliver("word 6 of an image", lead, record, LFA_LOG_RECORD_BYTES);
    record[0] = 0;
    deliver("no kind", lead, record, LFA_LOG_RECORD_BYTES);
    lead.length = LFA_MOST_KEPT + 1;
    deliver("a byte too many kept", lead, record, 0);
}

static void ask_why(const struct monitor *m, size_t place, struct lfa_activate a)
{
    struct lfa_why w = lfa_why(m->board, m->board_length, m->log, m->logged, place, a);
    printf("CPU %" PRIu64 " at place %zu:", a.cpu, place);
    print_why(&w);
}

/* The powered CPUs and the held ones, by the log. */
static void ask_cpus(const struct monitor *m, size_t place)
{
    struct lfa_cpus_at powered = lfa_powered(m->log, m->logged, place);
    struct lfa_cpus_at held = lfa_held(m->log, m->logged, place);
    printf("powered at place %zu:", place);
    print_cpus_at(&powered);
    printf("held at place %zu:", place);
    print_cpus_at(&held);
}

/* Every reason; then a log in which VERSION returned something else. */
static void reasons(struct monitor *m)
{
    for (size_t i = 0; i < sizeof QUESTIONS / sizeof *QUESTIONS; i++) ask_why(m, QUESTIONS[i].place, QUESTIONS[i].a);
    m->log[LFA_LOG_RECORD_BYTES - 1] ^= 1;
    ask_why(m, 1, QUESTIONS[0].a);
}

static void events(struct monitor *m)
{
    struct lfa_event version = CALL(0, VERSION, .x1 = 0);
    struct lfa_event image = IMAGE(SKIPS, 5);
    struct lfa_answer a = lfa_step(&m->rec, image, m->entries, LFA_MOST_CPUS, m->contexts, LFA_MOST_CPUS);
    printf("an image has %s caller and releases %s\n", a.caller == LFA_CALLER_NONE ? "no" : "a",
           a.release == LFA_RELEASE_NOBODY ? "nobody" : "CPUs");
    line("a table of 63", lfa_step(&m->rec, version, m->entries, LFA_MOST_CPUS - 1, m->contexts, LFA_MOST_CPUS).refusal);
    m->rec.informed = 2;
    tell(m, &version);
}

int main(void)
{
    static struct monitor m;
    struct lfa_board board = large_board();
    if (monitor_start(&m, &board) != LFA_REFUSAL_NONE) return 1;
    for (size_t i = 0; i < sizeof RUN / sizeof *RUN; i++) tell(&m, &RUN[i]);
    ask_cpus(&m, WITHDRAWN);
    ask_cpus(&m, REPORTED);
    ask_cpus(&m, END + 1);
    reasons(&m);
    events(&m);
    boards(&m);
    log_records();
    long_logs();
    deliveries();
    return all_stood() ? 0 : 1;
}
