/*
 * The update of two CPUs through the monitor of monitor.c, with a platform that prints. Then the log read back, at once and as a lead
 * delivers it, two questions to it, and what happens where a log ends: all who wait are still let go.
 */
#include <inttypes.h>
#include <stdio.h>

#include "printing.h"

enum { UPDATED = 1, OTHER = 0 };

/* The event that starts the activation, and its place in the log: one event before it is refused, so not logged. */
enum { LAST_ARRIVAL = 6, LAST_ARRIVAL_PLACE = 5 };

/* Both components are capable, and the one to update may reset. */
static const struct lfa_board BOARD = {
    .components = 2,
    .cpus = 3,
    .first = 0x1000,
    .last = 0x1FFF,
    .component = {{.uuid = {0xA0}, .svn = 5, .capable = 1}, {.uuid = {0xA1}, .svn = 5, .capable = 1, .may_reset = 1}},
};

static const struct lfa_event UPDATE[] = {
    {.kind = LFA_KIND_CALL, .call = {.cpu = 0, .x0 = LFA_FUNCTION_CPU_ON, .x1 = 1, .x2 = 0x1000, .x3 = 0xC1}},
    {.kind = LFA_KIND_IMAGE, .image = {.component = UPDATED, .version = 5}},
    {.kind = LFA_KIND_CALL, .call = {.cpu = 0, .x0 = LFA_FUNCTION_PRIME, .x1 = UPDATED}},
    {.kind = LFA_KIND_PRIME_REPORT, .report = {.component = UPDATED, .code = LFA_CODE_DONE}},
    {.kind = LFA_KIND_CALL, .call = {.cpu = 0, .x0 = LFA_FUNCTION_ACTIVATE, .x1 = UPDATED, .x3 = 0x1100, .x4 = 0xA0}},
    {.kind = LFA_KIND_CALL, .call = {.cpu = 0, .x0 = LFA_FUNCTION_VERSION}},
    {.kind = LFA_KIND_CALL, .call = {.cpu = 1, .x0 = LFA_FUNCTION_ACTIVATE, .x1 = UPDATED, .x3 = 0x1200, .x4 = 0xB1}},
    {.kind = LFA_KIND_ACTIVATE_REPORT, .report = {.component = UPDATED, .code = LFA_CODE_BY_RESET}},
    {.kind = LFA_KIND_CALL, .call = {.cpu = 1, .x0 = LFA_FUNCTION_CPU_OFF}},
};

/* The next update, of three CPUs, up to its rendezvous. */
static const struct lfa_event PREPARE[] = {
    {.kind = LFA_KIND_CALL, .call = {.cpu = 0, .x0 = LFA_FUNCTION_CPU_ON, .x1 = 1, .x2 = 0x1000, .x3 = 0xC1}},
    {.kind = LFA_KIND_CALL, .call = {.cpu = 0, .x0 = LFA_FUNCTION_CPU_ON, .x1 = 2, .x2 = 0x1000, .x3 = 0xC2}},
    {.kind = LFA_KIND_IMAGE, .image = {.component = UPDATED, .version = 6}},
    {.kind = LFA_KIND_CALL, .call = {.cpu = 0, .x0 = LFA_FUNCTION_PRIME, .x1 = UPDATED}},
    {.kind = LFA_KIND_PRIME_REPORT, .report = {.component = UPDATED, .code = LFA_CODE_DONE}},
};

/* With room for as many records as the rendezvous has, and then with none. */
static const struct lfa_event LAST_RENDEZVOUS[] = {
    {.kind = LFA_KIND_CALL, .call = {.cpu = 0, .x0 = LFA_FUNCTION_ACTIVATE, .x1 = UPDATED, .x3 = 0x1100, .x4 = 0xA0}},
    {.kind = LFA_KIND_CALL, .call = {.cpu = 1, .x0 = LFA_FUNCTION_VERSION}},
    {.kind = LFA_KIND_IMAGE, .image = {.component = OTHER, .version = 7}},
    {.kind = LFA_KIND_CALL, .call = {.cpu = 1, .x0 = LFA_FUNCTION_ACTIVATE, .x1 = UPDATED, .x3 = 0x1200, .x4 = 0xB1}},
    {.kind = LFA_KIND_CALL, .call = {.cpu = 2, .x0 = LFA_FUNCTION_ACTIVATE, .x1 = UPDATED, .x3 = 0x1300, .x4 = 0xB2}},
    {.kind = LFA_KIND_IMAGE, .image = {.component = OTHER, .version = 7}},
    {.kind = LFA_KIND_ACTIVATE_REPORT, .report = {.component = UPDATED, .code = LFA_CODE_DONE}},
    {.kind = LFA_KIND_CALL, .call = {.cpu = 0, .x0 = LFA_FUNCTION_VERSION}},
    {.kind = LFA_KIND_CALL, .call = {.cpu = 0, .x0 = LFA_FUNCTION_CPU_ON, .x1 = 1, .x2 = 0x1000}},
    {.kind = LFA_KIND_CALL, .call = {.cpu = 1, .x0 = LFA_FUNCTION_CPU_OFF | UINT64_C(1) << 32}},
};

/* The same for a PRIME. */
static const struct lfa_event LAST_PRIME[] = {
    {.kind = LFA_KIND_CALL, .call = {.cpu = 0, .x0 = LFA_FUNCTION_PRIME, .x1 = OTHER}},
    {.kind = LFA_KIND_IMAGE, .image = {.component = UPDATED, .version = 7}},
    {.kind = LFA_KIND_PRIME_REPORT, .report = {.component = OTHER, .code = LFA_CODE_DONE}},
    {.kind = LFA_KIND_CALL, .call = {.cpu = 0, .x0 = LFA_FUNCTION_ACTIVATE, .x1 = OTHER}},
};

/* A preparation that is withdrawn with room for its end, and with none for a second CANCEL. */
static const struct lfa_event SWITCH_ON[] = {
    {.kind = LFA_KIND_CALL, .call = {.cpu = 0, .x0 = LFA_FUNCTION_CPU_ON, .x1 = 1, .x2 = 0x1000, .x3 = 0xC1}},
};

static const struct lfa_event LAST_CANCEL[] = {
    {.kind = LFA_KIND_CALL, .call = {.cpu = 0, .x0 = LFA_FUNCTION_PRIME, .x1 = OTHER}},
    {.kind = LFA_KIND_CALL, .call = {.cpu = 1, .x0 = LFA_FUNCTION_CANCEL, .x1 = OTHER}},
    {.kind = LFA_KIND_CALL, .call = {.cpu = 1, .x0 = LFA_FUNCTION_CANCEL, .x1 = OTHER}},
    {.kind = LFA_KIND_PRIME_REPORT, .report = {.component = OTHER, .code = LFA_CODE_DONE}},
};

#define TELL_ALL(m, events) tell_all(m, events, sizeof(events) / sizeof *(events))

static void tell_all(struct monitor *m, const struct lfa_event *events, size_t count)
{
    for (size_t i = 0; i < count; i++) tell(m, &events[i]);
}

/* The log, record by record; 1 where all of it reads. */
static int read_back(const struct monitor *m)
{
    size_t at = 0;
    while (at < m->logged) {
        struct lfa_read r = lfa_read_record(m->log + at, m->logged - at);
        if (r.refusal != LFA_REFUSAL_NONE) return 0;
        printf("record %zu: ", at / LFA_LOG_RECORD_BYTES);
        print_record(&r.record);
        at += r.bytes;
    }
    return 1;
}

/* All records of a delivery; the reader to go on with. */
static struct lfa_lead take(struct lfa_lead lead, const uint8_t *bytes, size_t length)
{
    while (length != 0) {
        struct lfa_taken t = lfa_lead_take(lead, bytes, length);
        if (t.given) {
            printf("record %zu: ", lead.records);
            print_record(&t.record);
        }
        lead = t.lead;
        bytes += t.used;
        length -= t.used;
        if (t.refusal != LFA_REFUSAL_NONE) break;
    }
    return lead;
}

/* The log in deliveries; 1 where all of it reads. */
static int read_delivered(const struct monitor *m)
{
    static const size_t DELIVERIES[] = {1, 0, 50, 51, 52, 153, 101};
    struct lfa_lead lead = lfa_lead_open();
    size_t at = 0;
    for (size_t i = 0; i < sizeof DELIVERIES / sizeof *DELIVERIES; i++) {
        lead = take(lead, m->log + at, DELIVERIES[i]);
        printf("delivered %zu:", DELIVERIES[i]);
        print_lead(&lead);
        at += DELIVERIES[i];
    }
    struct lfa_closed c = lfa_lead_close(lead);
    printf("the end:");
    print_lead(&c.lead);
    return at == m->logged && c.refusal == LFA_REFUSAL_NONE;
}

/* From the log alone: what is prepared before the last CPU arrives, and what its call starts; 1 where both say the updated one. */
static int ask(const struct monitor *m)
{
    size_t k = LAST_ARRIVAL_PLACE;
    struct lfa_prepared p = lfa_prepared(m->log, m->logged, k);
    struct lfa_started s = lfa_starts(m->board, m->board_length, m->log, m->logged, k, UPDATE[LAST_ARRIVAL].call);
    printf("place %zu: component %" PRIu64 " is prepared, looked at %zu records\n", k, p.prepared.component, p.looked);
    printf("place %zu: the call of CPU 1 starts component %" PRIu64 "\n", k, s.started.component);
    return p.refusal == LFA_REFUSAL_NONE && p.prepared.found && s.refusal == LFA_REFUSAL_NONE && s.started.found;
}

/* Images arrive until the log has room for only so many records. */
static void fill(struct monitor *m, size_t left)
{
    struct lfa_event image = {.kind = LFA_KIND_IMAGE, .image = {.component = OTHER, .version = 6}};
    while (sizeof m->log - m->logged > left * LFA_LOG_RECORD_BYTES)
        if (monitor_handle(m, image) != LFA_REFUSAL_NONE) return;
    printf("images, and room for %zu records is left\n", left);
}

int main(void)
{
    static struct monitor m;
    if (monitor_start(&m, &BOARD) != LFA_REFUSAL_NONE) return 1;
    printf("board: a description of %zu bytes\n", m.board_length);
    TELL_ALL(&m, UPDATE);
    int answered = read_back(&m) && read_delivered(&m) && ask(&m);
    TELL_ALL(&m, PREPARE);
    fill(&m, 4);
    TELL_ALL(&m, LAST_RENDEZVOUS);
    if (monitor_start(&m, &BOARD) != LFA_REFUSAL_NONE) return 1;
    fill(&m, 2);
    TELL_ALL(&m, LAST_PRIME);
    if (monitor_start(&m, &BOARD) != LFA_REFUSAL_NONE) return 1;
    TELL_ALL(&m, SWITCH_ON);
    fill(&m, 4);
    TELL_ALL(&m, LAST_CANCEL);
    return answered && all_stood() ? 0 : 1;
}
