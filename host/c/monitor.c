/* A monitor over the library, to copy. Compile it with -Wswitch-enum: the compiler then names a case that is missing. */
#include "monitor.h"

uint64_t monitor_start(struct monitor *m, const struct lfa_board *board)
{
    /* before any other call: another library would take these structs for its own */
    if (!lfa_fits()) return MONITOR_OTHER_LIBRARY;
    struct lfa_written w = lfa_describe(m->board, sizeof m->board, *board);
    if (w.refusal != LFA_REFUSAL_NONE) return w.refusal;
    struct lfa_fresh fresh = lfa_fresh(m->board, w.bytes);
    m->board_length = w.bytes;
    m->rec = fresh.rec;
    m->logged = 0;
    return fresh.refusal;
}

/*
 * How many records it takes until nobody waits: a call of each powered CPU that is still to arrive, and the report. An event is
 * taken only where it leaves room for these. So each of them is taken, since it leaves one less, and so is a CANCEL in gathering,
 * which leaves none. (In preparing, withdrawn and alone the report would do; room is kept for more.)
 */
static size_t records_to_release(const struct lfa_record *r)
{
    if (r->held.bits == 0) return 0;
    size_t records = 1;
    for (uint64_t runs = r->on.bits & ~r->held.bits; runs != 0; runs &= runs - 1) records++;
    return records;
}

/* Why an event with this answer is not taken, or LFA_REFUSAL_NONE. */
static uint64_t refusal_of(const struct monitor *m, const struct lfa_answer *a)
{
    if (a->refusal != LFA_REFUSAL_NONE) return a->refusal;
    /* numbers that lfa.h has not: nobody here knows what a CPU has to do */
    if (a->caller > LFA_CALLER_GONE || a->release > LFA_RELEASE_BY_ENTRY) return MONITOR_OTHER_LIBRARY;
    size_t room = (sizeof m->log - m->logged) / LFA_LOG_RECORD_BYTES;
    return room < 1 + records_to_release(&m->next) ? LFA_REFUSAL_NO_ROOM : LFA_REFUSAL_NONE;
}

/* "Not now", as the function that was called says it. */
static uint64_t not_now(uint64_t x0)
{
    switch (x0 & UINT32_MAX) {
    case LFA_FUNCTION_CPU_OFF:
        return LFA_STATUS(3);
    case LFA_FUNCTION_CPU_ON:
        return LFA_STATUS(6);
    default:
        return LFA_STATUS(2);
    }
}

/* What becomes of a CPU whose call was not taken: what the record says of it. One that the record does not know never runs. */
static void turn_away(const struct lfa_call *call, uint64_t refusal)
{
    switch (refusal) {
    case LFA_REFUSAL_NO_ROOM:
        platform_return(call->cpu, (struct lfa_registers){.x0 = not_now(call->x0)});
        break;
    case LFA_REFUSAL_CPU_OFF:
        platform_switch_off(call->cpu);
        break;
    default:
        platform_hold(call->cpu);
        break;
    }
}

/* What becomes of the CPU that called, and of the job that its call started. */
static void tell_caller(const struct monitor *m, uint64_t cpu, const struct lfa_answer *a)
{
    switch ((enum lfa_caller)a->caller) {
    case LFA_CALLER_NONE:
        break;
    case LFA_CALLER_RETURNED:
        platform_return(cpu, a->returned);
        break;
    case LFA_CALLER_HELD:
        platform_hold(cpu);
        break;
    case LFA_CALLER_PRIME_STARTED:
        platform_hold(cpu);
        platform_prime(m->rec.subject);
        break;
    case LFA_CALLER_ACTIVATION_STARTED:
        platform_hold(cpu);
        platform_activate(m->rec.subject, m->rec.held);
        break;
    case LFA_CALLER_GONE:
        platform_switch_off(cpu);
        break;
    }
}

/* What becomes of one of the CPUs that are released. */
static void release(const struct monitor *m, uint64_t cpu, const struct lfa_answer *a)
{
    switch ((enum lfa_release)a->release) {
    case LFA_RELEASE_NOBODY:
        break;
    case LFA_RELEASE_WITH_STATUS:
        platform_return(cpu, (struct lfa_registers){.x0 = a->freed.x0, .x1 = a->freed.x1});
        break;
    case LFA_RELEASE_BY_ENTRY:
        platform_resume(cpu, m->entries[cpu], m->contexts[cpu]);
        break;
    }
}

uint64_t monitor_handle(struct monitor *m, struct lfa_event e)
{
    /* on a copy: what lfa_step accepted can't be taken back, and there may be no room to log it */
    m->next = m->rec;
    struct lfa_answer a = lfa_step(&m->next, e, m->entries, LFA_MOST_CPUS, m->contexts, LFA_MOST_CPUS);
    uint64_t refusal = refusal_of(m, &a);
    if (refusal != LFA_REFUSAL_NONE) {
        if (e.kind == LFA_KIND_CALL) turn_away(&e.call, refusal);
        return refusal;
    }
    m->rec = m->next;
    /* never refused: there is room, and it is the answer to this event */
    m->logged += lfa_log(m->log + m->logged, sizeof m->log - m->logged, e, a).bytes;
    tell_caller(m, e.call.cpu, &a);
    for (uint64_t cpu = 0; cpu < LFA_MOST_CPUS; cpu++)
        if (a.freed.cpus.bits >> cpu & 1) release(m, cpu, &a);
    return LFA_REFUSAL_NONE;
}
