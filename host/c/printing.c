/* A platform that prints: its CPUs do what they were told when monitor_handle is back, and then its job begins. */
#include "printing.h"

#include <inttypes.h>
#include <stdio.h>

/* ---- Words ---- */

static const char *const STATES[] = {
    [LFA_STATE_IDLE] = "idle",
    [LFA_STATE_PREPARING] = "preparing",
    [LFA_STATE_HALF_PREPARED] = "half-prepared",
    [LFA_STATE_READY] = "ready",
    [LFA_STATE_GATHERING] = "gathering",
    [LFA_STATE_TOGETHER] = "together",
    [LFA_STATE_ALONE] = "alone",
    [LFA_STATE_HALF_ACTIVATED] = "half-activated",
    [LFA_STATE_DEAD] = "dead",
    [LFA_STATE_WITHDRAWN] = "withdrawn",
};

static const char *const KINDS[] = {
    [LFA_KIND_CALL] = "call",
    [LFA_KIND_PRIME_REPORT] = "prime report",
    [LFA_KIND_ACTIVATE_REPORT] = "activate report",
    [LFA_KIND_IMAGE] = "image",
};

static const char *const OUTCOMES[] = {
    [LFA_CALLER_RETURNED] = "returned",
    [LFA_CALLER_HELD] = "held",
    [LFA_CALLER_PRIME_STARTED] = "prime started",
    [LFA_CALLER_ACTIVATION_STARTED] = "activation started",
    [LFA_CALLER_GONE] = "gone",
    [LFA_OUTCOME_RELEASED] = "released",
    [LFA_OUTCOME_NOTED] = "noted",
};

static const char *const REFUSALS[] = {
    [LFA_REFUSAL_SHORT_TABLE] = "short table",
    [LFA_REFUSAL_NO_SUCH_CPU] = "no such CPU",
    [LFA_REFUSAL_CPU_OFF] = "CPU off",
    [LFA_REFUSAL_CPU_HELD] = "CPU held",
    [LFA_REFUSAL_NO_JOB] = "no such job",
    [LFA_REFUSAL_CODE] = "code not allowed",
    [LFA_REFUSAL_COMPONENT] = "no such or not capable component",
    [LFA_REFUSAL_IN_USE] = "the state's component",
    [LFA_REFUSAL_NOT_WELL_FORMED] = "record not well formed",
    [LFA_REFUSAL_BOARD_TOO_SHORT] = "board too short",
    [LFA_REFUSAL_BOARD_TOO_LONG] = "board too long",
    [LFA_REFUSAL_RESERVED_BIT] = "reserved bit",
    [LFA_REFUSAL_RANGE] = "first > last",
    [LFA_REFUSAL_BOTH_FLAGS] = "optional with may_reset",
    [LFA_REFUSAL_UUID_TWICE] = "UUID twice",
    [LFA_REFUSAL_COUNT] = "a count outside its limits",
    [LFA_REFUSAL_NO_BOARD_ROOM] = "no room for the board",
    [LFA_REFUSAL_LOG_TOO_SHORT] = "no whole record",
    [LFA_REFUSAL_FIELD] = "a field",
    [LFA_REFUSAL_UNKNOWN] = "unknown",
    [LFA_REFUSAL_LOG] = "no log, or no place of it",
    [LFA_REFUSAL_NO_ROOM] = "no room for a record",
    [LFA_REFUSAL_DEPARTS] = "the rules say otherwise",
    [LFA_REFUSAL_CLOSED] = "already closed",
    [LFA_REFUSAL_NO_READER] = "no reader",
};

static const char *const STANDINGS[] = {
    [LFA_STANDING_OPEN] = "open",
    [LFA_STANDING_CLOSED] = "closed",
    [LFA_STANDING_REFUSED] = "refused",
};

static const char *const REASONS[] = {
    [LFA_REASON_NONE] = "no reason",
    [LFA_REASON_NOTHING_PREPARED] = "returned -7: nothing is prepared",
    [LFA_REASON_BEING_PREPARED] = "returned -7: it is being prepared",
    [LFA_REASON_HALF_PREPARED] = "returned -7: it is half prepared",
    [LFA_REASON_BOARD_DEAD] = "returned -7: the board is dead",
    [LFA_REASON_OTHER_COMPONENT] = "returned -8: X1 is another component",
    [LFA_REASON_OTHER_FLAGS] = "returned -8: flags above bit 0",
    [LFA_REASON_NOT_OPTIONAL] = "returned -8: skip on a component that is not optional",
    [LFA_REASON_SKIP_IN_GATHERING] = "returned -8: skip while gathering",
    [LFA_REASON_NO_SKIP] = "returned -8: no skip in an activation without rendezvous",
    [LFA_REASON_BAD_ENTRY] = "returned -10: X3 is no good entry",
    [LFA_REASON_BEING_ACTIVATED] = "returned -2: it is being activated without rendezvous",
    [LFA_REASON_SKIPPED] = "started: skipped",
    [LFA_REASON_HELD] = "held: CPUs are missing",
    [LFA_REASON_ALL_PRESENT] = "started: all present",
    [LFA_REASON_WITHDRAWN] = "returned -7: it was withdrawn",
};

#define WORD(words, number) word(words, sizeof(words) / sizeof *(words), number)

static const char *word(const char *const *words, size_t count, uint64_t number)
{
    return number < count && words[number] ? words[number] : "?";
}

static const char *function(uint64_t x0)
{
    switch (x0 & UINT32_MAX) {
    case LFA_FUNCTION_VERSION: return "VERSION";
    case LFA_FUNCTION_FEATURES: return "FEATURES";
    case LFA_FUNCTION_GET_INFO: return "GET_INFO";
    case LFA_FUNCTION_GET_INVENTORY: return "GET_INVENTORY";
    case LFA_FUNCTION_PRIME: return "PRIME";
    case LFA_FUNCTION_ACTIVATE: return "ACTIVATE";
    case LFA_FUNCTION_CANCEL: return "CANCEL";
    case LFA_FUNCTION_CPU_OFF: return "CPU_OFF";
    case LFA_FUNCTION_CPU_ON: return "CPU_ON";
    default: return "unknown";
    }
}

static void print_event(const struct lfa_event *e)
{
    switch (e->kind) {
    case LFA_KIND_CALL:
        printf("CPU %" PRIu64 " calls %s %" PRIu64 ":", e->call.cpu, function(e->call.x0), e->call.x1);
        break;
    case LFA_KIND_PRIME_REPORT:
    case LFA_KIND_ACTIVATE_REPORT:
        printf("%s %" PRIu64 " with code %" PRIu64 ":", KINDS[e->kind], e->report.component, e->report.code);
        break;
    default:
        printf("%s %" PRIu64 " of version %" PRIu32 ":", WORD(KINDS, e->kind), e->image.component, e->image.version);
        break;
    }
}

void print_refusal(uint64_t refusal)
{
    if (refusal == MONITOR_OTHER_LIBRARY) printf(" refused, another library;");
    else if (refusal == LFA_REFUSAL_NONE) printf(" taken;");
    else printf(" refused %" PRIu64 ", %s;", refusal, WORD(REFUSALS, refusal));
}

static void print_cpus(struct lfa_cpus cpus)
{
    for (uint64_t cpu = 0; cpu < LFA_MOST_CPUS; cpu++)
        if (cpus.bits >> cpu & 1) printf(" %" PRIu64, cpu);
    printf("\n");
}

void print_why(const struct lfa_why *w)
{
    if (w->refusal != LFA_REFUSAL_NONE) {
        print_refusal(w->refusal);
        printf(" place %zu, %s\n", w->place, WORD(REASONS, w->reason));
        return;
    }
    printf(" %s; component %" PRIu64 ", CPUs", WORD(REASONS, w->reason), w->component);
    print_cpus(w->missing);
}

void print_cpus_at(const struct lfa_cpus_at *t)
{
    if (t->refusal != LFA_REFUSAL_NONE) {
        print_refusal(t->refusal);
        printf(" place %zu,", t->place);
    }
    printf(" CPUs");
    print_cpus(t->cpus);
}

void print_lead(const struct lfa_lead *l)
{
    printf(" %s", WORD(STANDINGS, l->standing));
    if (l->refusal != LFA_REFUSAL_NONE) printf(" with %" PRIu64 " at %zu", l->refusal, l->place);
    printf(", records %zu, bytes kept %zu\n", l->records, l->length);
}

void print_record(const struct lfa_log_record *r)
{
    printf("%s, CPU %" PRIu64 ", code %" PRIu64 ", %s, words", WORD(KINDS, r->kind), r->cpu, r->code, WORD(OUTCOMES, r->outcome));
    printf(" %" PRIx64 " %" PRIx64 " %" PRIx64 " %" PRIx64 " %" PRIx64 " %" PRIx64 "\n", r->w1, r->w2, r->w3, r->w4, r->w5, r->w6);
}

/* X0, a status with its sign. */
static void print_x0(uint64_t x0)
{
    for (uint64_t k = 1; k <= 11; k++) {
        if (x0 != LFA_STATUS(k)) continue;
        printf("-%" PRIu64, k);
        return;
    }
    printf("%" PRIu64, x0);
}

/* The flags of an inventory, which together are all of X3. */
static void print_flags(uint64_t x3)
{
    static const struct {
        uint64_t flag;
        const char *name;
    } FLAGS[] = {
        {LFA_INVENTORY_CAPABLE, "capable"},
        {LFA_INVENTORY_PENDING, "pending"},
        {LFA_INVENTORY_MAY_RESET, "may_reset"},
        {LFA_INVENTORY_OPTIONAL, "optional"},
    };
    uint64_t rest = x3;
    for (size_t i = 0; i < sizeof FLAGS / sizeof *FLAGS; i++) {
        if ((x3 & FLAGS[i].flag) != FLAGS[i].flag) continue;
        printf(" %s", FLAGS[i].name);
        rest -= FLAGS[i].flag;
    }
    if (rest != 0) printf(" and %" PRIu64, rest);
}

/* ---- The platform ---- */

/* The CPUs that were told to wait, those of them that stand, and those that were told to switch off and are not off yet. */
static uint64_t told_to_wait, standing, going_off;

/* The activate job that was told to start and has not begun. */
static struct {
    int told;
    uint64_t component;
    uint64_t waiting;
} job;

static int begun_too_early;

/* The set of one CPU; empty for a number that no board has. */
static uint64_t only(uint64_t cpu)
{
    return cpu < LFA_MOST_CPUS ? UINT64_C(1) << cpu : 0;
}

/* The last word counts: a CPU that was told to wait, and does not yet, won't. */
static void leaves(uint64_t cpu)
{
    told_to_wait &= ~only(cpu);
    standing &= ~only(cpu);
}

void platform_return(uint64_t cpu, struct lfa_registers x)
{
    leaves(cpu);
    printf(" CPU %" PRIu64 " goes on with X0 = ", cpu);
    print_x0(x.x0);
    printf(", X1 = %" PRIu64, x.x1);
    print_flags(x.x3);
    printf(";");
}

void platform_resume(uint64_t cpu, uint64_t entry, uint64_t context)
{
    leaves(cpu);
    printf(" CPU %" PRIu64 " resumes at 0x%" PRIx64 " with 0x%" PRIx64 ";", cpu, entry, context);
}

void platform_hold(uint64_t cpu)
{
    told_to_wait |= only(cpu);
    printf(" CPU %" PRIu64 " is held;", cpu);
}

void platform_switch_off(uint64_t cpu)
{
    leaves(cpu);
    going_off |= only(cpu);
    printf(" CPU %" PRIu64 " is switched off;", cpu);
}

void platform_prime(uint64_t component)
{
    printf(" prime of component %" PRIu64 " begins;", component);
}

/* The job begins as soon as the CPUs that it was given stand; whether all do is known here, whatever it was given. */
static void begin_if_all_stand(void)
{
    if (!job.told || job.waiting & ~standing || going_off) return;
    job.told = 0;
    printf(" activation of component %" PRIu64 " begins;", job.component);
    if (told_to_wait & ~standing) begun_too_early = 1;
}

void platform_activate(uint64_t component, struct lfa_cpus waiting)
{
    job.told = 1;
    job.component = component;
    job.waiting = waiting.bits;
    begin_if_all_stand();
}

int all_stood(void)
{
    return !begun_too_early;
}

/* ---- One event ---- */

void tell(struct monitor *m, const struct lfa_event *e)
{
    print_event(e);
    uint64_t refusal = monitor_handle(m, *e);
    standing = told_to_wait;
    going_off = 0;
    begin_if_all_stand();
    if (refusal != LFA_REFUSAL_NONE) print_refusal(refusal);
    printf(" %s\n", WORD(STATES, m->rec.state));
}
