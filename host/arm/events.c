#include "events.h"

/* ---- Dice ---- */

static uint64_t seed = 1;

/* splitmix64 */
uint64_t any(void)
{
    seed += UINT64_C(0x9E3779B97F4A7C15);
    uint64_t word = seed;
    word = (word ^ word >> 30) * UINT64_C(0xBF58476D1CE4E5B9);
    word = (word ^ word >> 27) * UINT64_C(0x94D049BB133111EB);
    return word ^ word >> 31;
}

uint64_t below(uint64_t end)
{
    return any() % end;
}

int one_in(uint64_t many)
{
    return below(many) == 0;
}

/* A bit that is set, by its place; of none it is 0. */
static uint64_t one_bit(uint64_t bits)
{
    uint64_t at = below(64);
    for (size_t i = 0; i < 64; i++, at = (at + 1) % 64)
        if (bits >> at & 1) return at;
    return 0;
}

/* ---- Boards ---- */

/* A count up to the most: small or any. */
static uint64_t size_up_to(uint64_t most)
{
    return 1 + below(one_in(2) ? 4 : most);
}

/* A component as a board describes it. */
static struct lfa_component described(void)
{
    struct lfa_component c = {.svn = 3};
    for (size_t i = 0; i < LFA_UUID_BYTES; i++) c.uuid[i] = (uint8_t)any();
    c.capable = !one_in(4);
    c.may_reset = one_in(2);
    c.optional = !c.may_reset && one_in(2);
    return c;
}

struct lfa_board any_board(void)
{
    struct lfa_board b = {.first = 0x1000};
    b.components = size_up_to(LFA_MOST_COMPONENTS);
    b.cpus = size_up_to(LFA_MOST_CPUS);
    if (one_in(4)) b.first = any() >> 1;
    b.last = b.first + below(0x1000);
    for (size_t i = 0; i < b.components; i++) b.component[i] = described();
    b.component[0].capable = 1;
    return b;
}

/* ---- Events ---- */

static const uint64_t FUNCTIONS[] = {
    LFA_FUNCTION_VERSION,  LFA_FUNCTION_FEATURES, LFA_FUNCTION_GET_INFO, LFA_FUNCTION_GET_INVENTORY, LFA_FUNCTION_PRIME,
    LFA_FUNCTION_ACTIVATE, LFA_FUNCTION_CANCEL,   LFA_FUNCTION_CPU_OFF,  LFA_FUNCTION_CPU_ON,
};

/* The number, now and then another that is equal to it in its low half. */
static uint64_t mostly(uint64_t low)
{
    return one_in(64) ? low | any() << 32 : low;
}

static uint64_t any_entry(const struct lfa_record *r)
{
    switch (below(16)) {
    case 0:
        return any();
    case 1:
        return r->board.last + below(8) - 4;
    default:
        return (r->board.first + below(r->board.last - r->board.first + 1) + 3) / 4 * 4;
    }
}

/* A component's number: the state's, any other, or one that the board has not. */
static uint64_t any_component(const struct lfa_record *r)
{
    switch (below(8)) {
    case 0:
        return mostly(below(LFA_MOST_COMPONENTS + 2));
    case 1:
    case 2:
        return below(r->board.components);
    default:
        return r->subject;
    }
}

static uint64_t running(const struct lfa_record *r)
{
    return one_bit(r->on.bits & ~r->held.bits);
}

/* A call of a CPU that runs, with an entry address and a context id. */
static struct lfa_event call(const struct lfa_record *r, uint64_t x0, uint64_t x1, uint64_t x2)
{
    struct lfa_event e = {.kind = LFA_KIND_CALL, .call = {.x0 = x0, .x1 = x1, .x2 = x2}};
    e.call.cpu = running(r);
    e.call.x3 = any_entry(r);
    e.call.x4 = any();
    return e;
}

static struct lfa_event switch_on(const struct lfa_record *r)
{
    uint64_t cpu = mostly(below(r->board.cpus + 1));
    return call(r, LFA_FUNCTION_CPU_ON, cpu, any_entry(r));
}

/* Any call, with a component where a function takes one. */
static struct lfa_event any_call(const struct lfa_record *r)
{
    static const uint64_t FLAGS[] = {0, 0, LFA_SKIP, LFA_SKIP, 2, UINT64_C(1) << 32};
    struct lfa_event e = call(r, ONE_OF(FUNCTIONS), 0, 0);
    uint64_t function = e.call.x0;
    e.call.x1 = any_component(r);
    e.call.x2 = ONE_OF(FLAGS);
    if (function == LFA_FUNCTION_FEATURES) e.call.x1 = ONE_OF(FUNCTIONS);
    if (function == LFA_FUNCTION_GET_INFO) e.call.x1 = below(8) / 7;
    if (one_in(16)) e.call.x0 = any() << 32 | function;
    if (one_in(16)) e.call.x0 = function + 1;
    if (one_in(4)) e.call.cpu = mostly(below(LFA_MOST_CPUS + 2));
    return e;
}

static struct lfa_event report(const struct lfa_record *r, uint64_t kind)
{
    static const uint64_t CODES[] = {0, 0, 0, 0, 0, 0, 0, 1, 1, 2, 3, 4, 5, 6, 9, 11, 12, 12, 12, 12};
    struct lfa_event e = {.kind = kind};
    e.report.component = any_component(r);
    e.report.code = mostly(ONE_OF(CODES));
    if (one_in(32)) e.report.code = below(64);
    return e;
}

static struct lfa_event image(uint64_t component)
{
    struct lfa_event e = {.kind = LFA_KIND_IMAGE, .image = {.component = component}};
    e.image.version = (uint32_t)below(8);
    return e;
}

/* Of no kind, with something in each part. */
static struct lfa_event no_event(const struct lfa_record *r)
{
    struct lfa_event e = call(r, any(), 0, 0);
    e.report.code = any();
    e.image.component = any();
    e.kind = one_in(2) ? 0 : LFA_KIND_IMAGE + any() % UINT32_MAX + 1;
    return e;
}

struct lfa_event any_event(const struct lfa_record *r)
{
    switch (below(16)) {
    case 0:
        return report(r, LFA_KIND_PRIME_REPORT);
    case 1:
        return report(r, LFA_KIND_ACTIVATE_REPORT);
    case 2:
        return image(any_component(r));
    case 3:
        return no_event(r);
    case 4:
        return switch_on(r);
    default:
        return any_call(r);
    }
}

/* An event of an idle board: a CPU more, an image, or the PRIME of what is pending. */
static struct lfa_event begin(const struct lfa_record *r)
{
    if (one_in(8)) return switch_on(r);
    uint64_t capable = 0, pending = 0;
    for (size_t i = 0; i < LFA_MOST_COMPONENTS; i++) {
        capable |= (uint64_t)r->board.component[i].capable << i;
        pending |= (uint64_t)r->pending[i] << i;
    }
    return one_in(2) ? image(one_bit(capable)) : call(r, LFA_FUNCTION_PRIME, one_bit(pending), 0);
}

struct lfa_event onward(const struct lfa_record *r)
{
    uint64_t subject = r->subject;
    switch ((enum lfa_state)r->state) {
    case LFA_STATE_IDLE:
        return begin(r);
    case LFA_STATE_PREPARING:
        if (one_in(8)) return call(r, LFA_FUNCTION_CANCEL, subject, 0);
        return report(r, LFA_KIND_PRIME_REPORT);
    case LFA_STATE_WITHDRAWN:
        return report(r, LFA_KIND_PRIME_REPORT);
    case LFA_STATE_HALF_PREPARED:
        return call(r, LFA_FUNCTION_PRIME, subject, 0);
    case LFA_STATE_READY:
        return call(r, LFA_FUNCTION_ACTIVATE, subject, below(2));
    case LFA_STATE_GATHERING:
        return call(r, LFA_FUNCTION_ACTIVATE, subject, 0);
    case LFA_STATE_HALF_ACTIVATED:
        return call(r, LFA_FUNCTION_ACTIVATE, subject, LFA_SKIP);
    case LFA_STATE_TOGETHER:
    case LFA_STATE_ALONE:
        return report(r, LFA_KIND_ACTIVATE_REPORT);
    case LFA_STATE_DEAD:
        break;
    }
    return any_event(r);
}
