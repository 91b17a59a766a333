/* A library of another ABI number, whose functions do nothing: a host that calls one of them did not ask which library it is. */
#include "lfa.h"

struct lfa_abi lfa_abi(void)
{
    return (struct lfa_abi){LFA_ABI + 1, sizeof(struct lfa_record), sizeof(struct lfa_event), sizeof(struct lfa_answer)};
}

struct lfa_written lfa_describe(uint8_t *buf, size_t buf_length, struct lfa_board board)
{
    (void)buf, (void)buf_length, (void)board;
    return (struct lfa_written){.refusal = LFA_REFUSAL_NONE};
}

struct lfa_fresh lfa_fresh(const uint8_t *board, size_t board_length)
{
    (void)board, (void)board_length;
    return (struct lfa_fresh){.refusal = LFA_REFUSAL_NONE};
}

struct lfa_answer lfa_step(struct lfa_record *rec, struct lfa_event e, uint64_t *entries, size_t entries_length,
                           uint64_t *contexts, size_t contexts_length)
{
    (void)rec, (void)e, (void)entries, (void)entries_length, (void)contexts, (void)contexts_length;
    return (struct lfa_answer){.refusal = LFA_REFUSAL_NONE};
}

struct lfa_written lfa_log(uint8_t *buf, size_t buf_length, struct lfa_event e, struct lfa_answer a)
{
    (void)buf, (void)buf_length, (void)e, (void)a;
    return (struct lfa_written){.refusal = LFA_REFUSAL_NONE};
}

struct lfa_read lfa_read_record(const uint8_t *log, size_t log_length)
{
    (void)log, (void)log_length;
    return (struct lfa_read){.refusal = LFA_REFUSAL_NONE};
}

struct lfa_prepared lfa_prepared(const uint8_t *log, size_t log_length, size_t place)
{
    (void)log, (void)log_length, (void)place;
    return (struct lfa_prepared){.refusal = LFA_REFUSAL_NONE};
}

struct lfa_cpus_at lfa_powered(const uint8_t *log, size_t log_length, size_t place)
{
    (void)log, (void)log_length, (void)place;
    return (struct lfa_cpus_at){.refusal = LFA_REFUSAL_NONE};
}

struct lfa_cpus_at lfa_held(const uint8_t *log, size_t log_length, size_t place)
{
    return lfa_powered(log, log_length, place);
}

struct lfa_started lfa_starts(const uint8_t *board, size_t board_length, const uint8_t *log, size_t log_length, size_t place,
                              struct lfa_call call)
{
    (void)board, (void)board_length, (void)log, (void)log_length, (void)place, (void)call;
    return (struct lfa_started){.refusal = LFA_REFUSAL_NONE};
}

struct lfa_why lfa_why(const uint8_t *board, size_t board_length, const uint8_t *log, size_t log_length, size_t place,
                       struct lfa_activate a)
{
    (void)board, (void)board_length, (void)log, (void)log_length, (void)place, (void)a;
    return (struct lfa_why){.refusal = LFA_REFUSAL_NONE};
}

struct lfa_lead lfa_lead_open(void)
{
    return (struct lfa_lead){.standing = LFA_STANDING_OPEN};
}

struct lfa_taken lfa_lead_take(struct lfa_lead lead, const uint8_t *delivery, size_t delivery_length)
{
    (void)delivery, (void)delivery_length;
    return (struct lfa_taken){.lead = lead};
}

struct lfa_closed lfa_lead_close(struct lfa_lead lead)
{
    return (struct lfa_closed){.lead = lead};
}
