/*
 * The layout of every struct of lfa.h, as the library has it on a 64-bit host: whether it agrees is found out by compiling (the
 * sizes of record, event, answer and lead stand in lfa.h itself). What the library says of itself is compared when it runs.
 */
#include <inttypes.h>
#include <stddef.h>
#include <stdio.h>

#include "lfa.h"

#define PLACE(type, field, at) typedef char place_of_##type##_##field[offsetof(struct type, field) == (at) ? 1 : -1]

LFA_SIZE(lfa_cpus, 8);
PLACE(lfa_cpus, bits, 0);

LFA_SIZE(lfa_component, 24);
PLACE(lfa_component, uuid, 0);
PLACE(lfa_component, svn, 16);
PLACE(lfa_component, capable, 20);
PLACE(lfa_component, may_reset, 21);
PLACE(lfa_component, optional, 22);

LFA_SIZE(lfa_board, 800);
PLACE(lfa_board, components, 0);
PLACE(lfa_board, cpus, 8);
PLACE(lfa_board, first, 16);
PLACE(lfa_board, last, 24);
PLACE(lfa_board, component, 32);

PLACE(lfa_record, board, 0);
PLACE(lfa_record, pending, 800);
PLACE(lfa_record, version, 832);
PLACE(lfa_record, state, 960);
PLACE(lfa_record, subject, 968);
PLACE(lfa_record, on, 976);
PLACE(lfa_record, held, 984);
PLACE(lfa_record, entry, 992);
PLACE(lfa_record, context, 1504);
PLACE(lfa_record, informed, 2016);

LFA_SIZE(lfa_call, 48);
PLACE(lfa_call, cpu, 0);
PLACE(lfa_call, x0, 8);
PLACE(lfa_call, x1, 16);
PLACE(lfa_call, x2, 24);
PLACE(lfa_call, x3, 32);
PLACE(lfa_call, x4, 40);

LFA_SIZE(lfa_activate, 40);
PLACE(lfa_activate, cpu, 0);
PLACE(lfa_activate, x1, 8);
PLACE(lfa_activate, x2, 16);
PLACE(lfa_activate, x3, 24);
PLACE(lfa_activate, x4, 32);

LFA_SIZE(lfa_report, 16);
PLACE(lfa_report, component, 0);
PLACE(lfa_report, code, 8);

LFA_SIZE(lfa_image, 16);
PLACE(lfa_image, component, 0);
PLACE(lfa_image, version, 8);

PLACE(lfa_event, kind, 0);
PLACE(lfa_event, call, 8);
PLACE(lfa_event, report, 56);
PLACE(lfa_event, image, 72);

LFA_SIZE(lfa_registers, 32);
PLACE(lfa_registers, x0, 0);
PLACE(lfa_registers, x1, 8);
PLACE(lfa_registers, x2, 16);
PLACE(lfa_registers, x3, 24);

LFA_SIZE(lfa_freed, 24);
PLACE(lfa_freed, cpus, 0);
PLACE(lfa_freed, x0, 8);
PLACE(lfa_freed, x1, 16);

PLACE(lfa_answer, refusal, 0);
PLACE(lfa_answer, caller, 8);
PLACE(lfa_answer, returned, 16);
PLACE(lfa_answer, release, 48);
PLACE(lfa_answer, freed, 56);

LFA_SIZE(lfa_fresh, 2032);
PLACE(lfa_fresh, refusal, 0);
PLACE(lfa_fresh, rec, 8);

LFA_SIZE(lfa_written, 16);
PLACE(lfa_written, refusal, 0);
PLACE(lfa_written, bytes, 8);

LFA_SIZE(lfa_found, 16);
PLACE(lfa_found, found, 0);
PLACE(lfa_found, component, 8);

LFA_SIZE(lfa_prepared, 40);
PLACE(lfa_prepared, refusal, 0);
PLACE(lfa_prepared, place, 8);
PLACE(lfa_prepared, prepared, 16);
PLACE(lfa_prepared, looked, 32);

LFA_SIZE(lfa_cpus_at, 24);
PLACE(lfa_cpus_at, refusal, 0);
PLACE(lfa_cpus_at, place, 8);
PLACE(lfa_cpus_at, cpus, 16);

LFA_SIZE(lfa_started, 32);
PLACE(lfa_started, refusal, 0);
PLACE(lfa_started, place, 8);
PLACE(lfa_started, started, 16);

LFA_SIZE(lfa_why, 40);
PLACE(lfa_why, refusal, 0);
PLACE(lfa_why, place, 8);
PLACE(lfa_why, reason, 16);
PLACE(lfa_why, component, 24);
PLACE(lfa_why, missing, 32);

LFA_SIZE(lfa_log_record, 80);
PLACE(lfa_log_record, kind, 0);
PLACE(lfa_log_record, cpu, 8);
PLACE(lfa_log_record, code, 16);
PLACE(lfa_log_record, outcome, 24);
PLACE(lfa_log_record, w1, 32);
PLACE(lfa_log_record, w2, 40);
PLACE(lfa_log_record, w3, 48);
PLACE(lfa_log_record, w4, 56);
PLACE(lfa_log_record, w5, 64);
PLACE(lfa_log_record, w6, 72);

LFA_SIZE(lfa_read, 96);
PLACE(lfa_read, refusal, 0);
PLACE(lfa_read, bytes, 8);
PLACE(lfa_read, record, 16);

PLACE(lfa_lead, standing, 0);
PLACE(lfa_lead, refusal, 8);
PLACE(lfa_lead, place, 16);
PLACE(lfa_lead, records, 24);
PLACE(lfa_lead, length, 32);
PLACE(lfa_lead, kept, 40);

LFA_SIZE(lfa_taken, 208);
PLACE(lfa_taken, lead, 0);
PLACE(lfa_taken, refusal, 96);
PLACE(lfa_taken, place, 104);
PLACE(lfa_taken, used, 112);
PLACE(lfa_taken, given, 120);
PLACE(lfa_taken, record, 128);

LFA_SIZE(lfa_closed, 120);
PLACE(lfa_closed, lead, 0);
PLACE(lfa_closed, refusal, 96);
PLACE(lfa_closed, place, 104);
PLACE(lfa_closed, records, 112);

LFA_SIZE(lfa_abi, 32);
PLACE(lfa_abi, number, 0);
PLACE(lfa_abi, record, 8);
PLACE(lfa_abi, event, 16);
PLACE(lfa_abi, answer, 24);

int main(void)
{
    struct lfa_abi a = lfa_abi();
    printf("the library has ABI %" PRIu64 " with a record of %" PRIu64 ", an event of %" PRIu64 " and an answer of %" PRIu64
           " bytes, %s\n", a.number, a.record, a.event, a.answer, lfa_fits() ? "as lfa.h has" : "and lfa.h has others");
    return lfa_fits() ? 0 : 1;
}
