/*
 * A monitor over the library, to copy: monitor.c as it is, and the platform's functions below written for the board at hand.
 * update.c and numbers.c are runs of it with a platform that prints (printing.c).
 */
#ifndef MONITOR_H
#define MONITOR_H

#include "lfa.h"

/* All that a monitor lends to the library. With its log it has 58 KB: static, and not on a stack. */
struct monitor {
    uint8_t board[LFA_BOARD_BYTES(LFA_MOST_COMPONENTS)];
    size_t board_length; /* bytes of the description */
    struct lfa_record rec;
    struct lfa_record next; /* the record as the event at hand leaves it, if it is taken */
    uint64_t entries[LFA_MOST_CPUS];
    uint64_t contexts[LFA_MOST_CPUS];
    uint8_t log[LFA_MOST_LOG_RECORDS * LFA_LOG_RECORD_BYTES];
    size_t logged; /* bytes of the log so far */
};

/* What both functions give where the library that is linked is not the one that lfa.h describes. */
#define MONITOR_OTHER_LIBRARY UINT64_MAX

/* A fresh board, and an empty log. 0 where the monitor may run, else MONITOR_OTHER_LIBRARY or the board's enum lfa_refusal. */
uint64_t monitor_start(struct monitor *m, const struct lfa_board *board);

/*
 * One event: a call that trapped, a job's report, or an image. 0 where it was taken: it is logged, and the platform was told what
 * its CPUs do. Else nothing changed, and it gives an enum lfa_refusal (LFA_REFUSAL_NO_ROOM where the log has no room, which the
 * end of a job always has, else what lfa_step gives) or MONITOR_OTHER_LIBRARY. A CPU whose call was not taken is told what the
 * record says of it:
 * - no room: it goes on with a status that means "not now", and may call again. It runs and nobody counts on it.
 * - CPU off: it is switched off. As long as it runs, a swap could begin beside it.
 * - CPU held: it waits on. Its release will come.
 * - no such CPU, and all else: it waits for good, since nothing is known of it. Look for the fault.
 *
 * One event at a time: take the monitor's lock around it. A call is handled on the CPU that makes it. Reports and images are
 * handled where no CPU of the board has to go on for them: on a core of the platform, or in an interrupt that leaves a CPU that
 * waits where it stands. In a rendezvous all powered CPUs wait, and only a report lets them go.
 */
uint64_t monitor_handle(struct monitor *m, struct lfa_event e);

/* ---- The platform ---- */

/*
 * Called with the lock taken, so none of these waits: each leaves word, and a CPU acts on it when monitor_handle is back and the
 * lock is free. So a CPU that was told to wait may still be on its way when the next word comes, for it or for a job:
 * - The last word counts. A CPU that is told to go on before it waits does not wait: keep the word, and look for it before and
 *   while waiting.
 * - A CPU stands when it can do nothing any more but look for its next word. Only the CPU itself can say that it does.
 */

/* The CPU goes on behind its call, with X0 to X3. */
void platform_return(uint64_t cpu, struct lfa_registers x);

/* The CPU, switched on where it is off, starts at its entry address with its context id in X0. It is off first if that was told. */
void platform_resume(uint64_t cpu, uint64_t entry, uint64_t context);

/* The CPU waits, for a job or for other CPUs, until one of the two above is called for it. May be one that the board has not. */
void platform_hold(uint64_t cpu);

/* The CPU is switched off. */
void platform_switch_off(uint64_t cpu);

/*
 * The job starts beside CPUs that run; its end arrives as a report of the same component. So it does where a CANCEL returned 0 in
 * between (LFA_STATE_WITHDRAWN), whether the job goes on then or is stopped: the CPU that waits for it waits for that report.
 */
void platform_prime(uint64_t component);

/*
 * The same, but its work begins only when every one of these CPUs stands, and every CPU that was told to switch off is off. At this
 * call the last of them is still in monitor_handle, and others may be on their way.
 */
void platform_activate(uint64_t component, struct lfa_cpus waiting);

#endif
