/*
 * The live firmware activation agent, as a host links it: a board's description and its record, one event at a time, the log, five
 * questions that a log answers, and a reader of logs that arrive in deliveries. The rules are document 01's and 02's; C99, and C++ as
 * well. host/c/monitor.c is a monitor to copy.
 *
 * All that crosses is numbers, arrays of numbers, and structs of these. Whatever they hold, the answer is a stated one: nothing
 * here aborts, allocates or keeps anything between two calls. The library has no data that changes, its code may lie anywhere, and it
 * calls memcpy and memset and nothing else. A host without a C library brings these two, for any addresses and lengths; they keep
 * to what the host allows them, as no vector register and no access that is not aligned.
 *
 * What the host owes:
 * - It asks lfa_fits before anything else. A library that was built for another record would write past this one.
 * - It is an x86-64 host with the System V convention, or an AArch64 one, little-endian, with that of AAPCS64; size_t has 8 bytes,
 *   and structs are not packed. Each has its own library: target/staticlib/libmonitor.a by host/c/build, and
 *   target/arm/libmonitor.a by host/arm/build. On x86-64 gcc and clang call right by LFA_CALL, whatever their own convention is;
 *   with another compiler the host sees to it.
 * - Its stack is aligned to 16 bytes at a call, as both conventions have it, and has room for what LFA_STACK_ says.
 * - On x86-64 SSE2 is switched on, and xmm0 to xmm15 are the library's during a call: the host saves them for whoever it serves. No
 *   other floating-point or vector register is touched.
 * - On x86-64 no interrupt is taken on the stack of a call: each is off, or has a stack of its own. The 128 bytes under the stack
 *   pointer (the red zone) are in use, and the processor itself writes there, before a handler could step over them. A program
 *   under Linux has all this from the system, whose signals step over the red zone.
 * - On AArch64 it saves no vector register and may take interrupts on the stack of a call, where there is room for both: there is
 *   no red zone. The library has instructions of Armv8.0-A alone, for general registers: floating point may be off. Every access is
 *   aligned: alignment may be checked. X18 is left alone, X29 is the chain of frames at all times, and each function of this header
 *   starts with a landing pad (BTI), as its object says: pages may be guarded.
 * - A pointer is aligned, and valid for the length that comes with it; where that is 0 it may be null. A record's pointer is
 *   never null.
 * - The record is writable, even where the event is refused: it is stored again as it was.
 * - The record, the two tables and the buffers that a call is lent do not overlap.
 * - One call at a time for a record: the library takes no lock.
 * - Its CPUs do what an answer says. One that is held waits until a release names it, even one that comes before it waits; and an
 *   activation's work begins only when every held CPU stands and every CPU that is gone is off (host/c/monitor.h).
 * - It brings the end of every job to lfa_step. A CANCEL that returns 0 while a prime job runs does not end it and lets nobody go:
 *   the host may stop the job or let it go on, but its report has to come, and only that lets the CPU go that waits for it (-11).
 * - A record that is stored stays with its LFA_ABI and on hosts of this byte order: another library may take its bytes for others.
 *   So does a reader of deliveries. Board descriptions and logs are the same bytes everywhere.
 *
 * How to log: an event that lfa_step accepted can't be taken back, and a log that ends while CPUs wait would leave them waiting:
 * the report that lets them go could not be logged. So step a copy of the record, and keep the copy only where the log has room
 * for this event's record (LFA_LOG_RECORD_BYTES) and, if CPUs are then held, for those until they are released: a call of each
 * powered CPU that is not held, and the report. Then lfa_log writes what was kept, and whoever waits is let go before the log
 * ends. host/c/monitor.c does this, and says what becomes of a CPU whose call is kept back. With LFA_MOST_LOG_RECORDS records a
 * log is full: store it away, and begin the next one with a board that starts fresh. The questions read a log from a fresh board
 * on, so of a log that begins later they know too little; lfa_read_record and lfa_lead_take read any.
 *
 * Bytes between the fields of a struct (padding) are never looked at, and may change.
 */
#ifndef LFA_H
#define LFA_H

#include <stddef.h>
#include <stdint.h>

#if !defined(__x86_64__) && !defined(__aarch64__) || defined(__AARCH64EB__) || defined(_WIN32) || defined(__CYGWIN__)
#error "lfa.h: the library is for x86-64 with the System V calling convention, and for little-endian AArch64"
#endif
#if SIZE_MAX != UINT64_MAX
#error "lfa.h: size_t has not 8 bytes"
#endif

#ifdef __cplusplus
extern "C" {
#endif

/*
 * The number of this boundary: it rises with every change of a layout or of what a number means, so with a new kind, state,
 * caller's part, release, code or reason as well, and where a function takes more stack than LFA_STACK_ said. lfa_abi gives the
 * library's. From 1 to 4 the layout of the record is the same: one that was stored under 1, 2 or 3 is good under 4. A library of 1
 * or 2 does not know LFA_STATE_WITHDRAWN, and refuses a record with it: 9. Readers of deliveries (struct lfa_lead) came with 4.
 */
#define LFA_ABI 4

/* The library's calling convention, where the compiler has others and can be told. */
#if defined(__GNUC__) && defined(__x86_64__)
#define LFA_CALL __attribute__((sysv_abi))
#else
#define LFA_CALL
#endif

/*
 * Bytes of stack that a call takes at most, on either machine, counted from the compiled code of both (host/stack): on x86-64 from
 * its return address down, the red zone included; on AArch64 from the stack pointer at its entry. Structs that are passed and given
 * lie in the caller's own frame and come on top: 2,032 bytes for lfa_fresh, 816 for lfa_describe, 304 at most for each other. What
 * memcpy and memset take is on top too, on x86-64 beyond a red zone.
 */
#define LFA_STACK_ABI 1024
#define LFA_STACK_DESCRIBE 5120
#define LFA_STACK_FRESH 9216
#define LFA_STACK_STEP 23552
#define LFA_STACK_LOG 1024
#define LFA_STACK_READ_RECORD 1024
#define LFA_STACK_PREPARED 1024
#define LFA_STACK_POWERED 1024
#define LFA_STACK_HELD 1024
#define LFA_STACK_STARTS 8192
#define LFA_STACK_WHY 27648
#define LFA_STACK_LEAD_OPEN 1024
#define LFA_STACK_LEAD_TAKE 1024
#define LFA_STACK_LEAD_CLOSE 1024

/* ---- Limits ---- */

enum lfa_limit {
    LFA_MOST_COMPONENTS = 32,    /* components that a board has at most */
    LFA_MOST_CPUS = 64,          /* CPUs that a board has at most */
    LFA_UUID_BYTES = 16,         /* bytes of a UUID */
    LFA_LOG_RECORD_BYTES = 51,   /* bytes of a log record */
    LFA_MOST_LOG_RECORDS = 1024, /* records that a log has at most */
    LFA_MOST_KEPT = 50           /* bytes that a reader keeps between two deliveries at most: one less than a record has */
};

/* The length of a board description with n components. */
#define LFA_BOARD_BYTES(n) (18 + 21 * (n))

/* ---- Function numbers: the low 32 bits of a call's X0 ---- */

#define LFA_FUNCTION_VERSION UINT64_C(0xC40002E0)       /* X0 is 65536 */
#define LFA_FUNCTION_FEATURES UINT64_C(0xC40002E1)      /* X1 function number */
#define LFA_FUNCTION_GET_INFO UINT64_C(0xC40002E2)      /* X1 selector, 0 */
#define LFA_FUNCTION_GET_INVENTORY UINT64_C(0xC40002E3) /* X1 component */
#define LFA_FUNCTION_PRIME UINT64_C(0xC40002E4)         /* X1 component */
#define LFA_FUNCTION_ACTIVATE UINT64_C(0xC40002E5)      /* X1 component, X2 flags, X3 entry, X4 context id */
#define LFA_FUNCTION_CANCEL UINT64_C(0xC40002E6)        /* X1 component */
#define LFA_FUNCTION_CPU_OFF UINT64_C(0x84000002)
#define LFA_FUNCTION_CPU_ON UINT64_C(0xC4000003)        /* X1 target CPU, X2 entry, X3 context id */

/* Bit 0 of ACTIVATE's flags: skip the rendezvous. */
#define LFA_SKIP UINT64_C(1)

/* The status -k, as X0 has it. */
#define LFA_STATUS(k) (UINT64_C(0) - (uint64_t)(k))

/* The flags that GET_INVENTORY gives in X3. */
enum lfa_inventory_flag {
    LFA_INVENTORY_CAPABLE = 1,
    LFA_INVENTORY_PENDING = 2,
    LFA_INVENTORY_MAY_RESET = 4,
    LFA_INVENTORY_OPTIONAL = 8
};

/* ---- Numbers of events and answers ---- */

/* The kinds of events, as the log numbers them. */
enum lfa_kind {
    LFA_KIND_CALL = 1,
    LFA_KIND_PRIME_REPORT = 2,
    LFA_KIND_ACTIVATE_REPORT = 3,
    LFA_KIND_IMAGE = 4
};

/* The codes of reports that are no status; every other is a status without its sign. */
enum lfa_code {
    LFA_CODE_DONE = 0,
    LFA_CODE_AGAIN = 1,    /* call again */
    LFA_CODE_BY_RESET = 12 /* done by reset; activate reports in together with may_reset only */
};

/* The outcomes of a log record that are no caller's part; every other is an enum lfa_caller. */
enum lfa_outcome {
    LFA_OUTCOME_RELEASED = 6, /* a report */
    LFA_OUTCOME_NOTED = 7     /* an image */
};

/* The caller's part of an answer, as the log numbers outcomes. */
enum lfa_caller {
    LFA_CALLER_NONE = 0,               /* a report or an image: there is no caller */
    LFA_CALLER_RETURNED = 1,           /* the caller goes on with X0 to X3 */
    LFA_CALLER_HELD = 2,               /* the caller waits for the others */
    LFA_CALLER_PRIME_STARTED = 3,      /* prime starts, and the caller is held */
    LFA_CALLER_ACTIVATION_STARTED = 4, /* activation starts, and the caller is held */
    LFA_CALLER_GONE = 5                /* the caller is off */
};

/* The release part of an answer. */
enum lfa_release {
    LFA_RELEASE_NOBODY = 0,
    LFA_RELEASE_WITH_STATUS = 1, /* a set of CPUs, each with the same X0 and X1 */
    LFA_RELEASE_BY_ENTRY = 2     /* a set of CPUs, each at its entry address with its context id: see the two tables */
};

/* The states of a board, in the order of document 01's table of rules. A new state takes the next number. */
enum lfa_state {
    LFA_STATE_IDLE = 0,
    LFA_STATE_PREPARING = 1, /* a prime job runs */
    LFA_STATE_HALF_PREPARED = 2,
    LFA_STATE_READY = 3,
    LFA_STATE_GATHERING = 4,
    LFA_STATE_TOGETHER = 5,  /* an activate job runs, all powered CPUs held */
    LFA_STATE_ALONE = 6,     /* an activate job runs without rendezvous */
    LFA_STATE_HALF_ACTIVATED = 7,
    LFA_STATE_DEAD = 8,
    LFA_STATE_WITHDRAWN = 9  /* a prime job runs whose preparation was cancelled */
};

/* Where a reader of deliveries stands. */
enum lfa_standing {
    LFA_STANDING_OPEN = 0,   /* it takes deliveries */
    LFA_STANDING_CLOSED = 1, /* the log has ended, and all of it was read */
    LFA_STANDING_REFUSED = 2 /* the log is refused */
};

/*
 * The numbers of the refusals. The first that applies is given; for events that is 9, then 1, then 32 for an unknown kind or
 * the rest; for writing a board 22, then 26, 23, 24, 25, 27; for a delivery and for closing 37, then 36 or what was refused before,
 * then the rest. A refusal is the whole answer, and all that was lent is as it was.
 *
 * 31: a component of 32 or more, a version over 32 bits or, in writing, a CPU of 64 or more.
 */
enum lfa_refusal {
    LFA_REFUSAL_NONE = 0,             /* not refused */
    LFA_REFUSAL_SHORT_TABLE = 1,      /* a resume table has too few places for the board's CPUs */
    LFA_REFUSAL_NO_SUCH_CPU = 2,      /* call: no such CPU */
    LFA_REFUSAL_CPU_OFF = 3,          /* call: CPU off */
    LFA_REFUSAL_CPU_HELD = 4,         /* call: CPU held */
    LFA_REFUSAL_NO_JOB = 5,           /* report: the component has no such job running */
    LFA_REFUSAL_CODE = 6,             /* report: code not allowed for it */
    LFA_REFUSAL_COMPONENT = 7,        /* image: no such or not capable component */
    LFA_REFUSAL_IN_USE = 8,           /* image: it is the state's component */
    LFA_REFUSAL_NOT_WELL_FORMED = 9,  /* record not well formed */
    LFA_REFUSAL_BOARD_TOO_SHORT = 20, /* board: too short (under 2 bytes too) */
    LFA_REFUSAL_BOARD_TOO_LONG = 21,  /* board: too long */
    LFA_REFUSAL_RESERVED_BIT = 22,    /* board: reserved bit set; writing a board: a flag that is neither 0 nor 1 */
    LFA_REFUSAL_RANGE = 23,           /* board: first > last */
    LFA_REFUSAL_BOTH_FLAGS = 24,      /* board: optional with may_reset */
    LFA_REFUSAL_UUID_TWICE = 25,      /* board: UUID twice */
    LFA_REFUSAL_COUNT = 26,           /* writing a board: no, or too many, components or CPUs */
    LFA_REFUSAL_NO_BOARD_ROOM = 27,   /* writing a board: no room for its bytes */
    LFA_REFUSAL_LOG_TOO_SHORT = 30,   /* log: under 51 bytes left; lead: bytes left over at closing */
    LFA_REFUSAL_FIELD = 31,           /* log: unused field not 0, or a number too large for its field (above) */
    LFA_REFUSAL_UNKNOWN = 32,         /* log: kind, outcome or code unknown; event: kind unknown */
    LFA_REFUSAL_LOG = 33,             /* log: part of a record, over 1,024 of them, or a place past the end; lead: over 1,024 alone */
    LFA_REFUSAL_NO_ROOM = 34,         /* no room for 51 bytes */
    LFA_REFUSAL_DEPARTS = 35,         /* log: the rules refuse a record's event, or answer it otherwise than the record says */
    LFA_REFUSAL_CLOSED = 36,          /* lead: a delivery or a second close after a good close */
    LFA_REFUSAL_NO_READER = 37        /* lead: a state that no reader has */
};

/*
 * The reasons that lfa_why gives, each the first rule that applies to an ACTIVATE, in document 01's order; one that came with a later
 * request has the next number.
 */
enum lfa_reason {
    LFA_REASON_NONE = 0,             /* refused: there is no reason */
    LFA_REASON_NOTHING_PREPARED = 1, /* -7: idle */
    LFA_REASON_BEING_PREPARED = 2,   /* -7: preparing the component */
    LFA_REASON_HALF_PREPARED = 3,    /* -7: the component is half prepared */
    LFA_REASON_BOARD_DEAD = 4,       /* -7: dead */
    LFA_REASON_OTHER_COMPONENT = 5,  /* -8: X1 is not the component */
    LFA_REASON_OTHER_FLAGS = 6,      /* -8: flags above bit 0 */
    LFA_REASON_NOT_OPTIONAL = 7,     /* -8: skip on a component that is not optional */
    LFA_REASON_SKIP_IN_GATHERING = 8, /* -8: skip while CPUs gather */
    LFA_REASON_NO_SKIP = 9,          /* -8: no skip in an activation without rendezvous */
    LFA_REASON_BAD_ENTRY = 10,       /* -10: X3 is no good entry */
    LFA_REASON_BEING_ACTIVATED = 11, /* -2: the component is being activated without rendezvous */
    LFA_REASON_SKIPPED = 12,         /* started, without rendezvous */
    LFA_REASON_HELD = 13,            /* held: CPUs are missing */
    LFA_REASON_ALL_PRESENT = 14,     /* started: all powered CPUs are held */
    LFA_REASON_WITHDRAWN = 15        /* -7: the component's preparation was cancelled while it ran */
};

/* ---- The board and its record ---- */

/* A set of CPUs. */
struct lfa_cpus {
    uint64_t bits; /* bit n is CPU n */
};

/* A component of the board; a flag is 0 or 1. */
struct lfa_component {
    uint8_t uuid[LFA_UUID_BYTES];
    uint32_t svn;      /* the least image version that may be prepared */
    uint8_t capable;   /* it can be activated live */
    uint8_t may_reset; /* its activation may reset CPUs; never together with optional */
    uint8_t optional;  /* its activation may skip the rendezvous */
};

/* What does not change about a board. */
struct lfa_board {
    uint64_t components; /* how many, 1 to 32 */
    uint64_t cpus;       /* how many, 1 to 64 */
    uint64_t first;      /* the first address that can be an entry */
    uint64_t last;       /* the last one, at least first */
    struct lfa_component component[LFA_MOST_COMPONENTS]; /* zeros past the count */
};

/*
 * A board's record: lfa_fresh makes it, the host keeps it, lfa_step changes it in place.
 *
 * It may be copied and stored, and brought back as long as no event was accepted since: an older copy is taken too, and does not
 * know of a CPU that was switched on since, so that a swap could begin beside it. Each event looks first whether the record is well
 * formed (document 01), which here also needs every flag to be 0 or 1, the number of a state, and subject 0 in idle and dead. If
 * not: refusal 9, nothing changed.
 */
struct lfa_record {
    struct lfa_board board;
    uint8_t pending[LFA_MOST_COMPONENTS];  /* 1 where an image is pending */
    uint32_t version[LFA_MOST_COMPONENTS]; /* the pending image's version, else 0 */
    uint64_t state;                        /* an enum lfa_state */
    uint64_t subject;                      /* the state's component; 0 in idle and dead */
    struct lfa_cpus on;                    /* the powered CPUs */
    struct lfa_cpus held;                  /* those that wait for a job or for others */
    uint64_t entry[LFA_MOST_CPUS];         /* where a CPU that is held for ACTIVATE with may_reset resumes, else 0 */
    uint64_t context[LFA_MOST_CPUS];       /* its context id, else 0 */
    uint64_t informed;                     /* 1 where a GET_INFO is noted */
};

/* ---- Events ---- */

/* A call: the CPU that makes it, and its registers. */
struct lfa_call {
    uint64_t cpu;
    uint64_t x0; /* the low 32 bits are the function number */
    uint64_t x1;
    uint64_t x2;
    uint64_t x3;
    uint64_t x4;
};

/* An ACTIVATE: the CPU that makes it, and its registers but X0. */
struct lfa_activate {
    uint64_t cpu;
    uint64_t x1; /* component */
    uint64_t x2; /* flags */
    uint64_t x3; /* entry */
    uint64_t x4; /* context id */
};

/* The end of a job. */
struct lfa_report {
    uint64_t component;
    uint64_t code; /* 0, 1, 12 (enum lfa_code), or a status without its sign */
};

/* An image that arrived. */
struct lfa_image {
    uint64_t component;
    uint32_t version; /* its security version */
};

/* An event. The kind says which of the three parts counts; the others are ignored. */
struct lfa_event {
    uint64_t kind;            /* an enum lfa_kind */
    struct lfa_call call;     /* LFA_KIND_CALL */
    struct lfa_report report; /* LFA_KIND_PRIME_REPORT, LFA_KIND_ACTIVATE_REPORT */
    struct lfa_image image;   /* LFA_KIND_IMAGE */
};

/* ---- Answers ---- */

/* What a caller goes on with. */
struct lfa_registers {
    uint64_t x0;
    uint64_t x1;
    uint64_t x2;
    uint64_t x3;
};

/* The CPUs that are released. */
struct lfa_freed {
    struct lfa_cpus cpus;
    uint64_t x0; /* X0 of each; 0 by entry */
    uint64_t x1; /* X1 of each; 0 by entry */
};

/* The answer to an event. A refused one has only the number of the refusal, and all else 0. */
struct lfa_answer {
    uint64_t refusal;              /* 0, or an enum lfa_refusal */
    uint64_t caller;               /* an enum lfa_caller */
    struct lfa_registers returned; /* all 0 but for LFA_CALLER_RETURNED */
    uint64_t release;              /* an enum lfa_release */
    struct lfa_freed freed;        /* all 0 for LFA_RELEASE_NOBODY */
};

/* The answer of lfa_fresh. In C++ the word struct stays, since the function has the same name. */
struct lfa_fresh {
    uint64_t refusal;      /* 0, or 20 to 25 */
    struct lfa_record rec; /* all 0 if refused */
};

/* The answer of lfa_describe and lfa_log. */
struct lfa_written {
    uint64_t refusal; /* 0, or 22 to 27 for a board, or 31, 32, 34 for a log record */
    size_t bytes;     /* the length of the board description, or 51; 0 if refused */
};

/* A log record. All that its kind does not name is 0. */
struct lfa_log_record {
    uint64_t kind;    /* an enum lfa_kind */
    uint64_t cpu;     /* calls: the caller */
    uint64_t code;    /* reports: the code, as struct lfa_report has it */
    uint64_t outcome; /* calls: an enum lfa_caller; else an enum lfa_outcome */
    uint64_t w1;      /* calls: X0 */
    uint64_t w2;      /* calls: X1; reports and images: the component */
    uint64_t w3;      /* calls: X2; images: the version */
    uint64_t w4;      /* calls: X3 */
    uint64_t w5;      /* calls: X4 */
    uint64_t w6;      /* the X0 given, for LFA_CALLER_RETURNED and LFA_OUTCOME_RELEASED */
};

/* The answer of lfa_read_record. */
struct lfa_read {
    uint64_t refusal;             /* 0, or 30, 31, 32 */
    size_t bytes;                 /* 51: the next record follows them; 0 if refused */
    struct lfa_log_record record; /* all 0 if refused */
};

/*
 * A reader of a log that arrives in deliveries: lfa_lead_open makes it, the host keeps it, lfa_lead_take and lfa_lead_close give the
 * one to go on with. It may be copied and stored; a copy goes on from where it was made.
 *
 * Each call looks first whether this is what a reader can have, and if not refuses it with 37. No reader has:
 * - a standing that is none of the three;
 * - a refusal or a place other than 0 where it is not refused, and where it is, a refusal that is none of 30 to 33;
 * - with 30, 31 and 32 a place that is not the number of records, or 1,024 records;
 * - with 33 a place other than 0, or a number of records other than 1,024;
 * - over 1,024 records, or over 50 bytes kept;
 * - bytes kept where it is not open, or where 1,024 records were given;
 * - a byte other than 0 past those that are kept.
 */
struct lfa_lead {
    uint64_t standing;           /* an enum lfa_standing */
    uint64_t refusal;            /* with LFA_STANDING_REFUSED 30 to 33; else 0 */
    size_t place;                /* with 30, 31 and 32 the place of the record to blame; else 0 */
    size_t records;              /* how many records were given */
    size_t length;               /* how many bytes are kept */
    uint8_t kept[LFA_MOST_KEPT]; /* the first bytes of the next record; zeros past the length */
};

/* The answer of lfa_lead_take. */
struct lfa_taken {
    struct lfa_lead lead;         /* go on with this one */
    uint64_t refusal;             /* 0, or 30, 31, 32, 33, 36, 37 */
    size_t place;                 /* if refused, the place of the record to blame; 0 with 33, 36, 37, and if not refused */
    size_t used;                  /* how many bytes of the delivery were used; 0 if refused */
    uint64_t given;               /* 1 where a record is given, else 0 */
    struct lfa_log_record record; /* all 0 where none is given */
};

/* The answer of lfa_lead_close. */
struct lfa_closed {
    struct lfa_lead lead; /* closed or refused; with 36, 37 and a refusal that comes again as it was */
    uint64_t refusal;     /* 0, or 30, 31, 32, 33, 36, 37 */
    size_t place;         /* as in lfa_taken */
    size_t records;       /* how many records the log has; 0 if refused */
};

/* A component, or none. */
struct lfa_found {
    uint64_t found;     /* 1, or 0 where there is none */
    uint64_t component; /* 0 where there is none */
};

/* The answer of lfa_prepared. In C++ the word struct stays, since the function has the same name. */
struct lfa_prepared {
    uint64_t refusal;          /* 0, or 31, 32, 33 */
    size_t place;              /* if refused, the place of the record to blame; 0 with 33, and if not refused */
    struct lfa_found prepared; /* none if refused */
    size_t looked;             /* how many records were looked at, the deciding one included; 0 if refused */
};

/* The answer of lfa_powered and lfa_held. */
struct lfa_cpus_at {
    uint64_t refusal;     /* 0, or 31, 32, 33 */
    size_t place;         /* as in lfa_prepared */
    struct lfa_cpus cpus; /* none if refused */
};

/* The answer of lfa_starts. */
struct lfa_started {
    uint64_t refusal;         /* 0, or 20 to 25 for the board, or 31, 32, 33 for the log */
    size_t place;             /* if the log is refused, as in lfa_prepared; else 0 */
    struct lfa_found started; /* none if refused */
};

/* The answer of lfa_why. In C++ the word struct stays, since the function has the same name. */
struct lfa_why {
    uint64_t refusal;        /* 0, or 20 to 25 for the board, 31, 32, 33, 35 for the log, or 2, 3, 4 for the caller */
    size_t place;            /* with 31, 32 and 35 the place of the record to blame; else 0 */
    uint64_t reason;         /* an enum lfa_reason; LFA_REASON_NONE if refused */
    uint64_t component;      /* the component that reasons 2, 3, 5, 11 and 15 name; else 0 */
    struct lfa_cpus missing; /* with LFA_REASON_HELD the powered CPUs that are neither held nor the caller; else none */
};

/* The answer of lfa_abi. In C++ the word struct stays, since the function has the same name. */
struct lfa_abi {
    uint64_t number; /* the library's LFA_ABI */
    uint64_t record; /* its bytes of struct lfa_record, */
    uint64_t event;  /* of struct lfa_event, */
    uint64_t answer; /* and of struct lfa_answer */
};

/* These sizes are the library's. C99 has no static assertion: where one differs, an array of -1 places does not compile. */
#define LFA_SIZE(type, bytes) typedef char type##_has_the_size_of_the_library[sizeof(struct type) == (bytes) ? 1 : -1]
LFA_SIZE(lfa_record, 2024);
LFA_SIZE(lfa_event, 88);
LFA_SIZE(lfa_answer, 80);
LFA_SIZE(lfa_lead, 96);

/* ---- Functions ---- */

/* What the library was built for. This function and its answer stay as they are, whatever LFA_ABI is. */
LFA_CALL struct lfa_abi lfa_abi(void);

/* 1 where the library that is linked is the one that this header describes, else 0. */
static inline int lfa_fits(void)
{
    struct lfa_abi a = lfa_abi();
    return a.number == LFA_ABI && a.record == sizeof(struct lfa_record) && a.event == sizeof(struct lfa_event)
        && a.answer == sizeof(struct lfa_answer);
}

/*
 * Writes a board description at the start of buf, LFA_BOARD_BYTES of its components; bytes not written stay. What lies past the
 * count of components is not looked at; where that is over 32, the flags of all 32 are, since 22 comes before 26.
 *
 * The description, most significant bit first: 5 bits for the components less 1, 6 for the CPUs less 1, 5 zeros, 64 each for the
 * first and the last address; then for each component its 16 bytes of UUID, a bit each for capable, may_reset and optional, 5
 * zeros, and 32 bits for the SVN.
 */
LFA_CALL struct lfa_written lfa_describe(uint8_t *buf, size_t buf_length, struct lfa_board board);

/*
 * The record of a board that was just switched on: CPU 0 on, the others off, nothing pending, idle. board is the description that
 * lfa_describe writes.
 */
LFA_CALL struct lfa_fresh lfa_fresh(const uint8_t *board, size_t board_length);

/*
 * One event. An accepted one changes the record in place; of CPUs that resume by entry, the places in the two tables get entry
 * address and context id, and every other place stays. Both tables are as long as the board has CPUs, or longer.
 *
 * A refused one changes neither the record nor the tables: 9 for a record that is not well formed, flags and state number
 * included; then 1 for a short table, whether or not a CPU would resume; then 32 for a kind that is none of the four, else 2
 * to 8.
 */
LFA_CALL struct lfa_answer lfa_step(struct lfa_record *rec, struct lfa_event e, uint64_t *entries, size_t entries_length,
                                    uint64_t *contexts, size_t contexts_length);

/*
 * Writes the 51 bytes of an accepted event's log record at the start of buf; bytes not written stay. a is the answer that
 * lfa_step gave to e. A refused answer, an event of unknown kind and a call without caller's part leave no record: 32, and
 * nothing is written. Then 31 where a number has no room in its field, or where the release of an activate report of code 12
 * gives an X0 that is not 0; and 34 where buf is shorter than 51 bytes.
 */
LFA_CALL struct lfa_written lfa_log(uint8_t *buf, size_t buf_length, struct lfa_event e, struct lfa_answer a);

/* Reads the log record at the start of log, whatever follows it: 30 where there are under 51 bytes, then 32, then 31. */
LFA_CALL struct lfa_read lfa_read_record(const uint8_t *log, size_t log_length);

/* A reader of deliveries before the first: open, no records given, nothing kept. */
LFA_CALL struct lfa_lead lfa_lead_open(void);

/*
 * Takes a delivery, whatever part of the log it is: all of it where it ends before the next record does, else up to the end of that
 * record, which is given. The rest is a delivery again; an empty one changes nothing. So a host has all records of some bytes by
 *
 *     while (length != 0) {
 *         struct lfa_taken t = lfa_lead_take(lead, bytes, length);
 *         lead = t.lead, bytes += t.used, length -= t.used;
 *         if (t.refusal != LFA_REFUSAL_NONE) break;
 *         if (t.given) ..
 *     }
 *
 * A record is refused when its last byte is there: 32, then 31, with its place. 33 comes with the first byte past 1,024 records. The
 * reader in the answer is then refused and keeps no bytes; it gives that refusal, with its place, to whatever comes. 36 where the
 * reader is closed, also for an empty delivery. With 36, 37 and a refusal that comes again, the reader in the answer is as it was.
 */
LFA_CALL struct lfa_taken lfa_lead_take(struct lfa_lead lead, const uint8_t *delivery, size_t delivery_length);

/*
 * The log has ended: 30 at the place of the next record where bytes of it are kept, else the reader is closed. A second close after
 * a good one is 36; all else is as in lfa_lead_take.
 */
LFA_CALL struct lfa_closed lfa_lead_close(struct lfa_lead lead);

/*
 * Which component is prepared at a place of a log: after that many of its records. 33 where the bytes are no log or the place
 * is past its end; else the refusal of the first bad record, wherever it is.
 */
LFA_CALL struct lfa_prepared lfa_prepared(const uint8_t *log, size_t log_length, size_t place);

/*
 * The CPUs that are powered at a place of a log, and those that are held there, by the log alone. Refusals are as in lfa_prepared.
 * A log that no agent wrote can switch on a CPU of 64 or more: it is in no set.
 */
LFA_CALL struct lfa_cpus_at lfa_powered(const uint8_t *log, size_t log_length, size_t place);
LFA_CALL struct lfa_cpus_at lfa_held(const uint8_t *log, size_t log_length, size_t place);

/*
 * The component whose rendezvous activation starts if the call is made at a place of a log, from the board description, the
 * log and the call alone. A refusal of the board comes first, with place 0; those of the log are as in lfa_prepared.
 */
LFA_CALL struct lfa_started lfa_starts(const uint8_t *board, size_t board_length, const uint8_t *log, size_t log_length,
                                       size_t place, struct lfa_call call);

/*
 * Why an ACTIVATE that is made at a place of a log is refused, held or started: the first rule that applies, and for a held
 * call which CPUs it waits for. The log is taken through the rules, from the fresh board that the description is of up to the
 * place. Refusals of the board and the log come first, as in lfa_starts; then 35 with the place of the first record before that
 * place whose event the rules refuse, or answer with another outcome or word 6; then 2, 3, 4 for the caller.
 */
LFA_CALL struct lfa_why lfa_why(const uint8_t *board, size_t board_length, const uint8_t *log, size_t log_length, size_t place,
                                struct lfa_activate a);

#ifdef __cplusplus
}
#endif

#endif
