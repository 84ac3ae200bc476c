/* Rolsipay: the run-time controller of one critical task, from C (C99).
 *
 * A plan's text is read once into a row of leaf records and a head, both lent by the caller. Then come calls: release, report of a point with a
 * reading, and end with a reading. The running state lies in the caller's memory and is moved on there. No call keeps a pointer or allocates memory.
 *
 * What a caller must ensure: the stack has room for the call (ROLSIPAY_STACK_READ, ROLSIPAY_STACK_CALL); each pointer is valid for its whole struct, or for
 * as many records or bytes as the count beside it says (a pointer beside the count 0 must still not be null), is aligned for it, and nobody else writes that
 * memory during the call. What a call writes (row and head of rolsipay_read, state of the others) must not overlap with what else it is given. Nothing is
 * asked of the contents: any bytes in text, row, head and state are answered, by a refusal where they are no plan, no plan's table or no state of it. Where
 * this holds no call fails by a signal.
 *
 * Platform: librolsipay.a is x86-64 code, ELF objects with the calling convention of System V; the calls use the vector registers of SSE2, which every
 * such processor has, and nothing newer. They need memcpy and memset from the C library, nothing else: no system call, no thread-local memory.
 *
 * Threads and interrupts: the library has no variable of its own, so calls may run at the same time in any threads, as long as no call writes memory that
 * another one is given. A call may be interrupted and another made meanwhile on the same terms; an interrupt handler that does so saves the vector
 * registers, as for any C function, and leaves the 128 bytes below the interrupted stack pointer alone, as that calling convention asks.
 */
#ifndef ROLSIPAY_H
#define ROLSIPAY_H

#include <stddef.h>
#include <stdint.h>

#ifdef __cplusplus
extern "C" {
#endif

/* The version of this header, to be compared by #if: 10000 * major + 100 * minor + patch. The library carries none: take both from one dist/. */
#define ROLSIPAY_VERSION 10501            /* 1.5.1 */

/* The most stack that a call takes, in bytes, whatever it is given; docs/MEMORY.md tells how it was measured. */
#define ROLSIPAY_STACK_READ 86016         /* rolsipay_read */
#define ROLSIPAY_STACK_CALL 14336         /* rolsipay_release, rolsipay_report and rolsipay_end, each */

/* The limits. Of a longer row only the first ROLSIPAY_LEAVES records are used. */
#define ROLSIPAY_TEXT 65536               /* bytes of a plan's text */
#define ROLSIPAY_LEAVES 512               /* leaves of a plan, and records of a row that are used */
#define ROLSIPAY_FUNCTIONS 16             /* functions of a plan */
#define ROLSIPAY_BRACKETS 64              /* open brackets */
#define ROLSIPAY_LEVELS 32                /* the greatest level; level 0 is the release */
#define ROLSIPAY_ROUNDS 65535             /* rounds of a loop */
#define ROLSIPAY_COST 1048576             /* the greatest cost, switch cost and cost of resuming, 2^20 */
#define ROLSIPAY_TIME 1099511627776       /* the greatest deadline and total, 2^40 */

/* The words of a reply. Behind go, resume and ended the others run, behind suspend and stay they do not; resume is said by an end, and in edition 2 by a report. */
#define ROLSIPAY_REFUSED 0
#define ROLSIPAY_GO 1
#define ROLSIPAY_SUSPEND 2
#define ROLSIPAY_STAY 3
#define ROLSIPAY_RESUME 4
#define ROLSIPAY_ENDED 5

/* The numbers of refusals. A plan is asked for 1; then line by line, in a line for 2, 3, 4, 5, 19, 6, 7 in this order; then for 8, 9, 10. The calls say below
 * what they ask for. No call answers 18: by that number the program that replays flight logs refuses a line. */
#define ROLSIPAY_OVERSIZE 1               /* text over 65,536 bytes */
#define ROLSIPAY_FORM 2                   /* line or nesting not of the grammar, or text ends early or goes on */
#define ROLSIPAY_RANGE 3                  /* a number outside its range, of any number of digits */
#define ROLSIPAY_COUNT 4                  /* a 513th leaf, a leaf more than the lent row holds, or a 17th function */
#define ROLSIPAY_LOAD 5                   /* M, the cost under load, below C, the cost alone */
#define ROLSIPAY_TARGET 6                 /* F, the called function, not below the number of its own function */
#define ROLSIPAY_DEPTH 7                  /* a 65th open bracket, or level over 32, called forms included */
#define ROLSIPAY_UNSEEN 8                 /* a silent loop or call with a point inside it or in what it calls */
#define ROLSIPAY_UNCALLED 9               /* a function but the last that no call names */
#define ROLSIPAY_LONG 10                  /* total or max-load total over 2^40 */
#define ROLSIPAY_BROKEN 11                /* table of no accepted plan; or a running state where no run stands, or with other remaining times than there */
#define ROLSIPAY_BUSY 12                  /* release before the end */
#define ROLSIPAY_UNFIT 13                 /* total and switch cost together over the deadline */
#define ROLSIPAY_IDLE 14                  /* report or end without a release */
#define ROLSIPAY_STRANGER 15              /* the number is not that of a point of the plan */
#define ROLSIPAY_BACKWARD 16              /* reading below the last accepted one */
#define ROLSIPAY_ASTRAY 17                /* no run has these reports in this order; for end, no run can end here */
#define ROLSIPAY_COSTLESS 19              /* a point whose C, the cost alone, is 0 */

/* A leaf's record: 88 bytes. */
typedef struct {
    uint64_t kind;          /* 0 leaf, 1 call, 2 loop, 3 if */
    uint64_t point;         /* 1 for a point, 0 for a silent leaf */
    uint64_t isolated;      /* cost of a visit alone */
    uint64_t max_load;      /* cost of a visit under load */
    uint64_t detail;        /* bound of a loop, target of a call, else 0 */
    uint64_t other;         /* first leaf of an if's else part, else 0 */
    uint64_t after;         /* first leaf after the form */
    uint64_t level;         /* level in its own function */
    uint64_t turn;          /* of a loop: largest isolated cost of a round, its condition and one pass of its body, else 0 */
    uint64_t tail;          /* largest isolated cost from a first visit to the end of its own function */
    uint64_t max_load_turn; /* of a loop: largest cost of a round under load, else 0 */
} rolsipay_leaf;

/* What stands beside the row: 456 bytes. */
typedef struct {
    uint64_t deadline;
    uint64_t switching;      /* switch cost */
    uint64_t edition;        /* 2 where the task line has a third number, the cost of resuming, else 1 */
    uint64_t resuming;       /* cost of resuming; 0 in edition 1 */
    uint64_t total;          /* largest isolated cost of a run */
    uint64_t max_load_total; /* largest cost of a run under load */
    size_t leaves;
    size_t functions;
    uint64_t bounds[ROLSIPAY_FUNCTIONS + 1];      /* of each function the first leaf, then the leaf after the last one, 0 behind */
    uint64_t totals[ROLSIPAY_FUNCTIONS];          /* largest isolated cost of each function, 0 behind */
    uint64_t max_load_totals[ROLSIPAY_FUNCTIONS]; /* largest cost of each function under load, 0 behind */
} rolsipay_head;

/* The running state: 824 bytes. A fresh state is all zeros. In the first two numbers 0 says no, and any other number yes. */
typedef struct {
    uint64_t running;
    uint64_t suspended;
    uint64_t reading;
    uint64_t level;
    uint64_t leaves[ROLSIPAY_LEVELS + 1];
    uint64_t earlier[ROLSIPAY_LEVELS + 1];
    uint64_t times[ROLSIPAY_LEVELS + 1];
} rolsipay_state;

/* What reading a plan answers: number 0 where it is accepted, else the refusal's number, and its line (from 1; 0 where it has none). */
typedef struct {
    uint64_t number;
    uint64_t line;
} rolsipay_ruling;

/* What a call answers: the word, and a refusal's number, else 0; of an accepted release or report the remaining time and the margin; of every accepted call 1
 * if the reading exceeds the deadline, else 0. The margin is deadline - reading - remaining - stretch - switch cost. Where no run with these reports meets a
 * further point, the release or report is final, and the margin is deadline - reading - stretch; remaining is given there too. In edition 2 the cost of
 * resuming comes off as well where the others were suspended before the report. The stretch is the largest cost under load up to the next point or the end,
 * of a report from this visit on, over all runs with these reports, of a release from the start. A margin below -2^62 is given as -2^62. A report's remaining
 * is 1 at least, as its point costs a tick; so 0 tells the resume of an end from that of a report. */
typedef struct {
    uint64_t word;
    uint64_t number;
    uint64_t remaining;
    int64_t margin;
    uint64_t late;
} rolsipay_reply;

/* The layout that the library was compiled for. Where the compiler lays a struct out otherwise, one of these arrays has a negative size, and its name says
 * what should hold. */
typedef char rolsipay_leaf_has_88_bytes[sizeof(rolsipay_leaf) == 88 ? 1 : -1];
typedef char rolsipay_leaf_after_is_at_48[offsetof(rolsipay_leaf, after) == 48 ? 1 : -1];
typedef char rolsipay_leaf_max_load_turn_is_at_80[offsetof(rolsipay_leaf, max_load_turn) == 80 ? 1 : -1];
typedef char rolsipay_head_has_456_bytes[sizeof(rolsipay_head) == 456 ? 1 : -1];
typedef char rolsipay_head_resuming_is_at_24[offsetof(rolsipay_head, resuming) == 24 ? 1 : -1];
typedef char rolsipay_head_leaves_is_at_48[offsetof(rolsipay_head, leaves) == 48 ? 1 : -1];
typedef char rolsipay_head_bounds_is_at_64[offsetof(rolsipay_head, bounds) == 64 ? 1 : -1];
typedef char rolsipay_head_totals_is_at_200[offsetof(rolsipay_head, totals) == 200 ? 1 : -1];
typedef char rolsipay_head_max_load_totals_is_at_328[offsetof(rolsipay_head, max_load_totals) == 328 ? 1 : -1];
typedef char rolsipay_state_has_824_bytes[sizeof(rolsipay_state) == 824 ? 1 : -1];
typedef char rolsipay_state_leaves_is_at_32[offsetof(rolsipay_state, leaves) == 32 ? 1 : -1];
typedef char rolsipay_state_times_is_at_560[offsetof(rolsipay_state, times) == 560 ? 1 : -1];
typedef char rolsipay_ruling_has_16_bytes[sizeof(rolsipay_ruling) == 16 ? 1 : -1];
typedef char rolsipay_reply_has_40_bytes[sizeof(rolsipay_reply) == 40 ? 1 : -1];
typedef char rolsipay_reply_margin_is_at_24[offsetof(rolsipay_reply, margin) == 24 ? 1 : -1];

/* Reads a plan: its leaves go to the beginning of the row, records past its last leaf keep their values, and the head is written. A refused plan
 * leaves row and head as they were. */
rolsipay_ruling rolsipay_read(const uint8_t *text, size_t bytes, rolsipay_leaf *row, size_t records, rolsipay_head *head);

/* Release, with the reading 0: refusals 11, 12, 13. Go if the margin is 0 or more, else suspend. It is final if no run of the plan meets a point. A refused
 * call leaves the state as it was. */
rolsipay_reply rolsipay_release(const rolsipay_leaf *row, size_t records, const rolsipay_head *head, rolsipay_state *state);

/* Report of a point, by its number, with a reading, the ticks elapsed since the release: refusals 11, 14, 15, 16, 17. Where the others ran before, go if the
 * margin is 0 or more, suspend if not. Where they were suspended, stay, whatever the margin; but in edition 2 resume if the margin is 0 or more: let them run
 * again, in at most the cost of resuming, and go on. */
rolsipay_reply rolsipay_report(const rolsipay_leaf *row, size_t records, const rolsipay_head *head, rolsipay_state *state, uint64_t point,
                               uint64_t reading);

/* End with a reading: refusals 11, 14, 16, 17. Resume if the others were suspended, ended if not; the state is all zeros again. */
rolsipay_reply rolsipay_end(const rolsipay_leaf *row, size_t records, const rolsipay_head *head, rolsipay_state *state, uint64_t reading);

#ifdef __cplusplus
}
#endif

#endif
