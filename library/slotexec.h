/* The executive of slotshift as a library: it follows the plan of a binary table slot by slot, and
 * answers what arrives. What each call does is proved: crates/slot_c has it as clauses (see
 * the claims table in docs/PROOF.md). When memory is taken and given back is tested. What the caller
 * owes is below.
 *
 * All times and lengths are in slots. A slot is as long as the caller makes it: the library has no
 * clock, and a slot passes exactly where `ss_slot` is called. It starts and stops no job: the
 * caller lets the job that `ss_slot` tells run until the slot ends.
 *
 * After 2^44 slots (557 years of slots of 1 ms) no more slot passes. Rows may end first: there are
 * 2^32 - 1 of them, and an offer in each slot of 1 ms uses them up in 49.7 days. Then soft, firm
 * and sporadic work is SS_BAD_ROW, while slots pass and the plan goes on. Close and open before:
 * jobs that are under way, and the last arrivals of sporadic tasks, are forgotten then. Early ends
 * and withdrawals need no row of their own.
 *
 * Every call but `ss_open`, `ss_close`, `ss_change` and `ss_change_with_soft` takes no memory and
 * gives none back. `ss_open` takes all that the executive will ever need, by the three functions of
 * heap.c or arena.c (arena.h tells how large its array has to be), and `ss_close` gives all of it
 * back. The two that change open a second executive, and close one of both.
 *
 * The library is tried on x86-64, and on aarch64 under qemu, with Linux (`make aarch64`) and
 * without a system (`make bare`). Of other processors nothing is said.
 *
 * docs/PERFORMANCE.md has how long the calls take on a PC, for two controllers of examples/, and how
 * many instructions each takes on aarch64, for four (`make -C library test` and tests/counted
 * measure it). The slot that ends a cycle brings in the jobs and spans of another one, and
 * `ss_open` makes the plan again: so both take longer for a longer cycle. A firm or sporadic
 * arrival, an early end, a withdrawal, a slot and a look ahead go along the jobs that remain and
 * the spans ahead, three cycles of them at most. `ss_pass` takes as long as its slots and a look
 * before each, `ss_carry` as long as the offers that it makes, and `ss_change` as long as `ss_open`
 * and `ss_carry`. The others take no longer for a longer cycle.
 *
 * What the caller owes:
 * - No pointer is null, and each points to what its type says, or to so many bytes as the number
 *   after it tells. What one call writes does not overlap with what else it is handed.
 * - A `ss_slots` is all zero at first, and only these calls write it. It may be moved; of two
 *   copies only the last one written is used.
 * - One call at a time on a handle: the next one begins after the last one has ended, and sees what
 *   it wrote, as after a mutex, or on one core with interrupts masked. Which thread, core or stack
 *   makes it does not count: the library has no variables and no locks of its own. ss_carry, with
 *   soft work or without, is a call on both of its handles, which are two.
 * - Those four call the functions of the heap, so they are made where these may be: with heap.c not
 *   in a signal handler, nor in the forked child of a process with threads; with arena.c one at a
 *   time for all handles.
 * - rattle_alloc, rattle_realloc and rattle_dealloc are linked, and are as heap.h says. The library
 *   also needs memcpy, memmove and memset, and nothing else (bare/memory.c has these three).
 *
 * An interrupt or a signal handler may make every call but those four, while no other call on the
 * handle is under way: mask it around those that are made outside of it. The library
 * uses vector registers. So an interrupt's entry that calls it saves all of them, and those that
 * any call in C may change (bare/start.S). It uses the stack of what was interrupted;
 * docs/PERFORMANCE.md has how much. Arrivals that other interrupts bring wait in an inbox for the
 * slot's start: unit/ is a control unit that is made so.
 *
 * No other condition is left: a number out of its range, a row that lies too low, a call on a
 * closed handle each have a status, and then nothing has changed but what ss_open and ss_change
 * tell of a fault; SS_REFUSED says itself what it leaves.
 */
#ifndef SLOTEXEC_H
#define SLOTEXEC_H

#include <stdbool.h>
#include <stddef.h>
#include <stdint.h>

#ifdef __cplusplus
extern "C" {
#endif

/* The version of this header. That of the library is told by ss_version. */
#define SS_VERSION "1.0.0"

/* How a call ended. */
enum {
    SS_OK = 0,         /* the call did what it says */
    SS_MEMORY = 1,     /* memory ran out (ss_open, ss_change) */
    SS_BAD_TABLE = 2,  /* the bytes are no table (ss_open, ss_change) */
    SS_BAD_ROW = 3,    /* the row of the arrival lies too low (see the arrivals below) */
    SS_BAD_NUMBER = 4, /* a number, an index, a key or a name is none that may come, or no room */
    SS_AT_END = 5,     /* the time is 2^44 slots: no more slot passes (ss_slot, ss_pass) */
    SS_CLOSED = 6,     /* the handle has no executive */
    SS_STILL_OPEN = 7, /* the handle has one already (ss_open alone) */
    SS_REFUSED = 8,    /* what is carried over has no room there (ss_carry, ss_change) */
    SS_NOT_FRESH = 9   /* a slot has passed in the second executive, or it has seen an arrival
                        * in a row above 0 (ss_carry alone) */
};

/* The kind of a key. */
enum { SS_NONE = 0, SS_OFFLINE = 1, SS_SPORADIC = 2, SS_FIRM = 3, SS_SOFT = 4 };

/* The answers, by the call that gives them. */
enum { SS_ACCEPTED = 0, SS_LATE = 1, SS_FAR = 2, SS_NO_ROOM = 3 }; /* ss_firm */
enum { SS_TAKEN = 0 };                                             /* ss_soft, ss_sporadic */
enum { SS_FULL = 1 };                                              /* ss_soft */
enum { SS_SOON = 1 };                                              /* ss_sporadic */
enum { SS_FREED = 0 };                                             /* ss_done, ss_withdraw */
enum { SS_NOT_RUNNING = 1 };                                       /* ss_done */
enum { SS_NO_JOB = 1 };                                            /* ss_withdraw */

/* Which offline jobs go on at a change of plan: none; those that have run a slot; or all that
 * remains of the instances of graphs that were released before this slot. */
enum { SS_DROP = 0, SS_STARTED = 1, SS_GRAPHS = 2 };

/* The limits. */
enum {
    SS_OFFER_LIMIT = 65535, /* slots of soft and firm work, and the furthest deadline of an offer */
    SS_KEY_TEXT = 70        /* bytes of the text of a key, at most */
};

/* An executive, or none. All zero is none. */
typedef struct {
    bool open;
    void *at;
} ss_slots;

/* An answer with up to three numbers, in the order in which its call names them, and 0 where there
 * is none. */
typedef struct {
    uint32_t answer;
    uint64_t first, second, third;
} ss_told;

/* The name of a job. What its kind has no use for is 0.
 * SS_OFFLINE:  group is the graph and task its task, by their places in the task file, and number
 *              the instance, which release of the graph it is: each from 0.
 * SS_SPORADIC: group is the place of the sporadic task in the file, from 0, as ss_sporadic_index
 *              returns it, and no graph; number is the row of the arrival.
 * SS_FIRM and SS_SOFT: number is the row of the arrival.
 * SS_NONE: no job.
 * A graph and a task are at most 65,535, an index 255, a row 2^32 - 1: with more, with another kind
 * or with a number that is of no use, it is no key. Two keys are compared by their fields, and not
 * by their bytes, between which others may lie. */
typedef struct {
    uint32_t kind, group, task;
    uint64_t number;
} ss_key;

/* A stretch [start, end) of slots: `work` slots are due in it, and `spare` of it are not needed;
 * below 0, it borrows as many from the stretches before it. */
typedef struct {
    uint64_t start, end, work;
    int64_t spare;
} ss_span;

/* A job that remains: its name, the slots that it has left, the time by which they are due, and the
 * time from which it may run. */
typedef struct {
    ss_key key;
    uint32_t left;
    uint64_t deadline, start;
} ss_job;

/* Writes the version of the library to the front of `text`, with no zero after it, and tells its
 * length. SS_BAD_NUMBER where it is longer than `room`. It needs no executive. The library is the
 * one of this header where the text is SS_VERSION. */
uint32_t ss_version(uint8_t *text, size_t room, size_t *length);

/* Opens the plan of a binary table, as `slotshift table` writes it, before its first slot.
 * SS_STILL_OPEN, SS_MEMORY, or SS_BAD_TABLE. With the last one `fault->answer` is the number of the
 * fault, and the others are up to three of its numbers; otherwise `fault` stays.
 *   2 short: how many bytes there are      7 wrong job count: stored, computed
 *   3 bad magic                            8 wrong job: its place
 *   4 bad version: the version             9 wrong span count: stored, computed
 *   5 source: the number of its fault     10 wrong span: its place
 *   6 infeasible: from, until, demand     11 trailing: where the table ends
 * docs/FORMATS.md has each in words, and those of a task set in this order: 4 missing, 6 out of
 * range, 7 bad name, 8 doubled, 9 no such task, 10 loop, 11 too many, 12 cycle too long. */
uint32_t ss_open(ss_slots *slots, const uint8_t *table, size_t bytes, ss_told *fault);

/* Gives all memory back. SS_CLOSED where nothing is open. */
uint32_t ss_close(ss_slots *slots);

/* How many slots have passed: 0 to 2^44. */
uint32_t ss_now(ss_slots *slots, uint64_t *now);

/* The row of the last arrival, 0 before the first. */
uint32_t ss_last_row(ss_slots *slots, uint32_t *row);

/* Arrivals. Each has a row. That of soft, firm and sporadic work names its job later on: 1 to
 * 2^32 - 1, above the row of the last arrival, else SS_BAD_ROW: so each of them after row 2^32 - 1
 * has it. An early end and a withdrawal bring no job: their row may be that of the last arrival
 * too, 0 before the first, and is SS_BAD_ROW below it. So with the row of ss_last_row they use up
 * none. SS_BAD_NUMBER where another number is out of its range. The time is that of the executive.
 */

/* Soft work of 1 to 65,535 slots: SS_TAKEN, or SS_FULL with the limit. */
uint32_t ss_soft(ss_slots *slots, uint32_t row, uint32_t work, ss_told *told);

/* A firm task of 1 to 65,535 slots, due within 0 to 65,535 slots from now: SS_ACCEPTED: it is
 * guaranteed; SS_LATE: due now; SS_FAR: due more than a cycle ahead; SS_NO_ROOM, with the first
 * time by which more slots are needed than there are, the need, and the room. */
uint32_t ss_firm(ss_slots *slots, uint32_t row, uint32_t work, uint32_t within, ss_told *told);

/* A job of the sporadic task of this index: SS_TAKEN with its deadline: it is guaranteed; SS_SOON
 * with the first slot at which it may come. SS_BAD_NUMBER where there is no such task. */
uint32_t ss_sporadic(ss_slots *slots, uint32_t row, uint32_t index, ss_told *told);

/* The job of this key has ended before it ran all its slots: SS_FREED with the slots that it had
 * left; SS_NOT_RUNNING where no job of that key has started and not ended. SS_BAD_NUMBER where it is
 * no key. */
uint32_t ss_done(ss_slots *slots, uint32_t row, const ss_key *key, ss_told *told);

/* The firm task that arrived in row `firm` is taken back: SS_FREED with the slots that it had left;
 * SS_NO_JOB where none remains. */
uint32_t ss_withdraw(ss_slots *slots, uint32_t row, uint32_t firm, ss_told *told);

/* One slot passes, and `ran` tells the job that has it: SS_NONE where the slot is idle. Call it at
 * the start of a slot, after the arrivals of that slot. What arrives after the call is answered as
 * of the end of that slot: so an offer's `within` counts from there. */
uint32_t ss_slot(ss_slots *slots, ss_key *ran);

/* What the next slot runs, and in `count` for how many slots from it on, 1 to `most`, that stays
 * so where nothing arrives: so a unit may set a timer once in place of a tick for each slot. No
 * slot passes. The count is at most a cycle. It is the greatest such number where no soft work
 * waits, where the set has no sporadic task, and where soft work runs; else it may be a smaller
 * one. After an arrival it may be another: ask again. At and near the time 2^44 it also counts
 * slots that can pass no more: ss_slot is SS_AT_END there. SS_BAD_NUMBER where `most` is 0. */
uint32_t ss_ahead(ss_slots *slots, uint32_t most, ss_key *ran, uint32_t *count);

/* Slots pass, one after the other, as with ss_slot, while what is to run is what ran in the first of
 * them: `passed` tells how many, 1 to `most`. It is less than `most` only where something else is to
 * run in the next slot, or the time is at its limit. SS_BAD_NUMBER where `most` is 0, else SS_AT_END
 * where the time is at its limit before. */
uint32_t ss_pass(ss_slots *slots, uint32_t most, uint32_t *passed);

/* How many spans there are up to the end of the third cycle, the one at hand being the first: at
 * least 1, and at most one for each slot of three cycles. */
uint32_t ss_span_count(ss_slots *slots, uint32_t *count);

/* The span at this place, from 0. SS_BAD_NUMBER at the count and above. */
uint32_t ss_get_span(ss_slots *slots, uint32_t place, ss_span *span);

/* How many guaranteed jobs remain: those of the plan up to the end of the third cycle, the one at
 * hand being the first, and the firm and sporadic ones that were accepted. Soft work is not among
 * them. */
uint32_t ss_job_count(ss_slots *slots, uint32_t *count);

/* The remaining job at this place, from 0: they stand in no order, which each call may change.
 * SS_BAD_NUMBER at the count and above. */
uint32_t ss_get_job(ss_slots *slots, uint32_t place, ss_job *job);

/* A change of plan: what one executive has left goes on in another, before its first slot. Each
 * firm and sporadic job goes on, and of the offline ones those that `keep` says; soft work does
 * only by the two calls further below. Each is offered to the second executive as a firm task, with
 * the slots that it has left and its deadline counted from the change on. All are accepted exactly
 * where all of them can be served there, beside its own jobs and whatever sporadic ones come. Then
 * it goes on with them:
 * - A job that was carried over is SS_FIRM, whatever it was. A firm or sporadic one keeps its row;
 *   offline ones have the rows from `first` on, by deadline and then by key: so map their keys
 *   first, as ss_get_job tells them. An old key names no job there, or another one.
 * - It counts as not started until it runs there: ss_done is SS_NOT_RUNNING before, while
 *   ss_withdraw serves at once.
 * - Sporadic tasks may come at once, those of the same name too: no separation goes over.
 * - Graphs begin anew with their first instance: what their phase was is lost. So with SS_GRAPHS or
 *   SS_STARTED a graph of both plans has what is left of its old instance beside the new one.
 * - Times count from 0 again, and a deadline that was told before is one of the first executive.
 * A deadline beyond the second plan's cycle is cut to it, which can refuse more than need be: give
 * a plan that is changed to a cycle as long as the furthest deadline that it takes over. After
 * SS_OK `told` has how many jobs were carried over, and how many have a deadline that was cut.
 * `first` is above the last row, and so many rows follow it as a cycle of the first plan has slots,
 * else SS_BAD_ROW; with SS_DROP it says nothing. SS_BAD_NUMBER where `keep` is none of the three.
 * After SS_REFUSED `told->answer` is the row of the first offer that has no room, and the three
 * numbers are the first time from the change on by which more slots are needed than there are, the
 * need, and the room. */

/* From one open handle to another. SS_NOT_FRESH where a slot has passed at the second one, or
 * something has arrived in a row above 0. The first one stays as it was, with all that it has.
 * After SS_REFUSED the second one has accepted the offers before the one that has no room: close
 * it, and open it anew. */
uint32_t ss_carry(ss_slots *from, ss_slots *into, uint32_t first, uint32_t keep, ss_told *told);

/* Opens the plan of a binary table, carries over to it, and leaves it in the handle; the first
 * executive is closed. SS_MEMORY, SS_BAD_TABLE with the fault as ss_open tells it, or SS_REFUSED:
 * then the handle stays as it was. Both executives take memory for a while. */
uint32_t ss_change(ss_slots *slots, const uint8_t *table, size_t bytes, uint32_t first,
                   uint32_t keep, ss_told *told);

/* The same two, where soft work goes over too: the soft jobs that wait come among the offers in the
 * order of all rows, each in its own row with the slots that it has left. It plays no part in
 * whether the change is made. No more soft jobs go over than may wait in the second plan: where its
 * limit is lower, the last ones are left behind.
 * After SS_OK `told->answer` is how many soft jobs go over, the first two numbers are as above, and
 * the third is how many soft jobs are left behind. After SS_REFUSED `into` has taken the soft work
 * before the offer that has no room too. Numbers and statuses are as above. */
uint32_t ss_carry_with_soft(ss_slots *from, ss_slots *into, uint32_t first, uint32_t keep,
                            ss_told *told);
uint32_t ss_change_with_soft(ss_slots *slots, const uint8_t *table, size_t bytes, uint32_t first,
                             uint32_t keep, ss_told *told);

/* Writes the text of a key, as traces have it, to the front of `text`, with no zero after it, and
 * tells its length: at most SS_KEY_TEXT bytes. SS_BAD_NUMBER where it is no key, or it names what
 * the task set has not, or the text is longer than `room`. */
uint32_t ss_key_text(ss_slots *slots, const ss_key *key, uint8_t *text, size_t room,
                     size_t *length);

/* The index of the sporadic task of this name. SS_BAD_NUMBER where none has it. */
uint32_t ss_sporadic_index(ss_slots *slots, const uint8_t *name, size_t bytes, uint32_t *index);

#ifdef __cplusplus
}
#endif

#endif
