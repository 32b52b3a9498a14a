/* The flight recorder: what arrives, what is answered and what runs, line by line as text.
 *
 * The run follows from the arrivals: a unit that records these alone can be replayed on a bench,
 * with `slotshift replay-table`, to the last slot. The other levels show that it ran so.
 *   RECORD_ARRIVALS  an arrivals file, a row for each arrival
 *   RECORD_RUNS      the lines of the trace without its spans, some 20 bytes a slot
 *   RECORD_SPANS     the trace that `replay-table` prints, byte for byte, some 100 bytes a slot:
 *                    `slotshift verify` judges it, and arrivals.awk makes the arrivals file of it
 *
 * Each call comes right after the call of the executive that it records, before the next one. */
#ifndef UNIT_RECORD_H
#define UNIT_RECORD_H

#include "../slotexec.h"

enum record_level { RECORD_NONE, RECORD_ARRIVALS, RECORD_RUNS, RECORD_SPANS };

enum {
    RECORD_LINE = 768,   /* bytes that hold any line */
    RECORD_RING = 65536, /* bytes of a ring, a power of 2 */
    RECORD_SHOWN = 8     /* spans of a line, at most */
};

/* Where the lines go: a device, a file, or record_to_ring. False where there is no room. */
typedef bool record_sink(const char *line, size_t length);

struct record {
    ss_slots *slots; /* what is recorded */
    enum record_level level;
    record_sink *sink;
    uint64_t now;  /* the slots that have passed */
    uint64_t lost; /* lines that the sink had no room for: the record is no file any more */
    char line[RECORD_LINE];
    size_t length; /* of the line so far */
};

void record_start(struct record *record);
void record_soft(struct record *record, uint32_t row, uint32_t work, const ss_told *told);
void record_firm(struct record *record, uint32_t row, uint32_t work, uint32_t within,
                 const ss_told *told);
void record_sporadic(struct record *record, uint32_t row, uint32_t index, const ss_told *told);
void record_done(struct record *record, uint32_t row, const ss_key *key, const ss_told *told);
void record_withdraw(struct record *record, uint32_t row, uint32_t firm, const ss_told *told);
void record_slot(struct record *record, const ss_key *ran);
void record_end(struct record *record);

/* A ring of bytes between the slot's start, which puts whole lines in, and a reader that sends them
 * on when there is time, as soft work: one writer and one reader, as inbox.h has it. */
struct record_ring {
    char bytes[RECORD_RING];
    uint32_t put, taken;
};

/* Puts a line in. False where it does not fit: nothing of it is put. */
bool record_to_ring(struct record_ring *ring, const char *line, size_t length);

/* Takes out at most `room` bytes, and returns how many. */
size_t record_from_ring(struct record_ring *ring, char *bytes, size_t room);

#endif
