/* A ring of arrivals between an interrupt, which puts them in, and the start of the next slot,
 * which takes them out. One writer and one reader, which may be on two cores: no lock and no
 * masking. Several interrupts of one priority are one writer, since none comes inside another; of
 * several priorities each has an inbox of its own.
 *
 * An arrival waits for the next slot's start. So its deadline counts from there: plan an alarm's
 * one slot shorter, and take one off a request's `within` (docs/MODELLING.md). */
#ifndef UNIT_INBOX_H
#define UNIT_INBOX_H

#include <stdbool.h>
#include <stdint.h>

/* What may come. */
enum arrival_kind { ARRIVAL_SOFT, ARRIVAL_FIRM, ARRIVAL_SPORADIC, ARRIVAL_WITHDRAW };

/* number: the slots of soft work or of a firm request, the index of a sporadic task, or the row of
 *         the request that is taken back
 * within: in how many slots a firm request is due
 * tag:    what the work is, for the one who runs it: of soft and firm work and alarms */
struct arrival {
    enum arrival_kind kind;
    uint32_t number, within, tag;
};

enum { INBOX_PLACES = 32 }; /* a power of 2: the most arrivals that one slot's start answers */

/* All zero is empty. The numbers count for ever; what they differ by is what waits. */
struct inbox {
    struct arrival places[INBOX_PLACES];
    uint32_t put;   /* by the writer alone */
    uint32_t taken; /* by the reader alone */
};

/* Puts an arrival in, for the writer. False where there is no place: it is lost, and the writer is
 * the one who knows what that means. */
bool inbox_put(struct inbox *inbox, const struct arrival *arrival);

/* How many arrivals wait, for the reader. What comes meanwhile may wait for the next slot: so a
 * writer that does not stop cannot hold up this one. */
uint32_t inbox_count(const struct inbox *inbox);

/* Takes out the first of the arrivals that wait, for the reader. False where none does. */
bool inbox_take(struct inbox *inbox, struct arrival *arrival);

#endif
