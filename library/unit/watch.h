/* The watch over worst cases: the executive takes a job for ended when it has had all its slots. */
#ifndef UNIT_WATCH_H
#define UNIT_WATCH_H

#include "dispatch.h"

/* The job has had all its slots, and its function has not returned. The rest, of `more` slots, is
 * offered as a firm request that is due at the job's derived deadline.
 *
 * Accepted: the job goes on under the key of the request. It is done before its successors start,
 * since it is due before them. Refused, late, or with no slots allowed: it is stopped, and
 * unit_stopped is told. No other job is harmed in either case: the one is an offer as any other,
 * and the other uses no slot more. What a stopped job holds or has half written is the
 * application's.
 *
 * Soft work is offered again as soft work, behind what waits; of one such job at a time. */
void watch_rest(struct frame *frame);

#endif
