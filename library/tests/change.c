/* Tries the calls on remaining jobs and on changes of plan: each status, what is told of a change
 * that is made and of one that is refused, each allocation of ss_change refused in turn, and that
 * ss_carry allocates nothing.
 * usage: change TABLE OTHER   (a firm task of 9 slots within 20 fits TABLE; OTHER is changed to) */
#include "common.h"
#include "counting.h"

#include <string.h>

static ss_slots slots, other;
static uint8_t table[4194304], next[4194304];
static size_t bytes, size;
static ss_told told;

static void closed_handles(void)
{
    uint32_t count = 77;
    ss_job job;
    HOLDS(ss_job_count(&slots, &count) == SS_CLOSED && count == 77);
    HOLDS(ss_get_job(&slots, 0, &job) == SS_CLOSED);
    HOLDS(ss_carry(&slots, &other, 1, SS_DROP, &told) == SS_CLOSED);
    HOLDS(ss_change(&slots, next, size, 1, SS_DROP, &told) == SS_CLOSED);
    HOLDS(ss_open(&slots, table, bytes, &told) == SS_OK);
    HOLDS(ss_carry(&slots, &other, 1, SS_DROP, &told) == SS_CLOSED);
    HOLDS(ss_carry(&other, &slots, 1, SS_DROP, &told) == SS_CLOSED);
    HOLDS(slots.open && !other.open);
}

/* The firm job of this row among those that remain, or one of the kind SS_NONE. */
static ss_job firm_job(ss_slots *at, uint32_t row)
{
    uint32_t place, count = 0;
    ss_job job;
    HOLDS(ss_job_count(at, &count) == SS_OK);
    HOLDS(ss_get_job(at, count, &job) == SS_BAD_NUMBER);
    for (place = 0; place < count; place++) {
        HOLDS(ss_get_job(at, place, &job) == SS_OK && job.left > 0 && job.start < job.deadline);
        if (job.key.kind == SS_FIRM && job.key.number == row) return job;
    }
    memset(&job, 0, sizeof job);
    return job;
}

/* A firm task of 9 slots within 20 in row 7, of which some have run after 18 slots. */
static ss_job begin(void)
{
    uint32_t slot;
    ss_key ran;
    HOLDS(ss_firm(&slots, 7, 9, 20, &told) == SS_OK && told.answer == SS_ACCEPTED);
    for (slot = 0; slot < 18; slot++) HOLDS(ss_slot(&slots, &ran) == SS_OK);
    return firm_job(&slots, 7);
}

static void wrong_numbers(void)
{
    uint32_t count;
    ss_key ran;
    told.answer = 77;
    HOLDS(ss_open(&other, next, size, &told) == SS_OK);
    HOLDS(ss_carry(&slots, &other, 8, 3, &told) == SS_BAD_NUMBER);
    HOLDS(ss_carry(&slots, &other, 7, SS_STARTED, &told) == SS_BAD_ROW);
    HOLDS(ss_carry(&slots, &other, 4294967295u, SS_GRAPHS, &told) == SS_BAD_ROW);
    HOLDS(ss_change(&slots, next, size, 8, 3, &told) == SS_BAD_NUMBER);
    HOLDS(ss_change(&slots, next, size, 7, SS_GRAPHS, &told) == SS_BAD_ROW);
    HOLDS(ss_slot(&other, &ran) == SS_OK);
    HOLDS(ss_carry(&slots, &other, 8, SS_DROP, &told) == SS_NOT_FRESH);
    HOLDS(told.answer == 77);
    HOLDS(ss_close(&other) == SS_OK && ss_open(&other, next, size, &told) == SS_OK);
    HOLDS(ss_soft(&other, 1, 1, &told) == SS_OK);
    HOLDS(ss_carry(&slots, &other, 8, SS_DROP, &told) == SS_NOT_FRESH);
    HOLDS(ss_change(&slots, next, size - 1, 8, SS_DROP, &told) == SS_BAD_TABLE);
    HOLDS(ss_last_row(&slots, &count) == SS_OK && count == 7);
    HOLDS(ss_close(&other) == SS_OK);
}

/* The job of row 7 goes on with what it has left, and nothing is allocated. */
static void carried(const ss_job *job)
{
    unsigned long calls;
    uint64_t now;
    uint32_t row;
    ss_job there;
    HOLDS(ss_open(&other, next, size, &told) == SS_OK);
    HOLDS(ss_now(&slots, &now) == SS_OK);
    calls = heap_calls;
    HOLDS(ss_carry(&slots, &other, 0, SS_DROP, &told) == SS_OK);
    HOLDS(heap_calls == calls);
    HOLDS(told.answer == 0 && told.first == 1 && told.second == 0 && told.third == 0);
    there = firm_job(&other, 7);
    HOLDS(there.left == job->left && there.deadline == job->deadline - now && there.start == 0);
    HOLDS(ss_last_row(&other, &row) == SS_OK && row == 7);
    HOLDS(ss_carry(&slots, &other, 8, SS_DROP, &told) == SS_NOT_FRESH);
    there = firm_job(&slots, 7);
    HOLDS(there.left == job->left && there.deadline == job->deadline);
    HOLDS(ss_withdraw(&other, 8, 7, &told) == SS_OK && told.first == job->left);
    HOLDS(ss_close(&other) == SS_OK);
}

/* Three soft jobs wait beside the job of row 7; they go over in their order and rows, each with what
 * it has left, and nothing is allocated. The first one runs once before. */
static void carried_with_soft(void)
{
    static const uint32_t rows[] = {3, 5, 9}, works[] = {2, 4, 1};
    uint32_t row, slot, place = 0, run = 0;
    unsigned long calls;
    ss_key ran;
    ss_slots before = {false, NULL};
    HOLDS(ss_open(&before, table, bytes, &told) == SS_OK);
    HOLDS(ss_soft(&before, 3, 3, &told) == SS_OK && ss_soft(&before, 5, 4, &told) == SS_OK);
    HOLDS(ss_firm(&before, 7, 2, 20, &told) == SS_OK && told.answer == SS_ACCEPTED);
    HOLDS(ss_soft(&before, 9, 1, &told) == SS_OK);
    do HOLDS(ss_slot(&before, &ran) == SS_OK);
    while (ran.kind != SS_SOFT);
    HOLDS(ran.number == 3);
    HOLDS(ss_open(&other, next, size, &told) == SS_OK);
    calls = heap_calls;
    HOLDS(ss_carry_with_soft(&before, &other, 10, 3, &told) == SS_BAD_NUMBER);
    HOLDS(ss_carry_with_soft(&before, &other, 0, SS_DROP, &told) == SS_OK);
    HOLDS(heap_calls == calls);
    HOLDS(told.answer == 3 && told.first <= 1 && told.second == 0 && told.third == 0);
    HOLDS(ss_last_row(&other, &row) == SS_OK && row == 9);
    HOLDS(ss_carry_with_soft(&before, &other, 0, SS_DROP, &told) == SS_NOT_FRESH);
    for (slot = 0; place < 3 && slot < 4000; slot++) {
        HOLDS(ss_slot(&other, &ran) == SS_OK);
        if (ran.kind != SS_SOFT) continue;
        HOLDS(ran.number == rows[place]);
        run++;
        if (run < works[place]) continue;
        run = 0;
        place++;
    }
    HOLDS(place == 3 && ss_close(&other) == SS_OK);
    HOLDS(ss_change_with_soft(&before, next, size - 1, 10, SS_DROP, &told) == SS_BAD_TABLE);
    HOLDS(ss_change_with_soft(&before, next, size, 10, SS_DROP, &told) == SS_OK);
    HOLDS(told.answer == 3 && told.third == 0);
    HOLDS(ss_close(&before) == SS_OK);
    HOLDS(ss_carry_with_soft(&before, &other, 1, SS_DROP, &told) == SS_CLOSED);
    HOLDS(ss_change_with_soft(&before, next, size, 1, SS_DROP, &told) == SS_CLOSED);
}

/* Refuses each allocation of ss_change in turn: the handle stays as it was. Then it is made. */
static unsigned long changed(const ss_job *job)
{
    unsigned long count = 0, blocks = heap_blocks;
    ss_job there;
    for (;;) {
        uint32_t status;
        heap_calls = 0;
        heap_refuse = count + 1;
        status = ss_change(&slots, next, size, 8, SS_GRAPHS, &told);
        if (heap_calls < heap_refuse) {
            HOLDS(status == SS_OK);
            break;
        }
        there = firm_job(&slots, 7);
        HOLDS(status == SS_MEMORY && slots.open && heap_blocks == blocks);
        HOLDS(there.left == job->left && there.deadline == job->deadline);
        count++;
    }
    heap_refuse = 0;
    HOLDS(told.first > 1);
    there = firm_job(&slots, 7);
    HOLDS(there.key.kind == SS_FIRM && there.left == job->left && there.start == 0);
    return count;
}

/* Firm work that fills the way up to its deadline has no room beside the jobs of another plan. */
static void refused(void)
{
    uint32_t work = 40, row = 0, taken = 0;
    ss_job job, there;
    HOLDS(ss_close(&slots) == SS_OK && ss_open(&slots, table, bytes, &told) == SS_OK);
    while (work > 0 && ss_firm(&slots, ++row, work, 40, &told) == SS_OK) {
        if (told.answer == SS_ACCEPTED) taken = row;
        else work--;
    }
    job = firm_job(&slots, taken);
    HOLDS(job.key.kind == SS_FIRM && job.deadline == 40);
    HOLDS(ss_change(&slots, next, size, row + 1, SS_GRAPHS, &told) == SS_REFUSED);
    HOLDS(told.answer == taken && told.third == told.first && told.third < told.second);
    there = firm_job(&slots, taken);
    HOLDS(there.left == job.left && there.deadline == job.deadline);
    HOLDS(ss_open(&other, next, size, &told) == SS_OK);
    HOLDS(ss_carry(&slots, &other, row + 1, SS_GRAPHS, &told) == SS_REFUSED);
    HOLDS(told.answer == taken && told.third == told.first && told.third < told.second);
    HOLDS(ss_close(&other) == SS_OK && ss_close(&slots) == SS_OK && heap_blocks == 0);
}

int main(int count, char **words)
{
    unsigned long allocations;
    ss_job job;
    if (count != 3) return 2;
    bytes = read_table(words[1], table, sizeof table - 1);
    size = read_table(words[2], next, sizeof next - 1);
    closed_handles();
    job = begin();
    HOLDS(job.left > 0 && job.left < 9 && job.deadline == 20);
    wrong_numbers();
    carried(&job);
    carried_with_soft();
    allocations = changed(&job);
    refused();
    printf("changes of plan: %lu allocations of ss_change, each refused in turn, and none by "
           "ss_carry, with soft work or without; %lu passed, %lu failed\n",
           allocations, passed, failed);
    return failed == 0 ? 0 : 1;
}
