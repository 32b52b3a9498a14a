/* Opens each table over arena.c, and holds the most that was in use against the formula of arena.h.
 * Prints both of each: what was in use, and the formula.
 * usage: ram TABLE ..   (with an arena of 16 MB) */
#include "common.h"
#include "../arena.h"
#include "../unit/plan.h"

int main(int count, char **words)
{
    static uint8_t table[4194304];
    static struct plan plan;
    int at;
    for (at = 1; at < count; at++) {
        ss_slots slots = {0};
        ss_told told;
        size_t bytes = read_table(words[at], table, sizeof table), formula;
        HOLDS(ss_open(&slots, table, bytes, &told) == SS_OK && plan_read(&plan, table));
        formula = SLOTEXEC_ARENA_FOR(plan.cycle, plan.jobs, plan.spans, plan.soft_limit,
                                     plan.graphs + plan.tasks + plan.alarms);
        HOLDS(slotexec_arena_most() <= formula);
        HOLDS(ss_close(&slots) == SS_OK);
        printf("%s: %zu %zu\n", words[at], slotexec_arena_most(), formula);
    }
    return failed > 0 ? 1 : 0;
}
