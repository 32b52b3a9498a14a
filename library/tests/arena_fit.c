/* Opens a table over arena.c, runs 1,000 slots, closes it, and prints the status of ss_open and the
 * most bytes of the array that were in use.
 * usage: arena_fit TABLE */
#include "common.h"
#include "../arena.h"

int main(int count, char **words)
{
    static uint8_t table[4194304];
    ss_slots slots = {0};
    ss_told told;
    ss_key ran;
    uint32_t status, slot;
    if (count != 2) return 2;
    status = ss_open(&slots, table, read_table(words[1], table, sizeof table), &told);
    for (slot = 0; status == SS_OK && slot < 1000; slot++) {
        if (ss_slot(&slots, &ran) != SS_OK) return 1;
    }
    if (slots.open != (status == SS_OK)) return 1;
    if (ss_close(&slots) != (status == SS_OK ? SS_OK : SS_CLOSED)) return 1;
    printf("%u %zu\n", (unsigned)status, slotexec_arena_most());
    return 0;
}
