/* A control loop with three modes, each a plan of its own. A fault asks for the next one, and the
 * unit changes to it at that very slot: what is under way goes on there, soft work too, or it stays
 * where it is and asks again at the next slot. All three are open from the start, so a change takes
 * no memory.
 * usage: modes TABLE TABLE TABLE EVENTS SLOTS
 * (EVENTS has lines `SLOT firm WORK WITHIN`, `SLOT soft WORK 0`, `SLOT sporadic INDEX 0` and
 * `SLOT fault 0 0`, by slot)
 * After `make lib`: cc -O2 modes.c heap.c out/libslotexec.a -o modes */
#include "slotexec.h"

#include <stdio.h>
#include <stdlib.h>
#include <string.h>

enum { MODES = 3, TABLE_ROOM = 1048576 };

/* Of the jobs of the plan that is left: which ones go on in each mode. */
static const uint32_t keep[MODES] = {SS_DROP, SS_GRAPHS, SS_STARTED};

static ss_slots units[MODES]; /* all zero: closed */
static uint8_t tables[MODES][TABLE_ROOM];
static size_t bytes[MODES];
static unsigned mode, wanted;
static uint32_t row; /* of the last arrival, in whichever mode */

/* Ends the run where a call did not do what it says. */
static void want(const char *what, uint32_t status)
{
    if (status == SS_OK) return;
    fprintf(stderr, "modes: %s: status %u\n", what, (unsigned)status);
    exit(1);
}

static void load(unsigned m, const char *path)
{
    FILE *file = fopen(path, "rb");
    if (file == NULL) {
        fprintf(stderr, "modes: the file %s cannot be read\n", path);
        exit(1);
    }
    bytes[m] = fread(tables[m], 1, TABLE_ROOM, file);
    fclose(file);
}

/* A mode before its first slot: only such a one can be changed to. A unit would do this in the
 * background, while it runs in another mode. */
static void renew(unsigned m)
{
    ss_told fault;
    if (units[m].open) want("close", ss_close(&units[m]));
    want("open", ss_open(&units[m], tables[m], bytes[m], &fault));
}

/* Goes on in the mode that is wanted, or stays. Firm, sporadic and soft jobs keep their rows;
 * offline ones that go on have rows from the next one on. */
static void change(unsigned long slot)
{
    ss_told told;
    uint32_t last, status;
    status = ss_carry_with_soft(&units[mode], &units[wanted], row + 1, keep[wanted], &told);
    if (status == SS_REFUSED) {
        printf("%lu refused %lu %lu %lu %lu\n", slot, (unsigned long)told.answer,
               (unsigned long)told.first, (unsigned long)told.second, (unsigned long)told.third);
        renew(wanted);
        return;
    }
    want("carry", status);
    printf("%lu mode %u carried %lu cut %lu soft %lu behind %lu\n", slot, wanted,
           (unsigned long)told.first, (unsigned long)told.second, (unsigned long)told.answer,
           (unsigned long)told.third);
    renew(mode);
    mode = wanted;
    want("last row", ss_last_row(&units[mode], &last));
    if (last > row) row = last;
}

static void arrive(unsigned long slot, const char *what, unsigned first, unsigned second)
{
    ss_told told;
    if (strcmp(what, "fault") == 0) {
        wanted = (mode + 1) % MODES;
        return;
    }
    if (strcmp(what, "firm") == 0) {
        want("firm", ss_firm(&units[mode], ++row, first, second, &told));
    } else if (strcmp(what, "soft") == 0) {
        want("soft", ss_soft(&units[mode], ++row, first, &told));
    } else {
        uint32_t status = ss_sporadic(&units[mode], ++row, first, &told);
        if (status == SS_BAD_NUMBER) return; /* this mode has no such task: the row is unused */
        want("sporadic", status);
    }
    printf("%lu %s %lu answer %u %lu %lu %lu\n", slot, what, (unsigned long)row,
           (unsigned)told.answer, (unsigned long)told.first, (unsigned long)told.second,
           (unsigned long)told.third);
}

/* A slot passes, and what runs in it is printed. A unit would let that job run here. */
static void pass(unsigned long slot)
{
    uint8_t text[SS_KEY_TEXT];
    size_t length;
    ss_key job;
    want("slot", ss_slot(&units[mode], &job));
    if (job.kind == SS_NONE) {
        printf("%lu idle\n", slot);
        return;
    }
    want("key text", ss_key_text(&units[mode], &job, text, sizeof text, &length));
    printf("%lu run %.*s\n", slot, (int)length, (const char *)text);
}

int main(int count, char **words)
{
    FILE *events = count == 6 ? fopen(words[4], "r") : NULL;
    unsigned long slot, next, end = count == 6 ? strtoul(words[5], NULL, 10) : 0;
    unsigned m, first, second;
    char what[9];
    int parts;
    if (events == NULL) {
        fprintf(stderr, "usage: modes TABLE TABLE TABLE EVENTS SLOTS, where EVENTS can be read\n");
        return 1;
    }
    for (m = 0; m < MODES; m++) {
        load(m, words[1 + m]);
        renew(m);
    }
    parts = fscanf(events, "%lu %8s %u %u", &next, what, &first, &second);
    for (slot = 0; slot < end; slot++) {
        while (parts == 4 && next <= slot) {
            arrive(slot, what, first, second);
            parts = fscanf(events, "%lu %8s %u %u", &next, what, &first, &second);
        }
        if (wanted != mode) change(slot);
        pass(slot);
    }
    fclose(events);
    for (m = 0; m < MODES; m++) want("close", ss_close(&units[m]));
    return 0;
}
