/* Replays recorded arrivals over the library, and prints the trace that `slotshift replay-table`
 * prints. It takes well-formed files for granted.
 * usage: replay TABLE ARRIVALS SLOTS */
#define _DEFAULT_SOURCE /* strsep */
#include "slotexec.h"

#include <inttypes.h>
#include <stdio.h>
#include <stdlib.h>
#include <string.h>

static ss_slots slots;

static void quit(const char *what, uint32_t status)
{
    fprintf(stderr, "replay: %s: status %" PRIu32 "\n", what, status);
    exit(1);
}

/* Ends the run where a call did not do what it says. */
static void want(const char *what, uint32_t status)
{
    if (status != SS_OK) quit(what, status);
}

static uint8_t *read_file(const char *name, size_t *bytes)
{
    FILE *file = fopen(name, "rb");
    uint8_t *all = NULL;
    size_t room = 0, got = 1;
    if (file == NULL) quit(name, 0);
    for (*bytes = 0; got > 0; *bytes += got) {
        if (room - *bytes < 4096) all = realloc(all, room = 2 * room + 8192);
        if (all == NULL) quit(name, SS_MEMORY);
        got = fread(all + *bytes, 1, room - *bytes - 1, file);
    }
    fclose(file);
    all[*bytes] = 0;
    return all;
}

/* Puts the text of a key into `text`, where the set has what it names. */
static bool key_text(const ss_key *key, char text[SS_KEY_TEXT + 1])
{
    size_t length;
    if (ss_key_text(&slots, key, (uint8_t *)text, SS_KEY_TEXT, &length) != SS_OK) return false;
    text[length] = 0;
    return true;
}

static ss_key key(uint32_t kind, uint32_t group, uint32_t task, uint64_t number)
{
    ss_key made = {kind, group, task, number};
    return made;
}

/* The key that a text writes: of an offline job, by trying the names that the set has. */
static ss_key key_of(const char *text)
{
    char name[SS_KEY_TEXT + 1];
    const char *mark = strpbrk(text, "#@:");
    uint64_t number = mark != NULL ? strtoull(mark + 1, NULL, 10) : 0;
    size_t length = mark != NULL ? (size_t)(mark - text) : 0;
    uint32_t index, graph, task;
    if (mark == NULL) quit(text, SS_BAD_NUMBER);
    if (*mark == ':') return key(text[0] == 'f' ? SS_FIRM : SS_SOFT, 0, 0, number);
    if (*mark == '@') {
        want(text, ss_sporadic_index(&slots, (const uint8_t *)text, length, &index));
        return key(SS_SPORADIC, index, 0, number);
    }
    for (graph = 0; graph < 32; graph++) {
        for (task = 0; task < 32; task++) {
            ss_key first = key(SS_OFFLINE, graph, task, 0);
            if (!key_text(&first, name)) break;
            if (strncmp(name, text, length + 1) == 0) {
                return key(SS_OFFLINE, graph, task, number);
            }
        }
    }
    quit(text, SS_BAD_NUMBER);
    return key(SS_NONE, 0, 0, 0);
}

/* The spans after an entry: the first eight, and how many more there are. */
static void print_spans(void)
{
    uint32_t count, place;
    ss_span span;
    want("span count", ss_span_count(&slots, &count));
    fputs(" |", stdout);
    for (place = 0; place < count && place < 8; place++) {
        want("span", ss_get_span(&slots, place, &span));
        printf(" %" PRIu64 "-%" PRIu64 ":%" PRId64, span.start, span.end, span.spare);
    }
    if (count > 8) printf(" +%" PRIu32, count - 8);
    putchar('\n');
}

static void print_soft(uint64_t now, uint32_t row, uint32_t work)
{
    ss_told told;
    want("soft", ss_soft(&slots, row, work, &told));
    printf("%" PRIu64 " soft %" PRIu32 " %" PRIu32, now, row, work);
    if (told.answer == SS_TAKEN) fputs(" taken", stdout);
    else printf(" full %" PRIu64, told.first);
}

static void print_firm(uint64_t now, uint32_t row, uint32_t work, uint32_t within)
{
    static const char *const words[] = {"accepted", "late", "far", "noroom"};
    ss_told told;
    want("firm", ss_firm(&slots, row, work, within, &told));
    printf("%" PRIu64 " firm %" PRIu32 " %" PRIu32 " %" PRIu32 " %s", now, row, work, within,
           words[told.answer]);
    if (told.answer == SS_NO_ROOM) {
        printf(" %" PRIu64 " %" PRIu64 " %" PRIu64, told.first, told.second, told.third);
    }
}

static void print_sporadic(uint64_t now, uint32_t row, const char *name)
{
    uint32_t index;
    ss_told told;
    want("name", ss_sporadic_index(&slots, (const uint8_t *)name, strlen(name), &index));
    want("sporadic", ss_sporadic(&slots, row, index, &told));
    printf("%" PRIu64 " sporadic %" PRIu32 " %s %s %" PRIu64, now, row, name,
           told.answer == SS_TAKEN ? "taken" : "soon", told.first);
}

static void print_done(uint64_t now, uint32_t row, const char *text)
{
    ss_key key = key_of(text);
    ss_told told;
    want("done", ss_done(&slots, row, &key, &told));
    printf("%" PRIu64 " done %" PRIu32 " %s", now, row, text);
    if (told.answer == SS_FREED) printf(" freed %" PRIu64, told.first);
    else fputs(" notrunning", stdout);
}

static void print_withdraw(uint64_t now, uint32_t row, uint32_t firm)
{
    ss_told told;
    want("withdraw", ss_withdraw(&slots, row, firm, &told));
    printf("%" PRIu64 " withdraw %" PRIu32 " firm:%" PRIu32, now, row, firm);
    if (told.answer == SS_FREED) printf(" freed %" PRIu64, told.first);
    else fputs(" nojob", stdout);
}

static uint32_t number_of(const char *text)
{
    return (uint32_t)strtoul(text, NULL, 10);
}

/* Answers the arrival of this row, whose words are its slot, its kind and what follows. */
static void print_arrival(uint64_t now, uint32_t row, char *const words[4])
{
    const char *kind = words[1];
    if (strcmp(kind, "soft") == 0) print_soft(now, row, number_of(words[2]));
    else if (strcmp(kind, "firm") == 0)
        print_firm(now, row, number_of(words[2]), number_of(words[3]));
    else if (strcmp(kind, "sporadic") == 0) print_sporadic(now, row, words[2]);
    else if (strcmp(kind, "done") == 0) print_done(now, row, words[2]);
    else if (strcmp(kind, "withdraw") == 0) print_withdraw(now, row, number_of(words[2]));
    else quit(kind, 0);
    print_spans();
}

static void print_slot(uint64_t now)
{
    ss_key ran;
    char text[SS_KEY_TEXT + 1];
    want("slot", ss_slot(&slots, &ran));
    printf("%" PRIu64, now);
    if (ran.kind == SS_NONE) fputs(" idle", stdout);
    else if (key_text(&ran, text)) printf(" run %s", text);
    print_spans();
}

/* The words of the next line, which are cut at its commas, or false at the end. */
static bool next_line(char **rest, char *words[4])
{
    char *line = strsep(rest, "\r\n");
    int count;
    while (line != NULL && *line == 0) line = strsep(rest, "\r\n");
    for (count = 0; count < 4; count++) words[count] = strsep(&line, ",");
    return words[0] != NULL;
}

int main(int count, char **words)
{
    size_t bytes;
    uint8_t *table, *arrivals;
    char *rest, *fields[4];
    uint32_t row = 1;
    uint64_t now, end;
    ss_told fault;
    bool more;
    if (count != 4) quit("usage: replay TABLE ARRIVALS SLOTS", 0);
    table = read_file(words[1], &bytes);
    want("open", ss_open(&slots, table, bytes, &fault));
    arrivals = read_file(words[2], &bytes);
    rest = (char *)arrivals;
    more = next_line(&rest, fields);
    end = strtoull(words[3], NULL, 10);
    fputs("0 start", stdout);
    print_spans();
    for (now = 0; now < end; now++) {
        for (; more && strtoull(fields[0], NULL, 10) == now; more = next_line(&rest, fields)) {
            print_arrival(now, row++, fields);
        }
        print_slot(now);
    }
    printf("%" PRIu64 " end\n", now);
    want("close", ss_close(&slots));
    free(table);
    free(arrivals);
    return 0;
}
