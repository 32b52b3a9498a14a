/* Tries the calls over a table with a sporadic task: the version, each status, tables that end too
 * early or too late, each allocation of ss_open refused, and 100,000 slots with arrivals of every
 * kind, in which nothing is allocated, and as many looks ahead.
 * usage: trial TABLE */
#include "common.h"
#include "counting.h"

#include <string.h>

enum { SLOTS = 100000 };

static ss_slots slots;
static uint8_t table[4194304];
static size_t bytes;
static ss_told told;
static ss_key key;

/* The library is of the version of the header, and writes its text alone. */
static void version(void)
{
    enum { LONG = sizeof SS_VERSION - 1 };
    uint8_t text[LONG + 1], nine[LONG + 1];
    size_t length = 77;
    memset(text, 9, sizeof text);
    memset(nine, 9, sizeof nine);
    HOLDS(ss_version(text, LONG - 1, &length) == SS_BAD_NUMBER);
    HOLDS(length == 77 && memcmp(text, nine, sizeof text) == 0);
    HOLDS(ss_version(text, LONG, &length) == SS_OK && length == LONG);
    HOLDS(memcmp(text, SS_VERSION, LONG) == 0 && text[LONG] == 9);
    length = 0;
    HOLDS(ss_version(text, sizeof text, &length) == SS_OK && length == LONG && text[LONG] == 9);
}

static void closed_handle(void)
{
    static uint8_t text[SS_KEY_TEXT];
    uint64_t now;
    uint32_t number;
    size_t length;
    ss_span span;
    HOLDS(ss_close(&slots) == SS_CLOSED);
    HOLDS(ss_now(&slots, &now) == SS_CLOSED);
    HOLDS(ss_last_row(&slots, &number) == SS_CLOSED);
    HOLDS(ss_soft(&slots, 1, 1, &told) == SS_CLOSED);
    HOLDS(ss_firm(&slots, 1, 1, 1, &told) == SS_CLOSED);
    HOLDS(ss_sporadic(&slots, 1, 0, &told) == SS_CLOSED);
    HOLDS(ss_done(&slots, 1, &key, &told) == SS_CLOSED);
    HOLDS(ss_withdraw(&slots, 1, 1, &told) == SS_CLOSED);
    HOLDS(ss_slot(&slots, &key) == SS_CLOSED);
    HOLDS(ss_ahead(&slots, 1, &key, &number) == SS_CLOSED);
    HOLDS(ss_pass(&slots, 1, &number) == SS_CLOSED);
    HOLDS(ss_span_count(&slots, &number) == SS_CLOSED);
    HOLDS(ss_get_span(&slots, 0, &span) == SS_CLOSED);
    HOLDS(ss_key_text(&slots, &key, text, sizeof text, &length) == SS_CLOSED);
    HOLDS(ss_sporadic_index(&slots, text, 1, &number) == SS_CLOSED);
}

/* Whether the first bytes of the table are told as short, in a block that has no more. */
static bool is_short(size_t cut)
{
    uint8_t *front = malloc(cut != 0 ? cut : 1);
    uint32_t status;
    if (front == NULL) return false;
    memcpy(front, table, cut);
    told.answer = 0;
    status = ss_open(&slots, front, cut, &told);
    free(front);
    return status == SS_BAD_TABLE && told.answer == 2 && told.first == cut;
}

static void wrong_tables(void)
{
    size_t cut = 0;
    while (cut < bytes && is_short(cut)) cut++;
    HOLDS(cut == bytes);
    HOLDS(ss_open(&slots, table, bytes + 1, &told) == SS_BAD_TABLE);
    HOLDS(told.answer == 11 && told.first == bytes && told.second == 0 && told.third == 0);
    table[4] = 9;
    HOLDS(ss_open(&slots, table, bytes, &told) == SS_BAD_TABLE);
    HOLDS(told.answer == 4 && told.first == 9);
    table[4] = 2;
    HOLDS(!slots.open && heap_blocks == 0);
}

/* Refuses each allocation of ss_open in turn, and leaves it open. */
static unsigned long refused_allocations(void)
{
    unsigned long count = 0;
    for (;;) {
        uint32_t status;
        heap_calls = 0;
        heap_refuse = count + 1;
        status = ss_open(&slots, table, bytes, &told);
        if (heap_calls < heap_refuse) {
            HOLDS(status == SS_OK && slots.open && heap_blocks > 0);
            heap_refuse = 0;
            return count;
        }
        HOLDS(status == SS_MEMORY && !slots.open && heap_blocks == 0);
        count++;
    }
}

static void wrong_numbers(void)
{
    static const uint8_t no_name[] = "no-such-name";
    uint8_t text[SS_KEY_TEXT];
    uint32_t count, index = 77;
    size_t length;
    ss_span span;
    ss_key none = {SS_NONE, 0, 0, 0}, far = {SS_OFFLINE, 65536, 0, 0}, odd = {SS_FIRM, 1, 0, 1};
    ss_key unknown = {SS_OFFLINE, 40, 0, 0}, first = {SS_OFFLINE, 0, 0, 0};
    told.answer = 77;
    HOLDS(ss_open(&slots, table, 3, &told) == SS_STILL_OPEN && told.answer == 77);
    HOLDS(ss_firm(&slots, 0, 1, 1, &told) == SS_BAD_ROW);
    HOLDS(ss_firm(&slots, 1, 0, 1, &told) == SS_BAD_NUMBER);
    HOLDS(ss_firm(&slots, 1, SS_OFFER_LIMIT + 1, 1, &told) == SS_BAD_NUMBER);
    HOLDS(ss_firm(&slots, 1, 1, SS_OFFER_LIMIT + 1, &told) == SS_BAD_NUMBER);
    HOLDS(ss_soft(&slots, 1, 0, &told) == SS_BAD_NUMBER);
    HOLDS(ss_soft(&slots, 1, SS_OFFER_LIMIT + 1, &told) == SS_BAD_NUMBER);
    HOLDS(ss_sporadic(&slots, 1, 8, &told) == SS_BAD_NUMBER);
    HOLDS(ss_sporadic(&slots, 1, 256, &told) == SS_BAD_NUMBER);
    HOLDS(ss_done(&slots, 1, &none, &told) == SS_BAD_NUMBER);
    HOLDS(ss_done(&slots, 1, &far, &told) == SS_BAD_NUMBER);
    HOLDS(ss_done(&slots, 1, &odd, &told) == SS_BAD_NUMBER);
    HOLDS(ss_span_count(&slots, &count) == SS_OK);
    HOLDS(ss_get_span(&slots, count, &span) == SS_BAD_NUMBER);
    HOLDS(ss_key_text(&slots, &unknown, text, sizeof text, &length) == SS_BAD_NUMBER);
    HOLDS(ss_key_text(&slots, &first, text, 1, &length) == SS_BAD_NUMBER);
    HOLDS(ss_key_text(&slots, &first, text, sizeof text, &length) == SS_OK && length > 1);
    HOLDS(ss_sporadic_index(&slots, no_name, sizeof no_name - 1, &index) == SS_BAD_NUMBER);
    HOLDS(ss_ahead(&slots, 0, &none, &index) == SS_BAD_NUMBER);
    HOLDS(ss_pass(&slots, 0, &index) == SS_BAD_NUMBER);
    HOLDS(index == 77 && none.kind == SS_NONE);
    HOLDS(ss_last_row(&slots, &count) == SS_OK && count == 0);
    HOLDS(ss_withdraw(&slots, count, 1, &told) == SS_OK && told.answer == SS_NO_JOB);
}

/* How often each answer came: soft, firm, sporadic, early end, withdrawal. */
static unsigned long answers[5][4];

static void arrive(uint32_t row, const ss_key *ran)
{
    uint32_t kind = below(5);
    switch (kind) {
    case 0: HOLDS(ss_soft(&slots, row, 1 + below(9), &told) == SS_OK); break;
    case 1: HOLDS(ss_firm(&slots, row, 1 + below(6), below(60), &told) == SS_OK); break;
    case 2: HOLDS(ss_sporadic(&slots, row, 0, &told) == SS_OK); break;
    case 3: if (ran->kind == SS_NONE) return;
            HOLDS(ss_done(&slots, row, ran, &told) == SS_OK);
            break;
    default: HOLDS(ss_withdraw(&slots, row, row - 1 - below(row < 9 ? row : 9), &told) == SS_OK);
    }
    answers[kind][told.answer]++;
}

/* 100,000 slots, with an arrival in every third on average. Each answer comes. */
static void many_slots(void)
{
    uint32_t slot, row = 0;
    uint64_t now;
    unsigned long calls = heap_calls, blocks = heap_blocks;
    memset(&key, 0, sizeof key);
    for (slot = 0; slot < SLOTS; slot++) {
        while (below(4) == 0) arrive(++row, &key);
        HOLDS(ss_slot(&slots, &key) == SS_OK);
    }
    HOLDS(ss_now(&slots, &now) == SS_OK && now == SLOTS);
    HOLDS(heap_calls == calls && heap_blocks == blocks);
    HOLDS(answers[0][0] && answers[0][1]);
    HOLDS(answers[1][0] && answers[1][1] && answers[1][2] && answers[1][3]);
    HOLDS(answers[2][0] && answers[2][1]);
    HOLDS(answers[3][0] && answers[3][1]);
    HOLDS(answers[4][0] && answers[4][1]);
}

static bool same_key(const ss_key *a, const ss_key *b)
{
    return a->kind == b->kind && a->group == b->group && a->task == b->task
        && a->number == b->number;
}

/* What is told ahead of slots, at most `most`, runs in them, and ss_pass passes no fewer. */
static void told_ahead(uint32_t most, bool at_once)
{
    ss_key first, next;
    uint32_t count, passed, slot;
    HOLDS(ss_ahead(&slots, most, &first, &count) == SS_OK && count >= 1 && count <= most);
    if (at_once) {
        HOLDS(ss_pass(&slots, most, &passed) == SS_OK && passed >= count && passed <= most);
        HOLDS(ss_ahead(&slots, 1, &next, &count) == SS_OK && count == 1);
        HOLDS(passed == most || !same_key(&first, &next));
    } else {
        for (slot = 0; slot < count; slot++)
            HOLDS(ss_slot(&slots, &next) == SS_OK && same_key(&first, &next));
    }
    key = first;
}

/* The same over and over, with arrivals between, of which the keys are those that ran. */
static void many_looks(void)
{
    uint32_t look, row;
    HOLDS(ss_last_row(&slots, &row) == SS_OK);
    for (look = 0; look < SLOTS; look++) {
        while (below(3) == 0) arrive(++row, &key);
        told_ahead(1 + below(90), below(2) == 0);
    }
}

int main(int count, char **words)
{
    unsigned long allocations, blocks;
    if (count != 2) return 2;
    bytes = read_table(words[1], table, sizeof table - 1);
    version();
    closed_handle();
    wrong_tables();
    allocations = refused_allocations();
    blocks = heap_blocks;
    wrong_numbers();
    many_slots();
    many_looks();
    HOLDS(ss_close(&slots) == SS_OK && !slots.open && heap_blocks == 0);
    closed_handle();
    printf("%lu allocations of ss_open, each refused in turn; %lu blocks held, and none allocated "
           "in %d slots; %lu passed, %lu failed\n",
           allocations, blocks, SLOTS, passed, failed);
    return failed == 0 ? 0 : 1;
}
