/* The lines of record.h. They are made without a C library, byte by byte in the record's own
 * line. */
#include "record.h"

static void put_byte(struct record *record, char byte)
{
    if (record->length < RECORD_LINE) record->line[record->length++] = byte;
}

static void put_text(struct record *record, const char *text)
{
    for (; *text != 0; text++) put_byte(record, *text);
}

static void put_number(struct record *record, uint64_t number)
{
    char digits[20];
    int count = 0;
    do {
        digits[count++] = (char)('0' + number % 10);
        number /= 10;
    } while (number > 0);
    while (count > 0) put_byte(record, digits[--count]);
}

/* A number with the byte before it. */
static void put_field(struct record *record, char before, uint64_t number)
{
    put_byte(record, before);
    put_number(record, number);
}

/* The text of a key, up to this byte where it is not 0. */
static void put_key(struct record *record, const ss_key *key, char until)
{
    uint8_t text[SS_KEY_TEXT];
    size_t length = 0, at;
    if (ss_key_text(record->slots, key, text, sizeof text, &length) != SS_OK) return;
    for (at = 0; at < length && (until == 0 || text[at] != (uint8_t)until); at++) {
        put_byte(record, (char)text[at]);
    }
}

static void put_span(struct record *record, const ss_span *span)
{
    put_field(record, ' ', span->start);
    put_field(record, '-', span->end);
    put_byte(record, ':');
    if (span->spare < 0) put_field(record, '-', (uint64_t)-span->spare);
    else put_number(record, (uint64_t)span->spare);
}

/* Hands the line over, after the spans where it has some. */
static void finish(struct record *record, bool has_spans)
{
    uint32_t count = 0, place;
    ss_span span;
    if (has_spans && record->level == RECORD_SPANS) {
        put_text(record, " |");
        (void)ss_span_count(record->slots, &count);
        for (place = 0; place < count && place < RECORD_SHOWN; place++) {
            if (ss_get_span(record->slots, place, &span) == SS_OK) put_span(record, &span);
        }
        if (count > RECORD_SHOWN) {
            put_byte(record, ' ');
            put_field(record, '+', count - RECORD_SHOWN);
        }
    }
    put_byte(record, '\n');
    if (!record->sink(record->line, record->length)) record->lost++;
    record->length = 0;
}

/* Whether this is recorded as a line of the trace; then it begins with the time. */
static bool is_traced(struct record *record)
{
    if (record->level < RECORD_RUNS) return false;
    put_number(record, record->now);
    return true;
}

/* Whether an arrival is recorded at all. It begins with time, kind and, in a trace, its row. */
static bool is_recorded(struct record *record, const char *kind, uint32_t row)
{
    if (record->level == RECORD_NONE) return false;
    put_number(record, record->now);
    put_byte(record, record->level == RECORD_ARRIVALS ? ',' : ' ');
    put_text(record, kind);
    if (record->level != RECORD_ARRIVALS) put_field(record, ' ', row);
    return true;
}

/* Ends an arrival's line: in a trace with the answer and the first few of its numbers. */
static void answer(struct record *record, const char *word, const ss_told *told, int numbers)
{
    if (record->level != RECORD_ARRIVALS) {
        put_text(record, word);
        if (numbers > 0) put_field(record, ' ', told->first);
        if (numbers > 1) put_field(record, ' ', told->second);
        if (numbers > 2) put_field(record, ' ', told->third);
    }
    finish(record, record->level != RECORD_ARRIVALS);
}

/* The byte between the words of a line. */
static char between(const struct record *record)
{
    return record->level == RECORD_ARRIVALS ? ',' : ' ';
}

void record_start(struct record *record)
{
    if (!is_traced(record)) return;
    put_text(record, " start");
    finish(record, true);
}

void record_soft(struct record *record, uint32_t row, uint32_t work, const ss_told *told)
{
    if (!is_recorded(record, "soft", row)) return;
    put_field(record, between(record), work);
    if (told->answer == SS_TAKEN) answer(record, " taken", told, 0);
    else answer(record, " full", told, 1);
}

void record_firm(struct record *record, uint32_t row, uint32_t work, uint32_t within,
                 const ss_told *told)
{
    static const char *const words[] = {" accepted", " late", " far", " noroom"};
    if (!is_recorded(record, "firm", row)) return;
    put_field(record, between(record), work);
    put_field(record, between(record), within);
    answer(record, words[told->answer], told, told->answer == SS_NO_ROOM ? 3 : 0);
}

void record_sporadic(struct record *record, uint32_t row, uint32_t index, const ss_told *told)
{
    ss_key key = {SS_SPORADIC, 0, 0, 0};
    if (!is_recorded(record, "sporadic", row)) return;
    key.group = index;
    key.number = row;
    put_byte(record, between(record));
    put_key(record, &key, '@');
    answer(record, told->answer == SS_TAKEN ? " taken" : " soon", told, 1);
}

void record_done(struct record *record, uint32_t row, const ss_key *key, const ss_told *told)
{
    if (!is_recorded(record, "done", row)) return;
    put_byte(record, between(record));
    put_key(record, key, 0);
    if (told->answer == SS_FREED) answer(record, " freed", told, 1);
    else answer(record, " notrunning", told, 0);
}

void record_withdraw(struct record *record, uint32_t row, uint32_t firm, const ss_told *told)
{
    if (!is_recorded(record, "withdraw", row)) return;
    put_text(record, record->level == RECORD_ARRIVALS ? "," : " firm:");
    put_number(record, firm);
    if (told->answer == SS_FREED) answer(record, " freed", told, 1);
    else answer(record, " nojob", told, 0);
}

void record_slot(struct record *record, const ss_key *ran)
{
    if (is_traced(record)) {
        put_text(record, ran->kind == SS_NONE ? " idle" : " run ");
        if (ran->kind != SS_NONE) put_key(record, ran, 0);
        finish(record, true);
    }
    record->now++;
}

void record_end(struct record *record)
{
    if (!is_traced(record)) return;
    put_text(record, " end");
    finish(record, false);
}

/* The ring: put and taken count bytes for ever, and are published as those of inbox.c. */

bool record_to_ring(struct record_ring *ring, const char *line, size_t length)
{
    uint32_t put = ring->put;
    uint32_t used = put - __atomic_load_n(&ring->taken, __ATOMIC_ACQUIRE);
    size_t at;
    if (length > RECORD_RING - used) return false;
    for (at = 0; at < length; at++) ring->bytes[put++ % RECORD_RING] = line[at];
    __atomic_store_n(&ring->put, put, __ATOMIC_RELEASE);
    return true;
}

size_t record_from_ring(struct record_ring *ring, char *bytes, size_t room)
{
    uint32_t taken = ring->taken;
    uint32_t waits = __atomic_load_n(&ring->put, __ATOMIC_ACQUIRE) - taken;
    size_t count = waits < room ? waits : room, at;
    for (at = 0; at < count; at++) bytes[at] = ring->bytes[taken++ % RECORD_RING];
    __atomic_store_n(&ring->taken, taken, __ATOMIC_RELEASE);
    return count;
}
