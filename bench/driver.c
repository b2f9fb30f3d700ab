/* The library called from C, for bench/src/driver.rs: reads requests from
 * standard input and answers each on standard output. Every field of an answer
 * is read by the name that include/cabinet.h gives it, so that a header that
 * names another field than the library fills shows.
 *
 * Requests and answers are numbers of 64 bits, as the machine has them, and
 * bytes. A request begins with its kind. */
#include <stdint.h>
#include <stdio.h>
#include <stdlib.h>
#include <string.h>

#include "cabinet.h"

enum kind {
    DELIVERY,
    MONTH,
    READINGS,
    EACH_READING,
    EMPTY,
    FEET_MONTH,
    FEET_HOURS,
    EACH_FEET_HOUR
};

/* The memory that is lent: it has room around a book, for bytes that must stay. */
#define UNTOUCHED 0xa5
#define AROUND_A_BOOK (CABINET_BOOK_BYTES + 2 * CABINET_RECORD_BYTES)
#define LENT_BYTES (2 * AROUND_A_BOOK)
#define SLOTS (CABINET_BOOK_BYTES / CABINET_RECORD_BYTES)

static uint8_t lent[LENT_BYTES];

static void fail(const char *what)
{
    fprintf(stderr, "driver: %s\n", what);
    exit(1);
}

static void take(void *bytes, size_t count)
{
    if (count > 0 && fread(bytes, 1, count, stdin) != count)
        fail("a request that is cut short");
}

static uint64_t number(void)
{
    uint64_t taken;
    take(&taken, sizeof taken);
    return taken;
}

/* So many things of a size, of the request; never of no bytes, so that a slice
 * of none has a place too. */
static void *things(uint64_t count, size_t size)
{
    void *room = malloc(count * size + 1);
    if (room == NULL)
        fail("no memory");
    take(room, count * size);
    return room;
}

static void answer(uint64_t told)
{
    if (fwrite(&told, sizeof told, 1, stdout) != 1)
        fail("an answer that cannot be written");
}

/* What stands at a place, mixed so that a sum over places tells any two apart
 * by which one differs. */
static uint64_t mixed(uint64_t place, uint64_t word)
{
    uint64_t mix = (word ^ place * UINT64_C(0x9e3779b97f4a7c15)) * UINT64_C(0xbf58476d1ce4e5b9);
    mix = (mix ^ mix >> 32) * UINT64_C(0x94d049bb133111eb);
    return mix ^ mix >> 29;
}

static uint64_t lent_digest(size_t bytes)
{
    uint64_t digest = 0;
    for (size_t at = 0; at < bytes; at += sizeof(uint64_t)) {
        uint64_t word;
        memcpy(&word, lent + at, sizeof word);
        digest += mixed(at, word);
    }
    return digest;
}

/* How many slots of the book differ from those before, and the first one that
 * does. */
static void answer_changes(const uint8_t *book, uint8_t *before)
{
    uint64_t changed = 0;
    uint64_t first = 0;
    for (size_t slot = SLOTS; slot-- > 0;) {
        size_t at = slot * CABINET_RECORD_BYTES;
        if (memcmp(book + at, before + at, CABINET_RECORD_BYTES) != 0) {
            changed++;
            first = slot;
            memcpy(before + at, book + at, CABINET_RECORD_BYTES);
        }
    }
    answer(changed);
    answer(first);
}

static void answer_year(const uint8_t *book, uint64_t asked)
{
    struct cabinet_year year = cabinet_year(book, CABINET_BOOK_BYTES, asked);
    answer(year.number);
    answer(year.place);
    answer(year.entered);
    answer(year.degraded);
    answer(year.removed);
    answer(year.carried);
    answer(year.baseline);
    answer(year.project_methane);
    answer(year.metered);
    answer((uint64_t)year.net);
    answer(year.credited);
}

static uint64_t sum(const uint64_t *numbers, uint64_t count)
{
    uint64_t sum = 0;
    for (uint64_t at = 0; at < count; at++)
        sum += numbers[at];
    return sum;
}

/* Records of any lengths posted to an empty book, past the refusals; then
 * years of it, and a digest of the book and the bytes around it. Where it is
 * watched, what each record changed. */
static void delivery(void)
{
    static uint8_t before[CABINET_BOOK_BYTES];
    uint8_t *book = lent + number();
    uint64_t watched = number();
    uint64_t pieces = number();
    uint64_t years = number();
    uint64_t *lengths = things(pieces, sizeof *lengths);
    uint64_t *asked = things(years, sizeof *asked);
    uint8_t *bytes = things(sum(lengths, pieces), sizeof *bytes);
    const uint8_t *record = bytes;

    memset(lent, UNTOUCHED, AROUND_A_BOOK);
    if (!cabinet_empty(book, CABINET_BOOK_BYTES))
        fail("memory of a book's size is not made a book");
    memcpy(before, book, sizeof before);
    for (uint64_t piece = 0; piece < pieces; piece++) {
        struct cabinet_posted posted =
            cabinet_post(book, CABINET_BOOK_BYTES, record, lengths[piece]);
        answer(posted.number);
        answer(posted.place);
        if (watched)
            answer_changes(book, before);
        record += lengths[piece];
    }
    for (uint64_t year = 0; year < years; year++)
        answer_year(book, asked[year]);
    answer(lent_digest(AROUND_A_BOOK));
    free(lengths);
    free(asked);
    free(bytes);
}

static void answer_month(struct cabinet_month month)
{
    answer(month.number);
    answer(month.place);
    answer(month.destroyed);
}

static void month(void)
{
    uint64_t flow_count = number();
    uint64_t content_count = number();
    uint64_t state_count = number();
    uint32_t efficiency = (uint32_t)number();
    float *flows = things(flow_count, sizeof *flows);
    float *contents = things(content_count, sizeof *contents);
    uint8_t *states = things(state_count, sizeof *states);
    answer_month(cabinet_month(flows, flow_count, contents, content_count, states, state_count,
                               efficiency));
    free(flows);
    free(contents);
    free(states);
}

static void feet_month(void)
{
    uint64_t flow_count = number();
    uint64_t content_count = number();
    uint64_t temperature_count = number();
    uint64_t pressure_count = number();
    uint64_t state_count = number();
    uint32_t efficiency = (uint32_t)number();
    float *flows = things(flow_count, sizeof *flows);
    float *contents = things(content_count, sizeof *contents);
    float *temperatures = things(temperature_count, sizeof *temperatures);
    float *pressures = things(pressure_count, sizeof *pressures);
    uint8_t *states = things(state_count, sizeof *states);
    answer_month(cabinet_feet_month(flows, flow_count, contents, content_count, temperatures,
                                    temperature_count, pressures, pressure_count, states,
                                    state_count, efficiency));
    free(flows);
    free(contents);
    free(temperatures);
    free(pressures);
    free(states);
}

/* Patterns of a float, from one on by steps: what each counts as a flow and as
 * a content, one by one or as a digest. */
static void readings(enum kind kind)
{
    uint32_t pattern = (uint32_t)number();
    uint32_t step = (uint32_t)number();
    uint64_t count = number();
    uint64_t digest = 0;
    for (uint64_t done = 0; done < count; done++, pattern += step) {
        float value;
        memcpy(&value, &pattern, sizeof value);
        struct cabinet_reading flow = cabinet_litres(value);
        struct cabinet_reading content = cabinet_hundredths(value);
        if (kind == EACH_READING) {
            answer(flow.taken);
            answer(flow.whole);
            answer(content.taken);
            answer(content.whole);
        } else {
            digest += mixed(UINT64_C(2) * pattern, 2 * flow.whole + flow.taken);
            digest += mixed(UINT64_C(2) * pattern + 1, 2 * content.whole + content.taken);
        }
    }
    if (kind == READINGS)
        answer(digest);
}

/* An hour in cubic feet in one number: a flow that the rules can give is below
 * 2^37, so that no field runs into the next. */
static uint64_t word_of(struct cabinet_feet_hour hour)
{
    return hour.taken + UINT64_C(2) * hour.has_flow + UINT64_C(4) * hour.has_content +
           8 * hour.flow + (hour.content << 40);
}

static void answer_hour(struct cabinet_feet_hour hour)
{
    answer(hour.taken);
    answer(hour.has_flow);
    answer(hour.has_content);
    answer(hour.flow);
    answer(hour.content);
}

/* Patterns of a float, from one on by steps, each tried in hours in cubic feet,
 * one by one or as a digest: as a flow, as a temperature and as a pressure, with
 * the others such that a corrected flow tells any two apart, and the pattern as a
 * content that is missing. */
static void feet_hours(enum kind kind)
{
    enum { NO_CONTENT = 2, HOURS = 3 };
    const float most_flow = 400000;
    const float least_temperature = 400;
    const float most_pressure = 10;
    uint32_t pattern = (uint32_t)number();
    uint32_t step = (uint32_t)number();
    uint64_t count = number();
    uint64_t digest = 0;
    for (uint64_t done = 0; done < count; done++, pattern += step) {
        float value;
        memcpy(&value, &pattern, sizeof value);
        const struct cabinet_feet_hour hours[HOURS] = {
            cabinet_feet_hour(value, value, least_temperature, most_pressure, NO_CONTENT),
            cabinet_feet_hour(most_flow, value, value, most_pressure, NO_CONTENT),
            cabinet_feet_hour(most_flow, value, least_temperature, value, NO_CONTENT),
        };
        for (uint64_t hour = 0; hour < HOURS; hour++) {
            if (kind == EACH_FEET_HOUR)
                answer_hour(hours[hour]);
            else
                digest += mixed(HOURS * (uint64_t)pattern + hour, word_of(hours[hour]));
        }
    }
    if (kind == FEET_HOURS)
        answer(digest);
}

/* Whether lent memory was made a book, and a digest of all of it. */
static void empty(void)
{
    uint64_t offset = number();
    uint64_t bytes = number();
    memset(lent, UNTOUCHED, sizeof lent);
    answer(cabinet_empty(lent + offset, bytes));
    answer(lent_digest(LENT_BYTES));
}

int main(void)
{
    uint64_t kind;
    while (fread(&kind, sizeof kind, 1, stdin) == 1) {
        switch (kind) {
        case DELIVERY:
            delivery();
            break;
        case MONTH:
            month();
            break;
        case READINGS:
        case EACH_READING:
            readings((enum kind)kind);
            break;
        case EMPTY:
            empty();
            break;
        case FEET_MONTH:
            feet_month();
            break;
        case FEET_HOURS:
        case EACH_FEET_HOUR:
            feet_hours((enum kind)kind);
            break;
        default:
            fail("a request of no kind");
        }
        if (fflush(stdout) != 0)
            fail("an answer that cannot be written");
    }
    return ferror(stdin) ? 1 : 0;
}
