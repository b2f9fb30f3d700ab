/* Every function of include/cabinet.h called from C, and every field of every
 * answer held to the papers' figures: on 01's worked example, which stands on
 * standard input, record by record. Says each that differs, and then ends with
 * status 1. */
#include <stdio.h>
#include <string.h>

#include "cabinet.h"
#include "hours.h"
#include "mt_record.h"

#define EFFICIENCY 10000
#define HOUR_GRAMS 40800 /* of flow 100.0 and content 60.0 */
#define FEET_HOUR_GRAMS 1152 /* of 100.0 cubic feet and content 60.0 at 520 degrees and 1 atm */

#define MOST_RECORDS 100

static uint8_t book[CABINET_BOOK_BYTES];
static uint8_t records[MOST_RECORDS][CABINET_RECORD_BYTES];
static size_t record_count;
static int faults;

static void is(const char *what, long long told, long long right)
{
    if (told != right) {
        fprintf(stderr, "tests/face.c: %s is %lld and should be %lld\n", what, told, right);
        faults++;
    }
}

#define IS(told, right) is(#told, (long long)(told), (right))

/* Posts a record, and looks at every byte of the book: a record refused leaves
 * it as it was, one taken changes sixteen bytes to those that are kept of it. */
static void posts_and_keeps(const uint8_t *record, size_t bytes, const uint8_t *kept,
                            long long number, long long place)
{
    static uint8_t before[CABINET_BOOK_BYTES];
    memcpy(before, book, sizeof book);
    struct cabinet_posted posted = cabinet_post(book, sizeof book, record, bytes);
    IS(posted.number, number);
    IS(posted.place, place);
    size_t at = 0;
    while (at < sizeof book && book[at] == before[at])
        at++;
    IS(at == sizeof book, number != 0);
    if (at < sizeof book) {
        IS(at % CABINET_RECORD_BYTES, 0);
        IS(memcmp(book + at, kept, CABINET_RECORD_BYTES), 0);
        at += CABINET_RECORD_BYTES;
    }
    IS(memcmp(book + at, before + at, sizeof book - at), 0);
}

static void posts(const uint8_t *record, size_t bytes, long long number, long long place)
{
    posts_and_keeps(record, bytes, record, number, place);
}

static void empties(void)
{
    static uint8_t memory[CABINET_BOOK_BYTES + 1];
    memset(memory, 0xa5, sizeof memory);
    IS(cabinet_empty(memory, sizeof memory), false);
    IS(cabinet_empty(memory, CABINET_BOOK_BYTES - 1), false);
    for (size_t at = 0; at < sizeof memory; at++)
        IS(memory[at], 0xa5);
    IS(cabinet_empty(memory, CABINET_BOOK_BYTES), true);
    IS(memory[CABINET_BOOK_BYTES], 0xa5);
    memset(book, 0xa5, sizeof book);
    IS(cabinet_empty(book, sizeof book), true);
    IS(memcmp(book, memory, sizeof book), 0);
}

/* 01's worked example, with so many times 65,536 kilograms more of project CO2
 * in each month. */
static void post_worked_example(uint8_t more_project_co2)
{
    IS(cabinet_empty(book, sizeof book), true);
    for (size_t at = 0; at < record_count; at++) {
        uint8_t record[CABINET_RECORD_BYTES];
        memcpy(record, records[at], sizeof record);
        if (memcmp(record, "PE", 2) == 0)
            record[14] = more_project_co2;
        posts(record, sizeof record, 0, 0);
    }
}

static void year_is_refused(uint64_t asked, long long number, long long place)
{
    struct cabinet_year year = cabinet_year(book, sizeof book, asked);
    IS(year.number, number);
    IS(year.place, place);
    IS(year.entered, 0);
    IS(year.degraded, 0);
    IS(year.removed, 0);
    IS(year.carried, 0);
    IS(year.baseline, 0);
    IS(year.project_methane, 0);
    IS(year.metered, 0);
    IS(year.net, 0);
    IS(year.credited, 0);
}

static void worked_year_is(long long metered, long long net, long long credited)
{
    struct cabinet_year year = cabinet_year(book, sizeof book, 1);
    IS(year.number, 0);
    IS(year.place, 0);
    IS(year.entered, 175200000);
    IS(year.degraded, 175200000);
    IS(year.removed, 0);
    IS(year.carried, 0);
    IS(year.baseline, 600445440);
    IS(year.project_methane, 12000000);
    IS(year.metered, metered);
    IS(year.net, net);
    IS(year.credited, credited);
}

static void records_are_refused(void)
{
    const uint8_t head[] = {'H', 'D', 1, 120, 0xa0, 0x86, 1, 0, 0, 0, 0, 0, 0, 0, 0, 0, 0};
    uint8_t wrong[CABINET_RECORD_BYTES];
    posts(head, 0, 1, 0);
    posts(head, CABINET_RECORD_BYTES - 1, 1, 0);
    posts(head, CABINET_RECORD_BYTES + 1, 1, 0);
    memcpy(wrong, head, sizeof wrong);
    wrong[1] = 'E';
    posts(wrong, sizeof wrong, 2, 0);
    memcpy(wrong, head, sizeof wrong);
    wrong[9] = 1;
    wrong[15] = 1;
    posts(wrong, sizeof wrong, 3, 9);
    memcpy(wrong, head, sizeof wrong);
    wrong[4]++; /* 100,001 head */
    posts(wrong, sizeof wrong, 4, 4);
    wrong[3] = 121;
    posts(wrong, sizeof wrong, 4, 3);
    posts(head, CABINET_RECORD_BYTES, 0, 0);
    posts(head, CABINET_RECORD_BYTES, 5, 0);
}

/* Paper 02, (i): an LD, here of heifers in California, is kept as the LN with
 * the protocol's 476 kg, 7.42 kg a day for 1,000 kg, and B0 0.17. */
static void line_by_livestock(void)
{
    const uint8_t heifers[] = {'L', 'D', 3, 1, 2, 3, 5, 0, 0x10, 0x27, 0x96, 0, 0, 0, 0, 0};
    const uint8_t line[] = {'L', 'N', 3, 1, 2, 0, 0xe6, 2, 0x98, 0x12, 0x10, 0x27, 17, 0, 0x96, 0};
    uint8_t wrong[CABINET_RECORD_BYTES];
    memcpy(wrong, heifers, sizeof wrong);
    wrong[6] = 51; /* one state more than there are */
    posts(wrong, sizeof wrong, 4, 6);
    wrong[5] = 11; /* one livestock more */
    posts(wrong, sizeof wrong, 4, 5);
    wrong[7] = 1;
    posts(wrong, sizeof wrong, 3, 7);
    posts_and_keeps(heifers, sizeof heifers, line, 0, 0);
    posts(heifers, sizeof heifers, 5, 0);
    posts(line, sizeof line, 5, 0);
}

/* Hours 10 on up to another have no flow; the last hour has a flow of its own. */
static struct cabinet_month month_of(size_t count, size_t last_without_flow, float last_flow,
                                     uint32_t efficiency)
{
    static struct hours hours;
    read_hours(&hours, last_without_flow, NO_FLOW);
    hours.flows[HOURS - 1] = last_flow;
    return cabinet_month(hours.flows, count, hours.contents, HOURS, hours.states, HOURS,
                         efficiency);
}

static void month_is_refused(struct cabinet_month month, long long number, long long place)
{
    uint8_t record[CABINET_RECORD_BYTES] = {0};
    const uint8_t nothing[CABINET_RECORD_BYTES] = {0};
    IS(month.number, number);
    IS(month.place, place);
    IS(month.destroyed, 0);
    IS(mt_record(month, 1, 1, record), false);
    IS(memcmp(record, nothing, sizeof record), 0);
}

static void months(void)
{
    struct cabinet_month filled = month_of(HOURS, 14, 100.0f, EFFICIENCY);
    IS(filled.number, 0);
    IS(filled.place, 0);
    IS(filled.destroyed, 27417600);
    IS(month_of(HOURS, 15, 100.0f, EFFICIENCY).destroyed, 27172800);
    IS(month_of(HOURS, 14, 200.0f, EFFICIENCY).destroyed, 27417600 + HOUR_GRAMS);
    IS(month_of(HOURS, 14, 100.0f, 9800).destroyed, HOURS * (HOUR_GRAMS * 98 / 100));
    month_is_refused(month_of(HOURS - 1, 14, 100.0f, EFFICIENCY), 10, 0);
    month_is_refused(month_of(HOURS, 14, -1.0f, EFFICIENCY + 1), 4, 0);
    month_is_refused(month_of(HOURS, 14, 100.0f, UINT32_C(0x10000)), 4, 0);
    month_is_refused(month_of(HOURS, 14, -1.0f, EFFICIENCY), 11, HOURS - 1);
}

/* Paper 02, (iii): hours 10 on up to another have no temperature or no
 * pressure; the last hour has readings of its own. */
static struct cabinet_month feet_month_of(size_t count, size_t last_not_corrected,
                                          float last_temperature, float last_pressure,
                                          uint32_t efficiency)
{
    static struct hours hours;
    read_hours(&hours, last_not_corrected, NOT_CORRECTED);
    hours.temperatures[HOURS - 1] = last_temperature;
    hours.pressures[HOURS - 1] = last_pressure;
    return cabinet_feet_month(hours.flows, HOURS, hours.contents, HOURS, hours.temperatures, HOURS,
                              hours.pressures, count, hours.states, HOURS, efficiency);
}

static void feet_months(void)
{
    struct cabinet_month filled = feet_month_of(HOURS, 14, 520.0f, 1.0f, EFFICIENCY);
    IS(filled.number, 0);
    IS(filled.place, 0);
    IS(filled.destroyed, HOURS * FEET_HOUR_GRAMS);
    IS(feet_month_of(HOURS, 15, 520.0f, 1.0f, EFFICIENCY).destroyed, (HOURS - 6) * FEET_HOUR_GRAMS);
    IS(feet_month_of(HOURS, 14, 520.0f, 2.5f, EFFICIENCY).destroyed,
       (HOURS - 1) * FEET_HOUR_GRAMS + 2880);
    month_is_refused(feet_month_of(HOURS - 1, 14, 520.0f, 1.0f, EFFICIENCY), 10, 0);
    month_is_refused(feet_month_of(HOURS, 14, 60.0f, 1.0f, EFFICIENCY + 1), 4, 0);
    month_is_refused(feet_month_of(HOURS, 14, 60.0f, 1.0f, EFFICIENCY), 11, HOURS - 1);
    month_is_refused(feet_month_of(HOURS, 14, 520.0f, -0.5f, EFFICIENCY), 11, HOURS - 1);
}

static void feet_hour_is(struct cabinet_feet_hour hour, bool taken, bool has_flow, bool has_content,
                         long long flow, long long content)
{
    IS(hour.taken, taken);
    IS(hour.has_flow, has_flow);
    IS(hour.has_content, has_content);
    IS(hour.flow, flow);
    IS(hour.content, content);
}

static void feet_hours(void)
{
    feet_hour_is(cabinet_feet_hour(100.0f, 60.0f, 520.0f, 1.0f, 0), true, true, true, 10000, 6000);
    feet_hour_is(cabinet_feet_hour(100.0f, 60.0f, 520.0f, 2.5f, 4), true, true, true, 25000, 6000);
    feet_hour_is(cabinet_feet_hour(400000.0f, 60.0f, 519.99f, 1.0f, 0), true, true, true, 40001538,
                 6000);
    feet_hour_is(cabinet_feet_hour(-1.0f, 60.0f, 520.0f, 1.0f, 1), true, false, true, 0, 6000);
    feet_hour_is(cabinet_feet_hour(100.0f, -1.0f, 520.0f, 1.0f, 2), true, true, false, 10000, 0);
    feet_hour_is(cabinet_feet_hour(-1.0f, 60.0f, -1.0f, -1.0f, 8), true, false, true, 0, 6000);
    feet_hour_is(cabinet_feet_hour(-1.0f, -1.0f, -1.0f, -1.0f, 15), true, false, false, 0, 0);
    feet_hour_is(cabinet_feet_hour(100.0f, 60.0f, 520.0f, 1.0f, 16), false, false, false, 0, 0);
    feet_hour_is(cabinet_feet_hour(400001.0f, 60.0f, 520.0f, 1.0f, 0), false, false, false, 0, 0);
    feet_hour_is(cabinet_feet_hour(100.0f, 60.0f, 60.0f, 1.0f, 1), false, false, false, 0, 0);
}

static void reading_is(struct cabinet_reading reading, bool taken, long long whole)
{
    IS(reading.taken, taken);
    IS(reading.whole, whole);
}

static void readings(void)
{
    reading_is(cabinet_litres(100.0f), true, 100000);
    reading_is(cabinet_litres(100000.0f), true, 100000000);
    reading_is(cabinet_litres(100001.0f), false, 0);
    reading_is(cabinet_litres(-1.0f), false, 0);
    reading_is(cabinet_hundredths(60.1f), true, 6009);
    reading_is(cabinet_hundredths(100.0f), true, 10000);
    reading_is(cabinet_hundredths(101.0f), false, 0);
}

/* A month's grams, as an MT record of a second device, are in the year. */
static void month_into_book(void)
{
    uint8_t record[CABINET_RECORD_BYTES];
    struct cabinet_month month = month_of(HOURS, 14, 100.0f, EFFICIENCY);
    const long long destroyed_before = 12LL * 2000000;
    worked_year_is(21 * destroyed_before, 498, 498);
    memset(record, 0xa5, sizeof record);
    IS(mt_record(month, 12, 2, record), true);
    posts(record, sizeof record, 0, 0);
    worked_year_is(21 * (destroyed_before + 27417600), 582, 582);
}

static void years(void)
{
    const uint8_t second_line[] = {'L', 'N', 2, 0, 1, 0, 0, 0, 0, 0, 1, 0, 0, 0, 0, 0};
    year_is_refused(0, 9, 0);
    year_is_refused(11, 9, 0);
    year_is_refused((UINT64_C(1) << 32) + 1, 9, 0);
    year_is_refused(UINT64_MAX, 9, 0);
    year_is_refused(1, 8, 0);
    post_worked_example(16); /* a total of -12,084,912,000 grams */
    worked_year_is(504000000, -12085, 0);
    post_worked_example(0);
    year_is_refused(2, 8, 13);
    month_into_book();
    posts(second_line, sizeof second_line, 0, 0); /* one ten-thousandth more than the whole */
    year_is_refused(1, 7, 1);
}

int main(void)
{
    record_count = fread(records, CABINET_RECORD_BYTES, MOST_RECORDS, stdin);
    empties();
    readings();
    months();
    feet_hours();
    feet_months();
    years();
    records_are_refused();
    line_by_livestock();
    return faults > 0;
}
