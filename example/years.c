/* A cabinet in C: posts the records of standard input and prints the years of
 * the book that they make, as the proved program `years` does; but it goes on
 * after a refusal, as a cabinet does that delivers all its records again after
 * an unclean stop. Before that it weighs two meter months. */
#include <stdio.h>

#include "cabinet.h"
#include "hours.h"

#define EFFICIENCY 10000

static void print_answer(struct cabinet_month month)
{
    if (month.number != 0)
        printf("refused %llu at %llu\n", (unsigned long long)month.number,
               (unsigned long long)month.place);
    else
        printf("destroyed %llu\n", (unsigned long long)month.destroyed);
}

/* 01's figure: 672 hours at 100 cubic metres of 60 per cent, with no flow in
 * hours 10 to 14, which are filled. */
static void print_month(void)
{
    static struct hours hours;
    read_hours(&hours, 14, NO_FLOW);
    print_answer(cabinet_month(hours.flows, HOURS, hours.contents, HOURS, hours.states, HOURS,
                               EFFICIENCY));
}

/* The same of a meter in cubic feet, at 520 degrees Rankine and 1 atm: hours 10
 * to 14 lack their temperature or their pressure, and are filled. */
static void print_feet_month(void)
{
    static struct hours hours;
    read_hours(&hours, 14, NOT_CORRECTED);
    print_answer(cabinet_feet_month(hours.flows, HOURS, hours.contents, HOURS, hours.temperatures,
                                    HOURS, hours.pressures, HOURS, hours.states, HOURS,
                                    EFFICIENCY));
}

static void print_year(unsigned long long number, struct cabinet_year year)
{
    printf("year %llu\n", number);
    printf("entered %llu degraded %llu removed %llu carried %llu\n",
           (unsigned long long)year.entered, (unsigned long long)year.degraded,
           (unsigned long long)year.removed, (unsigned long long)year.carried);
    printf("baseline %llu project %llu metered %llu\n",
           (unsigned long long)year.baseline, (unsigned long long)year.project_methane,
           (unsigned long long)year.metered);
    printf("net %lld credited %llu\n", (long long)year.net,
           (unsigned long long)year.credited);
}

int main(void)
{
    static uint8_t book[CABINET_BOOK_BYTES];
    uint8_t record[CABINET_RECORD_BYTES];
    size_t bytes;

    print_month();
    print_feet_month();
    if (!cabinet_empty(book, sizeof book))
        return 1;
    while ((bytes = fread(record, 1, sizeof record, stdin)) > 0) {
        struct cabinet_posted posted = cabinet_post(book, sizeof book, record, bytes);
        if (posted.number != 0)
            fprintf(stderr, "refused %llu at %llu\n", (unsigned long long)posted.number,
                    (unsigned long long)posted.place);
    }
    if (ferror(stdin)) {
        perror("standard input");
        return 1;
    }
    for (unsigned long long number = 1; number <= 10; number++) {
        struct cabinet_year year = cabinet_year(book, sizeof book, number);
        if (year.number != 0) {
            printf("refused %llu at %llu\n", (unsigned long long)year.number,
                   (unsigned long long)year.place);
            break;
        }
        print_year(number, year);
    }
    return 0;
}
