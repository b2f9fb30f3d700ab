/* The hours of a month, as a meter of either kind reads them. */
#ifndef HOURS_H
#define HOURS_H

#include "cabinet.h"

#define HOURS 672

/* What is added to an hour's state: there is no flow, or, of a meter in cubic
 * feet, no temperature or no pressure. */
#define NO_FLOW 1
#define NOT_CORRECTED 8

struct hours {
    float flows[HOURS];
    float contents[HOURS];
    float temperatures[HOURS];
    float pressures[HOURS];
    uint8_t states[HOURS];
};

/* A flow of 100 and 60 per cent in every hour, at 520 degrees Rankine and 1 atm;
 * hours 10 to `last` lack what `lacking` says. */
static inline void read_hours(struct hours *hours, size_t last, uint8_t lacking)
{
    for (size_t hour = 0; hour < HOURS; hour++) {
        hours->flows[hour] = 100.0f;
        hours->contents[hour] = 60.0f;
        hours->temperatures[hour] = 520.0f;
        hours->pressures[hour] = 1.0f;
        hours->states[hour] = 10 <= hour && hour <= last ? lacking : 0;
    }
}

#endif
