/* A meter month's grams as the MT record that takes them into a book. */
#ifndef MT_RECORD_H
#define MT_RECORD_H

#include <string.h>

#include "cabinet.h"

/* The MT record of what cabinet_month or cabinet_feet_month answered for a
 * device (1 to 4) in a month of the book (1 to 120, counted from its YR). Where
 * that month was refused, there is none: it writes nothing and answers false. */
static inline bool mt_record(struct cabinet_month answer, uint8_t month, uint8_t device,
                             uint8_t record[CABINET_RECORD_BYTES])
{
    if (answer.number != 0)
        return false;
    memset(record, 0, CABINET_RECORD_BYTES);
    record[0] = 'M';
    record[1] = 'T';
    record[2] = month;
    record[3] = device;
    for (int byte = 0; byte < 8; byte++)
        record[4 + byte] = (uint8_t)(answer.destroyed >> 8 * byte);
    return true;
}

#endif
