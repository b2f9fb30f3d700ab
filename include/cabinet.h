/* The C face of the proved program: link crates/cabinet/out/libcabinet.a, which
 * `rt lib` in crates/cabinet writes. docs/LINKING.md is its guide.
 *
 * No function allocates, keeps anything between calls, or writes anywhere but
 * into the book or the memory that it is lent. Each one always returns.
 *
 * A number of 0 says that nothing was refused. The other numbers, with what
 * `place` then says:
 *
 *    1  a posted record is not 16 bytes                         0
 *    2  its first two bytes are no mark                         0
 *    3  a zero byte is not 0                                    its offset in the record
 *    4  a field is outside its range                            its offset in the record
 *       or, of a month, the efficiency is above 10,000          0
 *    5  the key is already filled                               0
 *    7  the shares of a category sum above 10,000               the lowest such category
 *    8  the year lacks a record that it needs                   0: no YR or no line; else the
 *                                                               lowest month, counted from YR
 *    9  no year from 1 to 10                                    0
 *   10  no month of hours, or slices of different lengths       0
 *   11  an hour's state or a reading of it is bad               the first such hour, from 0
 *
 * (12, a sum that passes 2^63, is a refusal of the rules that no book reaches.)
 *
 * After a refusal every other figure of the answer is 0, and a book that a
 * record was to be posted to is as it was before.
 */
#ifndef CABINET_H
#define CABINET_H

#include <stdbool.h>
#include <stddef.h>
#include <stdint.h>

#ifdef __cplusplus
extern "C" {
#endif

/* The bytes of a record, and of a book. */
#define CABINET_RECORD_BYTES 16
#define CABINET_BOOK_BYTES 104208

/* A record posted. */
struct cabinet_posted {
    uint64_t number;
    uint64_t place;
};

/* A year. Solids are over the anaerobic lines; `carried` is what they carry
 * past the year's end. */
struct cabinet_year {
    uint64_t number;
    uint64_t place;
    uint64_t entered;         /* grams of volatile solids */
    uint64_t degraded;        /* grams of volatile solids */
    uint64_t removed;         /* grams of volatile solids */
    uint64_t carried;         /* grams of volatile solids */
    uint64_t baseline;        /* grams of carbon dioxide equivalent, all lines */
    uint64_t project_methane; /* grams of carbon dioxide equivalent */
    uint64_t metered;         /* grams of carbon dioxide equivalent: 21 x destroyed */
    int64_t net;              /* tonnes, nearest, an exact half to the lower number */
    uint64_t credited;        /* tonnes: net, or 0 where net is below 0 */
};

/* A meter month, of either kind of meter. example/mt_record.h makes the MT
 * record of it. */
struct cabinet_month {
    uint64_t number;
    uint64_t place;
    uint64_t destroyed; /* grams of methane */
};

/* One reading. */
struct cabinet_reading {
    bool taken;     /* false: not a number, infinite, below zero or too large */
    uint64_t whole; /* litres, or hundredths of a per cent, rounded down */
};

/* One hour of a meter in cubic feet, before gaps are filled. */
struct cabinet_feet_hour {
    bool taken;       /* false: its month is refused 11, and nothing below is there */
    bool has_flow;    /* false: the flow is missing */
    bool has_content; /* false: the content is missing */
    uint64_t flow;    /* hundredths of a standard cubic foot, rounded down; 0 where missing */
    uint64_t content; /* hundredths of a per cent, rounded down; 0 where missing */
};

/* Makes `memory` an empty book and answers true. Where `bytes` is not
 * CABINET_BOOK_BYTES, it changes nothing and answers false. */
bool cabinet_empty(uint8_t *memory, size_t bytes);

/* The next two ask one thing of their caller: that `book` is a book, that is,
 * CABINET_BOOK_BYTES bytes that cabinet_empty made one and that nothing but
 * cabinet_post has written since. */

/* Posts a record of any length. Taken, it fills its key's slot of the book and
 * nothing else: with its own bytes, or, of an LD, with those of the LN that has
 * the protocol's table solids, mass and B0 for its livestock and state. `record`
 * must not lie inside `book`. */
struct cabinet_posted cabinet_post(uint8_t *book, size_t book_bytes,
                                   const uint8_t *record, size_t record_bytes);

/* A year of the book, whatever the number asked for. */
struct cabinet_year cabinet_year(const uint8_t *book, size_t book_bytes, uint64_t year);

/* The month of one meter in cubic metres, hour by hour: flows in cubic metres
 * at 1 atm and 60 F, methane contents in per cent, and states (0 both present,
 * 1 no flow, 2 no content, 3 neither; 4 is added when the device was out).
 * Efficiency counts ten-thousandths. Any lengths and any bytes are answered. */
struct cabinet_month cabinet_month(const float *flows, size_t flow_count,
                                   const float *contents, size_t content_count,
                                   const uint8_t *states, size_t state_count,
                                   uint32_t efficiency);

/* The month of one meter in cubic feet: flows in cubic feet (0 to 400,000),
 * methane contents in per cent, temperatures in degrees Rankine (400 to 700),
 * absolute pressures in atm (0 to 10), and states, to which 8 is added where
 * the temperature or the pressure is missing: flow and both are then ignored,
 * and the flow is missing. Any lengths and any bytes are answered. */
struct cabinet_month cabinet_feet_month(const float *flows, size_t flow_count,
                                        const float *contents, size_t content_count,
                                        const float *temperatures, size_t temperature_count,
                                        const float *pressures, size_t pressure_count,
                                        const uint8_t *states, size_t state_count,
                                        uint32_t efficiency);

/* One hour of such a meter: whether its month takes it, and what it records,
 * so that a bad reading shows when it is read and not when the month is over. */
struct cabinet_feet_hour cabinet_feet_hour(float flow, float content, float temperature,
                                           float pressure, uint8_t state);

/* One flow as whole litres, and one content as whole hundredths of a per cent. */
struct cabinet_reading cabinet_litres(float flow);
struct cabinet_reading cabinet_hundredths(float content);

#ifdef __cplusplus
}
#endif

#endif
