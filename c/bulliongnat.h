/* What screens in C may call. Link target/staticlib/libscreens.a (made by `c/run`). */
#ifndef BULLIONGNAT_H
#define BULLIONGNAT_H

#include <stddef.h>
#include <stdint.h>

/* A FERC rate in hundredths of a cent for a megawatt-hour. `number` is 0 where the rate is
   good, and else the refusal: 2 a number out of range, 17 no volume or a rate beyond 1,000,000
   either way. Refused, `rate` is 0. */
typedef struct {
    int64_t rate;
    uint32_t number;
} bulliongnat_rate;

/* `number` is 0 where the text is a month's, and else the first refusal: 1 layout, 2 range,
   3 weights. `line` is its line, counted from 1; 0 where the text is longer than 16,384 bytes. */
typedef struct {
    uint32_t number;
    uint32_t line;
} bulliongnat_text;

/* This year's estimate, the prior year's paid charge and its recovery, in cents, and the volume
   in megawatt-hours. Good for every argument. */
bulliongnat_rate bulliongnat_ferc_rate(int64_t estimate, int64_t paid, int64_t recovered,
                                       uint64_t volume);

/* Tests a month's text of `length` bytes. `text` points to that many bytes, and is not null
   also where there are none. */
bulliongnat_text bulliongnat_test_month(const uint8_t *text, size_t length);

#endif
