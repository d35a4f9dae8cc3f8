/* The nearest command of code 1 once more, over the judge's checks: every list of bits is tried, bit by bit. */
#ifndef NEAREST_JUDGE_H
#define NEAREST_JUDGE_H

#include "judge.h"

struct judge_reached {
    uint8_t number;
    uint32_t least, bits[3];
};

struct judge_reached judge_nearest(const uint8_t *word, size_t len, uint8_t reach, uint8_t *out, size_t out_len);

#endif
