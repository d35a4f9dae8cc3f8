/* The library's own search in C, for the benchmark. */
#ifndef NEAREST_FAST_H
#define NEAREST_FAST_H

#include "nearest_judge.h"

struct judge_reached fast_nearest(const uint8_t *word, size_t len, uint8_t reach, uint8_t *out, size_t out_len);

#endif
