/* The library's own way with units in C, for the benchmark: the calls as units_judge.h has them. */
#ifndef UNITS_FAST_H
#define UNITS_FAST_H

#include "units_judge.h"

uint8_t fast_write_unit(uint8_t code, const uint8_t *info, size_t info_len, uint8_t *out, size_t out_len);

struct judge_reading fast_reader(uint8_t code, const uint8_t *unit, size_t unit_len, uint16_t limit);

struct judge_handed fast_read(struct judge_reading state, const uint8_t *unit, size_t unit_len, uint8_t *out, size_t out_len);

#endif
