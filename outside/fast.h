/* The library's own algorithm in C, for the benchmark: the calls as judge.h has them. */
#ifndef FAST_H
#define FAST_H

#include "judge.h"

uint8_t fast_encode(uint8_t code, const uint8_t *information, size_t information_len, uint8_t *word, size_t word_len);

struct judge_checked fast_check(uint8_t code, const uint8_t *word, size_t len);

struct judge_answered fast_quick(uint8_t code, const uint8_t *word, size_t len);

struct judge_opened fast_open(uint8_t code, const uint8_t *word, size_t len);

struct judge_corrected fast_correct(uint8_t code, const uint8_t *word, size_t len, uint16_t limit, uint8_t *out,
                                    size_t out_len);

struct judge_listed fast_list(uint8_t code, const uint8_t *word, size_t len, uint16_t limit, struct judge_fliprecord *table,
                              size_t places);

struct judge_stepped fast_step(uint8_t code, const uint8_t *word, size_t len, uint8_t *out, size_t out_len);

#endif
