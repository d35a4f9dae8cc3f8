/* The library's own algorithm for BCH words in C, for the benchmark: the calls as bch_judge.h has them. */
#ifndef BCH_FAST_H
#define BCH_FAST_H

#include "bch_judge.h"

uint8_t fast_bch_encode(const uint8_t *information, size_t information_len, uint8_t *word, size_t word_len);

struct judge_mended fast_bch_check(bool detect_only, const uint8_t *word, size_t word_len, uint8_t *out, size_t out_len);

#endif
