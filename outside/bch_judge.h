/* The older BCH words once more, written from the requests' sentences alone: a second opinion on the library. */
#ifndef BCH_JUDGE_H
#define BCH_JUDGE_H

#include <stdbool.h>
#include <stddef.h>
#include <stdint.h>

struct judge_mended {
    uint8_t number, mended;
};

uint8_t judge_bch_encode(const uint8_t *information, size_t information_len, uint8_t *word, size_t word_len);

struct judge_mended judge_bch_check(bool detect_only, const uint8_t *word, size_t word_len, uint8_t *out, size_t out_len);

#endif
