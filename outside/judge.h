/* The five codes once more, one bit at a time, with tables of its own from the documents' text: a second opinion on the
 * library. Its author had seen document 01 and the library's definitions, so it is independent in code and tables, and
 * not a blind second reading. */
#ifndef JUDGE_H
#define JUDGE_H

#include <stdbool.h>
#include <stddef.h>
#include <stdint.h>

struct judge_checked {
    uint8_t number;
    uint32_t broken, lowest;
};

struct judge_answered {
    uint8_t number;
    bool yes;
    uint32_t evaluated;
};

struct judge_opened {
    uint8_t number;
    uint32_t lowest;
    size_t octets;
};

struct judge_corrected {
    uint8_t number;
    uint32_t flips, first, last, unlike, lowest;
};

/* A flip of the run: its bit, its excess, and the broken checks left after it. */
struct judge_fliprecord {
    uint32_t bit;
    int8_t excess;
    uint32_t left;
};

/* Correct's numbers, then the reason for a refusal 5. */
struct judge_listed {
    uint8_t number;
    uint32_t flips, first, last, unlike, lowest, bit;
    int8_t excess;
};

struct judge_stepped {
    uint8_t number;
    bool quiet;
    uint32_t bit;
    int8_t excess;
};

uint8_t judge_encode(uint8_t code, const uint8_t *info, size_t info_len, uint8_t *word, size_t word_len);

struct judge_checked judge_check(uint8_t code, const uint8_t *word, size_t len);

struct judge_answered judge_quick(uint8_t code, const uint8_t *word, size_t len);

struct judge_opened judge_open(uint8_t code, const uint8_t *word, size_t len);

struct judge_corrected judge_correct(uint8_t code, const uint8_t *word, size_t len, uint16_t limit, uint8_t *out,
                                     size_t out_len);

struct judge_listed judge_list(uint8_t code, const uint8_t *word, size_t len, uint16_t limit, struct judge_fliprecord *table,
                               size_t places);

struct judge_stepped judge_step(uint8_t code, const uint8_t *word, size_t len, uint8_t *out, size_t out_len);

/* For tests and other judges: whether one check is broken; of all of them, 1 for each that is; and by those, the excess of a
 * bit. The code is 1 to 5 and the word has its length. */
bool judge_broken(uint8_t code, const uint8_t *word, uint32_t check);
void judge_checks(uint8_t code, const uint8_t *word, unsigned char *broken);
int judge_excess(uint8_t code, const unsigned char *broken, uint32_t bit);

#endif
