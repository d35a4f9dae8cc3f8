/* Telecommand transmission units once more, bit by bit, over the judge's encoding and correcting. */
#ifndef UNITS_JUDGE_H
#define UNITS_JUDGE_H

#include "judge.h"

struct judge_reading {
    struct judge_corrected kept;
    uint8_t code;
    uint16_t limit;
    size_t place;
};

struct judge_handed {
    struct judge_corrected corrected;
    bool none;
    struct judge_reading next;
};

size_t judge_unit_octets(uint8_t code, size_t info_len);

uint8_t judge_write_unit(uint8_t code, const uint8_t *info, size_t info_len, uint8_t *out, size_t out_len);

struct judge_reading judge_reader(uint8_t code, const uint8_t *unit, size_t unit_len, uint16_t limit);

struct judge_handed judge_read(struct judge_reading state, const uint8_t *unit, size_t unit_len, uint8_t *out,
                               size_t out_len);

#endif
