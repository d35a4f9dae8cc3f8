#include "units_judge.h"

#include <string.h>

static const uint8_t start[8] = {0x03, 0x47, 0x76, 0xC7, 0x27, 0x28, 0x95, 0xB0};
static const uint8_t tail[16] = {0x55, 0x55, 0x55, 0x56, 0xAA, 0xAA, 0xAA, 0xAA,
                                 0x55, 0x55, 0x55, 0x55, 0x55, 0x55, 0x55, 0x55};

enum { LONGEST_WORD = 64, LONGEST_INFO = 32 };

static bool unit_code(uint8_t code)
{
    return code == 1 || code == 3;
}

static size_t info_octets(uint8_t code)
{
    return code == 1 ? 8 : 32;
}

static size_t word_octets(uint8_t code)
{
    return 2 * info_octets(code);
}

static size_t tail_octets(uint8_t code)
{
    return code == 1 ? sizeof tail : 0;
}

/* x^8 + x^6 + x^4 + x^3 + x^2 + x + 1 from all ones: the register's lowest bit is the next of the sequence. */
static unsigned next_bit(unsigned *reg)
{
    unsigned bit = *reg & 1, sum = 0;
    static const unsigned powers[] = {6, 4, 3, 2, 1, 0};
    for (unsigned k = 0; k < 6; k++)
        sum ^= *reg >> powers[k] & 1;
    *reg = *reg >> 1 | sum << 7;
    return bit;
}

/* The sequence from its beginning, with so many octets of it passed over. */
static void randomise(uint8_t *octets, size_t len, size_t passed)
{
    unsigned reg = 0xFF;
    for (size_t k = 0; k < 8 * passed; k++)
        next_bit(&reg);
    for (size_t k = 0; k < 8 * len; k++)
        octets[k / 8] ^= (uint8_t)(next_bit(&reg) << (7 - k % 8));
}

size_t judge_unit_octets(uint8_t code, size_t info_len)
{
    if (!unit_code(code) || info_len == 0)
        return 0;
    size_t blocks = info_len / info_octets(code) + (info_len % info_octets(code) != 0);
    size_t ends = sizeof start + tail_octets(code);
    return blocks > (SIZE_MAX - ends) / word_octets(code) ? 0 : ends + blocks * word_octets(code);
}

uint8_t judge_write_unit(uint8_t code, const uint8_t *info, size_t info_len, uint8_t *out, size_t out_len)
{
    if (!unit_code(code))
        return 1;
    if (info_len == 0)
        return 2;
    size_t needed = judge_unit_octets(code, info_len);
    if (needed == 0 || out_len != needed)
        return 3;
    uint8_t *at = out;
    memcpy(at, start, sizeof start);
    at += sizeof start;
    for (size_t k = 0; k < info_len; k += info_octets(code)) {
        uint8_t part[LONGEST_INFO];
        for (size_t i = 0; i < info_octets(code); i++)
            part[i] = k + i < info_len ? info[k + i] : 0x55;
        judge_encode(code, part, info_octets(code), at, word_octets(code));
        at += word_octets(code);
    }
    randomise(out + sizeof start, (size_t)(at - out) - sizeof start, 0);
    memcpy(at, tail, tail_octets(code));
    return 0;
}

struct judge_reading judge_reader(uint8_t code, const uint8_t *unit, size_t unit_len, uint16_t limit)
{
    struct judge_reading state = {.code = code, .limit = limit};
    if (!unit_code(code)) {
        state.kept.number = 1;
        return state;
    }
    if (unit_len < sizeof start || memcmp(unit, start, sizeof start) != 0) {
        state.kept.number = 11;
        return state;
    }
    size_t rest = unit_len - sizeof start, ends = tail_octets(code);
    if (rest < word_octets(code) + ends || (rest - ends) % word_octets(code) != 0
        || memcmp(unit + unit_len - ends, tail, ends) != 0)
        state.kept.number = 12;
    return state;
}

struct judge_handed judge_read(struct judge_reading state, const uint8_t *unit, size_t unit_len, uint8_t *out,
                               size_t out_len)
{
    struct judge_handed h = {.next = state};
    if (!unit_code(state.code)) {
        h.corrected.number = 1;
        return h;
    }
    if (out_len != info_octets(state.code)) {
        h.corrected.number = 3;
        return h;
    }
    if (state.kept.number != 0) {
        h.corrected = state.kept;
        return h;
    }
    size_t ends = sizeof start + tail_octets(state.code), size = word_octets(state.code);
    size_t blocks = unit_len < ends ? 0 : (unit_len - ends) / size;
    if (state.place >= blocks) {
        h.none = true;
        return h;
    }
    uint8_t word[LONGEST_WORD], mended[LONGEST_WORD];
    memcpy(word, unit + sizeof start + state.place * size, size);
    randomise(word, size, state.place * size);
    h.corrected = judge_correct(state.code, word, size, state.limit, mended, size);
    if (h.corrected.number != 0) {
        h.next.kept = h.corrected;
    } else {
        memcpy(out, mended, out_len);
        h.next.place++;
    }
    return h;
}
