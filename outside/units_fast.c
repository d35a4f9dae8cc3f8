#include "units_fast.h"

#include "fast.h"
#include "tables.h"

#include <string.h>

static const uint8_t start[8] = {0x03, 0x47, 0x76, 0xC7, 0x27, 0x28, 0x95, 0xB0};
static const uint8_t tail[16] = {0x55, 0x55, 0x55, 0x56, 0xAA, 0xAA, 0xAA, 0xAA,
                                 0x55, 0x55, 0x55, 0x55, 0x55, 0x55, 0x55, 0x55};

enum { PERIOD = 255, LONGEST_WORD = 64 };

static size_t part_of(uint8_t code)
{
    return code == 1 ? 8 : 32;
}

static size_t tail_of(uint8_t code)
{
    return code == 1 ? sizeof tail : 0;
}

/* A codeblock's octets, of which so many of the unit's codeblocks stand before: the table has the sequence and 64 octets more of it. */
static void randomise(uint8_t *octets, size_t len, size_t used)
{
    const uint8_t *sequence = TELECOMMAND + used % PERIOD;
    for (size_t i = 0; i < len; i++)
        octets[i] ^= sequence[i];
}

uint8_t fast_write_unit(uint8_t code, const uint8_t *info, size_t info_len, uint8_t *out, size_t out_len)
{
    if (code != 1 && code != 3)
        return 1;
    if (info_len == 0)
        return 2;
    size_t part = part_of(code), word = 2 * part, blocks = (info_len + part - 1) / part;
    if (out_len != sizeof start + blocks * word + tail_of(code))
        return 3;
    memcpy(out, start, sizeof start);
    for (size_t k = 0; k < blocks; k++) {
        uint8_t filled[LONGEST_WORD / 2], *at = out + sizeof start + k * word;
        size_t used = info_len - k * part < part ? info_len - k * part : part;
        memset(filled, 0x55, part);
        memcpy(filled, info + k * part, used);
        fast_encode(code, filled, part, at, word);
        randomise(at, word, k * word);
    }
    memcpy(out + out_len - tail_of(code), tail, tail_of(code));
    return 0;
}

struct judge_reading fast_reader(uint8_t code, const uint8_t *unit, size_t unit_len, uint16_t limit)
{
    struct judge_reading state = {0};
    size_t word = 2 * part_of(code), rest = unit_len - sizeof start;
    if (code != 1 && code != 3)
        state.kept.number = 1;
    else if (unit_len < sizeof start || memcmp(unit, start, sizeof start) != 0)
        state.kept.number = 11;
    else if (rest <= tail_of(code) || (rest - tail_of(code)) % word != 0
             || memcmp(unit + unit_len - tail_of(code), tail, tail_of(code)) != 0)
        state.kept.number = 12;
    if (state.kept.number != 0)
        return state;
    state.code = code;
    state.limit = limit;
    return state;
}

struct judge_handed fast_read(struct judge_reading state, const uint8_t *unit, size_t unit_len, uint8_t *out, size_t out_len)
{
    struct judge_handed handed = {{0}, false, state};
    size_t part = part_of(state.code), word = 2 * part;
    if (out_len != part) {
        handed.corrected.number = 3;
        return handed;
    }
    if (state.kept.number != 0) {
        handed.corrected = state.kept;
        return handed;
    }
    if (sizeof start + state.place * word + tail_of(state.code) >= unit_len) {
        handed.none = true;
        return handed;
    }
    uint8_t received[LONGEST_WORD], mended[LONGEST_WORD];
    memcpy(received, unit + sizeof start + state.place * word, word);
    randomise(received, word, state.place * word);
    handed.corrected = fast_correct(state.code, received, word, state.limit, mended, word);
    if (handed.corrected.number != 0) {
        handed.next.kept = handed.corrected;
        return handed;
    }
    memcpy(out, mended, part);
    handed.next.place++;
    return handed;
}
