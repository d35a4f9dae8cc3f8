/* The library's own algorithm for BCH words, written for speed in C: a word in 64 bits, a row of bits for each coefficient
 * of the remainder, and the wrong bit where all seven rows agree with it. The benchmark holds the library to it. */
#include "bch_fast.h"

#include <string.h>

static const uint64_t rows[7] = {
    0xA9912D8E86B9EF80, 0xFD59BB49C5E51840, 0x7EACDDA4E2F28C20, 0x3F566ED271794610,
    0x1FAB376938BCA308, 0xA644B63A1AE7BE04, 0x53225B1D0D73DF02,
};

static const uint64_t parity = 0xFE, sent = ~(uint64_t)1;

static inline uint64_t divide(uint64_t v)
{
    uint64_t r = 0;
    for (unsigned j = 0; j < 7; j++)
        r = r << 1 | (unsigned)__builtin_parityll(rows[j] & v);
    return r;
}

static inline uint64_t places(uint64_t r)
{
    uint64_t m = sent;
    for (unsigned j = 0; j < 7; j++)
        m &= r >> (6 - j) & 1 ? rows[j] : ~rows[j];
    return m;
}

static inline uint64_t taken(const uint8_t *octets, size_t len)
{
    uint64_t v = 0;
    memcpy(&v, octets, len);
    return __builtin_bswap64(v);
}

static inline void write(uint64_t v, uint8_t *out)
{
    v = __builtin_bswap64(v & sent);
    memcpy(out, &v, 8);
}

uint8_t fast_bch_encode(const uint8_t *information, size_t information_len, uint8_t *word, size_t word_len)
{
    if (information_len != 7)
        return 2;
    if (word_len != 8)
        return 3;
    uint64_t v = taken(information, 7);
    write(v ^ divide(v) << 1 ^ parity, word);
    return 0;
}

struct judge_mended fast_bch_check(bool detect_only, const uint8_t *word, size_t word_len, uint8_t *out, size_t out_len)
{
    if (word_len != 8)
        return (struct judge_mended){2, 0};
    if (out_len != 8)
        return (struct judge_mended){3, 0};
    uint64_t v = taken(word, 8), r = divide(v ^ parity);
    if (r == 0) {
        write(v, out);
        return (struct judge_mended){0, 0};
    }
    uint64_t m = detect_only ? 0 : places(r);
    if (m == 0)
        return (struct judge_mended){13, 0};
    write(v ^ m, out);
    return (struct judge_mended){0, 1};
}
