/* BCH (63,56) by plain long division, one bit at a time. Words are arrays of bits; nothing is taken from the library. */
#include "bch_judge.h"

#include <string.h>

enum { INFORMATION = 56, PARITY = 7, SENT = INFORMATION + PARITY, WORD_OCTETS = 8, INFORMATION_OCTETS = 7 };

/* x^7+x^6+x^2+1, the highest power first. */
static const bool generator[PARITY + 1] = {1, 1, 0, 0, 0, 1, 0, 1};

static void to_bits(const uint8_t *octets, bool *bits, unsigned count)
{
    for (unsigned i = 0; i < count; i++)
        bits[i] = octets[i / 8] >> (7 - i % 8) & 1;
}

/* The 63 bits, and the fill bit 0. */
static void to_octets(const bool *bits, uint8_t *octets)
{
    memset(octets, 0, WORD_OCTETS);
    for (unsigned i = 0; i < SENT; i++)
        octets[i / 8] |= (uint8_t)(bits[i] << (7 - i % 8));
}

/* Writes the parity behind the information: the dividend is the information times x^7, each leading one that is left is
 * struck out with the generator under it, and what is left in the last seven places is sent inverted. */
static void add_parity(bool *bits)
{
    bool dividend[SENT] = {0};
    memcpy(dividend, bits, INFORMATION * sizeof *bits);
    for (unsigned i = 0; i < INFORMATION; i++)
        if (dividend[i])
            for (unsigned k = 0; k <= PARITY; k++)
                dividend[i + k] ^= generator[k];
    for (unsigned k = INFORMATION; k < SENT; k++)
        bits[k] = !dividend[k];
}

/* Whether the 63 bits are what is encoded of the first 56. */
static bool is_codeword(const bool *bits)
{
    bool own[SENT];
    memcpy(own, bits, sizeof own);
    add_parity(own);
    return memcmp(own, bits, sizeof own) == 0;
}

uint8_t judge_bch_encode(const uint8_t *information, size_t information_len, uint8_t *word, size_t word_len)
{
    bool bits[SENT];
    if (information_len != INFORMATION_OCTETS)
        return 2;
    if (word_len != WORD_OCTETS)
        return 3;
    to_bits(information, bits, INFORMATION);
    add_parity(bits);
    to_octets(bits, word);
    return 0;
}

struct judge_mended judge_bch_check(bool detect_only, const uint8_t *word, size_t word_len, uint8_t *out, size_t out_len)
{
    bool bits[SENT];
    if (word_len != WORD_OCTETS)
        return (struct judge_mended){2, 0};
    if (out_len != WORD_OCTETS)
        return (struct judge_mended){3, 0};
    to_bits(word, bits, SENT);
    if (is_codeword(bits)) {
        to_octets(bits, out);
        return (struct judge_mended){0, 0};
    }
    for (unsigned i = 0; i < SENT && !detect_only; i++) {
        bits[i] = !bits[i];
        if (is_codeword(bits)) {
            to_octets(bits, out);
            return (struct judge_mended){0, 1};
        }
        bits[i] = !bits[i];
    }
    return (struct judge_mended){13, 0};
}
