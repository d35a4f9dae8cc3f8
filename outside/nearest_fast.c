/* The checks that a bit is covered by stand in one word, so a flip is one XOR, and the last bit of a list is looked for by
 * comparison. tables.h has the library's own tables. */
#include "nearest_fast.h"
#include "tables.h"

#include <string.h>

enum { BITS = 128, OCTETS = 16 };

/* Check 0 is the most significant bit. Worked out once, at the first call. */
static uint64_t column[BITS];

static void make_columns(void)
{
    for (unsigned bit = 0; bit < BITS; bit++)
        for (unsigned r = 0; r < 4; r++)
            for (unsigned e = 0; e < 2; e++) {
                unsigned shift = PARITY16[r][bit / 16][e];
                if (shift < 16)
                    column[bit] |= UINT64_C(1) << (63 - (16 * r + (bit % 16 + 16 - shift) % 16));
            }
}

static bool search(uint64_t z, unsigned from, unsigned left, uint32_t *bits)
{
    if (left == 1) {
        for (unsigned n = from; n < BITS; n++)
            if (column[n] == z) {
                bits[0] = n;
                return true;
            }
        return false;
    }
    for (unsigned n = from; n < BITS; n++)
        if (search(z ^ column[n], n + 1, left - 1, bits + 1)) {
            bits[0] = n;
            return true;
        }
    return false;
}

struct judge_reached fast_nearest(const uint8_t *word, size_t len, uint8_t reach, uint8_t *out, size_t out_len)
{
    struct judge_reached answer = {0};
    answer.number = len != OCTETS ? 2 : out_len != OCTETS ? 3 : reach > 3 ? 18 : 0;
    if (answer.number != 0)
        return answer;
    if (column[0] == 0)
        make_columns();
    uint64_t z = 0;
    for (unsigned n = 0; n < BITS; n++)
        if (word[n / 8] >> (7 - n % 8) & 1)
            z ^= column[n];
    for (; answer.least <= reach; answer.least++)
        if (answer.least == 0 ? z == 0 : search(z, 0, answer.least, answer.bits)) {
            memcpy(out, word, OCTETS);
            for (unsigned k = 0; k < answer.least; k++)
                out[answer.bits[k] / 8] ^= (uint8_t)(0x80 >> answer.bits[k] % 8);
            return answer;
        }
    return (struct judge_reached){17, 0, {0, 0, 0}};
}
