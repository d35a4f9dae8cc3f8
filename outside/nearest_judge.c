#include "nearest_judge.h"

#include <string.h>

enum { BITS = 128, CHECKS = 64, ONES = 8, OCTETS = 16 };

/* Which bits each check covers, as the judge's checks of words with a single bit show it. */
static unsigned char covered[CHECKS][ONES];

static void read_checks(void)
{
    static bool ready;
    unsigned ones[CHECKS] = {0};
    for (unsigned bit = 0; !ready && bit < BITS; bit++) {
        uint8_t word[OCTETS] = {0};
        unsigned char broken[CHECKS];
        word[bit / 8] = (uint8_t)(0x80 >> bit % 8);
        judge_checks(1, word, broken);
        for (unsigned check = 0; check < CHECKS; check++)
            if (broken[check])
                covered[check][ones[check]++] = (unsigned char)bit;
    }
    ready = true;
}

static bool meets_every_check(const unsigned char *x)
{
    for (unsigned check = 0; check < CHECKS; check++) {
        unsigned char sum = 0;
        for (unsigned k = 0; k < ONES; k++)
            sum ^= x[covered[check][k]];
        if (sum)
            return false;
    }
    return true;
}

/* Chooses a bit from a bit on, and searches the rest with one flip fewer left. What is found stands in x and in bits. */
static bool search(unsigned char *x, unsigned from, unsigned left, uint32_t *bits)
{
    if (left == 0)
        return meets_every_check(x);
    for (unsigned bit = from; bit < BITS; bit++) {
        x[bit] ^= 1;
        bits[0] = bit;
        if (search(x, bit + 1, left - 1, bits + 1))
            return true;
        x[bit] ^= 1;
    }
    return false;
}

static struct judge_reached refused(uint8_t number)
{
    return (struct judge_reached){number, 0, {0, 0, 0}};
}

struct judge_reached judge_nearest(const uint8_t *word, size_t len, uint8_t reach, uint8_t *out, size_t out_len)
{
    if (len != OCTETS)
        return refused(2);
    if (out_len != OCTETS)
        return refused(3);
    if (reach > 3)
        return refused(18);
    read_checks();
    unsigned char x[BITS];
    for (unsigned bit = 0; bit < BITS; bit++)
        x[bit] = word[bit / 8] >> (7 - bit % 8) & 1;
    for (unsigned flips = 0; flips <= reach; flips++) {
        struct judge_reached answer = {0, flips, {0, 0, 0}};
        if (!search(x, 0, flips, answer.bits))
            continue;
        memset(out, 0, OCTETS);
        for (unsigned bit = 0; bit < BITS; bit++)
            out[bit / 8] |= (uint8_t)(x[bit] << (7 - bit % 8));
        return answer;
    }
    return refused(17);
}
