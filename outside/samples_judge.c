/* Samples are compared and negated, and nothing else is done with them. */
#include "samples_judge.h"

#include <float.h>
#include <string.h>

enum { MOST_OCTETS = 1022, MOST_CHECKS = 1022 };

static const size_t octets_of[] = {0, 16, 32, 64, 1022};

static float magnitude(float x)
{
    return x < 0 ? -x : x;
}

/* Not so of an infinity, nor of what is not a number, which compares with nothing. */
static bool finite_number(float x)
{
    return magnitude(x) <= FLT_MAX;
}

static uint8_t refused(uint8_t code, const float *samples, size_t len, size_t out_len)
{
    if (code < 1 || code > 4)
        return 1;
    if (len != 8 * octets_of[code])
        return 2;
    if (out_len != octets_of[code])
        return 3;
    for (size_t n = 0; n < len; n++)
        if (!finite_number(samples[n]))
            return 16;
    return 0;
}

/* The bit of greatest excess; of several, the one whose sample has the smallest magnitude; of those, the lowest number. */
static unsigned choose(uint8_t code, const unsigned char *broken, const float *samples, int *excess)
{
    unsigned best = 0;
    *excess = judge_excess(code, broken, best);
    for (unsigned bit = 1; bit < 8 * octets_of[code]; bit++) {
        int e = judge_excess(code, broken, bit);
        if (e > *excess || (e == *excess && magnitude(samples[bit]) < magnitude(samples[best]))) {
            *excess = e;
            best = bit;
        }
    }
    return best;
}

static void flip(uint8_t *word, size_t bit)
{
    word[bit / 8] ^= (uint8_t)(0x80 >> bit % 8);
}

static uint32_t count_unlike(const uint8_t *x, const uint8_t *y, size_t octets)
{
    uint32_t count = 0;
    for (size_t n = 0; n < 8 * octets; n++)
        count += (x[n / 8] ^ y[n / 8]) >> (7 - n % 8) & 1;
    return count;
}

struct judge_corrected judge_list_samples(uint8_t code, const float *samples, size_t len, uint16_t limit, uint8_t *out,
                                          size_t out_len, struct judge_fliprecord *list)
{
    struct judge_corrected answer = {0};
    answer.number = refused(code, samples, len, out_len);
    if (answer.number != 0)
        return answer;
    size_t octets = octets_of[code];
    uint8_t read[MOST_OCTETS] = {0}, word[MOST_OCTETS];
    unsigned char broken[MOST_CHECKS];
    for (size_t n = 0; n < len; n++)
        if (samples[n] < 0)
            flip(read, n);
    struct judge_checked first = judge_check(code, read, octets);
    answer.first = answer.last = first.broken;
    answer.lowest = first.lowest;
    memcpy(word, read, octets);
    while (answer.last > 0) {
        int excess;
        judge_checks(code, word, broken);
        unsigned bit = choose(code, broken, samples, &excess);
        if (excess <= 0) {
            answer.number = 5;
            break;
        }
        if (answer.flips == limit) {
            answer.number = 6;
            break;
        }
        flip(word, bit);
        answer.last = judge_check(code, word, octets).broken;
        list[answer.flips++] = (struct judge_fliprecord){bit, (int8_t)excess, answer.last};
    }
    answer.unlike = count_unlike(read, word, octets);
    /* A quiet word is taken, or refused by 8, as correct does it. */
    if (answer.number == 0)
        answer.number = judge_correct(code, word, octets, 0, out, out_len).number;
    return answer;
}

struct judge_corrected judge_correct_samples(uint8_t code, const float *samples, size_t len, uint16_t limit, uint8_t *out,
                                             size_t out_len)
{
    struct judge_fliprecord list[MOST_CHECKS];
    return judge_list_samples(code, samples, len, limit, out, out_len, list);
}
