/* Where one word holds a block, the run is correct's, and sizes are compared of the bits of greatest excess. Else it keeps for each
 * block a bound, of which no bit of it has more broken checks, and its smallest bit that has as many; or UNKNOWN, if that is not
 * known. A program has this file in place of fast.c, whose parts it uses. */
#include "samples_fast.h"

#include "fast.c"

enum { UNKNOWN = 8176 };

/* A sample is read and compared by its bit pattern. */
LEAF uint32_t pattern(float x)
{
    uint32_t p;
    memcpy(&p, &x, sizeof p);
    return p;
}

LEAF uint32_t size_of(float x)
{
    return pattern(x) & 0x7FFFFFFF;
}

LEAF bool is_one(float x)
{
    return pattern(x) > 0x80000000;
}

LEAF unsigned smaller(const float *samples, unsigned earlier, unsigned later)
{
    return size_of(samples[later]) < size_of(samples[earlier]) ? later : earlier;
}

/* The smallest of a bit and of those that are set in mask, which begins with bit `first`. */
LEAF unsigned smallest_of(const float *samples, uint64_t mask, unsigned first, unsigned bit)
{
    while (mask != 0) {
        unsigned place = (unsigned)__builtin_clzll(mask);
        bit = smaller(samples, bit, first + place);
        mask ^= UINT64_C(1) << (63 - place);
    }
    return bit;
}

/* The bit of the greatest excess above 0 whose sample is the smallest, then the lowest; a score of 8 says that there is none. Sizes
 * are compared once the greatest score is known, of the bits that have it. */
static struct best smallest_narrow(const float *samples, const uint64_t *rows, const uint16_t *h, struct shape sh)
{
    struct level levels[8];
    struct best best = {8, 0};
    for (unsigned b = 0; b < sh.blocks; b++) {
        levels[b] = highest(rows, h, sh, b, 0);
        if (levels[b].score > best.score)
            best = (struct best){levels[b].score, b * sh.size + (unsigned)__builtin_clzll(levels[b].mask)};
    }
    if (best.score <= 8)
        return best;
    for (unsigned b = 0; b < sh.blocks; b++)
        if (levels[b].score == best.score)
            best.bit = smallest_of(samples, levels[b].mask, b * sh.size, best.bit);
    return best;
}

/* The smallest of the bits of block b from bit at on that are set in mask, and of one before them, or UNKNOWN. */
LEAF unsigned among(const float *samples, struct shape sh, unsigned b, unsigned at, uint64_t mask, unsigned best)
{
    if (sh.size - at < 64)
        mask = front(mask, sh.size);
    if (mask != 0 && best == UNKNOWN)
        best = b * sh.size + at + (unsigned)__builtin_clzll(mask);
    return smallest_of(samples, mask, b * sh.size + at, best);
}

/* Of 64 bits those that have none of four checks met; the first bit's stand at s0 to s3. Mostly two of them show that there is none. */
LEAF uint64_t none_met(const uint64_t *d, unsigned s0, unsigned s1, unsigned s2, unsigned s3)
{
    uint64_t found = window(d, s0);
    if (found == 0)
        return 0;
    found &= window(d, s1);
    if (found == 0)
        return 0;
    return found & window(d, s2) & window(d, s3);
}

/* The smallest bit of block b that has none of its four checks met; UNKNOWN if there is none. */
LEAF unsigned smallest_none(const struct kept *kept, const float *samples, struct shape sh, unsigned b)
{
    const uint16_t *starts = kept->starts[b];
    unsigned best = UNKNOWN, s0 = starts[0], s1 = starts[1], s2 = starts[2], s3 = starts[3];
    for (unsigned at = 0; at < sh.size; at += 64) {
        uint64_t found = none_met(kept->d, s0 + at, s1 + at, s2 + at, s3 + at);
        if (found != 0)
            best = among(samples, sh, b, at, found, best);
    }
    return best;
}

/* The smallest bit of block b among those that have at most as many met checks as its bound says; UNKNOWN if there is none. */
LEAF unsigned smallest_in(const struct kept *kept, const float *samples, struct shape sh, unsigned b)
{
    if (kept->met[b] == 0 && kept->counts[b] == 4)
        return smallest_none(kept, samples, sh, b);
    unsigned best = UNKNOWN;
    for (unsigned at = 0; at < sh.size; at += 64) {
        uint64_t mask = light(kept, b, at);
        if (mask != 0)
            best = among(samples, sh, b, at, mask, best);
    }
    return best;
}

/* How many checks of bit k of block b are broken. */
LEAF unsigned broken_of(const struct kept *kept, unsigned b, unsigned k)
{
    unsigned n = 0;
    for (unsigned e = 0; e < kept->counts[b]; e++) {
        unsigned p = kept->starts[b][e] + k;
        n += (unsigned)(kept->d[p / 64] >> (63 - p % 64)) & 1;
    }
    return n;
}

/* The smallest bit of the blocks of this bound. A block is searched if none is known of it, or if the known one would be the
 * smallest and has more checks met by now; the bound of one that has no such bit goes down. */
LEAF unsigned smallest_at(struct kept *kept, unsigned *known, const float *samples, struct shape sh, unsigned top)
{
    unsigned best = UNKNOWN;
    for (unsigned b = 0; b < sh.blocks; b++) {
        if (8u + kept->counts[b] - 2u * kept->met[b] != top)
            continue;
        if (known[b] != UNKNOWN) {
            if (best != UNKNOWN && smaller(samples, best, known[b]) == best)
                continue;
            if (broken_of(kept, b, known[b] - b * sh.size) + kept->met[b] == kept->counts[b]) {
                best = known[b];
                continue;
            }
        }
        known[b] = smallest_in(kept, samples, sh, b);
        if (known[b] == UNKNOWN)
            kept->met[b]++;
        else
            best = best == UNKNOWN ? known[b] : smaller(samples, best, known[b]);
    }
    return best;
}

/* The bit of greatest excess whose sample is the smallest, then the lowest; the excess is the score less 8. */
LEAF struct best smallest(struct kept *kept, unsigned *known, const float *samples, struct shape sh)
{
    for (;;) {
        struct best best = {0, UNKNOWN};
        for (unsigned b = 0; b < sh.blocks; b++) {
            unsigned bound = 8u + kept->counts[b] - 2u * kept->met[b];
            best.score = best.score < bound ? bound : best.score;
        }
        best.bit = smallest_at(kept, known, samples, sh, best.score);
        if (best.bit != UNKNOWN)
            return best;
    }
}

/* Bit k of block b has a broken check more. */
LEAF void look(struct kept *kept, unsigned *known, const float *samples, struct shape sh, unsigned b, unsigned k)
{
    unsigned hits = broken_of(kept, b, k), bit = b * sh.size + k;
    if (hits + kept->met[b] > kept->counts[b]) {
        kept->met[b] = (uint8_t)(kept->counts[b] - hits);
        known[b] = bit;
    } else if (hits + kept->met[b] == kept->counts[b] && known[b] != UNKNOWN)
        known[b] = known[b] < bit ? smaller(samples, known[b], bit) : smaller(samples, bit, known[b]);
}

/* The check at p, in the first half of a doubled row, was broken: all bits that it covers are looked at. */
static void raise_check(struct kept *kept, unsigned *known, const float *samples, struct shape sh, unsigned p)
{
    for (unsigned b = 0; b < sh.blocks; b++)
        for (unsigned e = 0; e < kept->counts[b]; e++) {
            unsigned s = kept->starts[b][e], k = s <= p ? p - s : s <= p + sh.size ? p + sh.size - s : sh.size;
            if (k < sh.size)
                look(kept, known, samples, sh, b, k);
        }
}

/* Flips the checks of a bit, in both places, and brings what is known of each block up to date. */
LEAF void flip_known(struct kept *kept, unsigned *known, const float *samples, struct shape sh, unsigned bit)
{
    unsigned b = bit / sh.size, k = bit % sh.size, wide = 64 * (2 * sh.words + 1);
    for (unsigned e = 0; e < kept->counts[b]; e++) {
        unsigned p = kept->starts[b][e] + k, other = p % wide < sh.size ? p + sh.size : p - sh.size;
        kept->d[p / 64] ^= UINT64_C(1) << (63 - p % 64);
        kept->d[other / 64] ^= UINT64_C(1) << (63 - other % 64);
    }
    for (unsigned e = 0; e < kept->counts[b]; e++) {
        unsigned p = kept->starts[b][e] + k;
        if (kept->d[p / 64] >> (63 - p % 64) & 1)
            raise_check(kept, known, samples, sh, p % wide < sh.size ? p : p - sh.size);
    }
}

static uint8_t go_on_narrow(const float *samples, uint64_t *y, const uint64_t *z, const uint16_t *h, struct shape sh, uint16_t limit,
                            struct judge_corrected *answer)
{
    uint64_t rows[4];
    begin_narrow(z, sh, rows);
    while (answer->last > 0) {
        struct best best = smallest_narrow(samples, rows, h, sh);
        if (best.score <= 8)
            return 5;
        if (answer->flips == limit)
            return 6;
        flip_narrow(y, rows, h, sh, best.bit);
        answer->flips++;
        answer->last -= best.score - 8;
    }
    return 0;
}

/* The few words of such a code are kept as they were read, and compared with those at the end. */
LEAF uint8_t run_by_rows(const float *samples, uint64_t *y, const uint64_t *z, const uint16_t *h, struct shape sh, uint16_t limit,
                         struct judge_corrected *answer)
{
    uint64_t read[8];
    unsigned words = sh.blocks * sh.size / 64;
    memcpy(read, y, words * sizeof *y);
    uint8_t number = go_on_narrow(samples, y, z, h, sh, limit, answer);
    for (unsigned k = 0; k < words; k++)
        answer->unlike += ones(y[k] ^ read[k]);
    return number;
}

/* A long word is not kept: each flip tells whether its bit is then another than was read, or the same again. */
LEAF uint8_t run_by_bounds(const float *samples, uint64_t *y, const uint64_t *z, const uint16_t *h, struct shape sh, uint16_t limit,
                           struct judge_corrected *answer)
{
    struct kept kept;
    unsigned known[16];
    begin(z, h, sh, &kept);
    for (unsigned b = 0; b < 16; b++)
        known[b] = UNKNOWN;
    for (;;) {
        struct best best = smallest(&kept, known, samples, sh);
        if (best.score <= 8)
            return 5;
        if (answer->flips == limit)
            return 6;
        y[best.bit / 64] ^= UINT64_C(1) << (63 - best.bit % 64);
        bool one = y[best.bit / 64] >> (63 - best.bit % 64) & 1;
        if (one == is_one(samples[best.bit]))
            answer->unlike--;
        else
            answer->unlike++;
        answer->flips++;
        answer->last -= best.score - 8;
        if (answer->last == 0)
            return 0;
        flip_known(&kept, known, samples, sh, best.bit);
    }
}

LEAF uint8_t run_samples(const float *samples, uint64_t *y, const uint64_t *z, const uint16_t *h, struct shape sh, uint16_t limit,
                         struct judge_corrected *answer)
{
    if (answer->last == 0)
        return 0;
    if (sh.words == 1)
        return run_by_rows(samples, y, z, h, sh, limit, answer);
    return run_by_bounds(samples, y, z, h, sh, limit, answer);
}

LEAF unsigned is_finite(float x)
{
    return (pattern(x) & 0x7F800000) != 0x7F800000;
}

/* The bits of the samples, and two words of zeros after them; and whether all are finite. With a table of bits, and 32 together,
 * the compiler takes four samples at a time. */
static bool read_samples(const float *samples, size_t len, uint64_t *y)
{
    static const uint32_t bits[32] = {
        1u << 31, 1 << 30, 1 << 29, 1 << 28, 1 << 27, 1 << 26, 1 << 25, 1 << 24, 1 << 23, 1 << 22, 1 << 21,
        1 << 20,  1 << 19, 1 << 18, 1 << 17, 1 << 16, 1 << 15, 1 << 14, 1 << 13, 1 << 12, 1 << 11, 1 << 10,
        1 << 9,   1 << 8,  1 << 7,  1 << 6,  1 << 5,  1 << 4,  1 << 3,  1 << 2,  1 << 1,  1,
    };
    memset(y, 0, (len / 64 + 3) * sizeof *y);
    unsigned finite = 1;
    size_t n = 0;
    for (; n + 32 <= len; n += 32) {
        uint32_t v = 0;
        for (unsigned j = 0; j < 32; j++) {
            v |= is_one(samples[n + j]) ? bits[j] : 0;
            finite &= is_finite(samples[n + j]);
        }
        y[n / 64] |= (uint64_t)v << (32 - n % 64);
    }
    for (; n < len; n++) {
        y[n / 64] |= (uint64_t)is_one(samples[n]) << (63 - n % 64);
        finite &= is_finite(samples[n]);
    }
    return finite != 0;
}

struct judge_corrected fast_correct_samples(uint8_t code, const float *samples, size_t len, uint16_t limit, uint8_t *out,
                                            size_t out_len)
{
    struct judge_corrected answer = {0};
    answer.number = !offered(code) || code == 5 ? 1 : len != 8 * word_octets[code] ? 2 : out_len != word_octets[code] ? 3 : 0;
    if (answer.number != 0)
        return answer;
    uint64_t y[HELD], z[SYNDROME];
    if (!read_samples(samples, len, y)) {
        answer.number = 16;
        return answer;
    }
#define RUN_SAMPLES(h, steps, sh, lead)         \
    syndrome(y, h, sh, z);                      \
    answer.first = answer.last = broken(z, sh); \
    answer.lowest = lowest(z, sh);              \
    answer.number = run_samples(samples, y, z, h, sh, limit, &answer)
    FOR_CODE(code, RUN_SAMPLES)
    if (answer.number == 0 && code == 4 && !own_parity(y))
        answer.number = 8;
    if (answer.number == 0)
        give(code, y, out, out_len);
    return answer;
}
