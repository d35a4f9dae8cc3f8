/* The library's own algorithm, written for speed in C: a word in 64-bit words, a block doubled so that every rotation of
 * it is a window, a syndrome that is kept along a run, counts of broken checks for 64 bits at once. The benchmark holds
 * the library to it. tables.h has the library's own tables. */
#include "fast.h"
#include "tables.h"

#include <string.h>

#define LEAF static inline __attribute__((always_inline))

enum { HELD = 130, SYNDROME = 16 };

struct shape {
    unsigned size, words, blocks, rows;
};

struct best {
    unsigned score, bit;
};

/* The 64 bits of a and then b from bit t on. */
LEAF uint64_t funnel(uint64_t a, uint64_t b, unsigned t)
{
    return a << t | b >> 1 >> (63 - t);
}

LEAF uint64_t window(const uint64_t *y, unsigned p)
{
    return funnel(y[p / 64], y[p / 64 + 1], p % 64);
}

LEAF unsigned ones(uint64_t v)
{
    v -= v >> 1 & 0x5555555555555555;
    v = (v & 0x3333333333333333) + (v >> 2 & 0x3333333333333333);
    v = (v + (v >> 4)) & 0x0F0F0F0F0F0F0F0F;
    return (unsigned)(v * 0x0101010101010101 >> 56);
}

LEAF unsigned broken(const uint64_t *z, struct shape sh)
{
    unsigned n = 0;
    for (unsigned k = 0; k < sh.rows * sh.words; k++)
        n += ones(z[k]);
    return n;
}

LEAF bool quiet(const uint64_t *z, struct shape sh)
{
    uint64_t any = 0;
    for (unsigned k = 0; k < sh.rows * sh.words; k++)
        any |= z[k];
    return any == 0;
}

/* The lowest broken check: the first one of the first word that has one. */
LEAF unsigned lowest(const uint64_t *z, struct shape sh)
{
    for (unsigned k = 0; k < sh.rows * sh.words; k++)
        if (z[k] != 0)
            return k / sh.words * sh.size + k % sh.words * 64 + (unsigned)__builtin_clzll(z[k]);
    return sh.rows * sh.size;
}

/* The octets, and two words of zeros after them. */
LEAF void load(const uint8_t *octets, size_t len, uint64_t *y)
{
    size_t k = 0;
    for (; k < len / 8; k++) {
        uint64_t v;
        memcpy(&v, octets + 8 * k, 8);
        y[k] = __builtin_bswap64(v);
    }
    uint64_t last = 0;
    for (size_t i = 8 * k; i < len; i++)
        last |= (uint64_t)octets[i] << (56 - 8 * (i % 8));
    y[k] = last;
    y[k + 1] = y[k + 2] = 0;
}

LEAF void store(const uint64_t *y, unsigned from, uint8_t *out, size_t len)
{
    size_t k = 0;
    for (; k < len / 8; k++) {
        uint64_t v = __builtin_bswap64(funnel(y[k], y[k + 1], from));
        memcpy(out + 8 * k, &v, 8);
    }
    uint64_t last = funnel(y[k], y[k + 1], from);
    for (size_t i = 8 * k; i < len; i++)
        out[i] = (uint8_t)(last >> (56 - 8 * (i % 8)));
}

/* The octets behind 18 zeros, moved as they are loaded. */
LEAF void load_later(const uint8_t *octets, size_t len, uint64_t *y)
{
    uint64_t before = 0, last = 0;
    size_t k = 0;
    for (; k < len / 8; k++) {
        uint64_t v;
        memcpy(&v, octets + 8 * k, 8);
        v = __builtin_bswap64(v);
        y[k] = funnel(before, v, 64 - 18);
        before = v;
    }
    for (size_t i = 8 * k; i < len; i++)
        last |= (uint64_t)octets[i] << (56 - 8 * (i % 8));
    y[k] = funnel(before, last, 64 - 18);
    y[k + 1] = last << (64 - 18);
    y[k + 2] = 0;
}

LEAF void take(uint8_t code, const uint8_t *octets, size_t len, uint64_t *y)
{
    if (code == 5)
        load_later(octets, len, y);
    else
        load(octets, len, y);
}

LEAF void give(uint8_t code, uint64_t *y, uint8_t *out, size_t len)
{
    if (code == 5)
        y[127] &= ~UINT64_C(0xFFFF);
    store(y, code == 5 ? 18 : 0, out, len);
}

/* Clears what the last word of M bits has after them. */
LEAF uint64_t front(uint64_t v, unsigned size)
{
    return v & ~UINT64_C(0) << (63 - (size - 1) % 64);
}

LEAF void cut(const uint64_t *y, unsigned p, struct shape sh, uint64_t *v)
{
    for (unsigned k = 0; k < sh.words; k++)
        v[k] = funnel(y[p / 64 + k], y[p / 64 + k + 1], p % 64);
    v[sh.words - 1] = front(v[sh.words - 1], sh.size);
}

/* The M bits of v twice over, in twice the words and one more. */
LEAF void twice(const uint64_t *v, struct shape sh, uint64_t *d)
{
    unsigned q = sh.size / 64, t = sh.size % 64;
    for (unsigned k = 0; k < sh.words; k++)
        d[k] = v[k];
    for (unsigned k = sh.words; k <= 2 * sh.words; k++)
        d[k] = 0;
    if (t == 0) {
        for (unsigned k = 0; k < sh.words; k++)
            d[q + k] = v[k];
    } else {
        d[q] |= v[0] >> t;
        for (unsigned k = 1; k < sh.words; k++)
            d[q + k] = funnel(v[k - 1], v[k], 64 - t);
        d[q + sh.words] = v[sh.words - 1] << (64 - t);
    }
}

LEAF void add_turned(const uint64_t *d, unsigned s, uint64_t *sum, unsigned words)
{
    for (unsigned k = 0; k < words; k++)
        sum[k] ^= funnel(d[s / 64 + k], d[s / 64 + k + 1], s % 64);
}

/* Adds a block to the rows, turned by its shifts. */
LEAF void add_block(const uint64_t *v, const uint16_t *h, struct shape sh, unsigned b, uint64_t *z)
{
    uint64_t d[17];
    twice(v, sh, d);
    for (unsigned r = 0; r < sh.rows; r++)
        for (unsigned e = 0; e < 2; e++) {
            unsigned shift = h[2 * (r * sh.blocks + b) + e];
            if (shift < sh.size)
                add_turned(d, shift, z + r * sh.words, sh.words);
        }
}

static void syndrome(const uint64_t *y, const uint16_t *h, struct shape sh, uint64_t *z)
{
    memset(z, 0, SYNDROME * sizeof *z);
    for (unsigned b = 0; b < sh.blocks; b++) {
        uint64_t v[8];
        cut(y, b * sh.size, sh, v);
        add_block(v, h, sh, b, z);
    }
    for (unsigned r = 0; r < sh.rows; r++)
        z[r * sh.words + sh.words - 1] = front(z[r * sh.words + sh.words - 1], sh.size);
}

/* What a run keeps from flip to flip: the rows of the syndrome, each twice over; the starts of every block and how many they
 * are; and for each block a number of met checks that no bit of it that is sent falls below. */
struct kept {
    uint64_t d[4 * 17];
    uint16_t starts[16][8];
    uint8_t counts[16], met[16];
};

static void begin(const uint64_t *z, const uint16_t *h, struct shape sh, struct kept *kept)
{
    unsigned room = 2 * sh.words + 1;
    for (unsigned r = 0; r < sh.rows; r++)
        twice(z + r * sh.words, sh, kept->d + r * room);
    for (unsigned b = 0; b < sh.blocks; b++) {
        unsigned n = 0;
        for (unsigned r = 0; r < sh.rows; r++)
            for (unsigned e = 0; e < 2; e++) {
                unsigned shift = h[2 * (r * sh.blocks + b) + e];
                if (shift < sh.size)
                    kept->starts[b][n++] = (uint16_t)(64 * room * r + (sh.size - shift));
            }
        kept->counts[b] = (uint8_t)n;
        kept->met[b] = 0;
    }
}

/* Of the 64 bits of block b from bit at on, those of which at most so many checks are met. */
LEAF uint64_t light(const struct kept *kept, unsigned b, unsigned at)
{
    const uint16_t *starts = kept->starts[b];
    unsigned n = kept->counts[b], met = kept->met[b];
    if (met <= 1) {
        uint64_t found = ~UINT64_C(0), spare = met == 1 ? ~UINT64_C(0) : 0;
        for (unsigned e = 0; e < n; e++) {
            uint64_t x = window(kept->d, starts[e] + at);
            found = (found & x) | spare;
            if (found == 0)
                return 0;
            spare &= x;
        }
        return found;
    }
    if (met == n)
        return ~UINT64_C(0);
    unsigned from = 8 - (n - met);
    uint64_t one = from & 1 ? ~UINT64_C(0) : 0, two = from & 2 ? ~UINT64_C(0) : 0, four = from & 4 ? ~UINT64_C(0) : 0, over = 0;
    for (unsigned e = 0; e < n; e++) {
        uint64_t x = window(kept->d, starts[e] + at), carry = one & x, next = two & carry;
        over |= four & next;
        four ^= next;
        two ^= carry;
        one ^= x;
    }
    return over;
}

/* The first bit of block b from bit `from` on that has so few met checks; M if there is none. */
LEAF unsigned first_in_block(const struct kept *kept, struct shape sh, unsigned b, unsigned from)
{
    for (unsigned at = 0; at < sh.size; at += 64) {
        uint64_t found = light(kept, b, at);
        if (found == 0)
            continue;
        if (sh.size - at < 64)
            found = front(found, sh.size);
        if (from > at)
            found &= from - at < 64 ? ~UINT64_C(0) >> (from - at) : 0;
        if (found != 0)
            return at + (unsigned)__builtin_clzll(found);
    }
    return sh.size;
}

/* The bit of greatest excess from bit `from` on; the excess is the score less 8. The blocks of the greatest bound are searched
 * in order, and the bound of one that has no such bit goes down. */
static struct best choose(struct kept *kept, struct shape sh, unsigned from)
{
    for (;;) {
        unsigned top = 0;
        for (unsigned b = 0; b < sh.blocks; b++) {
            unsigned bound = 8u + kept->counts[b] - 2u * kept->met[b];
            if (top < bound)
                top = bound;
        }
        for (unsigned b = 0; b < sh.blocks; b++) {
            if (8u + kept->counts[b] - 2u * kept->met[b] != top)
                continue;
            unsigned k = first_in_block(kept, sh, b, b == 0 ? from : 0);
            if (k < sh.size)
                return (struct best){top, b * sh.size + k};
            kept->met[b]++;
        }
    }
}

/* Where one word holds a row: the first m bits of v, over and over. */
LEAF uint64_t repeated(uint64_t v, unsigned m)
{
    for (; m < 64; m *= 2)
        v |= v >> m;
    return v;
}

LEAF void begin_narrow(const uint64_t *z, struct shape sh, uint64_t *rows)
{
    for (unsigned r = 0; r < 4; r++)
        rows[r] = repeated(z[r], sh.size);
}

/* A score, and the bits of a block that have it. */
struct level {
    unsigned score;
    uint64_t mask;
};

/* The greatest score above 8 of the bits of block b from bit `from` on; one of 8 or less says that there is none. Those bits are found
 * that have none, at most one and at most two of their checks met. */
LEAF struct level highest(const uint64_t *rows, const uint16_t *h, struct shape sh, unsigned b, unsigned from)
{
    uint64_t none = front(~UINT64_C(0), sh.size) & (b == 0 ? ~UINT64_C(0) >> from : ~UINT64_C(0)), one = none, two = none;
    unsigned n = 0;
    for (unsigned r = 0; r < 4; r++)
        for (unsigned e = 0; e < 2; e++) {
            unsigned shift = h[2 * (r * sh.blocks + b) + e];
            if (shift < sh.size) {
                uint64_t x = rows[r] >> shift | rows[r] << (64 - shift) % 64;
                two = (two & x) | one;
                one = (one & x) | none;
                none &= x;
                n++;
            }
        }
    uint64_t mask = none != 0 ? none : one != 0 ? one : two;
    unsigned score = none != 0 ? 8 + n : one != 0 ? 6 + n : two != 0 ? 4 + n : 0;
    return (struct level){score, mask};
}

/* The bit of the greatest excess above 0 from bit `from` on; a score of 8 says that there is none. */
static struct best choose_narrow(const uint64_t *rows, const uint16_t *h, struct shape sh, unsigned from)
{
    struct best best = {8, 0};
    for (unsigned b = 0; b < sh.blocks; b++) {
        struct level level = highest(rows, h, sh, b, from);
        if (level.score > best.score)
            best = (struct best){level.score, b * sh.size + (unsigned)__builtin_clzll(level.mask)};
    }
    return best;
}

LEAF void flip_narrow(uint64_t *y, uint64_t *rows, const uint16_t *h, struct shape sh, unsigned bit)
{
    unsigned b = bit / sh.size, k = bit % sh.size;
    uint64_t each = repeated(UINT64_C(1) << 63, sh.size);
    y[bit / 64] ^= UINT64_C(1) << (63 - bit % 64);
    for (unsigned r = 0; r < 4; r++)
        for (unsigned e = 0; e < 2; e++) {
            unsigned shift = h[2 * (r * sh.blocks + b) + e], t = (64 + shift - k) % 64;
            if (shift < sh.size)
                rows[r] ^= each << t | each >> (64 - t) % 64;
        }
}

/* The bit of greatest excess of a word of which nothing is kept. */
static struct best choose_once(const uint64_t *z, const uint16_t *h, struct shape sh, unsigned from)
{
    struct kept kept;
    if (sh.words == 1) {
        uint64_t rows[4];
        begin_narrow(z, sh, rows);
        struct best best = choose_narrow(rows, h, sh, from);
        if (best.score > 8)
            return best;
    }
    begin(z, h, sh, &kept);
    return choose(&kept, sh, from);
}

/* Flips the checks of a bit, in both places, and raises the bounds by as many as it broke. */
LEAF void flip_kept(uint64_t *y, struct kept *kept, struct shape sh, unsigned bit)
{
    unsigned b = bit / sh.size, k = bit % sh.size, wide = 64 * (2 * sh.words + 1), by = kept->met[b];
    y[bit / 64] ^= UINT64_C(1) << (63 - bit % 64);
    for (unsigned e = 0; e < kept->counts[b]; e++) {
        unsigned p = kept->starts[b][e] + k, other = p % wide < sh.size ? p + sh.size : p - sh.size;
        kept->d[p / 64] ^= UINT64_C(1) << (63 - p % 64);
        kept->d[other / 64] ^= UINT64_C(1) << (63 - other % 64);
    }
    for (unsigned n = 0; n < sh.blocks; n++)
        kept->met[n] = (uint8_t)(kept->met[n] < by ? 0 : kept->met[n] - by);
}

LEAF void flip(uint64_t *y, uint64_t *z, const uint16_t *h, struct shape sh, unsigned bit)
{
    unsigned b = bit / sh.size, k = bit % sh.size;
    y[bit / 64] ^= UINT64_C(1) << (63 - bit % 64);
    for (unsigned r = 0; r < sh.rows; r++)
        for (unsigned e = 0; e < 2; e++) {
            unsigned shift = h[2 * (r * sh.blocks + b) + e];
            if (shift < sh.size) {
                unsigned i = k >= shift ? k - shift : k + sh.size - shift;
                z[r * sh.words + i / 64] ^= UINT64_C(1) << (63 - i % 64);
            }
        }
}

/* The run; left has the broken checks at its start, and gets those at its end. */
static uint8_t run_narrow(uint64_t *y, const uint64_t *z, const uint16_t *h, struct shape sh, unsigned from, uint16_t limit,
                          uint32_t *flips, uint32_t *left)
{
    uint64_t rows[4];
    begin_narrow(z, sh, rows);
    for (; *left > 0; ++*flips) {
        struct best best = choose_narrow(rows, h, sh, from);
        if (best.score <= 8)
            return 5;
        if (*flips >= limit)
            return 6;
        flip_narrow(y, rows, h, sh, best.bit);
        *left -= best.score - 8;
    }
    return 0;
}

static uint8_t run(uint64_t *y, const uint64_t *z, const uint16_t *h, struct shape sh, unsigned from, uint16_t limit,
                   uint32_t *flips, uint32_t *left)
{
    struct kept kept;
    *flips = 0;
    if (*left == 0)
        return 0;
    if (sh.words == 1)
        return run_narrow(y, z, h, sh, from, limit, flips, left);
    begin(z, h, sh, &kept);
    for (; *left > 0; ++*flips) {
        struct best best = choose(&kept, sh, from);
        if (best.score <= 8)
            return 5;
        if (*flips >= limit)
            return 6;
        flip_kept(y, &kept, sh, best.bit);
        *left -= best.score - 8;
    }
    return 0;
}

/* 1 if the ones of eight words are odd in number. */
LEAF unsigned odd_part(const uint64_t *v)
{
    uint64_t fold = 0;
    for (unsigned k = 0; k < 8; k++)
        fold ^= v[k];
    return ones(fold) & 1;
}

/* For each parity block of a near-Earth word, whether the ones of the blocks that it is counted with are odd in number, by a bit for each
 * of the 16 blocks: see the crate ownparity. */
LEAF unsigned together(unsigned odd)
{
    return (ones(odd & 0x06E6) & 1) | (ones(odd & 0x0D7D) & 1) << 1;
}

LEAF unsigned odd_together(const uint64_t *y)
{
    unsigned odd = 0;
    for (unsigned b = 0; b < 16; b++) {
        uint64_t v[8];
        cut(y, 511 * b, (struct shape){511, 8, 16, 2}, v);
        odd = 2 * odd + odd_part(v);
    }
    return together(odd);
}

static bool own_parity(const uint64_t *y)
{
    return odd_together(y) == 0;
}

/* Adds the copies of one row, turned by each shift of a step, to another row. */
LEAF void step(uint64_t *z, const uint16_t *step, struct shape sh)
{
    uint64_t d[17], *row = z + step[0] * sh.words;
    twice(z + step[1] * sh.words, sh, d);
    for (unsigned k = 2; k < 10 && step[k] < sh.size; k++)
        add_turned(d, step[k], row, sh.words);
    row[sh.words - 1] = front(row[sh.words - 1], sh.size);
}

/* Adds a word to the 64 bits of y from bit p on. */
LEAF void put(uint64_t v, uint64_t *y, unsigned p)
{
    y[p / 64] ^= v >> p % 64;
    y[p / 64 + 1] ^= v << 1 << (63 - p % 64);
}

/* The 64 bits from bit p of the octets on. */
LEAF uint64_t octet_window(const uint8_t *octets, unsigned p)
{
    uint64_t v;
    memcpy(&v, octets + p / 8, 8);
    v = __builtin_bswap64(v);
    return p % 8 == 0 ? v : v << p % 8 | octets[p / 8 + 8] >> (8 - p % 8);
}

/* The 511 bits from bit p of the octets on. The last word is read from one bit before, so that no octet past them is. */
LEAF void cut_octets(const uint8_t *octets, unsigned p, uint64_t *v)
{
    for (unsigned k = 0; k < 7; k++)
        v[k] = octet_window(octets, p + 64 * k);
    v[7] = octet_window(octets, p + 447) << 1;
}

/* Block b of a near-Earth word's information. */
LEAF void cut_block(const uint8_t *octets, unsigned unsent, unsigned b, struct shape sh, uint64_t *v)
{
    if (b > 0 || unsent == 0) {
        cut_octets(octets, b * sh.size - unsent, v);
        return;
    }
    cut_octets(octets, 0, v);
    for (unsigned k = 7; k > 0; k--)
        v[k] = funnel(v[k - 1], v[k], 64 - unsent);
    v[0] >>= unsent;
    v[7] = front(v[7], sh.size);
}

/* The checks that the information breaks; which parity blocks are inverted. */
LEAF unsigned lay(const uint8_t *octets, size_t len, unsigned unsent, const uint16_t *h, struct shape sh, uint64_t *z)
{
    uint64_t y[7], v[8];
    unsigned odd = 0;
    memset(z, 0, SYNDROME * sizeof *z);
    if (sh.words == 1)
        load(octets, len, y);
    for (unsigned b = 0; b < sh.blocks - sh.rows; b++) {
        if (sh.words == 1)
            cut(y, b * sh.size, sh, v);
        else {
            cut_block(octets, unsent, b, sh, v);
            odd = 2 * odd + odd_part(v);
        }
        add_block(v, h, sh, b, z);
    }
    for (unsigned r = 0; r < sh.rows; r++)
        z[r * sh.words + sh.words - 1] = front(z[r * sh.words + sh.words - 1], sh.size);
    return sh.words == 1 ? 0 : together(4 * odd);
}

/* Solves the checks of the information by steps, and writes the rows behind it, parity block a from row (a + first) mod R. */
LEAF void put_parity(const uint8_t *information, size_t information_len, unsigned unsent, uint8_t *word, size_t word_len, const uint16_t *h,
                     const uint16_t (*steps)[10], struct shape sh, unsigned first)
{
    uint64_t z[SYNDROME], y[17] = {0};
    unsigned inverted = lay(information, information_len, unsent, h, sh, z);
    for (unsigned k = 0; k < 15; k++)
        step(z, steps[k], sh);
    unsigned sent = (sh.blocks - sh.rows) * sh.size - unsent, at = sent / 8;
    if (at < information_len)
        y[0] = (uint64_t)information[at] << 56;
    for (unsigned a = 0; a < sh.rows; a++) {
        uint64_t ones = -(uint64_t)(inverted >> a & 1), *row = z + (a + first) % sh.rows * sh.words;
        for (unsigned j = 0; j < sh.words; j++)
            put(j + 1 < sh.words ? row[j] ^ ones : front(row[j] ^ ones, sh.size), y, sent % 8 + a * sh.size + 64 * j);
    }
    memcpy(word, information, at);
    store(y, 0, word + at, word_len - at);
}

static const unsigned word_octets[] = {0, 16, 32, 64, 1022, 1020};
static const unsigned info_octets[] = {0, 8, 16, 32, 895, 892};

static bool offered(uint8_t code)
{
    return code >= 1 && code <= 5;
}

/* DO(table, steps, shape, the row of parity block 0) for the code. */
#define FOR_CODE(code, DO)                                               \
    switch (code) {                                                      \
    case 1:                                                              \
        DO(PARITY16[0][0], STEPS16, ((struct shape){16, 1, 8, 4}), 1);   \
        break;                                                           \
    case 2:                                                              \
        DO(PARITY32[0][0], STEPS32, ((struct shape){32, 1, 8, 4}), 1);   \
        break;                                                           \
    case 3:                                                              \
        DO(PARITY64[0][0], STEPS64, ((struct shape){64, 1, 8, 4}), 1);   \
        break;                                                           \
    default:                                                             \
        DO(PARITY511[0][0], STEPS511, ((struct shape){511, 8, 16, 2}), 0); \
    }

uint8_t fast_encode(uint8_t code, const uint8_t *information, size_t information_len, uint8_t *word, size_t word_len)
{
    if (!offered(code))
        return 1;
    if (information_len != info_octets[code])
        return 2;
    if (word_len != word_octets[code])
        return 3;
    if (code == 4 && (information[894] & 0x3F) != 0)
        return 4;
#define PUT(h, steps, sh, lead) \
    put_parity(information, information_len, code == 5 ? 18 : 0, word, word_len, h, steps, sh, lead)
    FOR_CODE(code, PUT)
    return 0;
}

#define MEASURE(h, steps, sh, lead) \
    syndrome(y, h, sh, z);           \
    wrong = broken(z, sh);           \
    low = lowest(z, sh)

struct judge_checked fast_check(uint8_t code, const uint8_t *word, size_t len)
{
    if (!offered(code))
        return (struct judge_checked){1, 0, 0};
    if (len != word_octets[code])
        return (struct judge_checked){2, 0, 0};
    uint64_t y[HELD], z[SYNDROME];
    unsigned wrong, low;
    take(code, word, len, y);
    FOR_CODE(code, MEASURE)
    return (struct judge_checked){0, wrong, low};
}

/* Quick, codes 1 to 3: a block is doubled in a register, and a block row is a group. */
LEAF struct judge_answered quick_narrow(const uint64_t *y, const uint16_t *h, struct shape sh)
{
    uint64_t d[8];
    for (unsigned b = 0; b < 8; b++) {
        uint64_t v = front(window(y, b * sh.size), sh.size);
        d[b] = sh.size < 64 ? v | v >> sh.size : v;
    }
    for (unsigned r = 0; r < sh.rows; r++) {
        uint64_t sum = 0;
        for (unsigned b = 0; b < 8; b++)
            for (unsigned e = 0; e < 2; e++) {
                unsigned shift = h[2 * (r * 8 + b) + e];
                if (shift < sh.size)
                    sum ^= sh.size < 64 ? d[b] << shift : funnel(d[b], d[b], shift);
            }
        sum = front(sum, sh.size);
        if (sum != 0)
            return (struct judge_answered){0, false, r * sh.size + (unsigned)__builtin_clzll(sum) + 1};
    }
    return (struct judge_answered){0, true, sh.rows * sh.size};
}

/* Quick, codes 4 and 5, once the first group is met: every block doubled, and then group after group. */
LEAF struct judge_answered quick_wide(const uint64_t *y, const uint16_t *h, struct shape sh)
{
    uint64_t d[16 * 16 + 1];
    for (unsigned b = 0; b < 16; b++) {
        uint64_t v[8];
        cut(y, b * sh.size, sh, v);
        twice(v, sh, d + 16 * b);
    }
    for (unsigned r = 0; r < sh.rows; r++) {
        unsigned begins[32];
        for (unsigned k = 0; k < 32; k++)
            begins[k] = 1024 * (k / 2) + h[32 * r + k];
        for (unsigned g = 0; g < sh.words; g++) {
            uint64_t sum = 0;
            for (unsigned k = 0; k < 32; k++)
                sum ^= window(d + g, begins[k]);
            if (g == sh.words - 1)
                sum = front(sum, sh.size);
            if (sum != 0)
                return (struct judge_answered){0, false, r * sh.size + 64 * g + (unsigned)__builtin_clzll(sum) + 1};
        }
    }
    return (struct judge_answered){0, true, sh.rows * sh.size};
}

/* The 64 bits of the octets from bit p on; of code 5 the first 18 are not there, and 0. */
LEAF uint64_t octets_window(const uint8_t *octets, unsigned p, unsigned unsent)
{
    unsigned at = p < unsent ? 0 : p - unsent, t = at % 8;
    uint64_t v;
    memcpy(&v, octets + at / 8, 8);
    v = __builtin_bswap64(v) << t | (uint64_t)octets[at / 8 + 8] >> (8 - t);
    return p < unsent ? v >> (unsent - p) : v;
}

/* The first 64 checks of codes 4 and 5, straight from the octets. No window that the table asks for reaches their end. */
static uint64_t first_group(const uint8_t *octets, unsigned unsent)
{
    uint64_t sum = 0;
    for (unsigned b = 0; b < 16; b++)
        for (unsigned e = 0; e < 2; e++) {
            unsigned shift = PARITY511[0][b][e], left = 511 - shift;
            uint64_t v = octets_window(octets, 511 * b + shift, unsent);
            if (left < 64)
                v = (v & ~UINT64_C(0) << (64 - left)) | octets_window(octets, 511 * b, unsent) >> left;
            sum ^= v;
        }
    return sum;
}

struct judge_answered fast_quick(uint8_t code, const uint8_t *word, size_t len)
{
    if (!offered(code))
        return (struct judge_answered){1, false, 0};
    if (len != word_octets[code])
        return (struct judge_answered){2, false, 0};
    if (code >= 4) {
        uint64_t group = first_group(word, code == 5 ? 18 : 0);
        if (group != 0)
            return (struct judge_answered){0, false, (unsigned)__builtin_clzll(group) + 1};
    }
    uint64_t y[HELD];
    struct judge_answered answer;
    take(code, word, len, y);
#define QUICK(h, steps, sh, lead) answer = sh.words == 1 ? quick_narrow(y, h, sh) : quick_wide(y, h, sh)
    FOR_CODE(code, QUICK)
    return answer;
}

struct judge_opened fast_open(uint8_t code, const uint8_t *word, size_t len)
{
    if (!offered(code) || code == 4)
        return (struct judge_opened){1, 0, 0};
    if (len != word_octets[code])
        return (struct judge_opened){2, 0, 0};
    uint64_t y[HELD], z[SYNDROME];
    unsigned wrong, low;
    take(code, word, len, y);
    FOR_CODE(code, MEASURE)
    uint8_t number = wrong != 0 ? 9 : code != 5 ? 0 : (word[1019] & 3) != 0 ? 14 : own_parity(y) ? 0 : 15;
    return (struct judge_opened){number, low, number == 0 ? info_octets[code] : 0};
}

/* In how many bits y differs from the octets it was taken from. Code 5's last two are the same in both. */
LEAF uint32_t unlike(uint8_t code, const uint8_t *octets, size_t len, const uint64_t *y)
{
    unsigned from = code == 5 ? 18 : 0;
    uint32_t n = code == 5 ? ones(y[0] >> 46) : 0;
    size_t k = 0;
    for (; k < len / 8; k++) {
        uint64_t v;
        memcpy(&v, octets + 8 * k, 8);
        n += ones(__builtin_bswap64(v) ^ funnel(y[k], y[k + 1], from));
    }
    uint64_t last = funnel(y[k], y[k + 1], from);
    for (size_t i = 8 * k; i < len; i++)
        last ^= (uint64_t)octets[i] << (56 - 8 * (i % 8));
    return n + ones(last);
}

struct judge_corrected fast_correct(uint8_t code, const uint8_t *word, size_t len, uint16_t limit, uint8_t *out,
                                    size_t out_len)
{
    struct judge_corrected answer = {0};
    answer.number = !offered(code) ? 1 : len != word_octets[code] ? 2 : out_len != word_octets[code] ? 3 : 0;
    if (answer.number != 0)
        return answer;
    uint64_t y[HELD], z[SYNDROME];
    take(code, word, len, y);
#define RUN(h, steps, sh, lead) \
    syndrome(y, h, sh, z);           \
    answer.first = broken(z, sh);    \
    answer.lowest = lowest(z, sh);   \
    answer.last = answer.first;      \
    answer.number = run(y, z, h, sh, code == 5 ? 18 : 0, limit, &answer.flips, &answer.last)
    FOR_CODE(code, RUN)
    answer.unlike = answer.flips <= 1 ? answer.flips : unlike(code, word, len, y);
    if (answer.number == 0 && code >= 4 && !own_parity(y))
        answer.number = 8;
    if (answer.number == 0)
        give(code, y, out, out_len);
    return answer;
}

/* The run with a record of each flip; the reason for a refusal 5 stands in a place of its own. */
static uint8_t run_listed(uint64_t *y, uint64_t *z, const uint16_t *h, struct shape sh, unsigned from, uint16_t limit,
                          uint32_t *flips, struct judge_fliprecord *list, struct judge_fliprecord *reason)
{
    for (*flips = 0;; ++*flips) {
        if (quiet(z, sh))
            return 0;
        struct best best = choose_once(z, h, sh, from);
        if (best.score <= 8) {
            *reason = (struct judge_fliprecord){best.bit, (int8_t)(best.score - 8), 0};
            return 5;
        }
        if (*flips >= limit)
            return 6;
        flip(y, z, h, sh, best.bit);
        list[*flips] = (struct judge_fliprecord){best.bit, (int8_t)(best.score - 8), broken(z, sh)};
    }
}

static uint32_t count_flips(uint8_t code, const uint8_t *word, size_t len, uint16_t limit)
{
    uint64_t y[HELD], z[SYNDROME];
    uint32_t flips = 0, left = 0;
    take(code, word, len, y);
#define COUNT(h, steps, sh, lead) \
    syndrome(y, h, sh, z);        \
    left = broken(z, sh);         \
    run(y, z, h, sh, code == 5 ? 18 : 0, limit, &flips, &left)
    FOR_CODE(code, COUNT)
    return flips;
}

/* Whether the table serves: by the bounds where they tell, else the flips are counted. */
static bool serves(uint8_t code, const uint8_t *word, size_t len, uint16_t limit, uint32_t first, size_t places)
{
    return limit <= places || (code >= 4 ? first / 2 : first) <= places || count_flips(code, word, len, limit) <= places;
}

struct judge_listed fast_list(uint8_t code, const uint8_t *word, size_t len, uint16_t limit, struct judge_fliprecord *table,
                              size_t places)
{
    struct judge_listed answer = {0};
    answer.number = !offered(code) ? 1 : len != word_octets[code] ? 2 : 0;
    if (answer.number != 0)
        return answer;
    uint64_t y[HELD], z[SYNDROME];
    struct judge_fliprecord reason = {0, 0, 0};
    take(code, word, len, y);
#define LIST(h, steps, sh, lead)     \
    syndrome(y, h, sh, z);           \
    answer.first = broken(z, sh);    \
    answer.lowest = lowest(z, sh);   \
    if (!serves(code, word, len, limit, answer.first, places)) \
        return (struct judge_listed){.number = 10}; \
    answer.number = run_listed(y, z, h, sh, code == 5 ? 18 : 0, limit, &answer.flips, table, &reason); \
    answer.last = broken(z, sh)
    FOR_CODE(code, LIST)
    answer.unlike = answer.flips <= 1 ? answer.flips : unlike(code, word, len, y);
    if (answer.number == 0 && code >= 4 && !own_parity(y))
        answer.number = 8;
    answer.bit = reason.bit;
    answer.excess = reason.excess;
    return answer;
}

struct judge_stepped fast_step(uint8_t code, const uint8_t *word, size_t len, uint8_t *out, size_t out_len)
{
    struct judge_stepped answer = {0};
    answer.number = !offered(code) || code == 5 ? 1 : len != word_octets[code] ? 2 : out_len != word_octets[code] ? 3 : 0;
    if (answer.number != 0)
        return answer;
    uint64_t y[HELD], z[SYNDROME];
    struct best best = {0, 0};
    take(code, word, len, y);
#define STEP(h, steps, sh, lead) \
    syndrome(y, h, sh, z);            \
    answer.quiet = quiet(z, sh);      \
    if (!answer.quiet)                \
    best = choose_once(z, h, sh, 0)
    FOR_CODE(code, STEP)
    if (answer.quiet) {
        memcpy(out, word, len);
        return answer;
    }
    if (best.score <= 8) {
        answer.number = 5;
        return answer;
    }
    y[best.bit / 64] ^= UINT64_C(1) << (63 - best.bit % 64);
    give(code, y, out, out_len);
    answer.bit = best.bit;
    answer.excess = (int8_t)(best.score - 8);
    return answer;
}
