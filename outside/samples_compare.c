/* Compares the library's correcting by sample sizes with the judge's: every number returned, every octet of the output.
 *
 *     cc -std=c11 -O2 -Iinclude -o target/samples_compare outside/samples_compare.c outside/samples_judge.c \
 *         outside/judge.c LIBRARY.a
 *     target/samples_compare WORDS [SEED [FILE]]
 *
 * WORDS is how many words are drawn of each of the codes 1 to 3, and of code 4 a tenth of it: codewords with wrong bits, and
 * noise, with samples of every kind below. Infinities, what is not a number, all code numbers and wrong lengths come on top, and
 * the samples of a word of code 1 that FILE has as text. What must come of equal magnitudes, of codewords and of one wrong bit is
 * also said outright, beside the judge's answer.
 */
#include "draws.h"
#include "pandoricchia.h"
#include "samples_judge.h"

#include <float.h>
#include <inttypes.h>
#include <stdio.h>
#include <stdlib.h>
#include <string.h>

enum { LONGEST = 1022, BITS = 8 * LONGEST, MORE = 8, GUARD = 8, ROOM = GUARD + LONGEST + MORE + GUARD };

static const size_t octets_of[] = {0, 16, 32, 64, 1022};
static const size_t information_of[] = {0, 8, 16, 32, 895};

/* EQUAL to RECEIVED have the signs of the word that was drawn. */
enum kind { EQUAL, FEW, NEIGHBOURS, LARGEST, ANY, RECEIVED, ZEROS, SUBNORMAL, KINDS };

static const char *const kind_names[KINDS] = {"equal", "few", "neighbours", "largest", "any", "received", "zeros", "subnormal"};

static uint64_t seed;
static unsigned long compared, numbers[256], kinds[KINDS];

static float from_bits(uint32_t bits)
{
    float x;
    memcpy(&x, &bits, sizeof x);
    return x;
}

static void fail(const char *what, uint8_t code, const float *samples, size_t len, uint16_t limit, size_t out_len)
{
    printf("correct_samples, code %u, limit %u: %s; %zu samples, output of %zu octets:", code, limit, what, len, out_len);
    for (size_t n = 0; n < len; n++)
        printf(" %a", (double)samples[n]);
    printf("\nseed %" PRIu64 ": a difference after %lu equal answers\n", seed, compared);
    exit(EXIT_FAILURE);
}

static bool same(struct judge_corrected a, pandoricchia_corrected b)
{
    return a.number == b.number && a.flips == b.flips && a.first == b.first && a.last == b.last && a.unlike == b.unlike
           && a.lowest == b.lowest;
}

/* Asks both, and stops at a difference. The output lies between guards and is filled at random before; the samples lie at any
 * address that is aligned for them. */
static struct judge_corrected compare(uint8_t code, const float *samples, size_t len, uint16_t limit, uint8_t *out, size_t out_len)
{
    static float lent[BITS + MORE + 4];
    float *given = lent + below(4);
    uint8_t before[ROOM], judge_room[ROOM], library_room[ROOM];
    memcpy(given, samples, len * sizeof *samples);
    draw_octets(before, ROOM);
    memcpy(judge_room, before, ROOM);
    memcpy(library_room, before, ROOM);
    struct judge_corrected judge = judge_correct_samples(code, samples, len, limit, judge_room + GUARD, out_len);
    pandoricchia_corrected library = pandoricchia_correct_samples(code, given, len, limit, library_room + GUARD, out_len);
    if (!same(judge, library))
        fail("the answers differ", code, samples, len, limit, out_len);
    if (memcmp(judge_room, library_room, ROOM) != 0)
        fail("the outputs differ", code, samples, len, limit, out_len);
    if (judge.number != 0 && memcmp(before, library_room, ROOM) != 0)
        fail("a refused call has written", code, samples, len, limit, out_len);
    if (memcmp(given, samples, len * sizeof *samples) != 0)
        fail("the samples are written", code, samples, len, limit, out_len);
    if (judge.number == 0)
        memcpy(out, library_room + GUARD, out_len);
    numbers[judge.number]++;
    compared++;
    return judge;
}

/* A magnitude of a kind: base is one number for the whole word. */
static float magnitude_of(enum kind kind, float base, bool right)
{
    switch (kind) {
    case EQUAL:
        return base;
    case FEW:
        return (float)(1 + below(3));
    case NEIGHBOURS:
        return from_bits(0x3F800000 + (uint32_t)below(3));
    case LARGEST:
        return from_bits(0x7F7FFFFF - (uint32_t)below(3));
    case ANY:
        return from_bits(1 + (uint32_t)below(0x7F7FFFFF));
    case RECEIVED:
        return (float)(1 + below(right ? 300 : 60)) / 100;
    case ZEROS:
        return below(2) == 0 ? 0 : base;
    default:
        return from_bits((uint32_t)below(0x800000));
    }
}

/* The word's samples: below 0 for a 1. A zero keeps its sign, and reads as 0. */
static void draw_samples(enum kind kind, const uint8_t *word, const uint8_t *sent, size_t len, float *samples)
{
    float base = below(4) == 0 ? FLT_MAX : below(3) == 0 ? FLT_TRUE_MIN : from_bits(1 + (uint32_t)below(0x7F7FFFFF));
    for (size_t n = 0; n < len; n++) {
        unsigned bit = word[n / 8] >> (7 - n % 8) & 1, was = sent[n / 8] >> (7 - n % 8) & 1;
        float size = magnitude_of(kind, base, bit == was);
        samples[n] = bit ? -size : size;
    }
}

static uint16_t draw_limit(void)
{
    size_t k = below(5);
    return (uint16_t)(k == 0 ? 0 : k == 1 ? 1 : k == 2 ? below(12) : 65535);
}

/* Equal magnitudes: correct's answer and octets on the bits read. */
static void as_correct(uint8_t code, const float *samples, uint16_t limit, struct judge_corrected a, const uint8_t *out)
{
    size_t octets = octets_of[code];
    uint8_t word[LONGEST] = {0}, corrected[LONGEST];
    for (size_t n = 0; n < 8 * octets; n++)
        if (samples[n] < 0)
            word[n / 8] |= (uint8_t)(0x80 >> n % 8);
    if (!same(a, pandoricchia_correct(code, word, octets, limit, corrected, octets)))
        fail("correct has other numbers", code, samples, 8 * octets, limit, octets);
    if (a.number == 0 && memcmp(out, corrected, octets) != 0)
        fail("correct has another word", code, samples, 8 * octets, limit, octets);
}

/* A word with some wrong bits or of noise, with samples of a kind; then once more with one that is infinite or not a number. */
static void drawn(uint8_t code, enum kind kind)
{
    static float samples[BITS];
    size_t octets = octets_of[code], len = 8 * octets;
    uint8_t information[LONGEST], sent[LONGEST], word[LONGEST], out[LONGEST];
    size_t wrong = below(4) == 0 ? 1 : below(code == 4 ? 60 : 12);
    bool noise = below(8) == 0;
    draw_octets(information, information_of[code]);
    if (code == 4)
        information[894] &= 0xC0;
    judge_encode(code, information, information_of[code], sent, octets);
    if (code == 4 && below(8) == 0)
        for (size_t n = 7154; n < 7154 + 511; n++)
            sent[n / 8] ^= (uint8_t)(0x80 >> n % 8);
    bool codeword = judge_correct(code, sent, octets, 0, out, octets).number == 0;
    memcpy(word, sent, octets);
    if (noise)
        draw_octets(word, octets);
    for (size_t k = 0; !noise && k < wrong;) {
        size_t bit = below(len);
        uint8_t mask = (uint8_t)(0x80 >> bit % 8);
        if ((word[bit / 8] ^ sent[bit / 8]) & mask)
            continue;
        word[bit / 8] ^= mask;
        k++;
    }
    draw_samples(kind, word, sent, len, samples);
    kinds[kind]++;
    uint16_t limit = draw_limit();
    struct judge_corrected a = compare(code, samples, len, limit, out, octets);
    if (a.flips > limit || a.flips > a.first || (code == 4 && a.flips > a.first / 2) || a.unlike > a.flips)
        fail("more flips than the bounds", code, samples, len, limit, octets);
    if (kind == EQUAL)
        as_correct(code, samples, limit, a, out);
    if (kind < ZEROS && !noise && codeword && wrong <= 1 && wrong <= limit
        && (a.number != 0 || a.flips != wrong || memcmp(out, sent, octets) != 0))
        fail("a codeword or one wrong bit", code, samples, len, limit, octets);

    size_t at = below(3) == 0 ? 0 : below(3) == 0 ? len - 1 : below(len);
    uint32_t payload = below(3) == 0 ? 0 : 1 + (uint32_t)below(0x7FFFFF);
    samples[at] = from_bits((uint32_t)below(2) << 31 | 0x7F800000 | payload);
    a = compare(code, samples, len, limit, out, octets);
    if (a.number != 16 || a.flips != 0 || a.first != 0 || a.last != 0 || a.unlike != 0 || a.lowest != 0)
        fail("an infinity or what is not a number", code, samples, len, limit, octets);
}

/* Every code number with every code's lengths and those beside them; the samples may be no numbers. */
static void refusals(void)
{
    static float samples[BITS + MORE];
    uint8_t out[LONGEST + MORE];
    for (unsigned code = 0; code < 256; code++)
        for (unsigned other = 0; other <= 4; other++)
            for (unsigned more = 0; more < 9; more++) {
                size_t octets = octets_of[other], len = 8 * octets + more % 3, out_len = octets + more / 3;
                len -= len > 0, out_len -= out_len > 0;
                samples[0] = from_bits(below(2) == 0 ? 0x7F800000 : 0xFFC00001);
                compare((uint8_t)code, samples, len, draw_limit(), out, out_len);
                samples[0] = 0;
                compare((uint8_t)code, samples, len, draw_limit(), out, out_len);
            }
}

static void from_file(const char *name)
{
    float samples[128];
    uint8_t out[16];
    FILE *file = fopen(name, "r");
    for (unsigned n = 0; n < 128; n++)
        if (file == NULL || fscanf(file, "%f", &samples[n]) != 1) {
            printf("%s has no 128 samples\n", name);
            exit(EXIT_FAILURE);
        }
    fclose(file);
    for (uint16_t limit = 0; limit < 16; limit++)
        compare(1, samples, 128, limit, out, 16);
}

int main(int argc, char **argv)
{
    unsigned long words = argc > 1 ? strtoul(argv[1], NULL, 10) : 200;
    seed = state = argc > 2 ? strtoull(argv[2], NULL, 10) : 1;
    if (argc > 3)
        from_file(argv[3]);
    refusals();
    for (uint8_t code = 1; code <= 4; code++)
        for (unsigned long k = 0; k < (code == 4 ? words / 10 : words); k++)
            drawn(code, (enum kind)(k % KINDS));
    printf("correct_samples: %lu answers compared, no difference; numbers", compared);
    for (unsigned k = 0; k < 256; k++)
        if (numbers[k] > 0)
            printf(" %u: %lu", k, numbers[k]);
    printf("; samples");
    for (unsigned k = 0; k < KINDS; k++)
        printf(" %s: %lu", kind_names[k], kinds[k]);
    printf("\n");
    return 0;
}
