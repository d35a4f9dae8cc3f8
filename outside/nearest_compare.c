/* Compares the library's search for the nearest command with the judge's: every number returned, every octet of the output.
 *
 *     cc -std=c11 -O2 -Iinclude -o target/nearest_compare outside/nearest_compare.c outside/nearest_judge.c \
 *         outside/judge.c LIBRARY.a
 *     target/nearest_compare WORDS [SEED]
 *
 * WORDS is how many words are drawn: codewords with 0 to 12 wrong bits, and noise, under every reach from 0 to 3. Every
 * length from 0 to 40 of both buffers and every reach to 255 come on top. What must come of few wrong bits is also said
 * outright, beside the judge's answer.
 */
#include "draws.h"
#include "nearest_judge.h"
#include "pandoricchia.h"

#include <inttypes.h>
#include <stdio.h>
#include <stdlib.h>
#include <string.h>

enum { WORD = 16, BITS = 128, LENGTHS = 40, GUARD = 8, ROOM = GUARD + LENGTHS + GUARD };

static uint64_t seed;
static unsigned long compared, numbers[256], leasts[4];

static void fail(const char *what, const uint8_t *word, size_t len, uint8_t reach, size_t out_len)
{
    printf("nearest, reach %u: %s; input of %zu octets, output of %zu:", reach, what, len, out_len);
    for (size_t i = 0; i < len; i++)
        printf(" %02X", word[i]);
    printf("\nseed %" PRIu64 ": a difference after %lu equal answers\n", seed, compared);
    exit(EXIT_FAILURE);
}

/* Asks both, and stops at a difference. The output lies between guards and is filled at random before. */
static struct judge_reached compare(const uint8_t *word, size_t len, uint8_t reach, uint8_t *out, size_t out_len)
{
    uint8_t given[LENGTHS], before[ROOM], judge_room[ROOM], library_room[ROOM];
    memcpy(given, word, len);
    draw_octets(before, ROOM);
    memcpy(judge_room, before, ROOM);
    memcpy(library_room, before, ROOM);
    struct judge_reached judge = judge_nearest(word, len, reach, judge_room + GUARD, out_len);
    pandoricchia_reached library = pandoricchia_nearest(given, len, reach, library_room + GUARD, out_len);
    if (judge.number != library.number || judge.least != library.least || memcmp(judge.bits, library.bits, sizeof judge.bits) != 0)
        fail("the answers differ", word, len, reach, out_len);
    if (memcmp(judge_room, library_room, ROOM) != 0)
        fail("the outputs differ", word, len, reach, out_len);
    if (judge.number != 0 && memcmp(before, library_room, ROOM) != 0)
        fail("a refused call has written", word, len, reach, out_len);
    if (memcmp(given, word, len) != 0)
        fail("the input is written", word, len, reach, out_len);
    if (judge.number == 0) {
        memcpy(out, library_room + GUARD, WORD);
        leasts[judge.least]++;
    }
    numbers[judge.number]++;
    compared++;
    return judge;
}

/* A codeword with some wrong bits, under each reach. */
static void spoilt(void)
{
    uint8_t information[WORD / 2], codeword[WORD], word[WORD], out[WORD];
    unsigned wrong = below(13);
    draw_octets(information, sizeof information);
    judge_encode(1, information, sizeof information, codeword, WORD);
    memcpy(word, codeword, WORD);
    for (unsigned k = 0; k < wrong;) {
        unsigned bit = below(BITS);
        uint8_t mask = (uint8_t)(0x80 >> bit % 8);
        if ((word[bit / 8] ^ codeword[bit / 8]) & mask)
            continue;
        word[bit / 8] ^= mask;
        k++;
    }
    for (uint8_t reach = 0; reach <= 3; reach++) {
        struct judge_reached a = compare(word, WORD, reach, out, WORD);
        if (wrong <= reach && (a.number != 0 || a.least > wrong))
            fail("a codeword was nearer", word, WORD, reach, WORD);
        if (wrong <= 1 && wrong <= reach && (a.least != wrong || memcmp(out, codeword, WORD) != 0))
            fail("another codeword than the one that was spoilt", word, WORD, reach, WORD);
        if (a.number == 0 && judge_check(1, out, WORD).broken != 0)
            fail("what was found is no codeword", word, WORD, reach, WORD);
    }
}

static void lengths(void)
{
    uint8_t word[LENGTHS] = {0}, out[WORD];
    for (size_t len = 0; len < LENGTHS; len++)
        for (size_t out_len = 0; out_len < LENGTHS; out_len++) {
            draw_octets(word, len < 2 ? len : 2);
            compare(word, len, (uint8_t)(len == WORD && out_len == WORD ? 1 : below(256)), out, out_len);
        }
    for (unsigned reach = 0; reach < 256; reach++) {
        compare(word, WORD, (uint8_t)reach, out, WORD);
        compare(word, WORD, (uint8_t)reach, out, WORD - 1);
        compare(word, WORD + 1, (uint8_t)reach, out, WORD);
    }
}

int main(int argc, char **argv)
{
    unsigned long words = argc > 1 ? strtoul(argv[1], NULL, 10) : 200;
    seed = state = argc > 2 ? strtoull(argv[2], NULL, 10) : 1;
    lengths();
    for (unsigned long k = 0; k < words; k++) {
        uint8_t word[WORD], out[WORD];
        spoilt();
        draw_octets(word, WORD);
        compare(word, WORD, (uint8_t)below(4), out, WORD);
    }
    printf("nearest: %lu answers compared, no difference; numbers", compared);
    for (unsigned k = 0; k < 256; k++)
        if (numbers[k] > 0)
            printf(" %u: %lu", k, numbers[k]);
    printf("; least");
    for (unsigned k = 0; k <= 3; k++)
        printf(" %u: %lu", k, leasts[k]);
    printf("\n");
    return 0;
}
