/* Compares the library's BCH calls with the judge: every number returned, every octet of the output afterwards.
 *
 *     cc -std=c11 -O2 -Iinclude -o target/bch_compare outside/bch_compare.c outside/bch_judge.c LIBRARY.a
 *     target/bch_compare WORDS RANDOM SEED
 *
 * WORDS is the number of codewords of which all single and all double errors are tried in both modes, the fill bit being
 * changed now and then; RANDOM the number of random words and of random information; all lengths from 0 to 20 of both
 * buffers come on top. What must come of a spoilt codeword is also said outright, beside the judge's answer.
 */
#include "bch_judge.h"
#include "pandoricchia.h"

#include <inttypes.h>
#include <stdio.h>
#include <stdlib.h>
#include <string.h>

enum { WORD = 8, INFORMATION = 7, SENT = 63, LENGTHS = 20, GUARD = 8, ROOM = GUARD + LENGTHS + GUARD };

static uint64_t state;
static unsigned long compared, numbers[256];

/* splitmix64 */
static uint64_t draw(void)
{
    uint64_t z = (state += 0x9E3779B97F4A7C15);
    z = (z ^ z >> 30) * 0xBF58476D1CE4E5B9;
    z = (z ^ z >> 27) * 0x94D049BB133111EB;
    return z ^ z >> 31;
}

static void draw_octets(uint8_t *octets, size_t len)
{
    for (size_t i = 0; i < len; i++)
        octets[i] = (uint8_t)draw();
}

static void flip(uint8_t *octets, unsigned bit)
{
    octets[bit / 8] ^= (uint8_t)(0x80 >> bit % 8);
}

static void fail(const char *what, const uint8_t *input, size_t len, size_t out_len)
{
    printf("bch: %s; input of %zu octets, output of %zu:", what, len, out_len);
    for (size_t i = 0; i < len; i++)
        printf(" %02X", input[i]);
    printf("\n");
    exit(EXIT_FAILURE);
}

enum call { ENCODE, CORRECT, DETECT };

/* Asks both, and stops at a difference. The output lies between guards and is filled at random before. */
static struct judge_mended compare(enum call call, const uint8_t *input, size_t len, uint8_t *out, size_t out_len)
{
    uint8_t given[LENGTHS], before[ROOM], judge_room[ROOM], library_room[ROOM];
    memcpy(given, input, len);
    draw_octets(before, ROOM);
    memcpy(judge_room, before, ROOM);
    memcpy(library_room, before, ROOM);
    uint8_t *judge_out = judge_room + GUARD, *library_out = library_room + GUARD;
    struct judge_mended judge, library;
    if (call == ENCODE) {
        judge = (struct judge_mended){judge_bch_encode(input, len, judge_out, out_len), 0};
        library = (struct judge_mended){pandoricchia_bch_encode(input, len, library_out, out_len), 0};
    } else {
        judge = judge_bch_check(call == DETECT, input, len, judge_out, out_len);
        pandoricchia_mended said = pandoricchia_bch_check(call == DETECT, input, len, library_out, out_len);
        library = (struct judge_mended){said.number, said.mended};
    }
    if (judge.number != library.number || judge.mended != library.mended)
        fail("the answers differ", input, len, out_len);
    if (memcmp(judge_room, library_room, ROOM) != 0)
        fail("the outputs differ", input, len, out_len);
    if (library.number != 0 && memcmp(before, library_room, ROOM) != 0)
        fail("a refused call has written", input, len, out_len);
    if (memcmp(given, input, len) != 0)
        fail("the input is written", input, len, out_len);
    if (library.number == 0)
        memcpy(out, library_out, WORD);
    compared++;
    numbers[library.number]++;
    return library;
}

/* What must come of a codeword with some wrong bits of the 63, in both modes, whatever the fill bit is. */
static void demand(const uint8_t *codeword, uint8_t *received, unsigned wrong)
{
    uint8_t out[WORD];
    received[WORD - 1] ^= (uint8_t)(draw() % 2);
    struct judge_mended a = compare(CORRECT, received, WORD, out, WORD);
    if (wrong <= 1 ? a.number != 0 || a.mended != wrong || memcmp(out, codeword, WORD) != 0 : a.number != 13)
        fail("correcting mode, not as it must be", received, WORD, WORD);
    a = compare(DETECT, received, WORD, out, WORD);
    if (wrong == 0 ? a.number != 0 || memcmp(out, codeword, WORD) != 0 : a.number != 13)
        fail("detect-only mode, not as it must be", received, WORD, WORD);
}

static void compare_errors(void)
{
    uint8_t information[INFORMATION], codeword[WORD], received[WORD];
    draw_octets(information, INFORMATION);
    if (compare(ENCODE, information, INFORMATION, codeword, WORD).number != 0 || memcmp(information, codeword, INFORMATION) != 0)
        fail("encode, not as it must be", information, INFORMATION, WORD);
    memcpy(received, codeword, WORD);
    demand(codeword, received, 0);
    flip(received, SENT);
    demand(codeword, received, 0);
    for (unsigned i = 0; i < SENT; i++) {
        flip(received, i);
        demand(codeword, received, 1);
        for (unsigned k = 0; k < i; k++) {
            flip(received, k);
            demand(codeword, received, 2);
            flip(received, k);
        }
        flip(received, i);
    }
}

/* Words that are known: the one of seven zero octets; and the older tail sequence, which is made to be refused. */
static void compare_known(void)
{
    static const uint8_t zeros[INFORMATION], zeros_word[WORD] = {0, 0, 0, 0, 0, 0, 0, 0xFE};
    static const uint8_t tail[WORD] = {0xC5, 0xC5, 0xC5, 0xC5, 0xC5, 0xC5, 0xC5, 0x79};
    uint8_t out[WORD];
    if (compare(ENCODE, zeros, INFORMATION, out, WORD).number != 0 || memcmp(out, zeros_word, WORD) != 0)
        fail("the word of seven zero octets", zeros, INFORMATION, WORD);
    if (compare(CORRECT, tail, WORD, out, WORD).number != 13 || compare(DETECT, tail, WORD, out, WORD).number != 13)
        fail("the tail sequence is taken", tail, WORD, WORD);
}

int main(int argc, char **argv)
{
    if (argc != 4) {
        fprintf(stderr, "usage: bch_compare WORDS RANDOM SEED\n");
        return 2;
    }
    uint8_t input[LENGTHS], out[WORD];
    state = strtoull(argv[3], NULL, 10);
    compare_known();
    for (unsigned long n = strtoul(argv[1], NULL, 10); n > 0; n--)
        compare_errors();
    for (unsigned long n = strtoul(argv[2], NULL, 10); n > 0; n--)
        for (enum call call = ENCODE; call <= DETECT; call++) {
            draw_octets(input, LENGTHS);
            compare(call, input, call == ENCODE ? INFORMATION : WORD, out, WORD);
        }
    for (size_t len = 0; len <= LENGTHS; len++)
        for (size_t out_len = 0; out_len <= LENGTHS; out_len++)
            for (enum call call = ENCODE; call <= DETECT; call++) {
                draw_octets(input, LENGTHS);
                compare(call, input, len, out, out_len);
            }
    printf("bch: %lu answers compared, no difference; numbers", compared);
    for (unsigned number = 0; number < 256; number++)
        if (numbers[number] > 0)
            printf(" %u: %lu", number, numbers[number]);
    printf("\n");
    return EXIT_SUCCESS;
}
