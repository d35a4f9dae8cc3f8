/* How fast each call is on this machine: a line for each, its name, words a second and bits a second, with tabs between.
 *
 *     outside/speed        builds it by each compiler that is here, and makes a table
 *
 * A word is one of a few that are the same at every run, a codeword with so many wrong bits; its bits are all that are sent. The time is
 * the processor's, the least of five, each of a twentieth of a second or more.
 */
#include "draws.h"
#include "pandoricchia.h"

#include <stdio.h>
#include <string.h>
#include <time.h>

enum { WORDS = 16, LONGEST = PANDORICCHIA_MOST_WORD_OCTETS, BLOCK_OCTETS = 512, BLOCK_HOLDS = 504, BLOCKS = 64, MARKER = 4, FRAME = MARKER + 1020 };

static uint8_t information[WORDS][LONGEST], word[WORDS][LONGEST], out[LONGEST];
static float samples[WORDS][8 * LONGEST];
static pandoricchia_fliprecord table[LONGEST];
static uint8_t unit[WORDS * LONGEST], stream[WORDS * FRAME], octets[BLOCKS * BLOCK_HOLDS], blocks[BLOCKS * BLOCK_OCTETS];
static size_t word_len, information_len, unit_len;
static uint8_t code;

/* What is answered is added up here, so that no call can be left out. */
static unsigned long sum;

/* Each call once for each of the words. */
static void encode(void)
{
    for (unsigned w = 0; w < WORDS; w++)
        sum += pandoricchia_encode(code, information[w], information_len, out, word_len);
}
static void check(void)
{
    for (unsigned w = 0; w < WORDS; w++)
        sum += pandoricchia_check(code, word[w], word_len).broken;
}
static void quick(void)
{
    for (unsigned w = 0; w < WORDS; w++)
        sum += pandoricchia_quick(code, word[w], word_len).evaluated;
}
static void open_word(void)
{
    for (unsigned w = 0; w < WORDS; w++)
        sum += pandoricchia_open(code, word[w], word_len).octets;
}
static void correct(void)
{
    for (unsigned w = 0; w < WORDS; w++)
        sum += pandoricchia_correct(code, word[w], word_len, 1000, out, word_len).flips;
}
static void correct_samples(void)
{
    for (unsigned w = 0; w < WORDS; w++)
        sum += pandoricchia_correct_samples(code, samples[w], 8 * word_len, 1000, out, word_len).flips;
}
static void list(void)
{
    for (unsigned w = 0; w < WORDS; w++)
        sum += pandoricchia_list(code, word[w], word_len, 1000, table, LONGEST).flips;
}
static void step(void)
{
    for (unsigned w = 0; w < WORDS; w++)
        sum += pandoricchia_step(code, word[w], word_len, out, word_len).bit;
}
static void nearest(void)
{
    for (unsigned w = 0; w < WORDS; w++)
        sum += pandoricchia_nearest(word[w], word_len, 3, out, word_len).least;
}
static void bch_encode(void)
{
    for (unsigned w = 0; w < WORDS; w++)
        sum += pandoricchia_bch_encode(information[w], information_len, out, word_len);
}
static void bch_check(void)
{
    for (unsigned w = 0; w < WORDS; w++)
        sum += pandoricchia_bch_check(false, word[w], word_len, out, word_len).mended;
}

/* A unit of as many codeblocks, and a stream of as many words. */
static void write_unit(void)
{
    sum += pandoricchia_write_unit(code, information[0], WORDS * information_len, unit, unit_len);
}
static void read_unit(void)
{
    pandoricchia_reading at = pandoricchia_reader(code, unit, unit_len, 10);
    for (unsigned w = 0; w < WORDS; w++) {
        pandoricchia_handed handed = pandoricchia_read(at, unit, unit_len, out, information_len);
        sum += handed.corrected.flips;
        at = handed.next;
    }
}
static void take(void)
{
    pandoricchia_taken taken;
    pandoricchia_taking at = pandoricchia_taker(1000);
    for (size_t from = 0; from < sizeof stream; from += taken.taken) {
        taken = pandoricchia_take(at, stream + from, sizeof stream - from);
        sum += taken.complete;
        at = taken.next;
    }
}
static void import_blocks(void)
{
    sum += pandoricchia_import_blocks(blocks, sizeof blocks, octets, sizeof octets).number;
}
static void export_blocks(void)
{
    sum += pandoricchia_export_blocks(octets, sizeof octets, blocks, sizeof blocks);
}

static double seconds(void)
{
    return (double)clock() / CLOCKS_PER_SEC;
}

static void measure(const char *name, void (*pass)(void), double words, double bits)
{
    double least = 0;
    pass();
    for (unsigned round = 0; round < 5; round++) {
        double began = seconds(), spent = 0;
        unsigned long n = 0;
        for (unsigned long more = 1; spent < 0.05; more *= 2) {
            for (unsigned long k = 0; k < more; k++)
                pass();
            n += more;
            spent = seconds() - began;
        }
        double each = spent / (double)n;
        least = round == 0 || each < least ? each : least;
    }
    printf("%s\t%.0f\t%.0f\n", name, words / least, bits / least);
    fflush(stdout);
}

/* Words of a code with so many wrong bits, and samples of them: 1 to 3 in size, and 0.01 to 0.6 where the bit is wrong. */
static void prepare(uint8_t number, unsigned wrong)
{
    code = number;
    word_len = pandoricchia_word_octets(code);
    information_len = pandoricchia_information_octets(code);
    for (unsigned w = 0; w < WORDS; w++) {
        for (size_t i = 0; i < information_len; i++)
            information[w][i] = (uint8_t)draw();
        if (code == 4)
            information[w][information_len - 1] &= 0xC0;
        pandoricchia_encode(code, information[w], information_len, word[w], word_len);
        for (size_t bit = 0; bit < 8 * word_len; bit++)
            samples[w][bit] = (float)(100 + below(200)) / 100;
        for (unsigned k = 0; k < wrong; k++) {
            size_t bit = below(8 * word_len - 2); /* the last two of code 5 lie in no check */
            word[w][bit / 8] ^= (uint8_t)(0x80 >> bit % 8);
            samples[w][bit] = (float)(1 + below(60)) / 100;
        }
        for (size_t bit = 0; bit < 8 * word_len; bit++)
            if (word[w][bit / 8] >> (7 - bit % 8) & 1)
                samples[w][bit] = -samples[w][bit];
    }
}

static void measure_word(const char *call, void (*pass)(void), uint8_t number, unsigned wrong)
{
    char name[80];
    prepare(number, wrong);
    if (wrong == 0)
        snprintf(name, sizeof name, "%s, code %u", call, number);
    else
        snprintf(name, sizeof name, "%s, code %u, %u wrong %s", call, number, wrong, wrong == 1 ? "bit" : "bits");
    measure(name, pass, WORDS, 8.0 * WORDS * (double)word_len);
}

static void measure_words(void)
{
    for (uint8_t n = 1; n <= 5; n++)
        measure_word("encode", encode, n, 0);
    for (uint8_t n = 1; n <= 5; n++)
        measure_word("check", check, n, 0);
    for (uint8_t n = 1; n <= 5; n++)
        measure_word("quick", quick, n, 0);
    for (uint8_t n = 1; n <= 5; n++)
        if (n != 4)
            measure_word("open", open_word, n, 0);
    for (uint8_t n = 1; n <= 5; n++)
        for (unsigned k = 0; k < 3; k++)
            measure_word("correct", correct, n, n <= 3 ? k : k == 0 ? 0 : k == 1 ? 5 : 20);
    for (uint8_t n = 1; n <= 4; n++)
        for (unsigned k = 0; k < 3; k++)
            measure_word("correct_samples", correct_samples, n, n <= 3 ? k : k == 0 ? 0 : k == 1 ? 5 : 20);
    for (uint8_t n = 1; n <= 5; n++)
        measure_word("list", list, n, n <= 3 ? 2 : 20);
    for (uint8_t n = 1; n <= 4; n++)
        measure_word("step", step, n, 1);
    measure_word("nearest, reach 3", nearest, 1, 2);
}

static void measure_units(uint8_t number)
{
    char name[80];
    prepare(number, 0);
    unit_len = pandoricchia_unit_octets(code, WORDS * information_len);
    snprintf(name, sizeof name, "write_unit, code %u", number);
    measure(name, write_unit, WORDS, 8.0 * (double)unit_len);
    snprintf(name, sizeof name, "reader and read, code %u", number);
    measure(name, read_unit, WORDS, 8.0 * (double)unit_len);
}

/* The old randomiser of telemetry: x^8 + x^7 + x^5 + x^3 + 1 from all ones. */
static void measure_stream(void)
{
    prepare(5, 0);
    for (unsigned w = 0; w < WORDS; w++) {
        uint8_t *at = stream + w * FRAME;
        unsigned bits = 0xFF;
        memcpy(at, "\x1A\xCF\xFC\x1D", MARKER);
        for (size_t i = 0; i < word_len; i++) {
            unsigned octet = 0;
            for (unsigned k = 0; k < 8; k++) {
                octet = octet << 1 | bits >> 7;
                bits = (bits << 1 | ((bits ^ bits >> 2 ^ bits >> 4 ^ bits >> 7) & 1)) & 0xFF;
            }
            at[MARKER + i] = (uint8_t)(word[w][i] ^ octet);
        }
    }
    sum = 0;
    take();
    if (sum != WORDS)
        printf("the stream has %lu words, not %d\n", sum, WORDS);
    measure("take, code 5", take, WORDS, 8.0 * sizeof stream);
}

static void measure_bch(void)
{
    information_len = 7;
    word_len = 8;
    for (unsigned w = 0; w < WORDS; w++) {
        pandoricchia_bch_encode(information[w], information_len, word[w], word_len);
        word[w][w % 7] ^= 0x10;
    }
    measure("bch_encode", bch_encode, WORDS, 64.0 * WORDS);
    measure("bch_check, 1 wrong bit", bch_check, WORDS, 64.0 * WORDS);
}

int main(void)
{
    state = 1;
    measure_words();
    measure_units(1);
    measure_units(3);
    measure_stream();
    measure_bch();
    measure("export_blocks, a block for a word", export_blocks, BLOCKS, 8.0 * sizeof blocks);
    measure("import_blocks, a block for a word", import_blocks, BLOCKS, 8.0 * sizeof blocks);
    return sum == 0;
}
