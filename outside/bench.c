/* Calls of the library, of the judge and of the same algorithm in C, to be counted or timed.
 *
 *     bench WHO CALL CODE WRONG PASSES    WHO is library, judge or fast; WRONG a number of wrong bits, random,
 *                                        or the group of the lowest broken check: zero, first, middle or last
 *     bench time CALL CODE WRONG         nanoseconds a call of each, one after the other
 *     bench stack CALL CODE WRONG        the most octets of stack that a call of each takes
 *
 * A pass is one call for each of a few words, which are the same at every run. Prints flips a word, the times, or the octets.
 */
#include "breaks.h"
#include "fast.h"
#include "judge.h"
#include "pandoricchia.h"
#include "samples_fast.h"

#include <stdio.h>
#include <stdlib.h>
#include <string.h>
#include <time.h>
#include <ucontext.h>

enum { WORDS = 4, LONGEST = 1022 };

static const size_t word_octets[] = {0, 16, 32, 64, 1022, 1020};
static const size_t info_octets[] = {0, 8, 16, 32, 895, 892};
static const unsigned covered_bits[] = {0, 128, 256, 512, 8176, 8158};

static const char *const names[] = {"library", "judge", "fast"};

static uint64_t state = 1;

/* splitmix64 */
static uint64_t draw(void)
{
    uint64_t z = (state += 0x9E3779B97F4A7C15);
    z = (z ^ z >> 30) * 0xBF58476D1CE4E5B9;
    z = (z ^ z >> 27) * 0x94D049BB133111EB;
    return z ^ z >> 31;
}

static uint8_t information[WORDS][LONGEST], word[WORDS][LONGEST], out[LONGEST];
static float samples[WORDS][8 * LONGEST];
static struct judge_fliprecord table[LONGEST];
static unsigned long flips;

/* Breaks one check at random of a group: zero is check 0 alone, first and last are groups of 64 checks or of a block row,
 * middle is the first group of the last half. Whether there is such a group. */
static bool break_group(uint8_t code, const char *group, uint8_t *x)
{
    unsigned size = code >= 4 ? 511 : 16u << (code - 1), rows = code >= 4 ? 2 : 4, n = size < 64 ? size : 64;
    unsigned from = 0;
    if (strcmp(group, "zero") == 0)
        n = 1;
    else if (strcmp(group, "middle") == 0)
        from = rows / 2 * size;
    else if (strcmp(group, "last") == 0)
        from = (rows - 1) * size + (size - 1) / 64 * 64;
    else if (strcmp(group, "first") != 0)
        return false;
    if (code >= 4 && n > 62)
        n = 62; /* the last check of a block row is not broken alone */
    break_check(code, from + (unsigned)(draw() % n), x);
    return true;
}

/* A sample for each bit of the words, as a receiver may give them: 1 to 3 in size, and 0.01 to 0.6 where the bit is wrong. */
static void prepare_samples(uint8_t code, const char *wrong)
{
    for (unsigned w = 0; w < WORDS; w++) {
        uint8_t sent[LONGEST];
        memcpy(sent, word[w], LONGEST);
        if (strcmp(wrong, "random") != 0)
            pandoricchia_encode(code, information[w], info_octets[code], sent, word_octets[code]);
        for (unsigned bit = 0; bit < 8 * word_octets[code]; bit++) {
            unsigned octet = word[w][bit / 8], mask = 0x80u >> bit % 8;
            float size = (float)((octet ^ sent[bit / 8]) & mask ? 1 + draw() % 60 : 100 + draw() % 200) / 100;
            samples[w][bit] = octet & mask ? -size : size;
        }
    }
}

static void prepare(uint8_t code, const char *wrong)
{
    for (unsigned w = 0; w < WORDS; w++) {
        for (size_t i = 0; i < LONGEST; i++) {
            information[w][i] = (uint8_t)draw();
            word[w][i] = (uint8_t)draw();
        }
        if (code == 4)
            information[w][894] &= 0xC0;
        if (strcmp(wrong, "random") == 0)
            continue;
        pandoricchia_encode(code, information[w], info_octets[code], word[w], word_octets[code]);
        if (break_group(code, wrong, word[w]))
            continue;
        uint8_t done[LONGEST] = {0};
        for (int left = atoi(wrong); left > 0;) {
            unsigned bit = (unsigned)(draw() % covered_bits[code]);
            uint8_t mask = (uint8_t)(0x80 >> bit % 8);
            if (done[bit / 8] & mask)
                continue;
            done[bit / 8] |= mask;
            word[w][bit / 8] ^= mask;
            left--;
        }
    }
}

/* One call, of whichever kind, by whomever. What it answers is added up, so that none is left out. */
static unsigned long ask(unsigned who, char call, uint8_t code, unsigned w)
{
    const uint8_t *i = information[w], *x = word[w];
    size_t il = info_octets[code], l = word_octets[code];
    switch (call) {
    case 'e':
        return who == 0   ? pandoricchia_encode(code, i, il, out, l)
               : who == 1 ? judge_encode(code, i, il, out, l)
                          : fast_encode(code, i, il, out, l);
    case 'h':
        return who == 0   ? pandoricchia_check(code, x, l).broken
               : who == 1 ? judge_check(code, x, l).broken
                          : fast_check(code, x, l).broken;
    case 'l':
        return who == 0   ? pandoricchia_list(code, x, l, 65535, (pandoricchia_fliprecord *)table, LONGEST).flips
               : who == 1 ? judge_list(code, x, l, 65535, table, LONGEST).flips
                          : fast_list(code, x, l, 65535, table, LONGEST).flips;
    case 'q':
        return who == 0   ? pandoricchia_quick(code, x, l).evaluated
               : who == 1 ? judge_quick(code, x, l).evaluated
                          : fast_quick(code, x, l).evaluated;
    case 'o':
        return who == 0   ? pandoricchia_open(code, x, l).octets
               : who == 1 ? judge_open(code, x, l).octets
                          : fast_open(code, x, l).octets;
    case 'a':
        return who == 0   ? pandoricchia_correct_samples(code, samples[w], 8 * l, 65535, out, l).flips
               : who == 1 ? judge_correct_samples(code, samples[w], 8 * l, 65535, out, l).flips
                          : fast_correct_samples(code, samples[w], 8 * l, 65535, out, l).flips;
    case 'c':
        return who == 0   ? pandoricchia_correct(code, x, l, 65535, out, l).flips
               : who == 1 ? judge_correct(code, x, l, 65535, out, l).flips
                          : fast_correct(code, x, l, 65535, out, l).flips;
    default:
        return who == 0   ? pandoricchia_step(code, x, l, out, l).bit
               : who == 1 ? judge_step(code, x, l, out, l).bit
                          : fast_step(code, x, l, out, l).bit;
    }
}

static unsigned long passes(unsigned who, char call, uint8_t code, unsigned long n)
{
    unsigned long sum = 0;
    for (; n > 0; n--)
        for (unsigned w = 0; w < WORDS; w++)
            sum += ask(who, call, code, w);
    return sum;
}

static double seconds(void)
{
    struct timespec t;
    clock_gettime(CLOCK_PROCESS_CPUTIME_ID, &t);
    return (double)t.tv_sec + (double)t.tv_nsec * 1e-9;
}

/* The least of several times, each long enough to be measured. */
static void print_times(char call, uint8_t code)
{
    double least[3] = {1e9, 1e9, 1e9};
    for (unsigned round = 0; round < 5; round++) {
        for (unsigned who = 0; who < 3; who++) {
            double start = seconds(), spent = 0;
            unsigned long n = 0, more = 1;
            while (spent < 0.005) {
                flips += passes(who, call, code, more);
                n += more;
                more *= 2;
                spent = seconds() - start;
            }
            double each = spent * 1e9 / (double)(n * WORDS);
            least[who] = each < least[who] ? each : least[who];
        }
    }
    printf("%.1f %.1f %.1f\n", least[0], least[1], least[2]);
}

/* A stack of its own for a call, painted before it: what the call writes shows how deep it went. */
enum { PAINT = 0xA5, NOBODY = 3 };

static unsigned char stack[1 << 16];
static ucontext_t here, there;
static struct {
    unsigned who;
    char call;
    uint8_t code;
    unsigned w;
} asked;

static void answer(void)
{
    if (asked.who != NOBODY)
        flips += ask(asked.who, asked.call, asked.code, asked.w);
}

static size_t painted_over(void)
{
    memset(stack, PAINT, sizeof stack);
    getcontext(&there);
    there.uc_stack.ss_sp = stack;
    there.uc_stack.ss_size = sizeof stack;
    there.uc_link = &here;
    makecontext(&there, answer, 0);
    swapcontext(&here, &there);
    size_t low = 0;
    while (low < sizeof stack && stack[low] == PAINT)
        low++;
    return sizeof stack - low;
}

/* The most octets of each, without those that are taken where nobody is asked. */
static void print_stack(char call, uint8_t code)
{
    size_t most[4] = {0};
    for (unsigned who = 0; who <= NOBODY; who++)
        for (unsigned w = 0; w < WORDS; w++) {
            asked.who = who, asked.call = call, asked.code = code, asked.w = w;
            size_t n = painted_over();
            most[who] = n > most[who] ? n : most[who];
        }
    printf("%zu %zu %zu\n", most[0] - most[NOBODY], most[1] - most[NOBODY], most[2] - most[NOBODY]);
}

int main(int argc, char **argv)
{
    if (argc < 5)
        return 2;
    char call = strcmp(argv[2], "check") == 0 ? 'h' : strcmp(argv[2], "samples") == 0 ? 'a' : argv[2][0];
    uint8_t code = (uint8_t)atoi(argv[3]);
    prepare(code, argv[4]);
    prepare_samples(code, argv[4]);
    if (strcmp(argv[1], "time") == 0) {
        print_times(call, code);
        return flips == 0xFFFFFFFF;
    }
    if (strcmp(argv[1], "stack") == 0) {
        print_stack(call, code);
        return flips == 0xFFFFFFFF;
    }
    unsigned who = 0;
    while (who < 2 && strcmp(argv[1], names[who]) != 0)
        who++;
    passes(who, call, code, 1);
    unsigned long sum = passes(who, call, code, (unsigned long)atol(argv[5]));
    printf("%.2f\n", (double)sum / (WORDS * atof(argv[5])));
    return 0;
}
