/* The search for the nearest command by the library, by the judge and by the same algorithm in C, to be counted or timed.
 *
 *     nearest_bench WHO nearest REACH WRONG PASSES    WHO is library, judge or fast; WRONG 0 to 3 wrong bits, or far
 *     nearest_bench time nearest REACH WRONG         nanoseconds a call of each
 *
 * A pass is one call for each of a few words, which are the same at every run; far: no codeword within a reach of 3.
 */
#include "nearest_fast.h"
#include "pandoricchia.h"

#include <stdio.h>
#include <stdlib.h>
#include <string.h>
#include <time.h>

enum { WORDS = 4, WORD = 16 };

static const char *const names[] = {"library", "judge", "fast"};
static uint8_t word[WORDS][WORD], out[WORD];

static void prepare(const char *wrong)
{
    uint8_t next = 1;
    for (unsigned w = 0; w < WORDS; w++) {
        if (strcmp(wrong, "far") == 0) {
            do
                for (unsigned i = 0; i < WORD; i++)
                    word[w][i] = next = (uint8_t)(5 * next + 37 * i + 11);
            while (judge_nearest(word[w], WORD, 3, out, WORD).number != 17);
            continue;
        }
        uint8_t information[WORD / 2];
        for (unsigned i = 0; i < WORD / 2; i++)
            information[i] = (uint8_t)(37 * w + 101 * i + 5);
        judge_encode(1, information, WORD / 2, word[w], WORD);
        for (int k = 0; k < atoi(wrong); k++) {
            unsigned bit = 29 * w + 11 * (unsigned)k;
            word[w][bit / 8] ^= (uint8_t)(0x80 >> bit % 8);
        }
    }
}

static unsigned ask(unsigned who, uint8_t reach, unsigned w)
{
    return who == 0   ? pandoricchia_nearest(word[w], WORD, reach, out, WORD).least
           : who == 1 ? judge_nearest(word[w], WORD, reach, out, WORD).least
                      : fast_nearest(word[w], WORD, reach, out, WORD).least;
}

static unsigned long passes(unsigned who, uint8_t reach, unsigned long n)
{
    unsigned long sum = 0;
    for (; n > 0; n--)
        for (unsigned w = 0; w < WORDS; w++)
            sum += ask(who, reach, w);
    return sum;
}

static double seconds(void)
{
    struct timespec t;
    clock_gettime(CLOCK_PROCESS_CPUTIME_ID, &t);
    return (double)t.tv_sec + (double)t.tv_nsec * 1e-9;
}

/* The least of several times, each long enough to be measured. */
static unsigned long print_times(uint8_t reach)
{
    double least[3] = {1e9, 1e9, 1e9};
    unsigned long sum = 0;
    for (unsigned round = 0; round < 5; round++)
        for (unsigned who = 0; who < 3; who++) {
            double start = seconds(), spent = 0;
            unsigned long n = 0, more = 1;
            while (spent < 0.005) {
                sum += passes(who, reach, more);
                n += more;
                more *= 2;
                spent = seconds() - start;
            }
            double each = spent * 1e9 / (double)(n * WORDS);
            least[who] = each < least[who] ? each : least[who];
        }
    printf("%.1f %.1f %.1f\n", least[0], least[1], least[2]);
    return sum;
}

int main(int argc, char **argv)
{
    if (argc < 5)
        return 2;
    uint8_t reach = (uint8_t)atoi(argv[3]);
    prepare(argv[4]);
    if (strcmp(argv[1], "time") == 0)
        return print_times(reach) == 0xFFFFFFFF;
    unsigned who = 0;
    while (who < 2 && strcmp(argv[1], names[who]) != 0)
        who++;
    passes(who, reach, 1);
    printf("%.2f\n", (double)passes(who, reach, (unsigned long)atol(argv[5])) / (WORDS * atof(argv[5])));
    return 0;
}
