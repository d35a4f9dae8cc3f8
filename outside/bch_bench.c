/* BCH calls of the library, of the judge and of the same algorithm in C, to be counted or timed.
 *
 *     bch_bench WHO CALL 0 WRONG PASSES    WHO is library, judge or fast; CALL bch-encode, bch-check or bch-detect
 *     bch_bench time CALL 0 WRONG         nanoseconds a call of each
 *
 * The words are bench's: there is no code number, and WRONG is the number of wrong bits, 0, 1 or 2. A pass is one call for
 * each of a few words, which are the same at every run.
 */
#include "bch_fast.h"
#include "pandoricchia.h"

#include <stdio.h>
#include <stdlib.h>
#include <string.h>
#include <time.h>

enum { WORDS = 4, WORD = 8, INFORMATION = 7 };

static const char *const names[] = {"library", "judge", "fast"};
static uint8_t information[WORDS][INFORMATION], word[WORDS][WORD], out[WORD];

static void prepare(int wrong)
{
    for (unsigned w = 0; w < WORDS; w++) {
        for (unsigned i = 0; i < INFORMATION; i++)
            information[w][i] = (uint8_t)(37 * w + 101 * i + 5);
        judge_bch_encode(information[w], INFORMATION, word[w], WORD);
        for (int k = 0; k < wrong; k++) {
            unsigned bit = 19 * w + 5 * (unsigned)k;
            word[w][bit / 8] ^= (uint8_t)(0x80 >> bit % 8);
        }
    }
}

static unsigned ask(unsigned who, char call, unsigned w)
{
    bool detect_only = call == 'd';
    if (call == 'e')
        return who == 0   ? pandoricchia_bch_encode(information[w], INFORMATION, out, WORD)
               : who == 1 ? judge_bch_encode(information[w], INFORMATION, out, WORD)
                          : fast_bch_encode(information[w], INFORMATION, out, WORD);
    return who == 0   ? pandoricchia_bch_check(detect_only, word[w], WORD, out, WORD).mended
           : who == 1 ? judge_bch_check(detect_only, word[w], WORD, out, WORD).mended
                      : fast_bch_check(detect_only, word[w], WORD, out, WORD).mended;
}

static unsigned long passes(unsigned who, char call, unsigned long n)
{
    unsigned long sum = 0;
    for (; n > 0; n--)
        for (unsigned w = 0; w < WORDS; w++)
            sum += ask(who, call, w);
    return sum;
}

static double seconds(void)
{
    struct timespec t;
    clock_gettime(CLOCK_PROCESS_CPUTIME_ID, &t);
    return (double)t.tv_sec + (double)t.tv_nsec * 1e-9;
}

int main(int argc, char **argv)
{
    if (argc < 5 || strncmp(argv[2], "bch-", 4) != 0)
        return 2;
    char call = argv[2][4];
    unsigned long sum = 0;
    prepare(atoi(argv[4]));
    if (strcmp(argv[1], "time") == 0) {
        for (unsigned who = 0; who < 3; who++) {
            double start = seconds();
            sum += passes(who, call, 2000);
            printf("%.1f ", (seconds() - start) * 1e9 / (2000.0 * WORDS));
        }
        printf("\n");
        return sum == 0xFFFFFFFF;
    }
    unsigned who = 0;
    while (who < 2 && strcmp(argv[1], names[who]) != 0)
        who++;
    passes(who, call, 1);
    sum = passes(who, call, (unsigned long)atol(argv[5]));
    printf("%.2f\n", (double)sum / (WORDS * atof(argv[5])));
    return 0;
}
