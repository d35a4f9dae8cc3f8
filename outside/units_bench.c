/* Units written and read by the library, by the judge and by the same algorithm in C, to be counted or timed.
 *
 *     units_bench WHO CALL CODE WRONG PASSES    WHO is library, judge or fast; CALL write-unit or read-unit, or encode or correct
 *                                              for the same codewords one by one
 *     units_bench time CALL CODE WRONG         nanoseconds a codeblock of each
 *
 * A unit has sixteen codeblocks, and WRONG is the number of wrong bits in each. A pass is a unit.
 */
#include "units_fast.h"

#include "fast.h"
#include "pandoricchia.h"

#include <stdio.h>
#include <stdlib.h>
#include <string.h>
#include <time.h>

enum { BLOCKS = 16, LIMIT = 10 };

static const char *const names[] = {"library", "judge", "fast"};
static uint8_t info[BLOCKS * 32], unit[24 + BLOCKS * 64], words[BLOCKS * 64], out[24 + BLOCKS * 64];
static uint8_t code;
static size_t part, word, octets;

static void prepare(int wrong)
{
    part = code == 1 ? 8 : 32;
    word = 2 * part;
    octets = judge_unit_octets(code, BLOCKS * part);
    for (size_t i = 0; i < BLOCKS * part; i++)
        info[i] = (uint8_t)(i * i * 31 + 7 * i + 1);
    judge_write_unit(code, info, BLOCKS * part, unit, octets);
    for (size_t k = 0; k < BLOCKS; k++) {
        judge_encode(code, info + k * part, part, words + k * word, word);
        for (int b = 0; b < wrong; b++) {
            size_t bit = (11 * k + 29 * (size_t)b) % (8 * word);
            words[k * word + bit / 8] ^= (uint8_t)(0x80 >> bit % 8);
            unit[8 + k * word + bit / 8] ^= (uint8_t)(0x80 >> bit % 8);
        }
    }
}

static unsigned long read_with(unsigned who)
{
    unsigned long sum = 0;
    if (who == 0) {
        pandoricchia_reading s = pandoricchia_reader(code, unit, octets, LIMIT);
        for (size_t k = 0; k < BLOCKS; k++) {
            pandoricchia_handed h = pandoricchia_read(s, unit, octets, out + k * part, part);
            sum += h.corrected.flips;
            s = h.next;
        }
        return sum;
    }
    struct judge_reading s = (who == 1 ? judge_reader : fast_reader)(code, unit, octets, LIMIT);
    for (size_t k = 0; k < BLOCKS; k++) {
        struct judge_handed h = (who == 1 ? judge_read : fast_read)(s, unit, octets, out + k * part, part);
        sum += h.corrected.flips;
        s = h.next;
    }
    return sum;
}

static unsigned long one_by_one(unsigned who, bool encode)
{
    unsigned long sum = 0;
    for (size_t k = 0; k < BLOCKS; k++) {
        const uint8_t *in = encode ? info + k * part : words + k * word;
        uint8_t *to = out + k * word;
        if (encode)
            sum += who == 0   ? pandoricchia_encode(code, in, part, to, word)
                   : who == 1 ? judge_encode(code, in, part, to, word)
                              : fast_encode(code, in, part, to, word);
        else
            sum += who == 0   ? pandoricchia_correct(code, in, word, LIMIT, to, word).flips
                   : who == 1 ? judge_correct(code, in, word, LIMIT, to, word).flips
                              : fast_correct(code, in, word, LIMIT, to, word).flips;
    }
    return sum;
}

static unsigned long passes(unsigned who, const char *call, unsigned long n)
{
    unsigned long sum = 0;
    for (; n > 0; n--) {
        if (strcmp(call, "write-unit") == 0)
            sum += who == 0   ? pandoricchia_write_unit(code, info, BLOCKS * part, out, octets)
                   : who == 1 ? judge_write_unit(code, info, BLOCKS * part, out, octets)
                              : fast_write_unit(code, info, BLOCKS * part, out, octets);
        else if (strcmp(call, "read-unit") == 0)
            sum += read_with(who);
        else
            sum += one_by_one(who, strcmp(call, "encode") == 0);
    }
    return sum;
}

static double seconds(void)
{
    struct timespec t;
    clock_gettime(CLOCK_PROCESS_CPUTIME_ID, &t);
    return (double)t.tv_sec + (double)t.tv_nsec * 1e-9;
}

int main(int argc, char **argv)
{
    if (argc < 5)
        return 2;
    code = (uint8_t)atoi(argv[3]);
    prepare(atoi(argv[4]));
    if (strcmp(argv[1], "time") == 0) {
        for (unsigned who = 0; who < 3; who++) {
            unsigned long n = who == 1 ? 20 : 2000, sum = 0;
            double begun = seconds();
            sum += passes(who, argv[2], n);
            printf("%.1f ", (seconds() - begun) * 1e9 / (double)(n * BLOCKS) + (sum == 1 ? 1e-9 : 0));
        }
        printf("\n");
        return 0;
    }
    for (unsigned who = 0; who < 3; who++)
        if (strcmp(argv[1], names[who]) == 0)
            printf("%lu\n", passes(who, argv[2], strtoul(argv[5], NULL, 10)) + out[0]);
    return 0;
}
