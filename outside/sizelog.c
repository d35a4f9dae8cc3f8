/* Samples of a word of code 1 as text on standard input; on standard output both runs as the judge has them, flip by flip: correct's
 * on the bits read, then that of correct_samples. A line is a call with number, flips, first, last and unlike; under it are bit,
 * excess and broken checks left of each flip. */
#include "samples_judge.h"

#include <stdio.h>
#include <stdlib.h>

enum { BITS = 128, OCTETS = 16, LIMIT = 65535, PLACES = 64 };

static void print_run(const char *call, struct judge_corrected a, const struct judge_fliprecord *list)
{
    printf("%s %u %u %u %u %u\n", call, (unsigned)a.number, (unsigned)a.flips, (unsigned)a.first, (unsigned)a.last, (unsigned)a.unlike);
    for (uint32_t k = 0; k < a.flips; k++)
        printf("  flip %u %d %u\n", (unsigned)list[k].bit, list[k].excess, (unsigned)list[k].left);
}

int main(void)
{
    float samples[BITS];
    uint8_t word[OCTETS] = {0}, out[OCTETS];
    struct judge_fliprecord list[PLACES];
    for (unsigned n = 0; n < BITS; n++) {
        if (scanf("%f", &samples[n]) != 1)
            return EXIT_FAILURE;
        if (samples[n] < 0)
            word[n / 8] |= (uint8_t)(0x80 >> n % 8);
    }
    judge_list(1, word, OCTETS, LIMIT, list, PLACES);
    print_run("correct", judge_correct(1, word, OCTETS, LIMIT, out, OCTETS), list);
    print_run("correct_samples", judge_list_samples(1, samples, BITS, LIMIT, out, OCTETS, list), list);
    return EXIT_SUCCESS;
}
