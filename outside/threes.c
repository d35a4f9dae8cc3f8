/* Counts, by the library's own correct, what comes of three wrong bits. Stands outside the proofs.
 *
 *     threes CODE [PART PARTS]      every three whose first bit (codes 1 to 3) or middle bit (codes 4 and 5) is PART modulo PARTS
 *
 * A run does not depend on the codeword that was sent (a theorem), so the word of zeros stands for all of them. Codes 1 to 3: every
 * three. Codes 4 and 5: a three of which one bit shares no check with the two others, or of which all lie in one check, is mended by
 * three flips (a theorem); the others are tried here: a middle bit that shares one check with a second bit and another check with a
 * third. Which bits share a check is asked of the judge. Bits of code 5 are the sent ones that checks cover. */
#include "judge.h"
#include "pandoricchia.h"

#include <stdio.h>
#include <stdlib.h>
#include <string.h>

enum { MOST_BITS = 8176, MOST_CHECKS = 1022, DEGREE = 5, COVERED = 32 };

struct counts {
    unsigned long long tried, by_three, by_more, another, stuck, quiet;
};

static uint8_t code;
static unsigned bits;                             /* of a word that checks cover */
static size_t octets;
static unsigned degree[MOST_BITS];                /* how many checks cover a bit, and which */
static uint16_t checks[MOST_BITS][DEGREE];
static unsigned covers[MOST_CHECKS];              /* how many bits a check covers, and which */
static uint16_t covered[MOST_CHECKS][COVERED];

static void flip(uint8_t *word, unsigned bit)
{
    word[bit / 8] ^= (uint8_t)(0x80 >> bit % 8);
}

static void learn(void)
{
    static uint8_t word[PANDORICCHIA_MOST_WORD_OCTETS];
    static unsigned char broken[MOST_CHECKS];
    unsigned all = code <= 3 ? (unsigned)octets * 4 : MOST_CHECKS;
    for (unsigned bit = 0; bit < bits; bit++) {
        flip(word, bit);
        judge_checks(code, word, broken);
        flip(word, bit);
        for (unsigned check = 0; check < all; check++)
            if (broken[check]) {
                checks[bit][degree[bit]++] = (uint16_t)check;
                covered[check][covers[check]++] = (uint16_t)bit;
            }
    }
}

/* The check that two bits share, or -1: no two share more than one. */
static int shared(unsigned a, unsigned b)
{
    for (unsigned i = 0; i < degree[a]; i++)
        for (unsigned j = 0; j < degree[b]; j++)
            if (checks[a][i] == checks[b][j])
                return checks[a][i];
    return -1;
}

static void try_three(struct counts *all, unsigned a, unsigned b, unsigned c)
{
    static uint8_t word[PANDORICCHIA_MOST_WORD_OCTETS], out[PANDORICCHIA_MOST_WORD_OCTETS];
    static const uint8_t zeros[PANDORICCHIA_MOST_WORD_OCTETS];
    flip(word, a), flip(word, b), flip(word, c);
    pandoricchia_corrected given = pandoricchia_correct(code, word, octets, 65535, out, octets);
    flip(word, a), flip(word, b), flip(word, c);
    all->tried++;
    if (given.number == PANDORICCHIA_DONE && memcmp(out, zeros, octets) == 0)
        given.flips == 3 ? all->by_three++ : all->by_more++;
    else if (given.number == PANDORICCHIA_DONE)
        all->another++;
    else if (given.number == PANDORICCHIA_STUCK)
        all->stuck++;
    else
        all->quiet++;
}

static void every_three(struct counts *all, unsigned part, unsigned parts)
{
    for (unsigned a = part; a < bits; a += parts)
        for (unsigned b = a + 1; b < bits; b++)
            for (unsigned c = b + 1; c < bits; c++)
                try_three(all, a, b, c);
}

/* Around a middle bit: one neighbour by one of its checks, one by another. Where the two share a check as well, each of the three is
 * such a middle, and the lowest counts. */
static void around(struct counts *all, unsigned middle)
{
    for (unsigned i = 0; i < degree[middle]; i++)
        for (unsigned j = i + 1; j < degree[middle]; j++)
            for (unsigned k = 0; k < covers[checks[middle][i]]; k++)
                for (unsigned l = 0; l < covers[checks[middle][j]]; l++) {
                    unsigned a = covered[checks[middle][i]][k], b = covered[checks[middle][j]][l];
                    if (a == middle || b == middle)
                        continue;
                    if (shared(a, b) >= 0 && (a < middle || b < middle))
                        continue;
                    try_three(all, a, middle, b);
                }
}

int main(int argc, char **argv)
{
    code = (uint8_t)(argc > 1 ? atoi(argv[1]) : 0);
    unsigned part = argc > 3 ? (unsigned)atoi(argv[2]) : 0, parts = argc > 3 ? (unsigned)atoi(argv[3]) : 1;
    octets = pandoricchia_word_octets(code);
    if (octets == 0 || parts == 0 || part >= parts) {
        fprintf(stderr, "usage: threes CODE [PART PARTS]\n");
        return 2;
    }
    bits = (unsigned)octets * 8 - (code == 5 ? 2 : 0);
    struct counts all = {0};
    learn();
    if (code <= 3)
        every_three(&all, part, parts);
    else
        for (unsigned middle = part; middle < bits; middle += parts)
            around(&all, middle);
    printf("code %u", code);
    if (parts > 1)
        printf(", part %u of %u", part, parts);
    printf(": %llu threes tried, %llu mended by three flips, %llu by more; %llu not mended: %llu end at another codeword, %llu at 5, "
           "%llu at 8\n",
           all.tried, all.by_three, all.by_more, all.tried - all.by_three - all.by_more, all.another, all.stuck, all.quiet);
    return 0;
}
