/* Encodes eight octets, spoils a bit of the word, corrects it and opens it.
 *
 *     make lib
 *     cc -Iinclude -o target/use examples/use.c target/staticlib/libpandoricchia.a && target/use
 */
#include "pandoricchia.h"

#include <stdio.h>
#include <stdlib.h>

enum { CODE = 1, INFORMATION = PANDORICCHIA_INFORMATION_OCTETS_1, WORD = PANDORICCHIA_WORD_OCTETS_1, LIMIT = 10 };

static void print_octets(const char *name, const uint8_t *octets, size_t len)
{
    printf("%-12s", name);
    for (size_t i = 0; i < len; i++)
        printf(" %02X", octets[i]);
    printf("\n");
}

/* A call that is refused ends the program with its number. */
static void demand_done(const char *call, uint8_t number)
{
    if (number != PANDORICCHIA_DONE) {
        printf("%s is refused with number %u: %s\n", call, number, pandoricchia_text(number));
        exit(EXIT_FAILURE);
    }
}

int main(void)
{
    const uint8_t information[INFORMATION] = {'T', 'U', 'R', 'N', ' ', 'O', 'F', 'F'};
    uint8_t word[WORD], out[WORD];

    /* A library of another major number has other records, and must not be called. */
    if (pandoricchia_version() >> 16 != PANDORICCHIA_VERSION_NUMBER >> 16) {
        printf("the library's version is %X, the header's %X\n", pandoricchia_version(), PANDORICCHIA_VERSION_NUMBER);
        return EXIT_FAILURE;
    }

    print_octets("information", information, INFORMATION);
    demand_done("encode", pandoricchia_encode(CODE, information, INFORMATION, word, WORD));
    print_octets("word", word, WORD);

    /* Bit 21 is wrong. Bit 0 is the most significant bit of octet 0. */
    word[21 / 8] ^= 0x80 >> 21 % 8;
    print_octets("received", word, WORD);

    pandoricchia_checked checked = pandoricchia_check(CODE, word, WORD);
    demand_done("check", checked.number);
    printf("check: %u checks are broken, the lowest is %u\n", checked.broken, checked.lowest);

    /* Where only that is asked: yes or no, and how far it looked. */
    pandoricchia_answered answered = pandoricchia_quick(CODE, word, WORD);
    demand_done("quick", answered.number);
    printf("quick: %s, %u checks evaluated\n", answered.yes ? "yes" : "no", answered.evaluated);

    /* A word with a broken check does not open. */
    pandoricchia_opened opened = pandoricchia_open(CODE, word, WORD);
    printf("open: %s, the lowest is %u\n", pandoricchia_text(opened.number), opened.lowest);

    pandoricchia_stepped stepped = pandoricchia_step(CODE, word, WORD, out, WORD);
    demand_done("step", stepped.number);
    printf("step: would flip bit %u, of excess %d\n", stepped.bit, stepped.excess);

    pandoricchia_corrected corrected = pandoricchia_correct(CODE, word, WORD, LIMIT, out, WORD);
    demand_done("correct", corrected.number);
    printf("correct: %u flips, broken checks %u before and %u after, %u bits unlike\n", corrected.flips, corrected.first,
           corrected.last, corrected.unlike);
    print_octets("corrected", out, WORD);

    /* The run's flips, one by one. */
    pandoricchia_fliprecord table[LIMIT];
    pandoricchia_listed listed = pandoricchia_list(CODE, word, WORD, LIMIT, table, LIMIT);
    demand_done("list", listed.number);
    for (uint32_t k = 0; k < listed.flips; k++)
        printf("list: bit %u, of excess %d, leaves %u\n", table[k].bit, table[k].excess, table[k].left);

    /* The same by plain search: which codeword of code 1 is nearest. */
    pandoricchia_reached reached = pandoricchia_nearest(word, WORD, 3, out, WORD);
    demand_done("nearest", reached.number);
    printf("nearest: %u flips, the first of bit %u\n", reached.least, reached.bits[0]);

    opened = pandoricchia_open(CODE, out, WORD);
    demand_done("open", opened.number);
    print_octets("opened", out, opened.octets);
    return EXIT_SUCCESS;
}
