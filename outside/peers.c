/* Words for programs that nobody here wrote, and the library's own calls on them; outside/peers runs both.
 *
 *     peers make CODE WRONG WORDS            writes so many words: information, the encoded word, and it with WRONG wrong bits
 *     peers CALL CODE WORDS PASSES < FILE     CALL is check, encode or correct: on each of the file's first words, so many times
 *
 * A call prints for how many words it did well, and nanoseconds a word. Well is: the encoded word is quiet and the wrong one is
 * not; the encoded word comes out. */
#define _POSIX_C_SOURCE 200809L
#include "draws.h"
#include "pandoricchia.h"

#include <stdbool.h>
#include <stdio.h>
#include <stdlib.h>
#include <string.h>
#include <time.h>

enum { LONGEST = 1022, MOST = 1000 };

static struct {
    uint8_t information[LONGEST], word[LONGEST], spoiled[LONGEST], out[LONGEST];
    struct pandoricchia_checked checked;
} words[MOST];

static void make(uint8_t code, unsigned wrong, size_t count)
{
    size_t info_octets = pandoricchia_information_octets(code), word_octets = pandoricchia_word_octets(code);
    state = 1000u * code + wrong;
    while (count-- > 0) {
        uint8_t information[LONGEST], word[LONGEST], flipped[LONGEST] = {0};
        draw_octets(information, info_octets);
        if (code == 4)
            information[info_octets - 1] &= 0xC0;
        pandoricchia_encode(code, information, info_octets, word, word_octets);
        fwrite(information, 1, info_octets, stdout);
        fwrite(word, 1, word_octets, stdout);
        for (unsigned left = wrong; left > 0;) {
            size_t bit = below(8 * word_octets);
            uint8_t mask = (uint8_t)(0x80 >> bit % 8);
            left -= !(flipped[bit / 8] & mask);
            flipped[bit / 8] |= mask;
        }
        for (size_t i = 0; i < word_octets; i++)
            word[i] ^= flipped[i];
        fwrite(word, 1, word_octets, stdout);
    }
}

static double nanoseconds(void)
{
    struct timespec now;
    clock_gettime(CLOCK_PROCESS_CPUTIME_ID, &now);
    return 1e9 * (double)now.tv_sec + (double)now.tv_nsec;
}

int main(int argc, char **argv)
{
    if (argc != 5)
        return 2;
    const char *call = argv[1];
    uint8_t code = (uint8_t)atoi(argv[2]);
    if (strcmp(call, "make") == 0) {
        make(code, (unsigned)atoi(argv[3]), (size_t)atoi(argv[4]));
        return 0;
    }
    bool checking = strcmp(call, "check") == 0, encoding = strcmp(call, "encode") == 0;
    size_t count = (size_t)atoi(argv[3]), passes = (size_t)atoi(argv[4]), well = 0;
    size_t info_octets = pandoricchia_information_octets(code), word_octets = pandoricchia_word_octets(code);
    if (count == 0 || count > MOST)
        return 2;
    for (size_t w = 0; w < count; w++)
        if (fread(words[w].information, 1, info_octets, stdin) != info_octets ||
            fread(words[w].word, 1, word_octets, stdin) != word_octets || fread(words[w].spoiled, 1, word_octets, stdin) != word_octets)
            return 2;

    double start = nanoseconds();
    for (size_t t = 0; t < passes; t++)
        for (size_t w = 0; w < count; w++)
            if (checking)
                words[w].checked = pandoricchia_check(code, words[w].word, word_octets);
            else if (encoding)
                pandoricchia_encode(code, words[w].information, info_octets, words[w].out, word_octets);
            else
                pandoricchia_correct(code, words[w].spoiled, word_octets, 65535, words[w].out, word_octets);
    double each = (nanoseconds() - start) / (double)(passes * count);

    for (size_t w = 0; w < count; w++)
        if (checking)
            well += words[w].checked.broken == 0 && pandoricchia_check(code, words[w].spoiled, word_octets).broken != 0;
        else
            well += memcmp(words[w].out, words[w].word, word_octets) == 0;
    printf("%zu %.0f\n", well, each);
    return 0;
}
