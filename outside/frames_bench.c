/* The taker of the library and the same algorithm in C, to be counted.
 *
 *     frames_bench WHO WHAT WRONG PASSES    WHO is library or fast; WHAT noise, begun, frame, newer or correct
 *
 * A pass takes 65,536 octets: noise, drawn evenly, or 1A alone, of which each begins a marker that fails at the next; or a marked
 * word with so many wrong bits, by the old sequence or by the newer; or it corrects that word alone.
 */
#include "fast.h"
#include "frames_fast.h"
#include "pandoricchia.h"

#include <stdio.h>
#include <stdlib.h>
#include <string.h>

enum { WORD = JUDGE_FRAME_OCTETS, FRAME = 4 + WORD, NOISE = 65536 };

static uint8_t part[NOISE], word[WORD], out[WORD];
static const uint8_t marker[4] = {0x1A, 0xCF, 0xFC, 0x1D};

int main(int argc, char **argv)
{
    if (argc != 5)
        return 2;
    bool fast = strcmp(argv[1], "fast") == 0, correct = strcmp(argv[2], "correct") == 0;
    bool begun = strcmp(argv[2], "begun") == 0, noise = begun || strcmp(argv[2], "noise") == 0;
    uint8_t edition = strcmp(argv[2], "newer") == 0 ? 5 : 0;
    uint8_t information[892];
    unsigned long sum = 0;
    for (size_t i = 0; i < sizeof information; i++)
        information[i] = (uint8_t)(i * i * 31 + 7 * i + 1);
    judge_encode(5, information, sizeof information, word, WORD);
    for (int k = 0; k < atoi(argv[3]); k++)
        word[97 * (unsigned)k + 5] ^= 0x10;
    memcpy(part, marker, 4);
    memcpy(part + 4, word, WORD);
    judge_randomise(edition, part + 4, WORD);
    size_t len = noise ? NOISE : FRAME;
    uint64_t drawn = 1;
    for (size_t i = 0; noise && i < NOISE; i++) {
        drawn = drawn * 6364136223846793005 + 1442695040888963407;
        part[i] = begun ? 0x1A : (uint8_t)(drawn >> 56);
    }
    pandoricchia_taking taker = pandoricchia_taker_for(edition, 65535).taker;
    struct fast_taker other = {.edition = edition, .limit = 65535};
    for (unsigned long passes = strtoul(argv[4], NULL, 10); passes > 0; passes--) {
        if (correct && fast) {
            sum += fast_correct(5, word, WORD, 65535, out, WORD).flips;
        } else if (correct) {
            sum += pandoricchia_correct(5, word, WORD, 65535, out, WORD).flips;
        } else if (fast) {
            struct fast_taken r = fast_take(other, part, len);
            other = r.next;
            sum += r.taken + r.word[9];
        } else {
            pandoricchia_taken r = pandoricchia_take(taker, part, len);
            taker = r.next;
            sum += r.taken + r.word[9];
        }
    }
    printf("%lu\n", sum + out[9]);
    return 0;
}
