/* The marker is searched without going back, in noise by its first octet alone; a word's octets are copied by runs; a sequence is
 * added by 64-bit words. The first is a constant; of the second the first 136 octets are, and the others come from two before. */
#include "frames_fast.h"
#include "fast.h"

#include <string.h>

enum { START = 136 };

/* Worked out once, at the first word. */
static uint8_t old[JUDGE_FRAME_OCTETS], start[START];

static void randomise(uint8_t edition, uint8_t *octets)
{
    bool newer = edition == 4 || edition == 5;
    if (old[0] == 0) {
        judge_randomise(0, old, sizeof old);
        judge_randomise(5, start, sizeof start);
    }
    uint8_t second[JUDGE_FRAME_OCTETS];
    if (newer) {
        memcpy(second, start, START);
        for (size_t i = START; i < sizeof second; i++)
            second[i] = second[i - 24] ^ second[i - START];
    }
    const uint8_t *sequence = newer ? second : old;
    size_t k = 0;
    for (; k + 8 <= JUDGE_FRAME_OCTETS; k += 8) {
        uint64_t v, s;
        memcpy(&v, octets + k, 8);
        memcpy(&s, sequence + k, 8);
        v ^= s;
        memcpy(octets + k, &v, 8);
    }
    for (; k < JUDGE_FRAME_OCTETS; k++)
        octets[k] ^= sequence[k];
}

/* Octets of the marker matched after one octet more. */
static inline size_t matched(size_t m, uint8_t octet)
{
    static const uint8_t marker[4] = {0x1A, 0xCF, 0xFC, 0x1D};
    return octet == marker[m] ? m + 1 : octet == 0x1A ? 1 : 0;
}

/* The next place where the marker's first octet stands, or the end of the part. */
static inline size_t skip(const uint8_t *part, size_t at, size_t len)
{
    while (at < len && part[at] != 0x1A)
        at++;
    return at;
}

struct fast_taken fast_take(struct fast_taker state, const uint8_t *part, size_t len)
{
    struct fast_taken answer = {.next = state};
    size_t at = 0, place = state.place < 1024 ? state.place : 0;
    while (place < 4 && at < len) {
        if (place == 0 && (at = skip(part, at, len)) == len)
            break;
        place = matched(place, part[at++]);
    }
    size_t left = place < 4 ? 0 : 1024 - place, run = len - at < left ? len - at : left;
    if (run > 0)
        memcpy(answer.next.octets + (place - 4), part + at, run);
    answer.taken = at + run;
    answer.complete = place >= 4 && run == left;
    answer.next.place = answer.complete ? 0 : place + run;
    if (answer.complete) {
        uint8_t received[JUDGE_FRAME_OCTETS];
        memcpy(received, answer.next.octets, sizeof received);
        randomise(state.edition, received);
        answer.corrected = fast_correct(5, received, sizeof received, state.limit, answer.word, sizeof answer.word);
    }
    return answer;
}
