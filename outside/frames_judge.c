#include "frames_judge.h"

#include <string.h>

static const uint8_t marker[JUDGE_MARKER_OCTETS] = {0x1A, 0xCF, 0xFC, 0x1D};

/* A register: its lowest bit leaves, and the sum of the tapped ones comes in at the top. */
struct shifting {
    unsigned bits;
    uint32_t taps, state;
};

/* x^8 + x^7 + x^5 + x^3 + 1 from all ones: bit n + 8 is the sum of bits n + 7, n + 5, n + 3 and n. */
static const struct shifting first = {8, 1 << 7 | 1 << 5 | 1 << 3 | 1, 0xFF};

/* x^17 + x^14 + 1 from 1 1000 1110 0011 1000: bit n + 17 is the sum of bits n + 14 and n. */
static const struct shifting second = {17, 1 << 14 | 1, 0x18E38};

static unsigned shift(struct shifting *r)
{
    unsigned out = r->state & 1, sum = 0;
    for (uint32_t tapped = r->state & r->taps; tapped != 0; tapped >>= 1)
        sum ^= tapped & 1;
    r->state = r->state >> 1 | sum << (r->bits - 1);
    return out;
}

uint8_t judge_edition(uint8_t edition)
{
    return edition <= 5 ? 0 : 19;
}

void judge_randomise(uint8_t edition, uint8_t *octets, size_t len)
{
    struct shifting r = edition == 4 || edition == 5 ? second : first;
    for (size_t k = 0; k < 8 * len; k++)
        octets[k / 8] ^= (uint8_t)(shift(&r) << (7 - k % 8));
}

bool judge_frame(const uint8_t *stream, size_t len, size_t from, uint8_t edition, uint16_t limit, struct judge_frame *frame)
{
    for (size_t at = from; at + sizeof marker + JUDGE_FRAME_OCTETS <= len; at++) {
        if (memcmp(stream + at, marker, sizeof marker) != 0)
            continue;
        uint8_t received[JUDGE_FRAME_OCTETS];
        frame->offset = at + sizeof marker;
        memcpy(received, stream + frame->offset, sizeof received);
        judge_randomise(edition, received, sizeof received);
        memset(frame->word, 0, sizeof frame->word);
        frame->corrected = judge_correct(5, received, sizeof received, limit, frame->word, sizeof frame->word);
        return true;
    }
    return false;
}
