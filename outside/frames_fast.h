/* The library's own taker in C, for the benchmark. */
#ifndef FRAMES_FAST_H
#define FRAMES_FAST_H

#include "frames_judge.h"

struct fast_taker {
    size_t place;  /* octets of the marker that are matched, or 4 and the octets held */
    uint8_t edition;
    uint16_t limit;
    uint8_t octets[JUDGE_FRAME_OCTETS];
};

struct fast_taken {
    struct fast_taker next;
    size_t taken;
    bool complete;
    struct judge_corrected corrected;
    uint8_t word[JUDGE_FRAME_OCTETS];
};

struct fast_taken fast_take(struct fast_taker state, const uint8_t *part, size_t len);

#endif
