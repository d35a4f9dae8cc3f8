/* Telemetry out of a stream once more, on the stream as a whole: where the words lie, and what each answers. */
#ifndef FRAMES_JUDGE_H
#define FRAMES_JUDGE_H

#include "judge.h"

enum { JUDGE_FRAME_OCTETS = 1020, JUDGE_MARKER_OCTETS = 4 };

struct judge_frame {
    size_t offset;  /* of the word's first octet in the stream, the one after the marker */
    struct judge_corrected corrected;
    uint8_t word[JUDGE_FRAME_OCTETS];  /* the corrected word; all zeros where it is refused */
};

/* The first word whose marker begins at an octet from `from` on and that is whole in the stream. The search for the next one
 * begins at the first octet after the word. */
bool judge_frame(const uint8_t *stream, size_t len, size_t from, uint8_t edition, uint16_t limit, struct judge_frame *frame);

/* The number of an edition: 0, or 19 where it is not known. */
uint8_t judge_edition(uint8_t edition);

/* The sequence that an edition prints, from its beginning, added to octets. */
void judge_randomise(uint8_t edition, uint8_t *octets, size_t len);

#endif
