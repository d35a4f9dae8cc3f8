/* Correcting by sample sizes once more, over the judge's checks and excesses. */
#ifndef SAMPLES_JUDGE_H
#define SAMPLES_JUDGE_H

#include "judge.h"

struct judge_corrected judge_correct_samples(uint8_t code, const float *samples, size_t len, uint16_t limit, uint8_t *out,
                                             size_t out_len);

/* The same with a record of each flip: places for as many as the code has checks are enough. */
struct judge_corrected judge_list_samples(uint8_t code, const float *samples, size_t len, uint16_t limit, uint8_t *out,
                                          size_t out_len, struct judge_fliprecord *list);

#endif
