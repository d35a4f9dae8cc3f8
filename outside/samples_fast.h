/* The library's own correcting by sample sizes in C, for the benchmark. */
#ifndef SAMPLES_FAST_H
#define SAMPLES_FAST_H

#include "samples_judge.h"

struct judge_corrected fast_correct_samples(uint8_t code, const float *samples, size_t len, uint16_t limit, uint8_t *out,
                                            size_t out_len);

#endif
