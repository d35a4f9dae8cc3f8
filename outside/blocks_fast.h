/* Recordings in blocks by the library's own algorithm in C: the frame check by a table of octets. */
#ifndef BLOCKS_FAST_H
#define BLOCKS_FAST_H

#include "blocks_judge.h"

void fast_blocks_prepare(void);

struct judge_imported fast_import_blocks(const uint8_t *blocks, size_t blocks_len, uint8_t *out, size_t out_len);

uint8_t fast_export_blocks(const uint8_t *octets, size_t octets_len, uint8_t *out, size_t out_len);

#endif
