/* Recordings in blocks once more, written from document 02 alone, the frame check one bit at a time. */
#ifndef BLOCKS_JUDGE_H
#define BLOCKS_JUDGE_H

#include <stddef.h>
#include <stdint.h>

struct judge_imported {
    uint8_t number;
    uint32_t block;
};

uint16_t judge_frame_check(const uint8_t *octets, size_t len);

struct judge_imported judge_import_blocks(const uint8_t *blocks, size_t blocks_len, uint8_t *out, size_t out_len);

size_t judge_imported_octets(const uint8_t *blocks, size_t blocks_len);

uint8_t judge_export_blocks(const uint8_t *octets, size_t octets_len, uint8_t *out, size_t out_len);

size_t judge_exported_octets(size_t octets_len);

#endif
