/* The calls on recordings in blocks as the library does them. */
#include "blocks_fast.h"

#include <string.h>

static uint16_t table[256];

void fast_blocks_prepare(void)
{
    for (unsigned i = 0; i < 256; i++) {
        uint32_t rest = i << 8;
        for (int bit = 0; bit < 8; bit++)
            rest = (rest << 1 ^ (rest & 0x8000 ? 0x1021 : 0)) & 0xFFFF;
        table[i] = (uint16_t)rest;
    }
}

static size_t over(const uint8_t *octets, size_t len)
{
    size_t r = 0xFFFF;
    for (size_t i = 0; i < len; i++)
        r = (r % 256 * 256) ^ table[(r / 256) ^ octets[i]];
    return r;
}

static size_t pair(const uint8_t *octets)
{
    return 256 * (size_t)octets[0] + octets[1];
}

static uint8_t fault(size_t place, int last, const uint8_t *block)
{
    if (over(block, 510) != pair(block + 510))
        return 21;
    if (65536 * pair(block) + pair(block + 2) != place)
        return 22;
    size_t n = pair(block + 4);
    if (last ? n < 1 || n > 504 : n != 504)
        return 23;
    for (size_t i = 6 + n; i < 510; i++)
        if (block[i] != 0)
            return 23;
    return 0;
}

struct judge_imported fast_import_blocks(const uint8_t *blocks, size_t blocks_len, uint8_t *out, size_t out_len)
{
    size_t n = blocks_len / 512, room = 0;
    if (blocks_len % 512 != 0 || n > 128)
        return (struct judge_imported){20, 0};
    for (size_t k = 0; k < n; k++) {
        uint8_t number = fault(k, k + 1 == n, blocks + 512 * k);
        if (number != 0)
            return (struct judge_imported){number, (uint32_t)k};
    }
    if (n > 0)
        room = 504 * (n - 1) + pair(blocks + 512 * (n - 1) + 4);
    if (out_len != room)
        return (struct judge_imported){3, 0};
    for (size_t k = 0, end = 0; k < n; k++) {
        size_t count = pair(blocks + 512 * k + 4);
        memcpy(out + end, blocks + 512 * k + 6, count);
        end += count;
    }
    return (struct judge_imported){0, 0};
}

uint8_t fast_export_blocks(const uint8_t *octets, size_t octets_len, uint8_t *out, size_t out_len)
{
    if (octets_len > 64512)
        return 20;
    size_t n = (octets_len + 503) / 504;
    if (out_len != 512 * n)
        return 3;
    for (size_t k = 0; k < n; k++) {
        uint8_t *block = out + 512 * k;
        size_t count = octets_len - 504 * k < 504 ? octets_len - 504 * k : 504;
        block[0] = block[1] = block[2] = 0;
        block[3] = (uint8_t)k;
        block[4] = (uint8_t)(count / 256);
        block[5] = (uint8_t)count;
        memcpy(block + 6, octets + 504 * k, count);
        memset(block + 6 + count, 0, 504 - count);
        size_t check = over(block, 510);
        block[510] = (uint8_t)(check / 256);
        block[511] = (uint8_t)check;
    }
    return 0;
}
