/* The judge of recordings in blocks. */
#include "blocks_judge.h"

#include <string.h>

enum { BLOCK = 512, DATA = 504, MOST = 128 };

/* x^16+x^12+x^5+1, all ones at the start: each bit goes in at the top, and the generator is taken away where a one comes out. */
uint16_t judge_frame_check(const uint8_t *octets, size_t len)
{
    uint32_t rest = 0xFFFF;
    for (size_t i = 0; i < len; i++)
        for (int bit = 7; bit >= 0; bit--) {
            uint32_t out = (rest >> 15 & 1) ^ (octets[i] >> bit & 1);
            rest = rest << 1 & 0xFFFF;
            if (out)
                rest ^= 1u << 12 | 1u << 5 | 1u;
        }
    return (uint16_t)rest;
}

static size_t used(const uint8_t *block)
{
    return (size_t)block[4] << 8 | block[5];
}

static uint8_t fault(const uint8_t *block, size_t place, int last)
{
    if (judge_frame_check(block, 510) != ((unsigned)block[510] << 8 | block[511]))
        return 21;
    if (((uint32_t)block[0] << 24 | (uint32_t)block[1] << 16 | (uint32_t)block[2] << 8 | block[3]) != place)
        return 22;
    size_t count = used(block);
    if (count < 1 || count > DATA || (!last && count != DATA))
        return 23;
    for (size_t i = 6 + count; i < 510; i++)
        if (block[i] != 0)
            return 23;
    return 0;
}

/* The refusal before the output is looked at, and the room that is needed. */
static struct judge_imported examined(const uint8_t *blocks, size_t len, size_t *room)
{
    *room = 0;
    if (len % BLOCK != 0 || len / BLOCK > MOST)
        return (struct judge_imported){20, 0};
    size_t count = 0;
    for (size_t k = 0; k < len / BLOCK; k++) {
        uint8_t number = fault(blocks + k * BLOCK, k, k + 1 == len / BLOCK);
        if (number != 0)
            return (struct judge_imported){number, (uint32_t)k};
        count += used(blocks + k * BLOCK);
    }
    *room = count;
    return (struct judge_imported){0, 0};
}

size_t judge_imported_octets(const uint8_t *blocks, size_t blocks_len)
{
    size_t room;
    examined(blocks, blocks_len, &room);
    return room;
}

struct judge_imported judge_import_blocks(const uint8_t *blocks, size_t blocks_len, uint8_t *out, size_t out_len)
{
    size_t room;
    struct judge_imported answer = examined(blocks, blocks_len, &room);
    if (answer.number != 0)
        return answer;
    if (out_len != room)
        return (struct judge_imported){3, 0};
    for (size_t k = 0; k < blocks_len / BLOCK; k++) {
        memcpy(out, blocks + k * BLOCK + 6, used(blocks + k * BLOCK));
        out += used(blocks + k * BLOCK);
    }
    return answer;
}

size_t judge_exported_octets(size_t octets_len)
{
    if (octets_len > (size_t)MOST * DATA)
        return 0;
    size_t count = octets_len / DATA + (octets_len % DATA != 0);
    return count * BLOCK;
}

uint8_t judge_export_blocks(const uint8_t *octets, size_t octets_len, uint8_t *out, size_t out_len)
{
    if (octets_len > (size_t)MOST * DATA)
        return 20;
    if (out_len != judge_exported_octets(octets_len))
        return 3;
    for (size_t k = 0; k < out_len / BLOCK; k++) {
        uint8_t *block = out + k * BLOCK;
        size_t count = octets_len - k * DATA < DATA ? octets_len - k * DATA : DATA;
        memset(block, 0, BLOCK);
        block[3] = (uint8_t)k;
        block[4] = (uint8_t)(count >> 8);
        block[5] = (uint8_t)count;
        memcpy(block + 6, octets + k * DATA, count);
        uint16_t check = judge_frame_check(block, 510);
        block[510] = (uint8_t)(check >> 8);
        block[511] = (uint8_t)check;
    }
    return 0;
}
