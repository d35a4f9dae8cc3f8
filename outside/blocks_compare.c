/* Compares the library's calls on recordings in blocks with the judge: every number, every octet of the output afterwards.
 *
 *     outside/build_c target/outside/blocks_compare outside/blocks_compare.c outside/blocks_judge.c
 *     outside/run_x86 target/outside/blocks_compare N [SEED]
 *
 * N recordings of drawn lengths are exported and imported: with outputs of wrong lengths, with lengths that are not whole
 * blocks or too many, and with a block spoiled in one bit, two bits or a burst, or in its number, count or filling with the
 * check made anew. Outputs are filled beforehand, and what a refused call leaves is compared too.
 */
#include "blocks_judge.h"
#include "draws.h"
#include "pandoricchia.h"

#include <inttypes.h>
#include <stdio.h>
#include <stdlib.h>
#include <string.h>

enum { MOST = 66048 };

static unsigned long compared;
static unsigned long numbers[24];

static uint8_t octets[MOST], blocks[MOST], mine[MOST], theirs[MOST];

static void fill(void)
{
    for (size_t i = 0; i < MOST; i++)
        mine[i] = theirs[i] = (uint8_t)(i * 37 + 11);
}

static void differ(const char *what, size_t len, size_t out_len)
{
    printf("%s differs: input %zu octets, output %zu\n", what, len, out_len);
    exit(EXIT_FAILURE);
}

static uint8_t export_both(size_t len, size_t out_len)
{
    fill();
    uint8_t a = pandoricchia_export_blocks(octets, len, mine, out_len);
    uint8_t b = judge_export_blocks(octets, len, theirs, out_len);
    if (a != b || memcmp(mine, theirs, MOST) != 0)
        differ("export_blocks", len, out_len);
    if (pandoricchia_exported_octets(len) != judge_exported_octets(len))
        differ("exported_octets", len, out_len);
    compared += 2;
    numbers[a]++;
    return a;
}

static uint8_t import_both(size_t len, size_t out_len)
{
    fill();
    pandoricchia_imported a = pandoricchia_import_blocks(blocks, len, mine, out_len);
    struct judge_imported b = judge_import_blocks(blocks, len, theirs, out_len);
    if (a.number != b.number || a.block != b.block || memcmp(mine, theirs, MOST) != 0)
        differ("import_blocks", len, out_len);
    if (pandoricchia_imported_octets(blocks, len) != judge_imported_octets(blocks, len))
        differ("imported_octets", len, out_len);
    compared += 2;
    numbers[a.number]++;
    return a.number;
}

static void anew(size_t block)
{
    uint16_t check = judge_frame_check(blocks + block * 512, 510);
    blocks[block * 512 + 510] = (uint8_t)(check >> 8);
    blocks[block * 512 + 511] = (uint8_t)check;
}

static void flip(size_t block, size_t bit)
{
    blocks[block * 512 + bit / 8] ^= (uint8_t)(0x80 >> bit % 8);
}

/* Spoils a block; answers the number that must come where the frame check notices it, or 0 where that is left to the judge. */
static uint8_t spoil(size_t block)
{
    size_t first = below(4096), second;
    switch (below(7)) {
    case 0:
        flip(block, first);
        return 21;
    case 1:
        do
            second = below(4096);
        while (second == first);
        flip(block, first);
        flip(block, second);
        return 21;
    case 2:
        first = below(4081);
        flip(block, first);
        for (size_t i = 1; i < 16; i++)
            if (draw() & 1)
                flip(block, first + i);
        return 21;
    case 3:
        blocks[block * 512 + below(4)] ^= (uint8_t)(1 + below(255));
        anew(block);
        return 22;
    case 4:
        blocks[block * 512 + 4] = (uint8_t)below(3);
        blocks[block * 512 + 5] = (uint8_t)draw();
        anew(block);
        return 0;
    case 5:
        blocks[block * 512 + 6 + below(504)] ^= (uint8_t)(1 + below(255));
        anew(block);
        return 0;
    default:
        blocks[block * 512 + below(512)] = (uint8_t)draw();
        return 0;
    }
}

static void one_recording(size_t len)
{
    for (size_t i = 0; i < len; i++)
        octets[i] = (uint8_t)draw();
    size_t room = judge_exported_octets(len);
    export_both(len, room + 1 + below(16));
    if (room > 0)
        export_both(len, room - 1 - below(room));
    if (export_both(len, room) != 0)
        return;
    memcpy(blocks, mine, room);
    if (import_both(room, len) != 0 || memcmp(mine, octets, len) != 0)
        differ("import after export", room, len);
    import_both(room, len + 1 + below(16));
    if (len > 0)
        import_both(room, below(len));
    import_both(room + 1 + below(511), len);
    for (unsigned pass = 0; room > 0 && pass < 4; pass++) {
        uint8_t kept[512];
        size_t block = below(room / 512);
        memcpy(kept, blocks + block * 512, 512);
        uint8_t wanted = spoil(block), number = import_both(room, len);
        if (wanted != 0 && number != wanted)
            differ("a spoiled block", room, len);
        memcpy(blocks + block * 512, kept, 512);
    }
    if (room > 512)
        import_both(room - 512, (room / 512 - 1) * 504);
}

int main(int argc, char **argv)
{
    unsigned long n = argc > 1 ? strtoul(argv[1], NULL, 10) : 100;
    uint64_t seed = argc > 2 ? strtoull(argv[2], NULL, 10) : 1;
    static const size_t edges[] = {0, 1, 503, 504, 505, 1007, 1008, 1009, 64007, 64008, 64009, 64511, 64512, 64513, 65536};
    state = seed;
    for (size_t i = 0; i < sizeof edges / sizeof *edges; i++)
        one_recording(edges[i]);
    import_both(MOST, 64512);
    for (unsigned long done = 0; done < n; done++)
        one_recording(draw() % 8 ? below(2100) : below(64513));
    printf("blocks, seed %" PRIu64 ": %lu answers compared, no difference (", seed, compared);
    for (unsigned i = 0, some = 0; i < 24; i++)
        if (numbers[i])
            printf("%s%u: %lu", some++ ? ", " : "", i, numbers[i]);
    printf(")\n");
    return EXIT_SUCCESS;
}
