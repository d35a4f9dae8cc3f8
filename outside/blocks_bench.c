/* Import and export of a recording by the library, the judge and the same algorithm in C, to be counted.
 *
 *     blocks_bench WHO CALL OCTETS PASSES    WHO is library, judge or fast; CALL import or export
 */
#include "blocks_fast.h"
#include "pandoricchia.h"

#include <stdio.h>
#include <stdlib.h>
#include <string.h>

static uint8_t octets[64512], blocks[65536], out[65536];

int main(int argc, char **argv)
{
    if (argc != 5)
        return EXIT_FAILURE;
    char who = argv[1][0], call = argv[2][0];
    size_t len = strtoul(argv[3], NULL, 10), room = judge_exported_octets(len);
    unsigned long answers = 0;
    for (size_t i = 0; i < len; i++)
        octets[i] = (uint8_t)(i * i / 7 + i);
    fast_blocks_prepare();
    fast_export_blocks(octets, len, blocks, room);
    for (unsigned long pass = strtoul(argv[4], NULL, 10); pass > 0; pass--) {
        if (call == 'i')
            answers += who == 'l'   ? pandoricchia_import_blocks(blocks, room, out, len).number
                       : who == 'j' ? judge_import_blocks(blocks, room, out, len).number
                                    : fast_import_blocks(blocks, room, out, len).number;
        else
            answers += who == 'l'   ? pandoricchia_export_blocks(octets, len, out, room)
                       : who == 'j' ? judge_export_blocks(octets, len, out, room)
                                    : fast_export_blocks(octets, len, out, room);
    }
    printf("%lu\n", answers);
    return answers == 0 ? EXIT_SUCCESS : EXIT_FAILURE;
}
