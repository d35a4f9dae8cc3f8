/* The program frames' work, done by the judge: two octets limit and a stream on standard input, its log on standard output.
 *
 *     framelog [EDITION]
 */
#include "frames_judge.h"

#include <stdio.h>
#include <stdlib.h>

int main(int argc, char **argv)
{
    uint8_t edition = argc > 1 ? (uint8_t)strtoul(argv[1], NULL, 10) : 0;
    size_t len = 0, room = 1 << 16;
    uint8_t *input = malloc(room);
    for (size_t got; input != NULL && (got = fread(input + len, 1, room - len, stdin)) > 0;) {
        len += got;
        if (len == room)
            input = realloc(input, room *= 2);
    }
    if (input == NULL)
        return EXIT_FAILURE;
    if (len < 2) {
        fprintf(stderr, "framelog: no limit of two octets\n");
        return EXIT_FAILURE;
    }
    printf("word offset answer flips first last unlike lowest\n");
    uint16_t limit = (uint16_t)(input[0] << 8 | input[1]);
    struct judge_frame f;
    size_t at = 0;
    for (unsigned long word = 0; judge_frame(input + 2, len - 2, at, edition, limit, &f); word++, at = f.offset + JUDGE_FRAME_OCTETS)
        printf("%lu %zu %u %u %u %u %u %u\n", word, f.offset, (unsigned)f.corrected.number, (unsigned)f.corrected.flips,
               (unsigned)f.corrected.first, (unsigned)f.corrected.last, (unsigned)f.corrected.unlike, (unsigned)f.corrected.lowest);
    return EXIT_SUCCESS;
}
