/* The bench program's work, done by the judge: a recording on standard input, its log on standard output. */
#include "judge.h"

#include <stdio.h>

static const size_t word_octets[] = {16, 32, 64, 1022, 1020};

int main(void)
{
    uint8_t head[3], word[1022], out[1022];
    printf("word answer flips first last unlike\n");
    if (fread(head, 1, 3, stdin) < 3 || head[0] < 1 || head[0] > 5) {
        printf("0 1 0 0 0 0\n");
        return 0;
    }
    size_t size = word_octets[head[0] - 1];
    uint16_t limit = (uint16_t)(head[1] << 8 | head[2]);
    size_t got;
    for (unsigned long long n = 0; (got = fread(word, 1, size, stdin)) > 0; n++) {
        struct judge_corrected a = judge_correct(head[0], word, got, limit, out, size);
        printf("%llu %u %u %u %u %u\n", n, (unsigned)a.number, (unsigned)a.flips, (unsigned)a.first, (unsigned)a.last,
               (unsigned)a.unlike);
    }
    return 0;
}
