/* Compares the library's units with the judge's: numbers, states, and every octet of the outputs.
 *
 *     outside/build_c target/outside/units_compare outside/units_compare.c outside/units_judge.c outside/judge.c
 *     target/outside/units_compare UNITS [SEED]
 *
 * UNITS is how many units are drawn of each code: written, cut, spoiled and read; lengths are tried on top.
 */
#include "draws.h"
#include "pandoricchia.h"
#include "units_judge.h"

#include <inttypes.h>
#include <stdio.h>
#include <stdlib.h>
#include <string.h>

enum { INFO = 2048, UNIT = 2 * INFO + 256, GUARD = 16 };

static uint64_t seed;
static unsigned long compared, numbers[256], nones;

static void fail(const char *what, uint8_t code, size_t len)
{
    printf("units, code %u, %zu octets: %s\nseed %" PRIu64 ": a difference after %lu equal answers\n", code, len, what, seed, compared);
    exit(EXIT_FAILURE);
}

static bool same_numbers(struct judge_corrected j, pandoricchia_corrected l)
{
    return j.number == l.number && j.flips == l.flips && j.first == l.first && j.last == l.last && j.unlike == l.unlike
           && j.lowest == l.lowest;
}

static bool same_reading(struct judge_reading j, pandoricchia_reading l)
{
    return same_numbers(j.kept, l.kept) && j.code == l.code && j.limit == l.limit && j.place == l.place;
}

static void write_both(uint8_t code, const uint8_t *info, size_t len, size_t out_len)
{
    static uint8_t j[UNIT + 2 * GUARD], l[UNIT + 2 * GUARD];
    draw_octets(j, out_len + 2 * GUARD);
    memcpy(l, j, out_len + 2 * GUARD);
    uint8_t a = judge_write_unit(code, info, len, j + GUARD, out_len);
    uint8_t b = pandoricchia_write_unit(code, info, len, l + GUARD, out_len);
    if (judge_unit_octets(code, len) != pandoricchia_unit_octets(code, len))
        fail("the lengths differ", code, len);
    if (a != b)
        fail("the writers' numbers differ", code, len);
    if (memcmp(j, l, out_len + 2 * GUARD) != 0)
        fail("the units differ", code, len);
    numbers[a]++;
    compared++;
}

static struct judge_reading in_judge(pandoricchia_reading s)
{
    struct judge_corrected kept = {s.kept.number, s.kept.flips, s.kept.first, s.kept.last, s.kept.unlike, s.kept.lowest};
    return (struct judge_reading){kept, s.code, s.limit, s.place};
}

/* One asking of both. */
static pandoricchia_reading ask(pandoricchia_reading s, const uint8_t *unit, size_t len, size_t out_len)
{
    uint8_t j[96 + 2 * GUARD], l[96 + 2 * GUARD];
    draw_octets(j, sizeof j);
    memcpy(l, j, sizeof l);
    struct judge_handed a = judge_read(in_judge(s), unit, len, j + GUARD, out_len);
    pandoricchia_handed b = pandoricchia_read(s, unit, len, l + GUARD, out_len);
    if (!same_numbers(a.corrected, b.corrected) || a.none != b.none)
        fail("the answers differ", s.code, len);
    if (!same_reading(a.next, b.next))
        fail("the readings differ", s.code, len);
    if (memcmp(j, l, sizeof j) != 0)
        fail("the outputs differ", s.code, len);
    numbers[b.corrected.number]++;
    nones += b.none;
    compared++;
    return b.next;
}

/* Reads a unit to its end and twice past it, with wrong outputs between right ones. */
static void read_both(uint8_t code, const uint8_t *unit, size_t len, uint16_t limit)
{
    pandoricchia_reading s = pandoricchia_reader(code, unit, len, limit);
    if (!same_reading(judge_reader(code, unit, len, limit), s))
        fail("the readers differ", code, len);
    numbers[s.kept.number]++;
    compared++;
    size_t info = code == 1 ? 8 : 32, word = 2 * info;
    for (size_t k = 0; k < len / word + 3; k++) {
        if (below(4) == 0)
            s = ask(s, unit, len, below(96));
        s = ask(s, unit, len, info);
    }
    /* states that no reader made, and another unit under the same state */
    s.place = below(3) == 0 ? (size_t)draw() : below(len / word + 2);
    s.kept.number = (uint8_t)(below(3) == 0 ? below(256) : 0);
    s.kept.lowest = (uint32_t)draw();
    s.code = (uint8_t)(below(3) == 0 ? below(256) : code);
    ask(s, unit, below(len + 1), info);
}

static void flip(uint8_t *octets, size_t bit)
{
    octets[bit / 8] ^= (uint8_t)(0x80 >> bit % 8);
}

static void one_unit(uint8_t code)
{
    static uint8_t info[INFO], unit[UNIT];
    size_t len = 1 + below(below(8) == 0 ? INFO : 100), octets;
    size_t word = code == 1 ? 16 : 64;
    draw_octets(info, len);
    octets = judge_unit_octets(code, len);
    write_both(code, info, len, octets);
    write_both(code, info, len, octets + 1 - below(3));
    write_both((uint8_t)draw(), info, len, octets);
    judge_write_unit(code, info, len, unit, octets);
    size_t blocks = (octets - 8 - (code == 1 ? 16 : 0)) / word;
    unsigned kind = (unsigned)below(8);
    uint16_t limit = (uint16_t)(below(4) == 0 ? below(3) : below(65536));
    if (kind < 3) { /* some wrong bits in each codeblock */
        size_t most = kind == 0 ? 2 : kind == 1 ? 4 : 12;
        for (size_t k = 0; k < blocks; k++)
            for (size_t wrong = below(most); wrong > 0; wrong--)
                flip(unit + 8 + k * word, below(8 * word));
    } else if (kind == 3) { /* a wrong start */
        flip(unit, below(64));
    } else if (kind == 4) { /* a wrong end: the tail, or the last codeblock */
        flip(unit + octets - 16, below(128));
    } else if (kind == 5) { /* cut */
        octets = below(octets + 1);
    } else if (kind == 6) { /* longer */
        size_t more = 1 + below(80);
        draw_octets(unit + octets, more);
        octets += more;
    }
    read_both(code, unit, octets, limit);
}

/* Every length of information, of outputs and of units from 0 to two codeblocks past. */
static void lengths(uint8_t code)
{
    static uint8_t info[INFO], unit[UNIT];
    size_t size = code == 1 ? 8 : 32, word = 2 * size;
    draw_octets(info, sizeof info);
    for (size_t len = 0; len <= 4 * size; len++) {
        size_t octets = judge_unit_octets(code, len);
        for (size_t out = 0; out <= octets + 2 * word; out++)
            write_both(code, info, len, out);
    }
    judge_write_unit(code, info, 2 * size, unit, judge_unit_octets(code, 2 * size));
    draw_octets(unit + judge_unit_octets(code, 2 * size), 2 * word);
    for (size_t len = 0; len <= judge_unit_octets(code, 2 * size) + 2 * word; len++)
        read_both(code, unit, len, 10);
}

int main(int argc, char **argv)
{
    unsigned long units = argc > 1 ? strtoul(argv[1], NULL, 10) : 2000;
    static const size_t great[] = {SIZE_MAX, SIZE_MAX - 1, SIZE_MAX / 2, SIZE_MAX / 2 + 1, SIZE_MAX / 4, 1, 0};
    seed = state = argc > 2 ? strtoull(argv[2], NULL, 10) : 1;
    for (unsigned code = 0; code < 256; code++)
        for (size_t k = 0; k < sizeof great / sizeof great[0]; k++, compared++)
            for (size_t less = 0; less < 100 && less <= great[k]; less++)
                if (judge_unit_octets((uint8_t)code, great[k] - less) != pandoricchia_unit_octets((uint8_t)code, great[k] - less))
                    fail("the lengths differ", (uint8_t)code, great[k] - less);
    lengths(1);
    lengths(3);
    for (unsigned long k = 0; k < units; k++) {
        one_unit(1);
        one_unit(3);
    }
    printf("units: %lu answers compared, no difference; numbers", compared);
    for (unsigned k = 0; k <= 12; k++)
        if (numbers[k] > 0)
            printf(" %u: %lu", k, numbers[k]);
    printf("; none: %lu\n", nones);
    return 0;
}
