/* Runs the judge on document 01's cases and on what the document promises of every word.
 *
 *     cc -std=c11 -Wall -Wextra -O2 -o target/judge_test outside/judge_test.c outside/judge.c outside/nearest_judge.c \
 *         outside/frames_judge.c outside/samples_judge.c && target/judge_test
 */
#include "frames_judge.h"
#include "judge.h"
#include "nearest_judge.h"
#include "samples_judge.h"

#include <float.h>
#include <math.h>
#include <stdio.h>
#include <stdlib.h>
#include <string.h>

enum { MOST_OCTETS = 1022 };

static const size_t word_octets[] = {0, 16, 32, 64, 1022, 1020};
static const size_t info_octets[] = {0, 8, 16, 32, 895, 892};
static const unsigned covered_bits[] = {0, 128, 256, 512, 8176, 8158};
static const unsigned info_bits[] = {0, 64, 128, 256, 7154, 7136};
static const unsigned checks[] = {0, 64, 128, 256, 1022, 1022};

static unsigned long passed, failed;

/* A group of tests has a line; a failed test says where it stands. */
static const char *group;
static unsigned long group_passed, group_failed;

static void begin(const char *name)
{
    group = name;
    group_passed = group_failed = 0;
}

static void end(void)
{
    printf("%s: %lu passed, %lu failed\n", group, group_passed, group_failed);
    passed += group_passed;
    failed += group_failed;
}

static void expect_at(bool holds, const char *what, int line)
{
    if (holds) {
        group_passed++;
        return;
    }
    if (group_failed++ < 5)
        printf("%s: line %d: not so: %s\n", group, line, what);
}

#define EXPECT(holds) expect_at((holds), #holds, __LINE__)

static uint64_t state = 0x2545F4914F6CDD1D;

static uint64_t draw(void)
{
    state ^= state << 13;
    state ^= state >> 7;
    state ^= state << 17;
    return state;
}

static unsigned below(unsigned n)
{
    return (unsigned)((draw() >> 16) % n);
}

static void draw_octets(uint8_t *octets, size_t len)
{
    for (size_t i = 0; i < len; i++)
        octets[i] = (uint8_t)(draw() >> 24);
}

static void flip(uint8_t *octets, unsigned bit)
{
    octets[bit / 8] ^= (uint8_t)(0x80 >> bit % 8);
}

static bool bit_of(const uint8_t *octets, unsigned bit)
{
    return octets[bit / 8] >> (7 - bit % 8) & 1;
}

static bool all_are(const uint8_t *octets, uint8_t value, size_t len)
{
    for (size_t i = 0; i < len; i++)
        if (octets[i] != value)
            return false;
    return true;
}

/* Information that the encoder takes. */
static void draw_info(uint8_t code, uint8_t *info)
{
    draw_octets(info, info_octets[code]);
    if (code == 4)
        info[894] &= 0xC0;
}

static void draw_codeword(uint8_t code, uint8_t *info, uint8_t *word)
{
    draw_info(code, info);
    if (judge_encode(code, info, info_octets[code], word, word_octets[code]) != 0)
        abort();
}

static struct judge_corrected correct(uint8_t code, const uint8_t *word, uint16_t limit, uint8_t *out)
{
    return judge_correct(code, word, word_octets[code], limit, out, word_octets[code]);
}

static bool are(struct judge_corrected a, uint8_t number, uint32_t flips, uint32_t first, uint32_t last, uint32_t unlike,
                uint32_t lowest)
{
    return a.number == number && a.flips == flips && a.first == first && a.last == last && a.unlike == unlike
           && a.lowest == lowest;
}

static bool answered(struct judge_answered a, uint8_t number, bool yes, uint32_t evaluated)
{
    return a.number == number && a.yes == yes && a.evaluated == evaluated;
}

/* Open is refused by this number, with this place. */
static bool unopened(uint8_t code, const uint8_t *word, uint8_t number, uint32_t lowest)
{
    struct judge_opened o = judge_open(code, word, word_octets[code]);
    return o.number == number && o.lowest == lowest && o.octets == 0;
}

static bool opened(uint8_t code, const uint8_t *word)
{
    struct judge_opened o = judge_open(code, word, word_octets[code]);
    return o.number == 0 && o.lowest == checks[code] && o.octets == info_octets[code];
}

/* The lowest broken check, looked for from the last one down; the number of checks if there is none. */
static uint32_t lowest_of(uint8_t code, const uint8_t *word)
{
    unsigned char broken[MOST_OCTETS];
    uint32_t lowest = checks[code];
    judge_checks(code, word, broken);
    for (unsigned check = checks[code]; check > 0; check--)
        if (broken[check - 1])
            lowest = check - 1;
    return lowest;
}

/* Exactly these checks are broken, and check counts them. */
static bool broken_are(uint8_t code, const uint8_t *word, const unsigned *list, unsigned count)
{
    struct judge_checked counted = judge_check(code, word, word_octets[code]);
    if (counted.number != 0 || counted.broken != count || counted.lowest != (count > 0 ? list[0] : checks[code]))
        return false;
    for (unsigned check = 0, at = 0; check < checks[code]; check++) {
        bool listed = at < count && list[at] == check;
        if (judge_broken(code, word, check) != listed)
            return false;
        at += listed;
    }
    return true;
}

static void starred_cases(void)
{
    uint8_t info[MOST_OCTETS] = {0}, word[MOST_OCTETS] = {0}, out[MOST_OCTETS + 1];

    begin("code 1, information 80 then zeros");
    info[0] = 0x80;
    EXPECT(judge_encode(1, info, 8, word, 16) == 0);
    EXPECT(memcmp(word, "\x80\0\0\0\0\0\0\0\x0E\x69\x16\x6B\xEF\x4C\x0B\xC2", 16) == 0);
    end();

    begin("code 1, only bit 0 set");
    memset(word, 0, sizeof word);
    word[0] = 0x80;
    EXPECT(broken_are(1, word, (unsigned[]){0, 9, 26, 44, 48}, 5));
    struct judge_stepped s = judge_step(1, word, 16, out, 16);
    EXPECT(s.number == 0 && !s.quiet && s.bit == 0 && s.excess == 5);
    EXPECT(all_are(out, 0, 16));
    memset(out, 0x5A, sizeof out);
    EXPECT(are(correct(1, word, 0, out), 6, 0, 5, 5, 0, 0));
    EXPECT(all_are(out, 0x5A, 16));
    EXPECT(are(correct(1, word, 1, out), 0, 1, 5, 0, 1, 0));
    EXPECT(all_are(out, 0, 16));
    end();

    begin("code 1, only bit 127 set");
    memset(word, 0, sizeof word);
    word[15] = 0x01;
    EXPECT(broken_are(1, word, (unsigned[]){15, 24, 44}, 3));
    EXPECT(unopened(1, word, 9, 15));
    EXPECT(answered(judge_quick(1, word, 16), 0, false, 16));
    EXPECT(are(correct(1, word, 0, out), 6, 0, 3, 3, 0, 15));
    EXPECT(are(correct(1, word, 1, out), 0, 1, 3, 0, 1, 15));
    end();

    begin("code 1, all-one word");
    memset(word, 0xFF, sizeof word);
    EXPECT(broken_are(1, word, NULL, 0));
    EXPECT(opened(1, word));
    EXPECT(answered(judge_quick(1, word, 16), 0, true, 64));
    end();

    begin("code 4, only bit 0 set");
    memset(word, 0, sizeof word);
    word[0] = 0x80;
    EXPECT(broken_are(4, word, (unsigned[]){0, 335, 551, 923}, 4));
    end();

    begin("code 4, bits 7154 to 7664 set");
    memset(word, 0, sizeof word);
    for (unsigned bit = 7154; bit <= 7664; bit++)
        flip(word, bit);
    EXPECT(broken_are(4, word, NULL, 0));
    memset(out, 0x5A, sizeof out);
    EXPECT(are(correct(4, word, 65535, out), 8, 0, 0, 0, 0, 1022));
    EXPECT(are(correct(4, word, 0, out), 8, 0, 0, 0, 0, 1022));
    EXPECT(all_are(out, 0x5A, sizeof out));
    end();

    begin("lengths and codes refused");
    memset(word, 0, sizeof word);
    word[0] = 0x80;
    memset(out, 0x5A, sizeof out);
    EXPECT(are(judge_correct(1, word, 15, 9, out, 16), 2, 0, 0, 0, 0, 0));
    EXPECT(are(judge_correct(1, word, 16, 9, out, 17), 3, 0, 0, 0, 0, 0));
    for (uint8_t code = 0; code <= 6; code += 6) {
        EXPECT(judge_encode(code, info, 8, out, 16) == 1);
        struct judge_checked c = judge_check(code, word, 16);
        EXPECT(c.number == 1 && c.broken == 0 && c.lowest == 0);
        EXPECT(answered(judge_quick(code, word, 16), 1, false, 0));
        struct judge_opened o = judge_open(code, word, 16);
        EXPECT(o.number == 1 && o.lowest == 0 && o.octets == 0);
        EXPECT(are(judge_correct(code, word, 16, 9, out, 16), 1, 0, 0, 0, 0, 0));
        s = judge_step(code, word, 16, out, 16);
        EXPECT(s.number == 1 && !s.quiet && s.bit == 0 && s.excess == 0);
    }
    EXPECT(answered(judge_quick(4, word, 1020), 2, false, 0));
    EXPECT(unopened(4, word, 1, 0));
    struct judge_opened o = judge_open(5, word, 1022);
    EXPECT(o.number == 2 && o.lowest == 0 && o.octets == 0);
    struct judge_checked c = judge_check(5, word, 1022);
    EXPECT(c.number == 2 && c.broken == 0 && c.lowest == 0);
    s = judge_step(5, word, 1020, out, 1020);
    EXPECT(s.number == 1 && !s.quiet && s.bit == 0 && s.excess == 0);
    EXPECT(all_are(out, 0x5A, sizeof out));
    end();
}

/* The columns of the parity bits of codes 1 to 3, as the judge's own checks show them, made into a way to any given
 * broken checks: solution[i] is a word whose broken checks are check i alone. Gives the rank. */
static unsigned solve(uint8_t code, uint8_t (*solution)[64])
{
    unsigned m = checks[code];
    uint8_t(*column)[32] = calloc(m, sizeof *column);
    for (unsigned k = 0; k < m; k++) {
        memset(solution[k], 0, 64);
        flip(solution[k], info_bits[code] + k);
        for (unsigned check = 0; check < m; check++)
            if (judge_broken(code, solution[k], check))
                flip(column[k], check);
    }
    unsigned rank = 0;
    for (unsigned check = 0; check < m; check++) {
        unsigned pivot = rank;
        while (pivot < m && !bit_of(column[pivot], check))
            pivot++;
        if (pivot == m)
            continue;
        for (unsigned i = 0; i < 64; i++) {
            uint8_t kept = solution[rank][i];
            solution[rank][i] = solution[pivot][i];
            solution[pivot][i] = kept;
        }
        for (unsigned i = 0; i < 32; i++) {
            uint8_t kept = column[rank][i];
            column[rank][i] = column[pivot][i];
            column[pivot][i] = kept;
        }
        for (unsigned k = 0; k < m; k++) {
            if (k == rank || !bit_of(column[k], check))
                continue;
            for (unsigned i = 0; i < 64; i++)
                solution[k][i] ^= solution[rank][i];
            for (unsigned i = 0; i < 32; i++)
                column[k][i] ^= column[rank][i];
        }
        rank++;
    }
    free(column);
    return rank;
}

static void other_cases(void)
{
    uint8_t info[MOST_OCTETS] = {0}, word[MOST_OCTETS] = {0}, out[MOST_OCTETS] = {0};

    begin("code 4, octet 894");
    memset(out, 0x5A, sizeof out);
    for (unsigned octet = 1; octet < 256; octet++) {
        info[894] = (uint8_t)octet;
        if (octet % 64 != 0)
            EXPECT(judge_encode(4, info, 895, out, 1022) == 4);
    }
    EXPECT(all_are(out, 0x5A, sizeof out));
    info[894] = 0x40;
    EXPECT(judge_encode(4, info, 895, out, 1022) == 0);
    EXPECT(judge_check(4, out, 1022).broken == 0);
    EXPECT(all_are(out, 0, 894) && (out[894] & 0xC0) == 0x40);
    end();

    begin("code 5, the wrong bit is not sent");
    memset(info, 0, sizeof info);
    info[0] = 0x80;
    EXPECT(judge_encode(4, info, 895, word, 1022) == 0);
    uint8_t sent[MOST_OCTETS] = {0};
    for (unsigned bit = 18; bit < 8176; bit++)
        if (bit_of(word, bit))
            flip(sent, bit - 18);
    memset(out, 0x5A, sizeof out);
    EXPECT(are(correct(5, sent, 1, out), 5, 0, 4, 4, 0, 0));
    EXPECT(unopened(5, sent, 9, 0));
    EXPECT(all_are(out, 0x5A, sizeof out));
    end();

    begin("codes 1 to 3, exactly one broken check");
    for (uint8_t code = 1; code <= 3; code++) {
        uint8_t(*solution)[64] = calloc(checks[code], sizeof *solution);
        /* Full rank: a quiet word has the encoder's parity, so refusal 8 is not needed here. */
        EXPECT(solve(code, solution) == checks[code]);
        for (unsigned check = 0; check < checks[code]; check++) {
            draw_codeword(code, info, word);
            for (unsigned i = 0; i < word_octets[code]; i++)
                word[i] ^= solution[check][i];
            EXPECT(broken_are(code, word, &check, 1));
            EXPECT(unopened(code, word, 9, check));
            EXPECT(answered(judge_quick(code, word, word_octets[code]), 0, false, check + 1));
            memset(out, 0x5A, sizeof out);
            EXPECT(are(correct(code, word, (uint16_t)below(65536), out), 5, 0, 1, 1, 0, check));
            struct judge_stepped s = judge_step(code, word, word_octets[code], out, word_octets[code]);
            EXPECT(s.number == 5 && !s.quiet && s.bit == 0 && s.excess == 0);
            EXPECT(all_are(out, 0x5A, sizeof out));
        }
        free(solution);
    }
    end();

    /* Input 01 00 0A: code 1, limit 10. */
    begin("the two lines of the bench program");
    memset(word, 0, sizeof word);
    word[0] = 0x80;
    EXPECT(are(correct(1, word, 10, out), 0, 1, 5, 0, 1, 0));
    word[0] = 0;
    EXPECT(are(correct(1, word, 10, out), 0, 0, 0, 0, 0, 64));
    end();

    /* The auditor's two words of code 1: zeros with these bits wrong. */
    begin("fewer bits unlike than flips");
    static const unsigned seven[] = {0, 20, 40, 60, 80, 100, 120}, nine[] = {1, 31, 34, 72, 90, 99, 105, 119, 124};
    memset(word, 0, sizeof word);
    for (unsigned k = 0; k < 7; k++)
        flip(word, seven[k]);
    EXPECT(are(correct(1, word, 65535, out), 0, 9, 23, 0, 7, lowest_of(1, word)));
    EXPECT(all_are(out, 0, 16));
    EXPECT(are(correct(1, word, 6, out), 6, 6, 23, 7, 6, lowest_of(1, word)));
    EXPECT(are(correct(1, word, 7, out), 6, 7, 23, 6, 5, lowest_of(1, word)));
    memset(word, 0, sizeof word);
    for (unsigned k = 0; k < 9; k++)
        flip(word, nine[k]);
    EXPECT(are(correct(1, word, 65535, out), 0, 9, 23, 0, 9, lowest_of(1, word)));
    EXPECT(!all_are(out, 0, 16));
    end();
}

/* The row of an information bit is the row of its block's first bit, each part shifted right circularly. */
static void rows(void)
{
    static const unsigned size[] = {0, 16, 32, 64, 511};
    begin("every row is its block's first row, shifted");
    for (uint8_t code = 1; code <= 4; code++) {
        unsigned m = size[code];
        uint8_t first[MOST_OCTETS] = {0}, word[MOST_OCTETS];
        for (unsigned bit = 0; bit < info_bits[code]; bit++) {
            uint8_t info[MOST_OCTETS] = {0}, row[MOST_OCTETS] = {0};
            flip(info, bit);
            EXPECT(judge_encode(code, info, info_octets[code], word, word_octets[code]) == 0);
            if (bit % m == 0)
                memcpy(first, word, sizeof first);
            flip(row, bit);
            for (unsigned at = info_bits[code]; at < covered_bits[code]; at++) {
                unsigned place = (at - info_bits[code]) % m;
                if (bit_of(first, at))
                    flip(row, at - place + (place + bit % m) % m);
            }
            EXPECT(memcmp(row, word, word_octets[code]) == 0);
        }
    }
    end();
}

static void encoded_words(void)
{
    begin("encoded words are quiet, opened and taken");
    for (uint8_t code = 1; code <= 5; code++) {
        uint8_t info[MOST_OCTETS], word[MOST_OCTETS], out[MOST_OCTETS];
        for (unsigned pass = code <= 3 ? 1000 : 60; pass > 0; pass--) {
            draw_codeword(code, info, word);
            for (unsigned bit = 0; bit < info_bits[code]; bit++)
                if (bit_of(info, bit) != bit_of(word, bit))
                    EXPECT(false);
            struct judge_checked c = judge_check(code, word, word_octets[code]);
            EXPECT(c.number == 0 && c.broken == 0 && c.lowest == checks[code]);
            if (code != 4) {
                EXPECT(opened(code, word));
                EXPECT(memcmp(info, word, info_octets[code]) == 0);
            }
            memset(out, 0x5A, sizeof out);
            EXPECT(are(correct(code, word, (uint16_t)below(3), out), 0, 0, 0, 0, 0, checks[code]));
            EXPECT(memcmp(out, word, word_octets[code]) == 0);
            if (code != 5) {
                memset(out, 0x5A, sizeof out);
                struct judge_stepped s = judge_step(code, word, word_octets[code], out, word_octets[code]);
                EXPECT(s.number == 0 && s.quiet && s.bit == 0 && s.excess == 0);
                EXPECT(memcmp(out, word, word_octets[code]) == 0);
            }
        }
    }
    end();
}

static unsigned degree(uint8_t code, unsigned bit)
{
    return code >= 4 ? 4 : bit < info_bits[code] ? 5 : 3;
}

/* A codeword with one wrong bit: one flip, that bit, and the codeword comes back. */
static void one_wrong_bit(uint8_t code, unsigned bit)
{
    uint8_t info[MOST_OCTETS], word[MOST_OCTETS], wrong[MOST_OCTETS], out[MOST_OCTETS];
    draw_codeword(code, info, word);
    memcpy(wrong, word, sizeof wrong);
    flip(wrong, bit);
    uint32_t lowest = lowest_of(code, wrong);
    memset(out, 0x5A, sizeof out);
    uint16_t limit = below(2) ? 1 : (uint16_t)(1 + below(65535));
    EXPECT(are(correct(code, wrong, limit, out), 0, 1, degree(code, bit), 0, 1, lowest));
    EXPECT(memcmp(out, word, word_octets[code]) == 0);
    EXPECT(are(correct(code, wrong, 0, out), 6, 0, degree(code, bit), degree(code, bit), 0, lowest));
    if (code != 4)
        EXPECT(unopened(code, wrong, 9, lowest));
    if (code != 5) {
        memset(out, 0x5A, sizeof out);
        struct judge_stepped s = judge_step(code, wrong, word_octets[code], out, word_octets[code]);
        EXPECT(s.number == 0 && !s.quiet && s.bit == bit && s.excess == (int)degree(code, bit));
        EXPECT(memcmp(out, word, word_octets[code]) == 0);
    }
}

static void wrong_bits(void)
{
    begin("one wrong bit, codes 1 to 3, every bit");
    for (uint8_t code = 1; code <= 3; code++)
        for (unsigned bit = 0; bit < covered_bits[code]; bit++)
            one_wrong_bit(code, bit);
    end();

    begin("one wrong bit, codes 4 and 5, some bits");
    for (uint8_t code = 4; code <= 5; code++) {
        const unsigned ends[] = {0, 1, 510, 511, info_bits[code] - 1, info_bits[code], covered_bits[code] - 1};
        for (unsigned k = 0; k < sizeof ends / sizeof ends[0]; k++)
            one_wrong_bit(code, ends[k]);
        for (unsigned pass = 0; pass < 100; pass++)
            one_wrong_bit(code, below(covered_bits[code]));
    }
    end();

    begin("code 5, the last two bits");
    for (unsigned pass = 0; pass < 30; pass++) {
        uint8_t info[MOST_OCTETS], word[MOST_OCTETS], wrong[MOST_OCTETS], out[MOST_OCTETS];
        draw_codeword(5, info, word);
        EXPECT((word[1019] & 3) == 0);
        memcpy(wrong, word, sizeof wrong);
        wrong[1019] |= (uint8_t)(1 + pass % 3);
        EXPECT(judge_check(5, wrong, 1020).broken == 0);
        EXPECT(unopened(5, wrong, 14, 1022));
        EXPECT(are(correct(5, wrong, 0, out), 0, 0, 0, 0, 0, 1022));
        EXPECT(memcmp(out, word, 1020) == 0);
        flip(wrong, below(8158));
        EXPECT(unopened(5, wrong, 9, lowest_of(5, wrong)));
    }
    end();
}

/* The bit of greatest excess and lowest number, found in another way: a flip lowers the count by the bit's excess. */
static void choice(uint8_t code, uint8_t *word)
{
    size_t len = word_octets[code];
    int before = (int)judge_check(code, word, len).broken, greatest = 0;
    unsigned best = 0;
    for (unsigned bit = 0; bit < covered_bits[code]; bit++) {
        flip(word, bit);
        int excess = before - (int)judge_check(code, word, len).broken;
        flip(word, bit);
        if (excess > greatest) {
            greatest = excess;
            best = bit;
        }
    }
    uint8_t out[MOST_OCTETS];
    memset(out, 0x5A, sizeof out);
    struct judge_stepped s = judge_step(code, word, len, out, len);
    EXPECT(s.quiet == (before == 0));
    EXPECT(s.number == (before > 0 && greatest == 0 ? 5 : 0));
    EXPECT(s.bit == best && s.excess == greatest);
    if (greatest > 0)
        flip(word, best);
    if (s.number == 0)
        EXPECT(memcmp(word, out, len) == 0);
    else
        EXPECT(all_are(out, 0x5A, sizeof out));
}

static void choices(void)
{
    begin("step takes the lowest bit of greatest excess");
    for (uint8_t code = 1; code <= 4; code++) {
        uint8_t info[MOST_OCTETS], word[MOST_OCTETS];
        for (unsigned pass = code <= 3 ? 200 : 4; pass > 0; pass--) {
            draw_codeword(code, info, word);
            for (unsigned k = code <= 3 ? below(12) : 2 + 10 * pass; k > 0; k--)
                flip(word, below(covered_bits[code]));
            choice(code, word);
        }
    }
    end();
}

/* Quiet words of codes 4 and 5 that are no codewords: a parity block inverted. */
static void inverted_blocks(void)
{
    begin("codes 4 and 5, parity blocks inverted");
    for (uint8_t code = 4; code <= 5; code++) {
        for (unsigned pass = 0; pass < 12; pass++) {
            uint8_t info[MOST_OCTETS], word[MOST_OCTETS], out[MOST_OCTETS];
            draw_codeword(code, info, word);
            for (unsigned k = 0; k < 1022; k++)
                if ((pass % 3 + 1) >> k / 511 & 1)
                    flip(word, info_bits[code] + k);
            EXPECT(judge_check(code, word, word_octets[code]).broken == 0);
            memset(out, 0x5A, sizeof out);
            EXPECT(are(correct(code, word, 65535, out), 8, 0, 0, 0, 0, 1022));
            if (code == 5) {
                EXPECT(unopened(5, word, 15, 1022));
                word[1019] |= 2; /* the last two bits come before the parity, */
                EXPECT(unopened(5, word, 14, 1022));
                word[1019] &= 0xFC;
            }
            flip(word, below(covered_bits[code]));
            EXPECT(are(correct(code, word, 1, out), 8, 1, 4, 0, 1, lowest_of(code, word)));
            EXPECT(all_are(out, 0x5A, sizeof out));
            if (code == 5) {
                word[1019] |= 1; /* and a broken check before both */
                EXPECT(unopened(5, word, 9, lowest_of(5, word)));
            }
        }
    }
    end();
}

/* In how many of the bits that are sent and covered two words differ. */
static uint32_t differing(uint8_t code, const uint8_t *a, const uint8_t *b)
{
    uint32_t count = 0;
    for (unsigned bit = 0; bit < covered_bits[code]; bit++)
        count += bit_of(a, bit) != bit_of(b, bit);
    return count;
}

/* Whatever the word: flips within the limit and the first count, each flip mending at least one check more than it
 * breaks, two where every bit lies in an even number of checks; true counts; the flips that step makes, and the bits in
 * which they leave the word unlike. */
static void bounds(uint8_t code, const uint8_t *word, uint16_t limit)
{
    size_t len = word_octets[code];
    unsigned least = code <= 3 ? 1 : 2;
    uint8_t out[MOST_OCTETS], now[MOST_OCTETS], next[MOST_OCTETS];
    memset(out, 0x5A, sizeof out);
    struct judge_corrected a = correct(code, word, limit, out);
    EXPECT(a.flips <= limit);
    EXPECT(a.last + least * a.flips <= a.first);
    EXPECT(a.first == judge_check(code, word, len).broken);
    EXPECT(a.lowest == judge_check(code, word, len).lowest && a.lowest == lowest_of(code, word));
    EXPECT((a.lowest == checks[code]) == (a.first == 0));
    EXPECT(answered(judge_quick(code, word, len), 0, a.first == 0, a.first == 0 ? checks[code] : a.lowest + 1));
    EXPECT(a.unlike <= a.flips && a.unlike % 2 == a.flips % 2);
    EXPECT(a.number == 0 || a.number == 5 || a.number == 6 || a.number == 8);
    EXPECT((a.last == 0) == (a.number == 0 || a.number == 8));
    EXPECT(a.number != 6 || a.flips == limit);
    EXPECT(a.number != 8 || code >= 4);
    if (a.number == 0)
        EXPECT(judge_check(code, out, len).broken == 0 && a.unlike == differing(code, word, out));
    else
        EXPECT(all_are(out, 0x5A, sizeof out));
    if (a.number == 0 && code != 4)
        EXPECT(opened(code, out));
    if (code == 5)
        return;
    memcpy(now, word, len);
    uint32_t left = a.first;
    for (uint32_t k = 0; k < a.flips; k++) {
        struct judge_stepped s = judge_step(code, now, len, next, len);
        EXPECT(s.number == 0 && !s.quiet && s.excess >= (int)least);
        flip(now, s.bit);
        EXPECT(memcmp(now, next, len) == 0);
        left -= (uint32_t)s.excess;
    }
    EXPECT(left == a.last);
    EXPECT(a.unlike == differing(code, word, now));
    EXPECT(a.number != 0 || memcmp(now, out, len) == 0);
    memset(next, 0x5A, sizeof next);
    struct judge_stepped s = judge_step(code, now, len, next, len);
    EXPECT(s.quiet == (a.last == 0));
    EXPECT((s.number == 5) == (a.number == 5));
}

/* Every number but 10 with none other, and no record written. */
static bool listed_refused(struct judge_listed a, uint8_t number)
{
    return a.number == number && a.flips == 0 && a.first == 0 && a.last == 0 && a.unlike == 0 && a.lowest == 0 && a.bit == 0
           && a.excess == 0;
}

enum { PLACES = 1024 };

static bool untouched(const struct judge_fliprecord *table, size_t from)
{
    for (size_t k = from; k < PLACES; k++)
        if (table[k].bit != 77 || table[k].excess != -77 || table[k].left != 7777)
            return false;
    return true;
}

static void fill_table(struct judge_fliprecord *table)
{
    for (size_t k = 0; k < PLACES; k++)
        table[k] = (struct judge_fliprecord){77, -77, 7777};
}

/* The word as code 4 has it, where every bit of code 5's run has a place. */
static uint8_t whole(uint8_t code, const uint8_t *word, uint8_t *full)
{
    memset(full, 0, MOST_OCTETS);
    for (unsigned bit = 0; bit < covered_bits[code]; bit++)
        if (bit_of(word, bit))
            flip(full, code == 5 ? bit + 18 : bit);
    return code == 5 ? 4 : code;
}

/* Its numbers are correct's; following the list gives the run's word, with each record's broken checks left and its excess
 * as the fall; the reason is the greatest excess of a bit that may be flipped, and the lowest bit that has it. */
static void lists(uint8_t code, const uint8_t *word, uint16_t limit)
{
    static struct judge_fliprecord table[PLACES];
    size_t len = word_octets[code];
    uint8_t out[MOST_OCTETS], full[MOST_OCTETS], step[MOST_OCTETS];
    struct judge_corrected a = correct(code, word, limit, out);
    fill_table(table);
    struct judge_listed l = judge_list(code, word, len, limit, table, a.flips);
    EXPECT(l.number == a.number && l.flips == a.flips && l.first == a.first && l.last == a.last && l.unlike == a.unlike
           && l.lowest == a.lowest);
    EXPECT(untouched(table, a.flips));
    EXPECT(l.number == 5 || (l.bit == 0 && l.excess == 0));
    uint8_t over = whole(code, word, full);
    uint32_t left = a.first;
    for (uint32_t k = 0; k < a.flips; k++) {
        EXPECT(code != 5 || table[k].bit >= 18);
        flip(full, table[k].bit);
        EXPECT(table[k].left == judge_check(over, full, word_octets[over]).broken);
        EXPECT(table[k].excess > 0 && left == table[k].left + (uint32_t)table[k].excess);
        left = table[k].left;
    }
    EXPECT(left == a.last);
    if (a.number == 0)
        EXPECT(whole(code, out, step) == over && memcmp(full, step, word_octets[over]) == 0);
    if (l.number == 5) {
        int greatest = -99;
        unsigned best = 0;
        for (unsigned bit = code == 5 ? 18 : 0; bit < covered_bits[code] + (code == 5 ? 18 : 0); bit++) {
            flip(full, bit);
            int excess = (int)a.last - (int)judge_check(over, full, word_octets[over]).broken;
            flip(full, bit);
            if (excess > greatest)
                greatest = excess, best = bit;
        }
        EXPECT(l.bit == best && l.excess == greatest && greatest <= 0);
    }
    if (a.flips > 0) {
        fill_table(table);
        EXPECT(listed_refused(judge_list(code, word, len, limit, table, below(a.flips)), 10));
        EXPECT(untouched(table, 0));
    }
}

static void listed_words(void)
{
    begin("the list of the run");
    static struct judge_fliprecord table[PLACES];
    uint8_t info[MOST_OCTETS], word[MOST_OCTETS] = {0};
    fill_table(table);
    EXPECT(listed_refused(judge_list(0, word, 16, 9, table, 9), 1));
    EXPECT(listed_refused(judge_list(6, word, 16, 9, table, 9), 1));
    EXPECT(listed_refused(judge_list(1, word, 15, 9, table, 9), 2));
    word[0] = 0x80;
    EXPECT(listed_refused(judge_list(1, word, 16, 1, table, 0), 10));
    EXPECT(judge_list(1, word, 16, 0, NULL, 0).number == 6);
    EXPECT(untouched(table, 0));
    struct judge_listed l = judge_list(1, word, 16, 9, table, 1);
    EXPECT(l.number == 0 && l.flips == 1 && l.first == 5 && l.last == 0 && l.unlike == 1 && l.lowest == 0);
    EXPECT(table[0].bit == 0 && table[0].excess == 5 && table[0].left == 0 && untouched(table, 1));
    for (uint8_t code = 1; code <= 5; code++)
        for (unsigned pass = code <= 3 ? 300 : 12; pass > 0; pass--) {
            if (pass % 3 == 0) {
                draw_octets(word, word_octets[code]);
            } else {
                draw_codeword(code, info, word);
                for (unsigned k = below(code <= 3 ? 12 : 41); k > 0; k--)
                    flip(word, below(covered_bits[code]));
            }
            lists(code, word, (uint16_t)(pass % 2 ? 65535 : below(8)));
        }
    end();
}

static void random_words(void)
{
    begin("the run's bounds on random words");
    for (uint8_t code = 1; code <= 5; code++) {
        uint8_t info[MOST_OCTETS], word[MOST_OCTETS];
        for (unsigned pass = code <= 3 ? 1000 : 60; pass > 0; pass--) {
            if (pass % 3 == 0) {
                draw_octets(word, word_octets[code]);
            } else {
                draw_codeword(code, info, word);
                for (unsigned k = below(code <= 3 ? 12 : 41); k > 0; k--)
                    flip(word, below(covered_bits[code]));
            }
            bounds(code, word, (uint16_t)(pass % 2 ? 65535 : below(8)));
        }
    }
    end();
}

static bool reached(struct judge_reached a, uint8_t number, uint32_t least, uint32_t b0, uint32_t b1, uint32_t b2)
{
    return a.number == number && a.least == least && a.bits[0] == b0 && a.bits[1] == b1 && a.bits[2] == b2;
}

static void nearest_cases(void)
{
    uint8_t info[8], word[16] = {0}, wrong[17], out[17], mended[16];

    begin("nearest: refused in this order, and nothing written");
    memset(out, 0x5A, sizeof out);
    EXPECT(reached(judge_nearest(word, 15, 4, out, 17), 2, 0, 0, 0, 0));
    EXPECT(reached(judge_nearest(word, 16, 4, out, 17), 3, 0, 0, 0, 0));
    EXPECT(reached(judge_nearest(word, 16, 4, out, 16), 18, 0, 0, 0, 0));
    EXPECT(reached(judge_nearest(word, 16, 255, out, 16), 18, 0, 0, 0, 0));
    word[0] = 0x80;
    EXPECT(reached(judge_nearest(word, 16, 0, out, 16), 17, 0, 0, 0, 0));
    EXPECT(all_are(out, 0x5A, sizeof out));
    end();

    begin("nearest: one wrong bit, every bit, as correct mends it");
    for (unsigned bit = 0; bit < 128; bit++) {
        draw_codeword(1, info, word);
        memcpy(wrong, word, 16);
        flip(wrong, bit);
        uint8_t reach = (uint8_t)(1 + below(3));
        EXPECT(reached(judge_nearest(wrong, 16, reach, out, 16), 0, 1, bit, 0, 0));
        EXPECT(memcmp(out, word, 16) == 0);
        EXPECT(correct(1, wrong, 1, mended).flips == 1 && memcmp(out, mended, 16) == 0);
        EXPECT(reached(judge_nearest(word, 16, (uint8_t)below(4), out, 16), 0, 0, 0, 0, 0));
        EXPECT(memcmp(out, word, 16) == 0);
    }
    end();

    /* Another way to the same: all lists of the same length, the last one first. */
    begin("nearest: the fewest flips, and the first list");
    for (unsigned pass = 0; pass < 40; pass++) {
        draw_codeword(1, info, word);
        for (unsigned k = pass % 6; k > 0; k--)
            flip(word, below(128));
        uint32_t least = 3, first[2] = {0, 0};
        for (unsigned a = 128; a-- > 0;) {
            flip(word, a);
            for (unsigned b = 128; b-- > a + 1;) {
                flip(word, b);
                if (least > 1 && (judge_check(1, word, 16).broken == 0))
                    least = 2, first[0] = a, first[1] = b;
                flip(word, b);
            }
            if ((judge_check(1, word, 16).broken == 0))
                least = 1, first[0] = a, first[1] = 0;
            flip(word, a);
        }
        if ((judge_check(1, word, 16).broken == 0))
            least = 0, first[0] = first[1] = 0;
        struct judge_reached a = judge_nearest(word, 16, 2, out, 16);
        EXPECT(least == 3 ? reached(a, 17, 0, 0, 0, 0) : reached(a, 0, least, first[0], first[1], 0));
        a = judge_nearest(word, 16, 3, out, 16);
        EXPECT(a.number == 17 || (judge_check(1, out, 16).broken == 0));
        EXPECT(a.number == 17 || a.least == differing(1, word, out));
        EXPECT(a.least < 2 || (a.bits[0] < a.bits[1] && (a.least < 3 || a.bits[1] < a.bits[2])));
    }
    end();
}

enum { MOST_BITS = 8 * MOST_OCTETS };

/* Samples of a word, all of one size. */
static void put_samples(uint8_t code, const uint8_t *word, float size, float *samples)
{
    for (unsigned bit = 0; bit < covered_bits[code]; bit++)
        samples[bit] = bit_of(word, bit) ? -size : size;
}

static struct judge_corrected correct_samples(uint8_t code, const float *samples, uint16_t limit, uint8_t *out)
{
    return judge_correct_samples(code, samples, covered_bits[code], limit, out, word_octets[code]);
}

static void samples_refused(void)
{
    static float samples[MOST_BITS + 8];
    uint8_t out[MOST_OCTETS + 1];

    begin("samples: refused in this order, and nothing written");
    memset(out, 0x5A, sizeof out);
    samples[127] = NAN;
    for (unsigned code = 0; code < 256; code++)
        if (code < 1 || code > 4)
            EXPECT(are(judge_correct_samples((uint8_t)code, samples, 8160, 9, out, 1020), 1, 0, 0, 0, 0, 0));
    EXPECT(are(judge_correct_samples(1, samples, 16, 9, out, 16), 2, 0, 0, 0, 0, 0));
    EXPECT(are(judge_correct_samples(1, samples, 129, 9, out, 17), 2, 0, 0, 0, 0, 0));
    EXPECT(are(judge_correct_samples(1, samples, 128, 9, out, 17), 3, 0, 0, 0, 0, 0));
    EXPECT(are(judge_correct_samples(1, samples, 128, 9, out, 0), 3, 0, 0, 0, 0, 0));
    samples[0] = -1;
    const float no_numbers[] = {NAN, -NAN, INFINITY, -INFINITY};
    for (unsigned k = 0; k < 4; k++) {
        samples[127] = no_numbers[k];
        EXPECT(are(judge_correct_samples(1, samples, 128, 0, out, 16), 16, 0, 0, 0, 0, 0));
    }
    samples[127] = FLT_MAX;
    EXPECT(are(judge_correct_samples(1, samples, 128, 0, out, 16), 6, 0, 5, 5, 0, 0));
    EXPECT(all_are(out, 0x5A, sizeof out));
    end();
}

/* The choice from the rule's words once more, by flips of the word: the greatest excess, then the smallest size, then the lowest. */
static unsigned chosen(uint8_t code, uint8_t *word, const float *samples, int *greatest)
{
    int excess[MOST_BITS], before = (int)judge_check(code, word, word_octets[code]).broken;
    *greatest = -9;
    for (unsigned bit = 0; bit < covered_bits[code]; bit++) {
        flip(word, bit);
        excess[bit] = before - (int)judge_check(code, word, word_octets[code]).broken;
        flip(word, bit);
        *greatest = excess[bit] > *greatest ? excess[bit] : *greatest;
    }
    unsigned best = covered_bits[code];
    for (unsigned bit = covered_bits[code]; bit-- > 0;)
        if (excess[bit] == *greatest && (best == covered_bits[code] || fabsf(samples[bit]) <= fabsf(samples[best])))
            best = bit;
    return best;
}

static void samples_followed(uint8_t code, const float *samples)
{
    uint8_t word[MOST_OCTETS] = {0}, read[MOST_OCTETS], out[MOST_OCTETS];
    struct judge_fliprecord list[MOST_OCTETS];
    for (unsigned bit = 0; bit < covered_bits[code]; bit++)
        if (samples[bit] < 0)
            flip(word, bit);
    memcpy(read, word, sizeof word);
    struct judge_corrected a = judge_list_samples(code, samples, covered_bits[code], 65535, out, word_octets[code], list);
    EXPECT(a.first == judge_check(code, read, word_octets[code]).broken && a.lowest == lowest_of(code, read));
    for (uint32_t k = 0; k < a.flips; k++) {
        int excess;
        EXPECT(list[k].bit == chosen(code, word, samples, &excess) && list[k].excess == excess && excess > 0);
        flip(word, list[k].bit);
        EXPECT(list[k].left == judge_check(code, word, word_octets[code]).broken);
    }
    int excess;
    chosen(code, word, samples, &excess);
    EXPECT(a.last == judge_check(code, word, word_octets[code]).broken && (a.last > 0) == (a.number == 5));
    EXPECT(a.number != 5 || excess <= 0);
    EXPECT(a.unlike == differing(code, read, word));
    EXPECT(a.number != 0 || memcmp(out, word, word_octets[code]) == 0);
}

static void samples_taken(void)
{
    static float samples[MOST_BITS];
    uint8_t info[MOST_OCTETS], word[MOST_OCTETS] = {0}, wrong[MOST_OCTETS], out[MOST_OCTETS], other[MOST_OCTETS];

    begin("samples: ties by the smallest size, then the lowest number");
    /* Bits 80 and 109 wrong: of the same excess as bit 75, the lowest, from which on the run sticks. */
    memset(word, 0, sizeof word);
    flip(word, 80);
    flip(word, 109);
    put_samples(1, word, 1, samples);
    EXPECT(are(correct_samples(1, samples, 9, out), 5, 2, 4, 2, 2, lowest_of(1, word)));
    samples[109] = -0.5f;
    EXPECT(are(correct_samples(1, samples, 9, out), 0, 2, 4, 0, 2, lowest_of(1, word)));
    EXPECT(all_are(out, 0, 16));
    samples[75] = 0.5f;
    EXPECT(correct_samples(1, samples, 9, out).number == 5);
    samples[75] = -0.0f;
    EXPECT(correct_samples(1, samples, 9, out).number == 5);
    samples[75] = 1;
    samples[109] = -FLT_TRUE_MIN;
    EXPECT(correct_samples(1, samples, 9, out).number == 0);
    end();

    begin("samples: both zeros read as 0");
    for (unsigned bit = 0; bit < 128; bit++)
        samples[bit] = bit % 2 ? -0.0f : 0;
    EXPECT(are(correct_samples(1, samples, 9, out), 0, 0, 0, 0, 0, 64));
    EXPECT(all_are(out, 0, 16));
    samples[0] = -FLT_TRUE_MIN;
    EXPECT(are(correct_samples(1, samples, 9, out), 0, 1, 5, 0, 1, 0));
    EXPECT(all_are(out, 0, 16));
    end();

    begin("samples: equal sizes give correct's answer and word");
    const float equal[] = {1, 0.1f, FLT_MAX, FLT_TRUE_MIN, FLT_MIN};
    for (uint8_t code = 1; code <= 4; code++)
        for (unsigned pass = code <= 3 ? 200 : 10; pass > 0; pass--) {
            draw_codeword(code, info, word);
            for (unsigned k = below(code <= 3 ? 12 : 41); k > 0; k--)
                flip(word, below(covered_bits[code]));
            uint16_t limit = (uint16_t)(pass % 2 ? 65535 : below(8));
            put_samples(code, word, equal[pass % 5], samples);
            memset(out, 0x5A, sizeof out);
            memset(other, 0x5A, sizeof other);
            struct judge_corrected a = correct(code, word, limit, out), b = correct_samples(code, samples, limit, other);
            EXPECT(are(b, a.number, a.flips, a.first, a.last, a.unlike, a.lowest));
            EXPECT(memcmp(out, other, sizeof out) == 0);
        }
    draw_codeword(4, info, word);
    for (unsigned bit = 7154; bit < 7154 + 511; bit++)
        flip(word, bit);
    put_samples(4, word, 1, samples);
    EXPECT(are(correct_samples(4, samples, 9, out), 8, 0, 0, 0, 0, 1022));
    end();

    begin("samples: codewords and one wrong bit, whatever the sizes");
    for (uint8_t code = 1; code <= 4; code++)
        for (unsigned pass = code <= 3 ? covered_bits[code] : 20; pass > 0; pass--) {
            unsigned bit = code <= 3 ? pass - 1 : below(covered_bits[code]);
            draw_codeword(code, info, word);
            memcpy(wrong, word, sizeof word);
            flip(wrong, bit);
            put_samples(code, word, 1, samples);
            for (unsigned n = 0; n < covered_bits[code]; n++)
                samples[n] *= (float)(1 + below(1000));
            EXPECT(are(correct_samples(code, samples, 0, out), 0, 0, 0, 0, 0, checks[code]));
            EXPECT(memcmp(out, word, word_octets[code]) == 0);
            samples[bit] *= -1000;
            EXPECT(are(correct_samples(code, samples, 1, out), 0, 1, judge_check(code, wrong, word_octets[code]).broken, 0, 1,
                       lowest_of(code, wrong)));
            EXPECT(memcmp(out, word, word_octets[code]) == 0);
        }
    end();

    begin("samples: every flip of a run");
    for (uint8_t code = 1; code <= 3; code++)
        for (unsigned pass = 0; pass < 40; pass++) {
            draw_codeword(code, info, word);
            for (unsigned k = below(16); k > 0; k--)
                flip(word, below(covered_bits[code]));
            put_samples(code, word, 1, samples);
            for (unsigned n = 0; n < covered_bits[code]; n++)
                samples[n] *= (float)(1 + below(pass % 2 ? 4 : 1000));
            samples_followed(code, samples);
        }
    end();
}

/* A marked and randomised word at a place of a stream. */
static void put_frame(uint8_t *at, const uint8_t *word)
{
    memcpy(at, "\x1A\xCF\xFC\x1D", 4);
    memcpy(at + 4, word, 1020);
    judge_randomise(0, at + 4, 1020);
}

static void telemetry(void)
{
    static uint8_t stream[4 * 1024 + 8];
    uint8_t info[MOST_OCTETS], word[MOST_OCTETS], other[MOST_OCTETS], octets[600] = {0};
    struct judge_frame f;

    begin("telemetry: the first sequence");
    for (unsigned edition = 0; edition < 4; edition++) {
        judge_randomise((uint8_t)edition, octets, sizeof octets);
        EXPECT(memcmp(octets, "\xFF\x48\x0E\xC0\x9A", 5) == 0);
        EXPECT(memcmp(octets, octets + 255, sizeof octets - 255) == 0);
        judge_randomise((uint8_t)edition, octets, sizeof octets);
        EXPECT(all_are(octets, 0, sizeof octets));
    }
    end();

    begin("telemetry: the second sequence");
    /* Its period is 131,071 bits, so 131,071 octets; a prime, so that no shorter one divides it. */
    static uint8_t longer[131071 + 600];
    judge_randomise(4, longer, sizeof longer);
    EXPECT(memcmp(longer, "\x1C\x71\xB9\x1B\xA9\xBA\x84\x57", 8) == 0);
    EXPECT(memcmp(longer, longer + 131071, 600) == 0);
    EXPECT(memcmp(longer, longer + 255, 600) != 0);
    judge_randomise(5, longer, sizeof longer);
    EXPECT(all_are(longer, 0, sizeof longer));
    end();

    begin("telemetry: editions");
    for (unsigned edition = 0; edition < 256; edition++)
        EXPECT(judge_edition((uint8_t)edition) == (edition < 6 ? 0 : 19));
    end();

    begin("telemetry: words of a stream");
    draw_codeword(5, info, word);
    draw_codeword(5, info, other);
    put_frame(stream + 3, word);
    put_frame(stream + 3 + 1024, other);
    flip(stream + 3 + 1024 + 4, 99);
    /* A marker that begins inside a failed match. */
    memcpy(stream, "\x1A\xCF\xFC", 3);
    EXPECT(judge_frame(stream, sizeof stream, 0, 0, 1, &f) && f.offset == 7 && are(f.corrected, 0, 0, 0, 0, 0, 1022));
    EXPECT(memcmp(f.word, word, 1020) == 0);
    EXPECT(judge_frame(stream, sizeof stream, f.offset + 1020, 0, 1, &f) && f.offset == 1031 && f.corrected.flips == 1);
    EXPECT(memcmp(f.word, other, 1020) == 0);
    EXPECT(!judge_frame(stream, sizeof stream, f.offset + 1020, 0, 1, &f));
    /* Refused, and so all zeros. */
    EXPECT(judge_frame(stream, sizeof stream, 1027, 0, 0, &f) && f.corrected.number == 6 && f.corrected.first == 4);
    EXPECT(all_are(f.word, 0, 1020));
    /* One octet short; a word whose octets have a marker in them. */
    EXPECT(!judge_frame(stream, 3 + 1023, 0, 0, 1, &f));
    EXPECT(judge_frame(stream, 3 + 1024, 0, 0, 1, &f));
    memcpy(stream + 500, "\x1A\xCF\xFC\x1D", 4);
    EXPECT(judge_frame(stream, sizeof stream, 0, 0, 65535, &f) && f.offset == 7);
    EXPECT(judge_frame(stream, sizeof stream, f.offset + 1020, 0, 1, &f) && f.offset == 1031);
    end();
}

int main(void)
{
    starred_cases();
    other_cases();
    rows();
    encoded_words();
    wrong_bits();
    choices();
    inverted_blocks();
    random_words();
    listed_words();
    nearest_cases();
    samples_refused();
    samples_taken();
    telemetry();
    printf("%lu passed, %lu failed\n", passed, failed);
    return failed == 0 ? EXIT_SUCCESS : EXIT_FAILURE;
}
