/* What the header says beside the calls' answers: lengths, texts, NULL with length 0, odd addresses, modes of floating point,
 * stack, which numbers a call gives. With the argument any-stack, for code that was compiled without optimising or with a sanitizer, the
 * stack is measured and not held to the header.
 *
 *     outside/build_c target/outside/boundary outside/boundary.c outside/frames_judge.c outside/judge.c
 *     outside/run_x86 target/outside/boundary
 */
#include "draws.h"
#include "frames_judge.h"
#include "pandoricchia.h"

#include <math.h>
#include <stdio.h>
#include <stdlib.h>
#include <string.h>

static unsigned passed, failed;

static void expect(int holds, const char *what, unsigned code)
{
    if (holds) {
        passed++;
        return;
    }
    failed++;
    printf("boundary: %s, code %u\n", what, code);
}

static const size_t words[6] = {0,
                                PANDORICCHIA_WORD_OCTETS_1,
                                PANDORICCHIA_WORD_OCTETS_2,
                                PANDORICCHIA_WORD_OCTETS_3,
                                PANDORICCHIA_WORD_OCTETS_4,
                                PANDORICCHIA_WORD_OCTETS_5};
static const size_t informations[6] = {0,
                                       PANDORICCHIA_INFORMATION_OCTETS_1,
                                       PANDORICCHIA_INFORMATION_OCTETS_2,
                                       PANDORICCHIA_INFORMATION_OCTETS_3,
                                       PANDORICCHIA_INFORMATION_OCTETS_4,
                                       PANDORICCHIA_INFORMATION_OCTETS_5};

/* Octets at every distance from an aligned address; the information, and a word of it with three wrong bits. */
static _Alignas(64) uint8_t information[PANDORICCHIA_MOST_INFORMATION_OCTETS + 16];
static _Alignas(64) uint8_t word[PANDORICCHIA_MOST_WORD_OCTETS + 16];
static _Alignas(64) uint8_t out[PANDORICCHIA_MOST_WORD_OCTETS + 16];
static _Alignas(64) float samples[8 * PANDORICCHIA_MOST_WORD_OCTETS + 16];

static void fill(uint8_t code, size_t at)
{
    for (size_t i = 0; i < informations[code]; i++)
        information[at + i] = (uint8_t)(37 * i + 11 * code);
    if (code == 4)
        information[at + informations[4] - 1] &= 0xC0;
}

/* A sample for each bit of octets. */
static void sample(const uint8_t *octets, size_t len, float *into)
{
    for (size_t bit = 0; bit < 8 * len; bit++)
        into[bit] = octets[bit / 8] >> (7 - bit % 8) & 1 ? -1 : 1;
}

static void test_lengths(void)
{
    for (unsigned code = 0; code < 256; code++) {
        size_t wanted = code < 6 ? words[code] : 0;
        expect(pandoricchia_word_octets((uint8_t)code) == wanted, "word octets", code);
        wanted = code < 6 ? informations[code] : 0;
        expect(pandoricchia_information_octets((uint8_t)code) == wanted, "information octets", code);
        expect(words[code % 6] <= PANDORICCHIA_MOST_WORD_OCTETS, "most word octets", code % 6);
        expect(informations[code % 6] <= PANDORICCHIA_MOST_INFORMATION_OCTETS, "most information octets", code % 6);
    }
}

/* Every number to the last has a text. */
static void test_texts(void)
{
    const char *none = pandoricchia_text(255);
    for (unsigned number = 0; number <= 255; number++) {
        int given = number <= PANDORICCHIA_BLOCK_COUNT;
        expect((strcmp(pandoricchia_text((uint8_t)number), none) != 0) == given, "a text for each number and for no other", number);
    }
}

/* No word of a code has a length of 0, so a call on one is refused: 1 where the code is not offered, 2 for the input, 3 for the output. */
static void test_null(void)
{
    for (unsigned code = 0; code < 256; code++) {
        uint8_t c = (uint8_t)code;
        uint8_t input = 1 <= code && code <= 5 ? 2 : 1, output = input == 2 ? 3 : 1;
        size_t info = pandoricchia_information_octets(c), long_word = pandoricchia_word_octets(c);
        fill(code < 6 ? c : 0, 0);
        expect(pandoricchia_encode(c, NULL, 0, NULL, 0) == input, "encode, both NULL", code);
        expect(pandoricchia_encode(c, information, info, NULL, 0) == output, "encode, output NULL", code);
        expect(pandoricchia_check(c, NULL, 0).number == input, "check, NULL", code);
        expect(pandoricchia_quick(c, NULL, 0).number == input, "quick, NULL", code);
        pandoricchia_opened opened = pandoricchia_open(c, NULL, 0);
        expect(opened.number == (code == 4 ? 1 : input) && opened.octets == 0, "open, NULL", code);
        expect(pandoricchia_correct(c, NULL, 0, 9, NULL, 0).number == input, "correct, both NULL", code);
        expect(pandoricchia_correct(c, word, long_word, 9, NULL, 0).number == output, "correct, output NULL", code);
        expect(pandoricchia_correct_samples(c, NULL, 0, 9, NULL, 0).number == (code == 5 ? 1 : input), "correct_samples, both NULL", code);
        expect(pandoricchia_correct_samples(c, samples, 8 * long_word, 9, NULL, 0).number == (code == 5 ? 1 : output),
               "correct_samples, output NULL", code);
        expect(pandoricchia_list(c, NULL, 0, 9, NULL, 0).number == input, "list, both NULL", code);
        expect(pandoricchia_list(c, word, long_word, 0, NULL, 0).number != 10, "list, table NULL", code);
        expect(pandoricchia_step(c, NULL, 0, NULL, 0).number == (code == 5 ? 1 : input), "step, both NULL", code);
        expect(pandoricchia_step(c, word, long_word, NULL, 0).number == (code == 5 ? 1 : output), "step, output NULL", code);
    }
}

/* Nearest takes no code number: 2 for the input, 3 for the output. */
static void test_null_nearest(void)
{
    for (unsigned reach = 0; reach < 256; reach++) {
        expect(pandoricchia_nearest(NULL, 0, (uint8_t)reach, NULL, 0).number == 2, "nearest, both NULL", reach);
        expect(pandoricchia_nearest(word, words[1], (uint8_t)reach, NULL, 0).number == 3, "nearest, output NULL", reach);
    }
}

/* Units and BCH words have octets too. No blocks are a recording of no octets, so import and export take a length of 0. */
static void test_null_others(void)
{
    for (unsigned code = 0; code < 256; code++) {
        uint8_t c = (uint8_t)code, offered = code == 1 || code == 3;
        expect(pandoricchia_write_unit(c, NULL, 0, NULL, 0) == (offered ? 2 : 1), "write_unit, both NULL", code);
        expect(pandoricchia_write_unit(c, information, 1, NULL, 0) == (offered ? 3 : 1), "write_unit, output NULL", code);
        pandoricchia_reading reading = pandoricchia_reader(c, NULL, 0, 9);
        expect(reading.kept.number == (offered ? 11 : 1), "reader, NULL", code);
        expect(pandoricchia_read(reading, NULL, 0, NULL, 0).corrected.number == (offered ? 3 : 1), "read, both NULL", code);
    }
    expect(pandoricchia_bch_encode(NULL, 0, NULL, 0) == 2, "bch_encode, both NULL", 0);
    expect(pandoricchia_bch_encode(information, 7, NULL, 0) == 3, "bch_encode, output NULL", 0);
    expect(pandoricchia_bch_check(false, NULL, 0, NULL, 0).number == 2, "bch_check, both NULL", 0);
    expect(pandoricchia_bch_check(false, word, 8, NULL, 0).number == 3, "bch_check, output NULL", 0);
    expect(pandoricchia_import_blocks(NULL, 0, NULL, 0).number == 0, "import_blocks, both NULL", 0);
    expect(pandoricchia_import_blocks(NULL, 0, out, 1).number == 3, "import_blocks, input NULL", 0);
    expect(pandoricchia_imported_octets(NULL, 0) == 0, "imported_octets, NULL", 0);
    expect(pandoricchia_export_blocks(NULL, 0, NULL, 0) == 0, "export_blocks, both NULL", 0);
    expect(pandoricchia_export_blocks(information, 1, NULL, 0) == 3, "export_blocks, output NULL", 0);
}

/* The known editions, and a limit that is kept with the others too. */
static void test_editions(void)
{
    for (unsigned edition = 0; edition < 256; edition++) {
        pandoricchia_made made = pandoricchia_taker_for((uint8_t)edition, 7);
        expect(made.number == (edition < 6 ? PANDORICCHIA_DONE : PANDORICCHIA_EDITION), "taker_for", edition);
        expect(made.taker.edition == (edition < 6 ? edition : 0) && made.taker.limit == 7, "taker_for: the taker", edition);
    }
}

/* A part without octets changes nothing. */
static void test_null_part(void)
{
    pandoricchia_taking state = pandoricchia_taker(7);
    pandoricchia_taken taken = pandoricchia_take(state, NULL, 0);
    expect(taken.taken == 0 && !taken.complete && taken.corrected.number == 0, "take, NULL", 5);
    expect(taken.next.place == 0 && taken.next.edition == 0 && taken.next.limit == 7, "take, NULL: the taker", 5);
    taken = pandoricchia_take(state, (const uint8_t *)"\x1A\xCF", 2);
    state = pandoricchia_take(taken.next, NULL, 0).next;
    expect(taken.taken == 2 && state.place == taken.next.place, "take, NULL between two parts", 5);
}

/* The same answers at each of sixteen addresses. */
static void test_addresses(void)
{
    static uint8_t first[PANDORICCHIA_MOST_WORD_OCTETS];
    for (uint8_t code = 1; code <= 5; code++) {
        size_t n = words[code], info = informations[code];
        for (size_t at = 0; at < 16; at++) {
            fill(code, at);
            expect(pandoricchia_encode(code, information + at, info, word + (15 - at), n) == 0, "encode", code);
            if (at == 0)
                memcpy(first, word + 15, n);
            expect(memcmp(word + (15 - at), first, n) == 0, "encode's octets", code);
            expect(pandoricchia_check(code, word + (15 - at), n).broken == 0, "check", code);
            expect(pandoricchia_quick(code, word + (15 - at), n).yes, "quick", code);
            pandoricchia_opened opened = pandoricchia_open(code, word + (15 - at), n);
            expect(opened.number == (code == 4 ? 1 : 0) && opened.octets == (code == 4 ? 0 : info), "open", code);
            word[15 - at + 3] ^= 0x10;
            pandoricchia_corrected mended = pandoricchia_correct(code, word + (15 - at), n, 1, out + at, n);
            expect(mended.flips == 1 && mended.unlike == 1, "correct", code);
            expect(memcmp(out + at, first, n) == 0, "correct's octets", code);
            memset(out, 0, sizeof out);
            sample(word + (15 - at), n, samples + at);
            mended = pandoricchia_correct_samples(code, samples + at, 8 * n, 1, out + at, n);
            expect(mended.number == (code == 5 ? 1 : 0) && mended.flips == (code == 5 ? 0 : 1), "correct_samples", code);
            expect(code == 5 || memcmp(out + at, first, n) == 0, "correct_samples' octets", code);
            pandoricchia_fliprecord flips[2] = {{9, 9, 9}, {9, 9, 9}};
            expect(pandoricchia_list(code, word + (15 - at), n, 9, flips, 2).flips == 1, "list", code);
            expect(flips[0].bit == (code == 5 ? 45 : 27) && flips[0].left == 0 && flips[1].bit == 9, "list's records", code);
            memset(out, 0, sizeof out);
            pandoricchia_reached reached = {0};
            if (code == 1)
                reached = pandoricchia_nearest(word + (15 - at), n, 1, out + at, n);
            expect(code != 1 || (reached.least == 1 && reached.bits[0] == 27 && memcmp(out + at, first, n) == 0), "nearest", code);
            memset(out, 0, sizeof out);
            expect(pandoricchia_step(code, word + (15 - at), n, out + at, n).number == (code == 5 ? 1 : 0), "step", code);
            expect(code == 5 || memcmp(out + at, first, n) == 0, "step's octets", code);
        }
    }
}

#ifdef __x86_64__
/* The machine's mode of floating point, read and set. */
static unsigned mode_now(void)
{
    unsigned mode;
    __asm__ volatile("stmxcsr %0" : "=m"(mode));
    return mode;
}

static void set_mode(unsigned mode)
{
    __asm__ volatile("ldmxcsr %0" : : "m"(mode));
}

/* A sample by its bit pattern: no floating point is used. */
static void put(size_t bit, uint32_t pattern)
{
    memcpy(samples + bit, &pattern, sizeof pattern);
}

/* Samples of the bits of octets, in sizes that differ, from a smallest one on. */
static void put_all(const uint8_t *octets, size_t len, uint32_t smallest)
{
    for (uint32_t bit = 0; bit < 8 * len; bit++)
        put(bit, smallest + (bit * 2654435761u >> 10) + ((uint32_t)(octets[bit / 8] >> (7 - bit % 8) & 1) << 31));
}

/* correct_samples under a mode, whose output is to be the octets, where it writes them. */
static int under(unsigned mode, uint8_t code, pandoricchia_corrected wanted, const uint8_t *octets)
{
    size_t n = words[code];
    unsigned was = mode_now();
    memset(out, 0, sizeof out);
    set_mode(mode);
    pandoricchia_corrected r = pandoricchia_correct_samples(code, samples, 8 * n, 100, out, n);
    set_mode(was);
    return r.number == wanted.number && r.flips == wanted.flips && r.first == wanted.first && r.last == wanted.last &&
           r.unlike == wanted.unlike && r.lowest == wanted.lowest && (r.number != 0 || memcmp(out, octets, n) == 0);
}

/* Results flushed to 0, subnormals taken as 0, both, and the other roundings; then every exception on, so that a single operation of
 * floating point on a subnormal, or on what is not a number, would end the program. */
static void test_modes(void)
{
    static const unsigned modes[] = {0x1F80, 0x9F80, 0x1FC0, 0x9FC0, 0x3F80, 0x5F80, 0x7F80, 0x0000};
    static const uint32_t refused[] = {0x7F800000, 0xFF800000, 0x7FC00000, 0xFFC00000, 0x7F800001, 0xFFFFFFFF};
    static const pandoricchia_corrected sixteen = {.number = PANDORICCHIA_SAMPLE};
    static uint8_t ones[PANDORICCHIA_MOST_WORD_OCTETS], mended[PANDORICCHIA_MOST_WORD_OCTETS], of_ones[PANDORICCHIA_MOST_WORD_OCTETS];
    memset(ones, 0xFF, sizeof ones);
    for (uint8_t code = 1; code <= 4; code++) {
        size_t n = words[code];
        fill(code, 0);
        pandoricchia_encode(code, information, informations[code], word, n);
        for (size_t i = 0; i < 4; i++)
            word[3 * i] ^= 0x21;
        put_all(word, n, 0x3F800000);
        pandoricchia_corrected wanted = pandoricchia_correct_samples(code, samples, 8 * n, 100, mended, n);
        expect(wanted.flips > 0, "samples that are not subnormal", code);
        pandoricchia_corrected all = pandoricchia_correct(code, ones, n, 100, of_ones, n);
        for (size_t m = 0; m < sizeof modes / sizeof modes[0]; m++) {
            put_all(word, n, 1);
            expect(under(modes[m], code, wanted, mended), "subnormal samples of the same order, under a mode", code);
            put_all(word, n, 0x3F800000);
            expect(under(modes[m], code, wanted, mended), "samples that are not subnormal, under a mode", code);
            for (size_t i = 0; i < sizeof refused / sizeof refused[0]; i++) {
                put(8 * n - 1, refused[i]);
                expect(under(modes[m], code, sixteen, mended), "a sample that is not finite, under a mode", code);
            }
            for (size_t bit = 0; bit < 8 * n; bit++)
                put(bit, 0x800116C2);
            expect(under(modes[m], code, all, of_ones), "samples of -1e-40, which are ones, under a mode", code);
        }
    }
}
#else
static void test_modes(void)
{
    printf("skipped: boundary: modes of floating point, which are set on x86-64 alone\n");
}
#endif

/* ---- The stack that each call takes, and the numbers that it gives. */

enum { DEEP = 65536, NEAR = 128, PAINT = 0xA5 };

static volatile uint8_t *painted;

/* What lies below is painted, but for the octets that the painting itself may use. */
__attribute__((noinline)) static void paint(void)
{
    painted = (volatile uint8_t *)__builtin_frame_address(0) - DEEP;
    for (size_t i = 0; i < DEEP - NEAR; i++)
        painted[i] = PAINT;
}

/* How far down the deepest octet lies that was painted over. What is handed over by value is counted, the caller's room for a result is
 * not. */
__attribute__((noinline)) static size_t painted_over(void)
{
    size_t i = 0;
    while (i < DEEP - NEAR && painted[i] == PAINT)
        i++;
    return DEEP - i;
}

enum {
    VERSION, WORD_OCTETS, INFORMATION_OCTETS, ENCODE, CHECK, QUICK, OPEN, CORRECT, CORRECT_SAMPLES, LIST, STEP, NEAREST, UNIT_OCTETS,
    WRITE_UNIT, READER, READ, TAKER, TAKER_FOR, TAKE, BCH_ENCODE, BCH_CHECK, IMPORT_BLOCKS, IMPORTED_OCTETS, EXPORT_BLOCKS, EXPORTED_OCTETS, CALLS
};

/* Of each call the stack that the header allows it, and the numbers that it gives, as README, docs/RULES.md and the header have them:
 * outside/header_test compares these. Below is tried what makes each of these numbers, and no other may come. */
static struct call {
    const char *name;
    size_t allowed;
    const char *numbers;
    size_t most;     /* the most stack that a try took */
    uint32_t given;  /* a bit for each number that came */
} calls[CALLS] = {
    [VERSION] = {"version", PANDORICCHIA_VERSION_STACK_OCTETS, "", 0, 0},
    [WORD_OCTETS] = {"word_octets", PANDORICCHIA_WORD_OCTETS_STACK_OCTETS, "", 0, 0},
    [INFORMATION_OCTETS] = {"information_octets", PANDORICCHIA_INFORMATION_OCTETS_STACK_OCTETS, "", 0, 0},
    [ENCODE] = {"encode", PANDORICCHIA_ENCODE_STACK_OCTETS, "0 1 2 3 4", 0, 0},
    [CHECK] = {"check", PANDORICCHIA_CHECK_STACK_OCTETS, "0 1 2", 0, 0},
    [QUICK] = {"quick", PANDORICCHIA_QUICK_STACK_OCTETS, "0 1 2", 0, 0},
    [OPEN] = {"open", PANDORICCHIA_OPEN_STACK_OCTETS, "0 1 2 9 14 15", 0, 0},
    [CORRECT] = {"correct", PANDORICCHIA_CORRECT_STACK_OCTETS, "0 1 2 3 5 6 8", 0, 0},
    [CORRECT_SAMPLES] = {"correct_samples", PANDORICCHIA_CORRECT_SAMPLES_STACK_OCTETS, "0 1 2 3 5 6 8 16", 0, 0},
    [LIST] = {"list", PANDORICCHIA_LIST_STACK_OCTETS, "0 1 2 5 6 8 10", 0, 0},
    [STEP] = {"step", PANDORICCHIA_STEP_STACK_OCTETS, "0 1 2 3 5", 0, 0},
    [NEAREST] = {"nearest", PANDORICCHIA_NEAREST_STACK_OCTETS, "0 2 3 17 18", 0, 0},
    [UNIT_OCTETS] = {"unit_octets", PANDORICCHIA_UNIT_OCTETS_STACK_OCTETS, "", 0, 0},
    [WRITE_UNIT] = {"write_unit", PANDORICCHIA_WRITE_UNIT_STACK_OCTETS, "0 1 2 3", 0, 0},
    [READER] = {"reader", PANDORICCHIA_READER_STACK_OCTETS, "0 1 11 12", 0, 0},
    [READ] = {"read", PANDORICCHIA_READ_STACK_OCTETS, "0 1 3 5 6 11 12", 0, 0},
    [TAKER] = {"taker", PANDORICCHIA_TAKER_STACK_OCTETS, "", 0, 0},
    [TAKER_FOR] = {"taker_for", PANDORICCHIA_TAKER_FOR_STACK_OCTETS, "0 19", 0, 0},
    [TAKE] = {"take", PANDORICCHIA_TAKE_STACK_OCTETS, "0 5 6 8", 0, 0},
    [BCH_ENCODE] = {"bch_encode", PANDORICCHIA_BCH_ENCODE_STACK_OCTETS, "0 2 3", 0, 0},
    [BCH_CHECK] = {"bch_check", PANDORICCHIA_BCH_CHECK_STACK_OCTETS, "0 2 3 13", 0, 0},
    [IMPORT_BLOCKS] = {"import_blocks", PANDORICCHIA_IMPORT_BLOCKS_STACK_OCTETS, "0 3 20 21 22 23", 0, 0},
    [IMPORTED_OCTETS] = {"imported_octets", PANDORICCHIA_IMPORTED_OCTETS_STACK_OCTETS, "", 0, 0},
    [EXPORT_BLOCKS] = {"export_blocks", PANDORICCHIA_EXPORT_BLOCKS_STACK_OCTETS, "0 3 20", 0, 0},
    [EXPORTED_OCTETS] = {"exported_octets", PANDORICCHIA_EXPORTED_OCTETS_STACK_OCTETS, "", 0, 0},
};

static void note(unsigned call, uint32_t given, size_t taken)
{
    calls[call].most = taken > calls[call].most ? taken : calls[call].most;
    calls[call].given |= given;
}

/* A call is tried once, and its number is kept, and the stack that it took; then the same of a call that has no number. */
#define TRY(call, number)                               \
    do {                                                \
        paint();                                        \
        uint32_t given_by_it = (uint32_t)1 << (number); \
        note(call, given_by_it, painted_over());        \
    } while (0)

#define TRY_LENGTH(call, length)       \
    do {                               \
        paint();                       \
        (void)(length);                \
        note(call, 0, painted_over()); \
    } while (0)

static pandoricchia_fliprecord flip_table[PANDORICCHIA_MOST_WORD_OCTETS];

static void flip_bit(uint8_t *octets, size_t bit)
{
    octets[bit / 8] ^= (uint8_t)(0x80 >> bit % 8);
}

/* Every call on a word of a code, under three limits and with tables that serve and that are too short. */
static void try_word(uint8_t code, const uint8_t *w)
{
    static const uint16_t limits[] = {0, 3, 65535};
    size_t n = words[code];
    TRY(CHECK, pandoricchia_check(code, w, n).number);
    TRY(QUICK, pandoricchia_quick(code, w, n).number);
    TRY(OPEN, pandoricchia_open(code, w, n).number);
    sample(w, n, samples);
    for (size_t bit = 0; bit < 8 * n; bit++)
        samples[bit] *= 1 + (float)below(5);
    for (unsigned i = 0; i < 3; i++) {
        TRY(CORRECT, pandoricchia_correct(code, w, n, limits[i], out, n).number);
        TRY(CORRECT_SAMPLES, pandoricchia_correct_samples(code, samples, 8 * n, limits[i], out, n).number);
        TRY(LIST, pandoricchia_list(code, w, n, limits[i], flip_table, PANDORICCHIA_MOST_WORD_OCTETS).number);
        TRY(LIST, pandoricchia_list(code, w, n, limits[i], flip_table, 2).number);
    }
    for (uint8_t reach = 0; reach < 5 && code == 1; reach++)
        TRY(NEAREST, pandoricchia_nearest(w, n, reach, out, n).number);
    /* Step after step, to the end of the run. */
    static uint8_t from[PANDORICCHIA_MOST_WORD_OCTETS];
    memcpy(from, w, n);
    for (;;) {
        pandoricchia_stepped stepped = {0};
        TRY(STEP, (stepped = pandoricchia_step(code, from, n, out, n)).number);
        if (stepped.number != 0 || stepped.quiet)
            break;
        memcpy(from, out, n);
    }
}

/* A code's words: encoded, with few and many wrong bits, with another parity, with the last bit set, and noise. */
static void try_words(uint8_t code)
{
    static const unsigned wrong[] = {0, 1, 2, 3, 4, 5, 8, 13, 20, 60};
    size_t n = words[code], info = informations[code];
    for (unsigned i = 0; i < 2 * sizeof wrong / sizeof wrong[0]; i++) {
        draw_octets(information, info);
        if (code == 4)
            information[info - 1] &= 0xC0;
        TRY(ENCODE, pandoricchia_encode(code, information, info, word, n));
        for (unsigned k = 0; k < wrong[i / 2]; k++)
            flip_bit(word, below(8 * n));
        try_word(code, word);
    }
    memset(word, 0, n);
    flip_bit(word, 8 * n - 1);
    try_word(code, word);
    memset(word, 0, n);
    for (size_t bit = 8 * informations[5]; bit < 8 * informations[5] + 511 && code >= 4; bit++)
        flip_bit(word, bit + (code == 4 ? 18 : 0));
    try_word(code, word);
    for (unsigned i = 0; i < 4; i++) {
        draw_octets(word, n);
        try_word(code, word);
    }
}

/* What is refused by 1 to 4 and by 16: every code number's lengths, one input and one output too long. */
static void try_refused(uint8_t code)
{
    int offered = 1 <= code && code <= 5;
    size_t n = offered ? words[code] : 16, info = offered ? informations[code] : 8;
    for (size_t more = 0; more < 2; more++) {
        TRY(ENCODE, pandoricchia_encode(code, information, info + 1, word, n + more));
        TRY(ENCODE, pandoricchia_encode(code, information, info, word, n + 1));
        TRY(CHECK, pandoricchia_check(code, word, n + more).number);
        TRY(QUICK, pandoricchia_quick(code, word, n + more).number);
        TRY(OPEN, pandoricchia_open(code, word, n + more).number);
        TRY(CORRECT, pandoricchia_correct(code, word, n + more, 9, out, n + 1).number);
        TRY(CORRECT_SAMPLES, pandoricchia_correct_samples(code, samples, 8 * n + more, 9, out, n + 1).number);
        TRY(LIST, pandoricchia_list(code, word, n + more, 9, flip_table, 9).number);
        TRY(STEP, pandoricchia_step(code, word, n + more, out, n + 1).number);
        TRY(NEAREST, pandoricchia_nearest(word, 16 + more, 3, out, 17).number);
    }
    memset(information, 0xFF, info);
    TRY(ENCODE, pandoricchia_encode(code, information, info, word, n));
    samples[8 * n - 1] = -INFINITY;
    TRY(CORRECT_SAMPLES, pandoricchia_correct_samples(code, samples, 8 * n, 9, out, n).number);
    samples[8 * n - 1] = NAN;
    TRY(CORRECT_SAMPLES, pandoricchia_correct_samples(code, samples, 8 * n, 9, out, n).number);
    TRY_LENGTH(VERSION, pandoricchia_version());
    TRY_LENGTH(WORD_OCTETS, pandoricchia_word_octets(code));
    TRY_LENGTH(INFORMATION_OCTETS, pandoricchia_information_octets(code));
}

/* Units as written, with noise in a codeblock, without their start or their tail. */
static void try_units(uint8_t code)
{
    static uint8_t unit[1024];
    size_t info = code == 1 ? 8 : 32;
    for (size_t len = 0; len < 5 * info; len += 7) {
        draw_octets(information, len);
        TRY_LENGTH(UNIT_OCTETS, pandoricchia_unit_octets(code, len));
        size_t n = pandoricchia_unit_octets(code, len);
        TRY(WRITE_UNIT, pandoricchia_write_unit(code, information, len, unit, n + 1));
        TRY(WRITE_UNIT, pandoricchia_write_unit(code, information, len, unit, n));
        for (unsigned spoiled = 0; spoiled < 5 && n > 0; spoiled++) {
            if (spoiled == 1)
                unit[8] ^= 1;
            if (spoiled == 2)
                draw_octets(unit + 8, code == 1 ? 16 : 64);
            if (spoiled == 3)
                unit[0] ^= 1;
            if (spoiled == 4)
                unit[0] ^= 1;
            for (unsigned limit = 0; limit < 100; limit += 50) {
                pandoricchia_reading reading;
                TRY(READER, (reading = pandoricchia_reader(code, unit, n - spoiled / 4, (uint16_t)limit)).kept.number);
                pandoricchia_handed handed = {0};
                do {
                    TRY(READ, pandoricchia_read(reading, unit, n, out, info + 1).corrected.number);
                    TRY(READ, (handed = pandoricchia_read(reading, unit, n, out, info)).corrected.number);
                    reading = handed.next;
                } while (handed.corrected.number == 0 && !handed.none);
                TRY(READ, pandoricchia_read(reading, unit, n, out, info).corrected.number);
            }
        }
    }
    TRY_LENGTH(UNIT_OCTETS, pandoricchia_unit_octets(code, SIZE_MAX));
}

/* A stream of a marker and a word at each edition: encoded, with few and with many wrong bits, with another parity. */
static void try_stream(uint8_t edition)
{
    static uint8_t stream[4 + 1020] = {0x1A, 0xCF, 0xFC, 0x1D};
    for (unsigned kind = 0; kind < 4; kind++)
        for (unsigned limit = 0; limit < 2000; limit += 1000) {
            memset(stream + 4, 0, 1020);
            for (size_t bit = 0; bit < 511 && kind == 3; bit++)
                flip_bit(stream + 4, 8 * informations[5] + bit);
            for (size_t k = 0; k < 5 * kind && kind < 2; k++)
                flip_bit(stream + 4, below(8 * 1020));
            if (kind == 2)
                draw_octets(stream + 4, 1020);
            judge_randomise(edition, stream + 4, 1020);
            pandoricchia_taking taker;
            TRY_LENGTH(TAKER, taker = pandoricchia_taker((uint16_t)limit));
            TRY(TAKER_FOR, pandoricchia_taker_for(edition, (uint16_t)limit).number);
            taker.edition = edition;
            pandoricchia_taken taken = {0};
            for (size_t at = 0; at < sizeof stream; at += taken.taken, taker = taken.next) {
                size_t part = kind == 0 && sizeof stream - at > 300 ? 300 : sizeof stream - at;
                TRY(TAKE, (taken = pandoricchia_take(taker, stream + at, part)).corrected.number);
            }
            expect(taken.complete, "a word of a stream is complete", edition);
        }
}

/* BCH words with 0 to 3 wrong bits, in both modes, and of other lengths. */
static void try_bch(void)
{
    for (size_t more = 0; more < 2; more++) {
        TRY(BCH_ENCODE, pandoricchia_bch_encode(information, 7 + more, word, 9));
        TRY(BCH_CHECK, pandoricchia_bch_check(false, word, 8 + more, out, 9).number);
    }
    for (unsigned k = 0; k < 4; k++) {
        draw_octets(information, 7);
        TRY(BCH_ENCODE, pandoricchia_bch_encode(information, 7, word, 8));
        for (unsigned i = 0; i < k; i++)
            flip_bit(word, 11 * i);
        TRY(BCH_CHECK, pandoricchia_bch_check(false, word, 8, out, 8).number);
        TRY(BCH_CHECK, pandoricchia_bch_check(true, word, 8, out, 8).number);
    }
}

/* Recordings of few and of many octets in blocks: whole, of another length, with a bit wrong, blocks in another order, one not full. */
static void try_blocks(void)
{
    static uint8_t octets[64513], blocks[65536 + 1], again[64513 + 1];
    static const size_t lengths[] = {0, 1, 504, 505, 1008, 64512, 64513};
    draw_octets(octets, sizeof octets);
    for (unsigned i = 0; i < sizeof lengths / sizeof lengths[0]; i++) {
        size_t len = lengths[i], n = pandoricchia_exported_octets(len);
        TRY_LENGTH(EXPORTED_OCTETS, pandoricchia_exported_octets(len));
        TRY(EXPORT_BLOCKS, pandoricchia_export_blocks(octets, len, blocks, n + 1));
        TRY(EXPORT_BLOCKS, pandoricchia_export_blocks(octets, len, blocks, n));
        TRY(IMPORT_BLOCKS, pandoricchia_import_blocks(blocks, n + 1, again, len).number);
        TRY_LENGTH(IMPORTED_OCTETS, pandoricchia_imported_octets(blocks, n));
        TRY(IMPORT_BLOCKS, pandoricchia_import_blocks(blocks, n, again, len + 1).number);
        TRY(IMPORT_BLOCKS, pandoricchia_import_blocks(blocks, n, again, len).number);
        if (n == 0)
            continue;
        blocks[n - 300] ^= 4;
        TRY_LENGTH(IMPORTED_OCTETS, pandoricchia_imported_octets(blocks, n));
        TRY(IMPORT_BLOCKS, pandoricchia_import_blocks(blocks, n, again, len).number);
        blocks[n - 300] ^= 4;
        TRY(IMPORT_BLOCKS, pandoricchia_import_blocks(blocks + 512, n - 512, again, len).number);
        pandoricchia_export_blocks(octets, 7, blocks, 512);
        TRY(IMPORT_BLOCKS, pandoricchia_import_blocks(blocks, n, again, len).number);
    }
}

/* Whether the numbers that came are those of its list; says which came if not. */
static int given_as_listed(const struct call *call)
{
    uint32_t listed = 0;
    char *rest = (char *)call->numbers;
    while (*rest != 0)
        listed |= (uint32_t)1 << strtoul(rest, &rest, 10);
    if (call->given == listed)
        return 1;
    printf("boundary: %s has the numbers %s, and gave", call->name, call->numbers);
    for (unsigned number = 0; number < 32; number++)
        if (call->given >> number & 1)
            printf(" %u", number);
    printf("\n");
    return 0;
}

static void test_stack_and_numbers(int any_stack)
{
    for (uint8_t code = 1; code <= 5; code++)
        try_words(code);
    for (unsigned code = 0; code < 256; code += code < 6 ? 1 : 249)
        try_refused((uint8_t)code);
    try_units(1);
    try_units(3);
    TRY(WRITE_UNIT, pandoricchia_write_unit(2, information, 16, out, 32));
    pandoricchia_reading other;
    TRY(READER, (other = pandoricchia_reader(2, out, 32, 9)).kept.number);
    TRY(READ, pandoricchia_read(other, out, 32, word, 16).corrected.number);
    for (uint8_t edition = 0; edition < 7; edition++)
        try_stream(edition);
    try_bch();
    try_blocks();
    size_t most = 0;
    for (unsigned i = 0; i < CALLS; i++) {
        printf("boundary: stack of %s: %zu octets, %zu allowed\n", calls[i].name, calls[i].most, calls[i].allowed);
        expect(any_stack || calls[i].most <= calls[i].allowed, "more stack than the header says", i);
        expect(given_as_listed(&calls[i]), "the numbers of a call", i);
        most = calls[i].allowed > most ? calls[i].allowed : most;
    }
    expect(most == PANDORICCHIA_STACK_OCTETS, "the most stack of any call", 0);
}

int main(int argc, char **argv)
{
    test_lengths();
    test_texts();
    test_null();
    test_null_nearest();
    test_null_others();
    test_editions();
    test_null_part();
    test_addresses();
    test_modes();
    test_stack_and_numbers(argc > 1 && strcmp(argv[1], "any-stack") == 0);
    printf("boundary: %u passed, %u failed\n", passed, failed);
    return failed != 0;
}
