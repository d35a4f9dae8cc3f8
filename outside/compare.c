/* Compares the library with the judge on many inputs: every number returned, every octet of the output afterwards.
 *
 *     cc -std=c11 -Wall -Wextra -O2 -Iinclude -o target/compare outside/compare.c outside/breaks.c \
 *         outside/judge.c LIBRARY.a
 *     target/compare TELECOMMAND NEAR_EARTH [SEED]
 *
 * TELECOMMAND is the number of comparisons of each call under each of the codes 1 to 3, NEAR_EARTH the same for codes 4
 * and 5; wrong lengths and wrong code numbers come on top. With -DJUDGE_AS_LIBRARY and without the library the judge
 * stands in for it, and what runs is the campaign alone.
 */
#include "breaks.h"
#include "judge.h"
#include "pandoricchia.h"

#include <inttypes.h>
#include <stddef.h>
#include <stdio.h>
#include <stdlib.h>
#include <string.h>
#include <time.h>

#ifdef JUDGE_AS_LIBRARY
uint8_t pandoricchia_encode(uint8_t code, const uint8_t *info, size_t info_len, uint8_t *word, size_t word_len)
{
    return judge_encode(code, info, info_len, word, word_len);
}

pandoricchia_checked pandoricchia_check(uint8_t code, const uint8_t *word, size_t len)
{
    struct judge_checked a = judge_check(code, word, len);
    return (pandoricchia_checked){a.number, a.broken, a.lowest};
}

pandoricchia_answered pandoricchia_quick(uint8_t code, const uint8_t *word, size_t len)
{
    struct judge_answered a = judge_quick(code, word, len);
    return (pandoricchia_answered){a.number, a.yes, a.evaluated};
}

pandoricchia_listed pandoricchia_list(uint8_t code, const uint8_t *word, size_t len, uint16_t limit,
                                      pandoricchia_fliprecord *table, size_t places)
{
    struct judge_listed a = judge_list(code, word, len, limit, (struct judge_fliprecord *)table, places);
    return (pandoricchia_listed){a.number, a.flips, a.first, a.last, a.unlike, a.lowest, a.bit, a.excess};
}

pandoricchia_opened pandoricchia_open(uint8_t code, const uint8_t *word, size_t len)
{
    struct judge_opened a = judge_open(code, word, len);
    return (pandoricchia_opened){a.number, a.lowest, a.octets};
}

pandoricchia_corrected pandoricchia_correct(uint8_t code, const uint8_t *word, size_t len, uint16_t limit,
                                            uint8_t *out, size_t out_len)
{
    struct judge_corrected a = judge_correct(code, word, len, limit, out, out_len);
    return (pandoricchia_corrected){a.number, a.flips, a.first, a.last, a.unlike, a.lowest};
}

pandoricchia_stepped pandoricchia_step(uint8_t code, const uint8_t *word, size_t len, uint8_t *out, size_t out_len)
{
    struct judge_stepped a = judge_step(code, word, len, out, out_len);
    return (pandoricchia_stepped){a.number, a.quiet, a.bit, a.excess};
}
#endif

enum call { ENCODE, CHECK, OPEN, CORRECT, STEP, QUICK, LIST, CALLS };

static const char *const call_names[CALLS] = {"encode", "check", "open", "correct", "step", "quick", "list"};

enum { VALUES = 7 };

/* What an answer's values are, besides the number. */
static const char *const value_names[CALLS][VALUES] = {
    {NULL},
    {"broken", "lowest"},
    {"lowest", "octets"},
    {"flips", "first", "last", "unlike", "lowest"},
    {"quiet", "bit", "excess"},
    {"yes", "evaluated"},
    {"flips", "first", "last", "unlike", "lowest", "bit", "excess"},
};

static const size_t word_octets[] = {0, 16, 32, 64, 1022, 1020};
static const size_t info_octets[] = {0, 8, 16, 32, 895, 892};
static const unsigned covered_bits[] = {0, 128, 256, 512, 8176, 8158};
static const unsigned info_bits[] = {0, 64, 128, 256, 7154, 7136};
static const unsigned checks[] = {0, 64, 128, 256, 1022, 1022};

enum {
    LONGEST = 1022,
    LENGTHS = LONGEST + 16,               /* lengths are tried from 0 to here, */
    FAR = 65536,                          /* and the right ones once more with this added */
    GUARD = 16,                           /* octets before and after a buffer that nobody may touch */
    ROOM = 2 * GUARD + 8 + FAR + LENGTHS,
    RECORD = sizeof(pandoricchia_fliprecord)
};

struct question {
    enum call call;
    uint8_t code;
    const uint8_t *input;
    size_t len;
    uint16_t limit;
    size_t out_len;
};

struct answer {
    uint8_t number;
    int64_t value[VALUES];
};

static struct answer ask_judge(const struct question *q, const uint8_t *input, uint8_t *out)
{
    struct answer a = {0};
    switch (q->call) {
    case ENCODE:
        a.number = judge_encode(q->code, input, q->len, out, q->out_len);
        break;
    case CHECK: {
        struct judge_checked r = judge_check(q->code, input, q->len);
        a = (struct answer){r.number, {r.broken, r.lowest}};
        break;
    }
    case OPEN: {
        struct judge_opened r = judge_open(q->code, input, q->len);
        a = (struct answer){r.number, {r.lowest, (int64_t)r.octets}};
        break;
    }
    case CORRECT: {
        struct judge_corrected r = judge_correct(q->code, input, q->len, q->limit, out, q->out_len);
        a = (struct answer){r.number, {r.flips, r.first, r.last, r.unlike, r.lowest}};
        break;
    }
    case QUICK: {
        struct judge_answered r = judge_quick(q->code, input, q->len);
        a = (struct answer){r.number, {r.yes, r.evaluated}};
        break;
    }
    case LIST: {
        struct judge_listed r = judge_list(q->code, input, q->len, q->limit, (struct judge_fliprecord *)out, q->out_len / RECORD);
        a = (struct answer){r.number, {r.flips, r.first, r.last, r.unlike, r.lowest, r.bit, r.excess}};
        break;
    }
    default: {
        struct judge_stepped r = judge_step(q->code, input, q->len, out, q->out_len);
        a = (struct answer){r.number, {r.quiet, r.bit, r.excess}};
    }
    }
    return a;
}

static struct answer ask_library(const struct question *q, const uint8_t *input, uint8_t *out)
{
    struct answer a = {0};
    switch (q->call) {
    case ENCODE:
        a.number = pandoricchia_encode(q->code, input, q->len, out, q->out_len);
        break;
    case CHECK: {
        pandoricchia_checked r = pandoricchia_check(q->code, input, q->len);
        a = (struct answer){r.number, {r.broken, r.lowest}};
        break;
    }
    case OPEN: {
        pandoricchia_opened r = pandoricchia_open(q->code, input, q->len);
        a = (struct answer){r.number, {r.lowest, (int64_t)r.octets}};
        break;
    }
    case CORRECT: {
        pandoricchia_corrected r = pandoricchia_correct(q->code, input, q->len, q->limit, out, q->out_len);
        a = (struct answer){r.number, {r.flips, r.first, r.last, r.unlike, r.lowest}};
        break;
    }
    case QUICK: {
        pandoricchia_answered r = pandoricchia_quick(q->code, input, q->len);
        a = (struct answer){r.number, {r.yes, r.evaluated}};
        break;
    }
    case LIST: {
        pandoricchia_listed r = pandoricchia_list(q->code, input, q->len, q->limit, (pandoricchia_fliprecord *)out, q->out_len / RECORD);
        a = (struct answer){r.number, {r.flips, r.first, r.last, r.unlike, r.lowest, r.bit, r.excess}};
        break;
    }
    default: {
        pandoricchia_stepped r = pandoricchia_step(q->code, input, q->len, out, q->out_len);
        a = (struct answer){r.number, {r.quiet, r.bit, r.excess}};
    }
    }
    return a;
}

static uint64_t seed, state;

/* splitmix64 */
static uint64_t draw(void)
{
    uint64_t z = (state += 0x9E3779B97F4A7C15);
    z = (z ^ z >> 30) * 0xBF58476D1CE4E5B9;
    z = (z ^ z >> 27) * 0x94D049BB133111EB;
    return z ^ z >> 31;
}

static unsigned below(unsigned n)
{
    return (unsigned)(draw() % n);
}

static void draw_octets(uint8_t *octets, size_t len)
{
    uint64_t drawn = 0;
    for (size_t i = 0; i < len; i++) {
        drawn = i % 8 == 0 ? draw() : drawn >> 8;
        octets[i] = (uint8_t)drawn;
    }
}

static void flip(uint8_t *octets, unsigned bit)
{
    octets[bit / 8] ^= (uint8_t)(0x80 >> bit % 8);
}

/* How often each number was answered, and the greatest values, for the summaries. */
struct tally {
    unsigned long compared, numbers[256];
    int64_t greatest[VALUES];
};

static unsigned long compared_in_all;

static void print_octets(const char *name, const uint8_t *octets, size_t len)
{
    printf("  %s, %zu octets: ", name, len);
    for (size_t i = 0; i < len; i++)
        printf("%02X", octets[i]);
    printf("\n");
}

static void print_answer(const char *who, const struct question *q, const struct answer *a)
{
    printf("  %s: number %u", who, a->number);
    for (unsigned k = 0; k < VALUES && value_names[q->call][k] != NULL; k++)
        printf(", %s %" PRId64, value_names[q->call][k], a->value[k]);
    printf("\n");
}

static void fail(const char *what, const struct question *q, const struct answer *judge, const struct answer *library,
                 const uint8_t *before, const uint8_t *judge_out, const uint8_t *library_out)
{
    printf("%s, code %u: %s\n", call_names[q->call], q->code, what);
    print_octets("input", q->input, q->len);
    if (q->call == CORRECT || q->call == LIST)
        printf("  limit %u\n", q->limit);
    print_answer("judge", q, judge);
    print_answer("library", q, library);
    if (q->out_len > 0) {
        print_octets("output before", before, q->out_len);
        print_octets("judge's output", judge_out, q->out_len);
        print_octets("library's output", library_out, q->out_len);
    }
    printf("seed %" PRIu64 ": a difference after %lu equal answers\n", seed, compared_in_all);
    exit(EXIT_FAILURE);
}

/* What lies between the fields of the records that were written is nobody's. */
static void clear_gaps(uint8_t *table, size_t records)
{
    for (size_t k = 0; k < records; k++) {
        size_t from = offsetof(pandoricchia_fliprecord, excess) + 1;
        memset(table + k * RECORD + from, 0, offsetof(pandoricchia_fliprecord, left) - from);
    }
}

/* Asks both, and stops at a difference. Buffers begin at any address, and between guards; what the output holds before
 * is random, so an octet that one side writes and the other does not shows. */
static void compare(const struct question *q, struct tally *tally)
{
    static uint8_t given[ROOM], lent[ROOM], before[ROOM];
    static _Alignas(8) uint8_t judge_room[ROOM], library_room[ROOM];
    size_t in_at = GUARD + below(8), out_at = GUARD + (q->call == LIST ? 4 * below(2) : below(8));
    size_t in_room = in_at + q->len + GUARD, out_room = out_at + q->out_len + GUARD;

    draw_octets(given, in_at);
    memcpy(given + in_at, q->input, q->len);
    draw_octets(given + in_at + q->len, GUARD);
    memcpy(lent, given, in_room);
    draw_octets(before, out_room);
    memcpy(judge_room, before, out_room);
    memcpy(library_room, before, out_room);

    struct answer judge = ask_judge(q, given + in_at, judge_room + out_at);
    struct answer library = ask_library(q, lent + in_at, library_room + out_at);

    if (q->call == LIST && judge.value[0] == library.value[0]) {
        clear_gaps(judge_room + out_at, (size_t)judge.value[0]);
        clear_gaps(library_room + out_at, (size_t)judge.value[0]);
    }
    const char *what = NULL;
    if (judge.number != library.number || memcmp(judge.value, library.value, sizeof judge.value) != 0)
        what = "the answers differ";
    else if (memcmp(judge_room + out_at, library_room + out_at, q->out_len) != 0)
        what = "the outputs differ";
    else if (memcmp(judge_room, library_room, out_room) != 0)
        what = "octets beside the output are written";
    else if (memcmp(given, lent, in_room) != 0)
        what = "the input is written";
    if (what != NULL)
        fail(what, q, &judge, &library, before + out_at, judge_room + out_at, library_room + out_at);
    tally->compared++;
    tally->numbers[judge.number]++;
    for (unsigned k = 0; k < VALUES; k++)
        if (judge.value[k] > tally->greatest[k])
            tally->greatest[k] = judge.value[k];
    compared_in_all++;
}

/* The right lengths of a call's input and output. */
static size_t input_octets(enum call call, uint8_t code)
{
    return call == ENCODE ? info_octets[code] : word_octets[code];
}

static size_t output_octets(enum call call, uint8_t code)
{
    return call == CHECK || call == OPEN || call == QUICK || call == LIST ? 0 : word_octets[code];
}

static void draw_info(uint8_t code, uint8_t *info)
{
    size_t len = info_octets[code];
    unsigned kind = below(8);
    if (kind < 5) {
        draw_octets(info, len);
    } else {
        memset(info, kind == 5 ? 0xFF : 0, len);
        if (kind == 7)
            for (unsigned k = below(9); k > 0; k--)
                flip(info, below(info_bits[code]));
    }
    if (code == 4)
        info[894] &= 0xC0;
}

static void draw_codeword(uint8_t code, uint8_t *word)
{
    uint8_t info[LONGEST];
    draw_info(code, info);
    judge_encode(code, info, info_octets[code], word, word_octets[code]);
}

/* Makes so many different bits wrong, of a run of bits. */
static void make_wrong(uint8_t *word, unsigned from, unsigned bits, unsigned wrong)
{
    uint8_t done[LONGEST] = {0};
    while (wrong > 0) {
        unsigned bit = from + below(bits);
        if (done[bit / 8] >> bit % 8 & 1)
            continue;
        done[bit / 8] |= (uint8_t)(1 << bit % 8);
        flip(word, bit);
        wrong--;
    }
}

/* Inverts whole blocks of the parity, 511 bits each: quiet, and no codeword, in codes 4 and 5. */
static void invert_parity(uint8_t code, uint8_t *word)
{
    unsigned which = 1 + below(3), size = (covered_bits[code] - info_bits[code]) / 2;
    for (unsigned k = 0; k < 2 * size; k++)
        if (which >> k / size & 1)
            flip(word, info_bits[code] + k);
}

/* A code 4 word as code 5 would send it. */
static void drop_unsent(const uint8_t *full, uint8_t *word)
{
    memset(word, 0, 1020);
    for (unsigned n = 18; n < 8176; n++)
        if (full[n / 8] >> (7 - n % 8) & 1)
            flip(word, n - 18);
}

static void bring_unsent(const uint8_t *word, uint8_t *full)
{
    memset(full, 0, 1022);
    for (unsigned n = 18; n < 8176; n++)
        if (word[(n - 18) / 8] >> (7 - (n - 18) % 8) & 1)
            flip(full, n);
}

/* A code 5 word of the same parity as one that has unsent bits set. The run may not set them. */
static void forget_unsent(uint8_t *word)
{
    uint8_t info[LONGEST], full[LONGEST];
    draw_info(4, info);
    info[0] = info[1] = 0;
    info[2] &= 0x3F;
    make_wrong(info, 0, 18, 1 + below(3));
    judge_encode(4, info, 895, full, 1022);
    drop_unsent(full, word);
}

/* Follows the run for some steps or to its end, where step gives refusal 5 or is quiet. */
static void walk(uint8_t code, uint8_t *word)
{
    uint8_t now[LONGEST];
    uint8_t stepping = code == 5 ? 4 : code;
    size_t len = word_octets[stepping];
    unsigned most = below(2) ? 1000 : below(40);
    if (code == 5)
        bring_unsent(word, now);
    else
        memcpy(now, word, len);
    for (unsigned k = 0; k < most; k++) {
        struct judge_stepped s = judge_step(stepping, now, len, now, len);
        if (s.number != 0 || s.quiet)
            break;
    }
    if (code == 5)
        drop_unsent(now, word);
    else
        memcpy(word, now, len);
}

/* For each code a word with many broken checks, so that counts and flips come near their bounds: found by keeping any
 * flip that breaks no fewer checks than it mends. A codeword can be added to it without a change to the checks. */
static uint8_t loud[6][LONGEST];

static void find_loud(uint8_t code)
{
    uint8_t *word = loud[code];
    uint32_t most = 0;
    for (unsigned tries = 30000; tries > 0; tries--) {
        unsigned bit = below(covered_bits[code]);
        flip(word, bit);
        uint32_t broken = judge_check(code, word, word_octets[code]).broken;
        if (broken >= most)
            most = broken;
        else
            flip(word, bit);
    }
}

/* A word to check, open, correct or step, and how many of its bits were made wrong. */
static unsigned draw_word(uint8_t code, uint8_t *word)
{
    unsigned bits = covered_bits[code], wrong = 0;
    switch (below(22)) {
    case 0:
    case 1:
        draw_octets(word, word_octets[code]);
        return below(41);
    case 18:
    case 19:
        draw_codeword(code, word);
        for (size_t i = 0; i < word_octets[code]; i++)
            word[i] ^= loud[code][i];
        wrong = below(2) ? 0 : below(41);
        break;
    case 20:
    case 21: {
        /* Quiet below a check of any number. */
        unsigned lowest = below(checks[code]);
        draw_codeword(code, word);
        break_check(code, lowest, word);
        for (unsigned more = below(2) ? 0 : below(9); more > 0; more--)
            break_check(code, lowest + below(checks[code] - lowest), word);
        return below(4);
    }
    case 16:
    case 17:
        if (below(2)) {
            draw_octets(word, word_octets[code]);
        } else {
            draw_codeword(code, word);
            make_wrong(word, 0, bits, code <= 3 ? 2 + below(11) : 30 + below(30));
        }
        walk(code, word);
        return below(4);
    case 2:
        memset(word, below(2) ? 0xFF : 0, word_octets[code]);
        wrong = below(9);
        break;
    case 3:
    case 4:
        draw_codeword(code, word);
        break;
    case 5:
    case 6:
    case 7:
        draw_codeword(code, word);
        wrong = below(6);
        break;
    case 8:
    case 9:
    case 10:
        draw_codeword(code, word);
        wrong = below(41);
        break;
    case 11:
        /* A burst. */
        draw_codeword(code, word);
        wrong = below(41);
        make_wrong(word, below(bits - 63), 64, wrong);
        return wrong;
    case 12:
    case 13:
        draw_codeword(code, word);
        invert_parity(code, word);
        wrong = below(4);
        break;
    default:
        if (code == 5) {
            forget_unsent(word);
            if (below(4) == 0)
                invert_parity(code, word);
        } else {
            draw_codeword(code, word);
            invert_parity(code, word);
            make_wrong(word, info_bits[code], bits - info_bits[code], below(3));
        }
        wrong = below(4);
    }
    make_wrong(word, 0, bits, wrong);
    if (code == 5 && below(4) == 0)
        word[1019] ^= (uint8_t)below(4);
    return wrong;
}

static uint16_t draw_limit(uint8_t code, const uint8_t *word, unsigned wrong)
{
    uint32_t first = judge_check(code, word, word_octets[code]).broken;
    switch (below(13)) {
    case 0:
        return 0;
    case 1:
        return 1;
    case 2:
        return 2;
    case 3:
        return 3;
    case 4:
        return (uint16_t)(wrong > 0 ? wrong - 1 : 0);
    case 5:
    case 6:
        return (uint16_t)wrong;
    case 7:
        return (uint16_t)first;
    case 8:
        return (uint16_t)(first / 2);
    case 9:
        return (uint16_t)below(41);
    case 10:
        return (uint16_t)below(65536);
    default:
        return 65535;
    }
}

static uint32_t flips_of(const struct question *q)
{
    static struct judge_fliprecord table[LONGEST];
    return judge_list(q->code, q->input, q->len, q->limit, table, LONGEST).flips;
}

/* Octets of a table: without a place, one short, just enough, what a bound says, or more. */
static size_t draw_table(const struct question *q)
{
    uint32_t flips, first;
    switch (below(8)) {
    case 0:
        return 0;
    case 1:
        flips = flips_of(q);
        return RECORD * (flips > 0 ? flips - 1 : 0);
    case 2:
        return RECORD * (size_t)flips_of(q);
    case 3:
        first = judge_check(q->code, q->input, q->len).broken;
        return RECORD * (size_t)(q->code <= 3 ? first : first / 2);
    case 4:
        return RECORD * (size_t)(q->limit < LONGEST ? q->limit : LONGEST);
    case 5:
        return RECORD * (size_t)below(20);
    case 6:
        return RECORD * (size_t)(flips_of(q) + below(9));
    default:
        return RECORD * (size_t)LONGEST;
    }
}

static void compare_drawn(enum call call, uint8_t code, struct tally *tally)
{
    uint8_t input[LONGEST];
    struct question q = {call, code, input, input_octets(call, code), 0, output_octets(call, code)};
    if ((call == OPEN && code == 4) || (call == STEP && code == 5)) {
        /* Not offered, whatever the word. */
        draw_octets(input, sizeof input);
    } else if (call == ENCODE) {
        draw_info(code, input);
        /* The six last bits of code 4: now and then one of them, or any. */
        if (code == 4 && below(8) == 0)
            input[894] ^= (uint8_t)(below(2) ? 1u << below(6) : below(64));
    } else if (call == OPEN && below(2)) {
        draw_codeword(code, input);
        if (code == 5 && below(4) == 0)
            input[1019] ^= (uint8_t)(1 + below(3));
        if (code == 5 && below(4) == 0)
            invert_parity(code, input);
    } else {
        unsigned wrong = draw_word(code, input);
        if (call == CORRECT || call == LIST)
            q.limit = draw_limit(code, input, wrong);
        if (call == LIST)
            q.out_len = draw_table(&q);
    }
    compare(&q, tally);
}

/* Every length from 0 on, of the input alone, of the output alone, and of both; and the right ones a long way off. */
static void compare_lengths(enum call call, uint8_t code, struct tally *tally)
{
    static uint8_t input[FAR + LENGTHS];
    bool has_output = output_octets(call, code) > 0;
    draw_octets(input, sizeof input);
    for (size_t len = 0; len <= LENGTHS; len++) {
        size_t length = len < LENGTHS ? len : FAR + input_octets(call, code);
        size_t out_length = len < LENGTHS ? len : FAR + output_octets(call, code);
        struct question q = {call, code, input, length, (uint16_t)below(4), output_octets(call, code)};
        if (call == LIST)
            q.out_len = RECORD * below(9);
        compare(&q, tally);
        if (!has_output)
            continue;
        q.out_len = below(LENGTHS);
        compare(&q, tally);
        q.len = input_octets(call, code);
        q.out_len = out_length;
        compare(&q, tally);
    }
}

/* Every code number, with the lengths that are right for each of the codes, and with none. */
static void compare_numbers(enum call call, struct tally *tally)
{
    uint8_t input[LONGEST];
    for (unsigned code = 0; code < 256; code++) {
        for (uint8_t lengths = 0; lengths <= 5; lengths++) {
            draw_octets(input, sizeof input);
            struct question q = {call, (uint8_t)code, input, input_octets(call, lengths), (uint16_t)below(65536),
                                 output_octets(call, lengths)};
            if (call == LIST)
                q.out_len = RECORD * below(300);
            compare(&q, tally);
        }
    }
}

static void print_tally(enum call call, const char *codes, const struct tally *tally)
{
    printf("%s, %s: %lu compared; numbers", call_names[call], codes, tally->compared);
    for (unsigned number = 0; number < 256; number++)
        if (tally->numbers[number] > 0)
            printf(" %u: %lu", number, tally->numbers[number]);
    for (unsigned k = 0; k < VALUES && value_names[call][k] != NULL; k++)
        printf("%s %s %" PRId64, k == 0 ? "; greatest" : ",", value_names[call][k], tally->greatest[k]);
    printf("\n");
}

/* A sign of life on a long run, beside the results. */
static void progress(enum call call, uint8_t code, unsigned long done, unsigned long of)
{
    static time_t last;
    time_t now = time(NULL);
    if (last == 0)
        last = now;
    if (now - last < 10)
        return;
    last = now;
    fprintf(stderr, "%s, code %u: %lu of %lu\n", call_names[call], code, done, of);
}

/* Each part of the campaign has its own draws, whatever the others' counts are. */
static void begin(enum call call, unsigned part)
{
    state = seed;
    state = draw() ^ (uint64_t)call << 32 ^ part;
}

static unsigned long number_of(const char *text)
{
    char *end;
    unsigned long number = strtoul(text, &end, 10);
    if (*text < '0' || *text > '9' || *end != '\0') {
        fprintf(stderr, "not a number: %s\n", text);
        exit(2);
    }
    return number;
}

int main(int argc, char **argv)
{
    if (argc != 3 && argc != 4) {
        fprintf(stderr, "usage: compare TELECOMMAND NEAR_EARTH [SEED]\n");
        return 2;
    }
    unsigned long telecommand = number_of(argv[1]), near_earth = number_of(argv[2]);
    seed = argc == 4 ? number_of(argv[3]) : (uint64_t)time(NULL);
    setvbuf(stdout, NULL, _IOLBF, BUFSIZ);
#ifdef JUDGE_AS_LIBRARY
    printf("seed %" PRIu64 ", the judge standing in for the library\n", seed);
#else
    printf("seed %" PRIu64 "\n", seed);
#endif
    for (uint8_t code = 1; code <= 5; code++) {
        begin(CALLS, code);
        find_loud(code);
    }
    for (enum call call = ENCODE; call < CALLS; call++) {
        for (uint8_t code = 1; code <= 5; code++) {
            struct tally tally = {0};
            unsigned long of = code <= 3 ? telecommand : near_earth;
            begin(call, code);
            compare_lengths(call, code, &tally);
            for (unsigned long done = 0; done < of; done++) {
                compare_drawn(call, code, &tally);
                progress(call, code, done, of);
            }
            char codes[] = {'c', 'o', 'd', 'e', ' ', (char)('0' + code), '\0'};
            print_tally(call, codes, &tally);
        }
        struct tally tally = {0};
        begin(call, 0);
        compare_numbers(call, &tally);
        print_tally(call, "codes 0 to 255", &tally);
    }
    printf("seed %" PRIu64 ": %lu answers compared, no difference\n", seed, compared_in_all);
    return EXIT_SUCCESS;
}
