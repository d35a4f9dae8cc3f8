/* Compares the library's taker, on streams cut into parts, with the judge's words of the whole stream.
 *
 *     cc -std=c11 -O2 -Iinclude -o target/frames_compare outside/frames_compare.c outside/frames_judge.c outside/judge.c LIBRARY.a
 *     target/frames_compare STREAMS [SEED]
 *
 * STREAMS is how many streams are drawn, each cut in several ways. A stream has noise, marked words with and without wrong
 * bits, words that are refused, markers inside words, inside failed matches and cut short, words without room between them,
 * and trailing octets; each is randomised by an edition. Of each call the octets taken, the mark, the numbers and all octets of
 * the word are held to what must be. Takers for every edition, and states that no call gives, are tried first.
 */
#include "draws.h"
#include "frames_judge.h"
#include "pandoricchia.h"

#include <inttypes.h>
#include <stdio.h>
#include <stdlib.h>
#include <string.h>

enum { WORD = JUDGE_FRAME_OCTETS, FRAME = 4 + WORD, MOST_FRAMES = 8, STREAM = MOST_FRAMES * (FRAME + 64) };

static const uint8_t marker[4] = {0x1A, 0xCF, 0xFC, 0x1D};
static uint64_t seed;
static unsigned long calls, words, streams, numbers[256];

static void fail(const char *what, size_t at, size_t part)
{
    printf("frames, octet %zu, part of %zu octets: %s\n", at, part, what);
    printf("seed %" PRIu64 ": a difference in stream %lu, after %lu equal answers\n", seed, streams, calls);
    exit(EXIT_FAILURE);
}

/* A marked word: randomised, and spoilt in so many bits. */
static size_t put_word(uint8_t *at, uint8_t edition, unsigned wrong)
{
    uint8_t information[892];
    bool parity = below(8) == 0;
    draw_octets(information, sizeof information);
    judge_encode(5, information, sizeof information, at + 4, WORD);
    for (size_t bit = 7136; bit < 7136 + 511 && parity; bit++) /* quiet, but not the encoder's parity */
        at[4 + bit / 8] ^= (uint8_t)(0x80 >> bit % 8);
    if (below(3) == 0) /* a marker inside the word as it is sent: wrong bits, and no marker */
        memcpy(at + 4 + below(WORD - 3), marker, 4);
    judge_randomise(edition, at + 4, WORD);
    if (below(3) == 0)
        memcpy(at + 4 + below(WORD - 3), marker, 4);
    for (; wrong > 0; wrong--)
        at[4 + below(WORD)] ^= (uint8_t)(1u << below(8));
    memcpy(at, marker, 4);
    return FRAME;
}

/* Noise, of which some looks like a marker. */
static size_t put_noise(uint8_t *at, size_t len)
{
    draw_octets(at, len);
    for (size_t k = 0; k < len; k++)
        if (below(3) == 0)
            at[k] = marker[below(4)];
    return len;
}

/* The beginning of a marker that comes to nothing. */
static size_t put_failed(uint8_t *at)
{
    size_t len = 1 + below(3);
    memcpy(at, marker, len);
    return len;
}

static size_t draw_stream(uint8_t *stream, uint8_t edition)
{
    size_t len = 0;
    for (size_t frames = below(MOST_FRAMES - 1); frames > 0; frames--) {
        if (below(2))
            len += put_noise(stream + len, below(40));
        for (size_t k = below(4); k > 0; k--)
            len += put_failed(stream + len);
        len += put_word(stream + len, edition, (unsigned)(below(6) == 0 ? 400 : below(4) == 0 ? below(30) : below(3)));
    }
    len += put_noise(stream + len, below(30));
    if (below(3) == 0) { /* a last word that is cut short */
        put_word(stream + len, edition, 0);
        len += below(FRAME);
    }
    return len;
}

static size_t draw_part(unsigned kind, size_t left)
{
    size_t n = kind == 0   ? left
               : kind == 1 ? 1
               : kind == 2 ? below(4)
               : kind == 3 ? below(FRAME + 8)
               : kind == 4 ? (below(2) ? 0 : FRAME - 2 + below(5))
                           : below(64);
    return n < left ? n : left;
}

static bool zero(const uint8_t *octets, size_t len)
{
    for (size_t k = 0; k < len; k++)
        if (octets[k] != 0)
            return false;
    return true;
}

static bool same_numbers(struct judge_corrected j, pandoricchia_corrected l)
{
    return j.number == l.number && j.flips == l.flips && j.first == l.first && j.last == l.last && j.unlike == l.unlike
           && j.lowest == l.lowest;
}

/* Takes the stream in parts, and holds each call to the judge's list of words. */
static void take_in_parts(const uint8_t *stream, size_t len, pandoricchia_taking taker, const struct judge_frame *frame,
                          size_t frames, unsigned kind)
{
    static uint8_t part[STREAM];
    size_t at = 0, found = 0;
    for (unsigned idle = 0; at < len || idle < 2;) {
        size_t n = draw_part(kind, len - at);
        memcpy(part, stream + at, n);
        pandoricchia_taken r = pandoricchia_take(taker, part, n);
        if (memcmp(part, stream + at, n) != 0)
            fail("the part is written", at, n);
        size_t due = found < frames ? frame[found].offset + WORD - at : n + 1;
        if (r.complete != (due <= n))
            fail(r.complete ? "a word that is not there" : "a word is missed", at, n);
        if (r.taken != (due <= n ? due : n))
            fail("another number of octets is taken", at, n);
        if (!r.complete && (!same_numbers((struct judge_corrected){0}, r.corrected) || !zero(r.word, WORD)))
            fail("numbers or octets of no word", at, n);
        if (r.complete) {
            if (!same_numbers(frame[found].corrected, r.corrected))
                fail("the numbers differ", at, n);
            if (memcmp(frame[found].word, r.word, WORD) != 0)
                fail("the words differ", at, n);
            if (r.next.place != 0 || memcmp(r.next.octets, stream + frame[found].offset, WORD) != 0)
                fail("another state after a word", at, n);
            numbers[r.corrected.number]++;
            found++;
            words++;
        }
        if (r.next.limit != taker.limit || r.next.edition != taker.edition)
            fail("another limit or edition", at, n);
        at += r.taken;
        size_t begun = found < frames && at >= frame[found].offset ? frame[found].offset : at;
        if (begun < at && (r.next.place != 4 + at - begun || memcmp(r.next.octets, stream + begun, at - begun) != 0))
            fail("another state inside a word", at, n);
        idle += at == len;
        taker = r.next;
        calls++;
    }
    if (found != frames)
        fail("words are missed", at, 0);
}

static bool fresh(pandoricchia_taking taker, uint8_t edition, uint16_t limit)
{
    return taker.place == 0 && taker.edition == edition && taker.limit == limit && zero(taker.octets, WORD);
}

/* Each of the 256 editions: its number, and the state that comes with it. */
static void make_takers(void)
{
    for (unsigned edition = 0; edition < 256; edition++) {
        uint16_t limit = (uint16_t)draw();
        pandoricchia_made made = pandoricchia_taker_for((uint8_t)edition, limit);
        if (made.number != judge_edition((uint8_t)edition) || !fresh(made.taker, made.number == 0 ? (uint8_t)edition : 0, limit))
            fail("another taker for an edition", edition, 0);
        if (!fresh(pandoricchia_taker(limit), 0, limit))
            fail("another taker without an edition", edition, 0);
        calls += 2;
    }
}

/* States that no call gives: a place past a word's end is read as 0, and an edition that is not known has the old sequence. */
static void take_handmade(void)
{
    static const size_t places[] = {1024, 1025, 2044, 65536, (size_t)1 << 32, SIZE_MAX};
    static uint8_t part[FRAME];
    static struct judge_frame frame;
    for (unsigned edition = 0; edition < 256; edition++)
        for (size_t k = 0; k < sizeof places / sizeof places[0]; k++) {
            pandoricchia_taking taker = {.place = places[k], .edition = (uint8_t)edition, .limit = 9};
            draw_octets(taker.octets, WORD);
            put_word(part, (uint8_t)edition, (unsigned)below(3));
            judge_frame(part, FRAME, 0, (uint8_t)edition, 9, &frame);
            take_in_parts(part, FRAME, taker, &frame, 1, edition % 2 ? 0 : 3);
        }
}

int main(int argc, char **argv)
{
    static uint8_t stream[STREAM];
    static struct judge_frame frame[MOST_FRAMES];
    unsigned long most = argc > 1 ? strtoul(argv[1], NULL, 10) : 40;
    seed = state = argc > 2 ? strtoull(argv[2], NULL, 10) : 1;
    make_takers();
    take_handmade();
    for (; streams < most; streams++) {
        uint16_t limit = (uint16_t)(below(3) == 0 ? below(3) : below(40));
        uint8_t edition = (uint8_t)below(6), told = below(8) == 0 ? (uint8_t)below(256) : edition;
        size_t len = draw_stream(stream, edition), frames = 0;
        pandoricchia_taking taker = pandoricchia_taker_for(told, limit).taker;
        for (size_t at = 0; judge_frame(stream, len, at, told, limit, &frame[frames]); frames++)
            at = frame[frames].offset + WORD;
        for (unsigned kind = 0; kind < 6; kind++)
            if (kind != 1 || streams % 8 == 0)
                take_in_parts(stream, len, taker, frame, frames, kind);
    }
    printf("frames: %lu calls on %lu streams, %lu words compared, no difference; numbers", calls, streams, words);
    for (unsigned k = 0; k < 256; k++)
        if (numbers[k] > 0)
            printf(" %u: %lu", k, numbers[k]);
    printf("\n");
    return 0;
}
