/* The program why in C99, over POSIX: written by portable/translate from the MIR that was proved, and not to be edited.
 * The library's C is included whole, since a program calls more of it than the header has. */
#define _POSIX_C_SOURCE 200112L
#include <errno.h>
#include <stdbool.h>
#include <stddef.h>
#include <stdint.h>
#include <string.h>
#include <unistd.h>

#include "../pandoricchia.c"

/* A part of an array that is lent: where it begins, and how many. */
typedef struct lent_mut_uint8_t {
    uint8_t *at;
    uint64_t len;
} lent_mut_uint8_t;

/* The number that bits have if the first of them is a sign. */
static inline int32_t signed32(uint32_t x)
{
    return x <= INT32_MAX ? (int32_t)x : (int32_t)(-(int32_t)(UINT32_MAX - x) - 1);
}

/* The number that bits have if the first of them is a sign. */
static inline int64_t signed64(uint64_t x)
{
    return x <= INT64_MAX ? (int64_t)x : (int64_t)(-(int64_t)(UINT64_MAX - x) - 1);
}

/* ---- libc ------------------------------------------------------------------------------------------- */

static uint64_t libc_write(uint32_t file, const uint8_t *octets, uint64_t octets_len)
{
    return (uint64_t)write(signed32(file), octets, (size_t)octets_len);
}

static uint64_t libc_read(uint32_t file, uint8_t *room, uint64_t room_len)
{
    return (uint64_t)read(signed32(file), room, (size_t)room_len);
}

/* ---- io --------------------------------------------------------------------------------------------- */

/* Reading, writing and printing numbers, over the C library's read and write. Every function here is proved, and the
 * crate assumes nothing of its own. No public function has a `requires`. A call that a signal interrupts before it
 * moves a byte counts as one that failed. */

static inline uint64_t io_least(uint64_t a, uint64_t b)
{
    if (a < b) {
        return a;
    }
    return b;
}

static inline uint64_t io_clamp(uint64_t got, uint64_t most)
{
    if (0 < signed64(got)) {
        return io_least((uint64_t)signed64(got), most);
    }
    return 0;
}

/* 4,096 zeros, for a path (`libc::PATH_MAX`). The `ensures` gives only the length, which lending the array as a
 * slice needs. */
static inline void io_buffer(uint8_t *restrict result)
{
    memset(result, 0, 4096);
}

static inline void io_copy(const uint8_t *src, uint64_t from, uint8_t *restrict dst, uint64_t to, uint64_t n)
{
    uint64_t i = 0;
    while (i < n) {
        dst[to + i] = src[from + i];
        i += 1;
    }
}

/* One write of buf's bytes from index `from` on. They go by way of chunk: the borrow checker covers `&buf[from..]`,
 * but the proofs here do not use it yet. */
static inline uint64_t io_write_from(uint32_t fd, const uint8_t *buf, uint64_t buf_len, uint64_t from,
        uint8_t *restrict chunk, uint64_t chunk_len)
{
    uint64_t n = io_least(buf_len - from, chunk_len);
    io_copy(buf, from, chunk, 0, n);
    uint64_t t = libc_write(fd, chunk, n);
    return io_clamp(t, n);
}

/* Writes all of buf and answers true, or stops at the first write that takes nothing or fails and answers false,
 * when some of buf may have been written. On an empty buf it makes no call. */
static inline bool io_write_all(uint32_t fd, const uint8_t *buf, uint64_t buf_len)
{
    if (buf_len == 0) {
        return true;
    }
    uint64_t t = libc_write(fd, buf, buf_len);
    uint64_t done = io_clamp(t, buf_len);
    if (done == buf_len) {
        return true;
    }
    if (done == 0) {
        return false;
    }
    uint8_t space[4096];
    io_buffer(space);
    lent_mut_uint8_t chunk = (lent_mut_uint8_t){space, 4096};
    while (done < buf_len) {
        uint64_t put = io_write_from(fd, buf, buf_len, done, chunk.at, chunk.len);
        if (put == 0) {
            return false;
        }
        done += put;
    }
    return true;
}

/* One read into buf from index `to` on, by way of chunk for the same reason. */
static inline uint64_t io_read_to(uint32_t fd, uint8_t *restrict buf, uint64_t buf_len, uint64_t to,
        uint8_t *restrict chunk, uint64_t chunk_len)
{
    uint64_t n = io_least(buf_len - to, chunk_len);
    uint64_t t = libc_read(fd, chunk, n);
    uint64_t more = io_clamp(t, n);
    io_copy(chunk, 0, buf, to, more);
    return more;
}

/* Reads until buf is full, the input ends or a read fails, and answers how many bytes it put at the start of buf. */
static inline uint64_t io_read_full(uint32_t fd, uint8_t *restrict buf, uint64_t buf_len)
{
    uint64_t t = libc_read(fd, buf, buf_len);
    uint64_t done = io_clamp(t, buf_len);
    if (done == 0) {
        return 0;
    }
    if (done == buf_len) {
        return done;
    }
    uint8_t space[4096];
    io_buffer(space);
    lent_mut_uint8_t chunk = (lent_mut_uint8_t){space, 4096};
    while (done < buf_len) {
        uint64_t more = io_read_to(fd, buf, buf_len, done, chunk.at, chunk.len);
        if (more == 0) {
            break;
        }
        done += more;
    }
    return done;
}

/* How many digits n takes in base, or least where that is more. */
static inline uint64_t io_number_places(uint64_t n, uint64_t base, uint64_t least)
{
    uint64_t k = 1;
    uint64_t rest = n / base;
    while (0 < rest) {
        rest /= base;
        k += 1;
    }
    if (k < least) {
        return least;
    }
    return k;
}

static inline uint8_t io_number_glyph(uint64_t d)
{
    if (d < 10) {
        return (uint8_t)(48 + (uint8_t)d);
    }
    return (uint8_t)(87 + (uint8_t)d);
}

/* Puts the last k digits of n in base at the start of out. */
static inline void io_number_spell(uint64_t n, uint64_t base, uint64_t k, uint8_t *restrict out)
{
    uint64_t i = k;
    uint64_t rest = n;
    while (0 < i) {
        i -= 1;
        out[i] = io_number_glyph(rest % base);
        rest /= base;
    }
}

/* Puts n's decimal digits at the start of out, and answers how many there are. */
static inline uint64_t io_number_decimal(uint64_t n, uint8_t *restrict out)
{
    uint64_t k = io_number_places(n, 10, 1);
    io_number_spell(n, 10, k, out);
    return k;
}

/* Writes what decimal makes of n, with no line end, and answers as write_all does. */
static inline bool io_number_print_decimal(uint32_t fd, uint64_t n)
{
    uint8_t text[20] = {0};
    uint64_t k = io_number_decimal(n, text);
    return io_write_all(fd, text, k);
}

/* ---- wordlog ------------------------------------------------------------------------------------------- */

/* The log: a line of it, and the log of a recording. */

/* The octets of a word. */
static inline uint64_t wordlog_lines_word_octets(uint8_t code)
{
    return catalogue_offer_word_octets(code);
}

/* ---- os --------------------------------------------------------------------------------------------- */

/* Files by name, the program's arguments and errno. A path is a slice of at most 4,095 bytes, none of them 0. A
 * function that is passed any other answers -1, with errno ENAMETOOLONG or EINVAL, since a path that is cut short
 * names another file. */

static const uint8_t os_fail_table[2] = {
    58, 32,
};

static const uint8_t os_fail_table_2[1] = {
    10,
};

static uint32_t os_c_rattle_errno(void)
{
    return (uint32_t)errno;
}

/* The calling thread's errno. It means something only just after `arg` or a call that failed. */
static inline uint32_t os_errno(void)
{
    return os_c_rattle_errno();
}

static uint32_t os_c___xpg_strerror_r(uint32_t number, uint8_t *room, uint64_t room_len)
{
    return (uint32_t)strerror_r(signed32(number), (char *)room, (size_t)room_len);
}

/* How many bytes stand before the first 0, or all of them where none is 0. */
static inline uint64_t os_path_before_zero(const uint8_t *text, uint64_t text_len)
{
    uint64_t i = 0;
    while (i < text_len) {
        if (text[i] == 0) {
            break;
        }
        i += 1;
    }
    return i;
}

/* Writes a line to standard error: what failed, as the caller names it, a colon and errno's text. */
static inline void os_fail(const uint8_t *what, uint64_t what_len)
{
    uint32_t error = os_errno();
    uint8_t text[64] = {0};
    lent_mut_uint8_t view = (lent_mut_uint8_t){text, 64};
    os_c___xpg_strerror_r(error, view.at, view.len);
    uint64_t n = os_path_before_zero(view.at, view.len);
    io_write_all(2, what, what_len);
    io_write_all(2, os_fail_table, 2);
    io_write_all(2, text, n);
    io_write_all(2, os_fail_table_2, 1);
}

/* ---- why -------------------------------------------------------------------------------------------- */

/* The reason behind each line of the bench log. Reads what wordbench reads: one octet code, two octets limit, then
 * words to the end. Under a word's line stand its flips, with bit, excess and broken checks left, for refusal 5 the
 * bit of greatest excess, and for a refused word of code 1 the codeword that is nearest. */

static const uint8_t why_put_end_table[20] = {
    119, 104, 121, 58, 32, 115, 116, 97, 110, 100, 97, 114, 100, 32, 111, 117, 116, 112, 117, 116,
};

static const uint8_t why_put_table[1] = {
    32,
};

static const uint8_t why_put_signed_table[2] = {
    32, 45,
};

static const uint8_t why_put_flip_table[6] = {
    32, 32, 102, 108, 105, 112,
};

static const uint8_t why_put_reason_table[7] = {
    32, 32, 115, 116, 117, 99, 107,
};

static const uint8_t why_put_reached_table[9] = {
    32, 32, 110, 101, 97, 114, 101, 115, 116,
};

static const uint8_t why_put_nearest_table[14] = {
    32, 32, 110, 101, 97, 114, 101, 115, 116, 32, 110, 111, 110, 101,
};

static const uint8_t why_ended_table[19] = {
    119, 104, 121, 58, 32, 115, 116, 97, 110, 100, 97, 114, 100, 32, 105, 110, 112, 117, 116,
};

static const uint8_t why_main_table[35] = {
    119, 111, 114, 100, 32, 97, 110, 115, 119, 101, 114, 32, 102, 108, 105, 112, 115, 32, 102, 105, 114, 115, 116, 32,
    108, 97, 115, 116, 32, 117, 110, 108, 105, 107, 101,
};

/* No elements, but C asks for one. */
static const uint8_t why_main_table_2[1] = {0};

/* The end of a line: whether the line is written. If not, that is said. */
static inline bool why_put_end(void)
{
    if (io_write_all(1, os_fail_table_2, 1)) {
        return true;
    }
    os_fail(why_put_end_table, 20);
    return false;
}

/* A number behind a space. */
static inline void why_put(uint64_t n)
{
    io_write_all(1, why_put_table, 1);
    io_number_print_decimal(1, n);
}

/* The same of a signed one. */
static inline void why_put_signed(uint8_t n)
{
    if (signed8(n) < 0) {
        io_write_all(1, why_put_signed_table, 2);
        io_number_print_decimal(1, (uint64_t)signed64((uint64_t)(0 - signed64((uint64_t)signed8(n)))));
    } else {
        why_put((uint64_t)signed8(n));
    }
}

static inline bool why_put_flip(lists_listing_FlipRecord r)
{
    io_write_all(1, why_put_flip_table, 6);
    why_put(r.bit);
    why_put_signed((uint8_t)r.excess);
    why_put(r.left);
    return why_put_end();
}

/* The list of a word, to its end; where the flips are shown, to one that could not be written. */
static inline lists_listing_Listing why_follow(uint8_t code, uint16_t limit, const uint8_t *word, uint64_t word_len,
        bool shown)
{
    word_measured_Room room;
    word_measured_Room_new(&room);
    lists_listing_Listing l = lists_listing_begin(code, word, word_len, limit, 511, &room);
    while (l.goes) {
        if (shown && !why_put_flip(l.record)) {
            return l;
        }
        l = lists_listing_next(&l, word, word_len, &room);
    }
    return l;
}

/* A word's line, as the bench logs it. */
static inline bool why_put_line(uint64_t index, lists_listing_Listed a)
{
    io_number_print_decimal(1, index);
    why_put(a.number);
    why_put(a.flips);
    why_put(a.first);
    why_put(a.last);
    why_put(a.unlike);
    return why_put_end();
}

/* The greatest excess and the lowest bit that has it, where no bit has one above 0. */
static inline bool why_put_reason(lists_listing_Listed a)
{
    if (a.number != 5) {
        return true;
    }
    io_write_all(1, why_put_reason_table, 7);
    why_put(a.bit);
    why_put_signed((uint8_t)a.excess);
    return why_put_end();
}

static inline void why_put_bit(uint32_t n)
{
    why_put(n);
}

/* How many flips lead to the nearest codeword, and their bits. */
static inline bool why_put_reached(const nearest_Reached *r)
{
    uint32_t bits[3];
    memcpy(bits, r->bits, 3 * sizeof(uint32_t));
    io_write_all(1, why_put_reached_table, 9);
    why_put(r->least);
    if (0 < r->least) {
        why_put_bit(bits[0]);
    }
    if (1 < r->least) {
        why_put_bit(bits[1]);
    }
    if (2 < r->least) {
        why_put_bit(bits[2]);
    }
    return why_put_end();
}

/* For a word whose run stuck or came to its limit: the nearest codeword within three flips, or that there is none.
 * Words of another length than code 1's are refused by 2, and nothing is said of them. */
static inline bool why_put_nearest(const uint8_t *word, uint64_t word_len, lists_listing_Listed a)
{
    if (a.number < 5 || 6 < a.number) {
        return true;
    }
    uint8_t out[16] = {0};
    nearest_Reached r = nearest_nearest(word, word_len, 3, out, 16);
    if (r.number == 2) {
        return true;
    }
    if (r.number == 0) {
        return why_put_reached(&r);
    }
    io_write_all(1, why_put_nearest_table, 14);
    return why_put_end();
}

/* A word's line, its flips and the reason: whether they are written. The line stands first, so the run is made
 * twice. */
static inline bool why_explain(uint64_t index, uint8_t code, uint16_t limit, const uint8_t *word, uint64_t word_len)
{
    lists_listing_Listing l = why_follow(code, limit, word, word_len, false);
    lists_listing_Listed a = l.answer;
    if (!why_put_line(index, a)) {
        return false;
    }
    lists_listing_Listing shown = why_follow(code, limit, word, word_len, true);
    bool t = !shown.goes && why_put_reason(a);
    return t && why_put_nearest(word, word_len, a);
}

/* After the last octet: if reading fails there, that is said. */
static inline void why_ended(void)
{
    uint8_t more[1] = {0};
    uint64_t got = libc_read(0, more, 1);
    if (signed64(got) < 0) {
        os_fail(why_ended_table, 19);
    }
}

static inline void why_word_buffer(uint8_t *restrict result)
{
    memset(result, 0, 1022);
}

/* The limit, high octet first. */
static inline uint16_t why_limit_of(uint8_t high, uint8_t low)
{
    return (uint16_t)(256 * (uint16_t)high + (uint16_t)low);
}

/* Word after word; the last may be short, and is refused. */
static inline void why_words(uint8_t code, uint16_t limit, uint8_t *restrict word, uint64_t word_len)
{
    uint64_t index = 0;
    while (index < UINT64_C(0x8000000000000000)) {
        uint64_t n = io_read_full(0, word, word_len);
        if (n == 0 || !why_explain(index, code, limit, word, n)) {
            return;
        }
        if (n < word_len) {
            return;
        }
        index += 1;
    }
}

static inline void why_main(void)
{
    io_write_all(1, why_main_table, 35);
    if (!why_put_end()) {
        return;
    }
    uint8_t head[3] = {0};
    uint64_t n = io_read_full(0, head, 3);
    if (n < 3 || !catalogue_offer_is_offered(head[0])) {
        why_explain(0, 0, 0, why_main_table_2, 0);
        why_ended();
        return;
    }
    uint8_t word[1022];
    why_word_buffer(word);
    uint64_t size = wordlog_lines_word_octets(head[0]);
    why_words(head[0], why_limit_of(head[1], head[2]), word, size);
    why_ended();
}

int main(void)
{
    why_main();
    return 0;
}
