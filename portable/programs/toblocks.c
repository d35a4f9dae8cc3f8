/* The program toblocks in C99, over POSIX: written by portable/translate from the MIR that was proved, and not to be edited.
 * The library's C is included whole, since a program calls more of it than the header has. */
#define _POSIX_C_SOURCE 200112L
#include <errno.h>
#include <stdbool.h>
#include <stddef.h>
#include <stdint.h>
#include <string.h>
#include <unistd.h>

#include "../pandoricchia.c"

/* A part of an array that is lent: where it begins, and how many. */
typedef struct lent_mut_uint8_t {
    uint8_t *at;
    uint64_t len;
} lent_mut_uint8_t;

/* The number that bits have if the first of them is a sign. */
static inline int32_t signed32(uint32_t x)
{
    return x <= INT32_MAX ? (int32_t)x : (int32_t)(-(int32_t)(UINT32_MAX - x) - 1);
}

/* The number that bits have if the first of them is a sign. */
static inline int64_t signed64(uint64_t x)
{
    return x <= INT64_MAX ? (int64_t)x : (int64_t)(-(int64_t)(UINT64_MAX - x) - 1);
}

/* ---- libc ------------------------------------------------------------------------------------------- */

static uint64_t libc_read(uint32_t file, uint8_t *room, uint64_t room_len)
{
    return (uint64_t)read(signed32(file), room, (size_t)room_len);
}

static uint64_t libc_write(uint32_t file, const uint8_t *octets, uint64_t octets_len)
{
    return (uint64_t)write(signed32(file), octets, (size_t)octets_len);
}

/* ---- io --------------------------------------------------------------------------------------------- */

/* Reading, writing and printing numbers, over the C library's read and write. Every function here is proved, and the
 * crate assumes nothing of its own. No public function has a `requires`. A call that a signal interrupts before it
 * moves a byte counts as one that failed. */

static inline uint64_t io_least(uint64_t a, uint64_t b)
{
    if (a < b) {
        return a;
    }
    return b;
}

static inline uint64_t io_clamp(uint64_t got, uint64_t most)
{
    if (0 < signed64(got)) {
        return io_least((uint64_t)signed64(got), most);
    }
    return 0;
}

/* 4,096 zeros, for a path (`libc::PATH_MAX`). The `ensures` gives only the length, which lending the array as a
 * slice needs. */
static inline void io_buffer(uint8_t *restrict result)
{
    memset(result, 0, 4096);
}

static inline void io_copy(const uint8_t *src, uint64_t from, uint8_t *restrict dst, uint64_t to, uint64_t n)
{
    uint64_t i = 0;
    while (i < n) {
        dst[to + i] = src[from + i];
        i += 1;
    }
}

/* One read into buf from index `to` on, by way of chunk for the same reason. */
static inline uint64_t io_read_to(uint32_t fd, uint8_t *restrict buf, uint64_t buf_len, uint64_t to,
        uint8_t *restrict chunk, uint64_t chunk_len)
{
    uint64_t n = io_least(buf_len - to, chunk_len);
    uint64_t t = libc_read(fd, chunk, n);
    uint64_t more = io_clamp(t, n);
    io_copy(chunk, 0, buf, to, more);
    return more;
}

/* Reads until buf is full, the input ends or a read fails, and answers how many bytes it put at the start of buf. */
static inline uint64_t io_read_full(uint32_t fd, uint8_t *restrict buf, uint64_t buf_len)
{
    uint64_t t = libc_read(fd, buf, buf_len);
    uint64_t done = io_clamp(t, buf_len);
    if (done == 0) {
        return 0;
    }
    if (done == buf_len) {
        return done;
    }
    uint8_t space[4096];
    io_buffer(space);
    lent_mut_uint8_t chunk = (lent_mut_uint8_t){space, 4096};
    while (done < buf_len) {
        uint64_t more = io_read_to(fd, buf, buf_len, done, chunk.at, chunk.len);
        if (more == 0) {
            break;
        }
        done += more;
    }
    return done;
}

/* One write of buf's bytes from index `from` on. They go by way of chunk: the borrow checker covers `&buf[from..]`,
 * but the proofs here do not use it yet. */
static inline uint64_t io_write_from(uint32_t fd, const uint8_t *buf, uint64_t buf_len, uint64_t from,
        uint8_t *restrict chunk, uint64_t chunk_len)
{
    uint64_t n = io_least(buf_len - from, chunk_len);
    io_copy(buf, from, chunk, 0, n);
    uint64_t t = libc_write(fd, chunk, n);
    return io_clamp(t, n);
}

/* Writes all of buf and answers true, or stops at the first write that takes nothing or fails and answers false,
 * when some of buf may have been written. On an empty buf it makes no call. */
static inline bool io_write_all(uint32_t fd, const uint8_t *buf, uint64_t buf_len)
{
    if (buf_len == 0) {
        return true;
    }
    uint64_t t = libc_write(fd, buf, buf_len);
    uint64_t done = io_clamp(t, buf_len);
    if (done == buf_len) {
        return true;
    }
    if (done == 0) {
        return false;
    }
    uint8_t space[4096];
    io_buffer(space);
    lent_mut_uint8_t chunk = (lent_mut_uint8_t){space, 4096};
    while (done < buf_len) {
        uint64_t put = io_write_from(fd, buf, buf_len, done, chunk.at, chunk.len);
        if (put == 0) {
            return false;
        }
        done += put;
    }
    return true;
}

/* How many digits n takes in base, or least where that is more. */
static inline uint64_t io_number_places(uint64_t n, uint64_t base, uint64_t least)
{
    uint64_t k = 1;
    uint64_t rest = n / base;
    while (0 < rest) {
        rest /= base;
        k += 1;
    }
    if (k < least) {
        return least;
    }
    return k;
}

static inline uint8_t io_number_glyph(uint64_t d)
{
    if (d < 10) {
        return (uint8_t)(48 + (uint8_t)d);
    }
    return (uint8_t)(87 + (uint8_t)d);
}

/* Puts the last k digits of n in base at the start of out. */
static inline void io_number_spell(uint64_t n, uint64_t base, uint64_t k, uint8_t *restrict out)
{
    uint64_t i = k;
    uint64_t rest = n;
    while (0 < i) {
        i -= 1;
        out[i] = io_number_glyph(rest % base);
        rest /= base;
    }
}

/* Puts n's decimal digits at the start of out, and answers how many there are. */
static inline uint64_t io_number_decimal(uint64_t n, uint8_t *restrict out)
{
    uint64_t k = io_number_places(n, 10, 1);
    io_number_spell(n, 10, k, out);
    return k;
}

/* Writes what decimal makes of n, with no line end, and answers as write_all does. */
static inline bool io_number_print_decimal(uint32_t fd, uint64_t n)
{
    uint8_t text[20] = {0};
    uint64_t k = io_number_decimal(n, text);
    return io_write_all(fd, text, k);
}

/* ---- os --------------------------------------------------------------------------------------------- */

/* Files by name, the program's arguments and errno. A path is a slice of at most 4,095 bytes, none of them 0. A
 * function that is passed any other answers -1, with errno ENAMETOOLONG or EINVAL, since a path that is cut short
 * names another file. */

static const uint8_t os_fail_table[2] = {
    58, 32,
};

static const uint8_t os_fail_table_2[1] = {
    10,
};

static uint32_t os_c_rattle_errno(void)
{
    return (uint32_t)errno;
}

/* The calling thread's errno. It means something only just after `arg` or a call that failed. */
static inline uint32_t os_errno(void)
{
    return os_c_rattle_errno();
}

static uint32_t os_c___xpg_strerror_r(uint32_t number, uint8_t *room, uint64_t room_len)
{
    return (uint32_t)strerror_r(signed32(number), (char *)room, (size_t)room_len);
}

/* How many bytes stand before the first 0, or all of them where none is 0. */
static inline uint64_t os_path_before_zero(const uint8_t *text, uint64_t text_len)
{
    uint64_t i = 0;
    while (i < text_len) {
        if (text[i] == 0) {
            break;
        }
        i += 1;
    }
    return i;
}

/* Writes a line to standard error: what failed, as the caller names it, a colon and errno's text. */
static inline void os_fail(const uint8_t *what, uint64_t what_len)
{
    uint32_t error = os_errno();
    uint8_t text[64] = {0};
    lent_mut_uint8_t view = (lent_mut_uint8_t){text, 64};
    os_c___xpg_strerror_r(error, view.at, view.len);
    uint64_t n = os_path_before_zero(view.at, view.len);
    io_write_all(2, what, what_len);
    io_write_all(2, os_fail_table, 2);
    io_write_all(2, text, n);
    io_write_all(2, os_fail_table_2, 1);
}

/* ---- toblocks --------------------------------------------------------------------------------------- */

/* Reads the octets of a recording from standard input and writes them in blocks of the lab's disk. */

static const uint8_t toblocks_is_ended_table[24] = {
    116, 111, 98, 108, 111, 99, 107, 115, 58, 32, 115, 116, 97, 110, 100, 97, 114, 100, 32, 105, 110, 112, 117, 116,
};

static const uint8_t toblocks_refuse_table[26] = {
    116, 111, 98, 108, 111, 99, 107, 115, 58, 32, 114, 101, 102, 117, 115, 101, 100, 58, 32, 110, 117, 109, 98, 101,
    114, 32,
};

static const uint8_t toblocks_refuse_table_2[9] = {
    32, 98, 108, 111, 99, 107, 32, 48, 10,
};

static const uint8_t toblocks_convert_table[25] = {
    116, 111, 98, 108, 111, 99, 107, 115, 58, 32, 115, 116, 97, 110, 100, 97, 114, 100, 32, 111, 117, 116, 112, 117,
    116,
};

/* More than a recording holds, so that more than fits is seen. */
static inline void toblocks_in_buffer(uint8_t *restrict result)
{
    memset(result, 0, 65537);
}

static inline void toblocks_out_buffer(uint8_t *restrict result)
{
    memset(result, 0, 65536);
}

/* Whether the input ended; a read that failed is said. */
static inline bool toblocks_is_ended(void)
{
    uint8_t one[1] = {0};
    uint64_t got = libc_read(0, one, 1);
    if (signed64(got) < 0) {
        os_fail(toblocks_is_ended_table, 24);
    }
    return got == 0;
}

/* The lesser of two numbers. */
static inline uint64_t toblocks_least(uint64_t a, uint64_t b)
{
    if (a < b) {
        return a;
    }
    return b;
}

/* A line with the number of a refusal; there is no block at fault. */
static inline void toblocks_refuse(uint8_t number)
{
    io_write_all(2, toblocks_refuse_table, 26);
    io_number_print_decimal(2, number);
    io_write_all(2, toblocks_refuse_table_2, 9);
}

/* The blocks of the octets into an output of the right length, and out. */
static inline void toblocks_convert(const uint8_t *octets, uint64_t octets_len, uint8_t *restrict out, uint64_t out_len)
{
    uint8_t number = blocks_exporting_export_blocks(octets, octets_len, out, out_len);
    if (number != 0) {
        toblocks_refuse(number);
        return;
    }
    if (!io_write_all(1, out, out_len)) {
        os_fail(toblocks_convert_table, 25);
    }
}

static inline void toblocks_all(const uint8_t *octets, uint64_t octets_len, uint8_t *restrict out, uint64_t out_len)
{
    uint64_t n = toblocks_least(blocks_exporting_exported_octets(octets_len), out_len);
    toblocks_convert(octets, octets_len, out, n);
}

static inline void toblocks_main(void)
{
    uint8_t octets[65537];
    toblocks_in_buffer(octets);
    uint8_t out[65536];
    toblocks_out_buffer(out);
    uint64_t n = io_read_full(0, octets, 0x10001);
    if (n < 0x10001 && !toblocks_is_ended()) {
        return;
    }
    toblocks_all(octets, n, out, 0x10000);
}

int main(void)
{
    toblocks_main();
    return 0;
}
