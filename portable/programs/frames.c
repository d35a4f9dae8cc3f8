/* The program frames in C99, over POSIX: written by portable/translate from the MIR that was proved, and not to be edited.
 * The library's C is included whole, since a program calls more of it than the header has. */
#define _POSIX_C_SOURCE 200112L
#include <errno.h>
#include <stdbool.h>
#include <stddef.h>
#include <stdint.h>
#include <string.h>
#include <unistd.h>

#include "../pandoricchia.c"

/* What the program is called with. */
static int argument_count;
static char **arguments;

/* A part of an array that is lent: where it begins, and how many. */
typedef struct lent_mut_uint8_t {
    uint8_t *at;
    uint64_t len;
} lent_mut_uint8_t;

/* The number that bits have if the first of them is a sign. */
static inline int32_t signed32(uint32_t x)
{
    return x <= INT32_MAX ? (int32_t)x : (int32_t)(-(int32_t)(UINT32_MAX - x) - 1);
}

/* The number that bits have if the first of them is a sign. */
static inline int64_t signed64(uint64_t x)
{
    return x <= INT64_MAX ? (int64_t)x : (int64_t)(-(int64_t)(UINT64_MAX - x) - 1);
}

/* ---- libc ------------------------------------------------------------------------------------------- */

static uint64_t libc_read(uint32_t file, uint8_t *room, uint64_t room_len)
{
    return (uint64_t)read(signed32(file), room, (size_t)room_len);
}

static uint64_t libc_write(uint32_t file, const uint8_t *octets, uint64_t octets_len)
{
    return (uint64_t)write(signed32(file), octets, (size_t)octets_len);
}

/* ---- io --------------------------------------------------------------------------------------------- */

/* Reading, writing and printing numbers, over the C library's read and write. Every function here is proved, and the
 * crate assumes nothing of its own. No public function has a `requires`. A call that a signal interrupts before it
 * moves a byte counts as one that failed. */

static inline uint64_t io_least(uint64_t a, uint64_t b)
{
    if (a < b) {
        return a;
    }
    return b;
}

static inline uint64_t io_clamp(uint64_t got, uint64_t most)
{
    if (0 < signed64(got)) {
        return io_least((uint64_t)signed64(got), most);
    }
    return 0;
}

/* 4,096 zeros, for a path (`libc::PATH_MAX`). The `ensures` gives only the length, which lending the array as a
 * slice needs. */
static inline void io_buffer(uint8_t *restrict result)
{
    memset(result, 0, 4096);
}

static inline void io_copy(const uint8_t *src, uint64_t from, uint8_t *restrict dst, uint64_t to, uint64_t n)
{
    uint64_t i = 0;
    while (i < n) {
        dst[to + i] = src[from + i];
        i += 1;
    }
}

/* One read into buf from index `to` on, by way of chunk for the same reason. */
static inline uint64_t io_read_to(uint32_t fd, uint8_t *restrict buf, uint64_t buf_len, uint64_t to,
        uint8_t *restrict chunk, uint64_t chunk_len)
{
    uint64_t n = io_least(buf_len - to, chunk_len);
    uint64_t t = libc_read(fd, chunk, n);
    uint64_t more = io_clamp(t, n);
    io_copy(chunk, 0, buf, to, more);
    return more;
}

/* Reads until buf is full, the input ends or a read fails, and answers how many bytes it put at the start of buf. */
static inline uint64_t io_read_full(uint32_t fd, uint8_t *restrict buf, uint64_t buf_len)
{
    uint64_t t = libc_read(fd, buf, buf_len);
    uint64_t done = io_clamp(t, buf_len);
    if (done == 0) {
        return 0;
    }
    if (done == buf_len) {
        return done;
    }
    uint8_t space[4096];
    io_buffer(space);
    lent_mut_uint8_t chunk = (lent_mut_uint8_t){space, 4096};
    while (done < buf_len) {
        uint64_t more = io_read_to(fd, buf, buf_len, done, chunk.at, chunk.len);
        if (more == 0) {
            break;
        }
        done += more;
    }
    return done;
}

/* One write of buf's bytes from index `from` on. They go by way of chunk: the borrow checker covers `&buf[from..]`,
 * but the proofs here do not use it yet. */
static inline uint64_t io_write_from(uint32_t fd, const uint8_t *buf, uint64_t buf_len, uint64_t from,
        uint8_t *restrict chunk, uint64_t chunk_len)
{
    uint64_t n = io_least(buf_len - from, chunk_len);
    io_copy(buf, from, chunk, 0, n);
    uint64_t t = libc_write(fd, chunk, n);
    return io_clamp(t, n);
}

/* Writes all of buf and answers true, or stops at the first write that takes nothing or fails and answers false,
 * when some of buf may have been written. On an empty buf it makes no call. */
static inline bool io_write_all(uint32_t fd, const uint8_t *buf, uint64_t buf_len)
{
    if (buf_len == 0) {
        return true;
    }
    uint64_t t = libc_write(fd, buf, buf_len);
    uint64_t done = io_clamp(t, buf_len);
    if (done == buf_len) {
        return true;
    }
    if (done == 0) {
        return false;
    }
    uint8_t space[4096];
    io_buffer(space);
    lent_mut_uint8_t chunk = (lent_mut_uint8_t){space, 4096};
    while (done < buf_len) {
        uint64_t put = io_write_from(fd, buf, buf_len, done, chunk.at, chunk.len);
        if (put == 0) {
            return false;
        }
        done += put;
    }
    return true;
}

/* Turns what a call such as `libc::read(fd, buf)` answered into a number of buf's bytes: 0 where got is negative,
 * and never more than buf's length. It takes buf and not its length so that the contract can speak of buf, and
 * `&buf[..n]` then needs no proof file. */
static inline uint64_t io_count(uint64_t got, const uint8_t *buf, uint64_t buf_len)
{
    (void)buf;
    return io_clamp(got, buf_len);
}

/* 65,536 zeros, for a loop that moves much data and would spend its time on calls of 4,096 bytes. */
static inline void io_large_buffer(uint8_t *restrict result)
{
    memset(result, 0, 65536);
}

/* How many digits n takes in base, or least where that is more. */
static inline uint64_t io_number_places(uint64_t n, uint64_t base, uint64_t least)
{
    uint64_t k = 1;
    uint64_t rest = n / base;
    while (0 < rest) {
        rest /= base;
        k += 1;
    }
    if (k < least) {
        return least;
    }
    return k;
}

static inline uint8_t io_number_glyph(uint64_t d)
{
    if (d < 10) {
        return (uint8_t)(48 + (uint8_t)d);
    }
    return (uint8_t)(87 + (uint8_t)d);
}

/* Puts the last k digits of n in base at the start of out. */
static inline void io_number_spell(uint64_t n, uint64_t base, uint64_t k, uint8_t *restrict out)
{
    uint64_t i = k;
    uint64_t rest = n;
    while (0 < i) {
        i -= 1;
        out[i] = io_number_glyph(rest % base);
        rest /= base;
    }
}

/* Puts n's decimal digits at the start of out, and answers how many there are. */
static inline uint64_t io_number_decimal(uint64_t n, uint8_t *restrict out)
{
    uint64_t k = io_number_places(n, 10, 1);
    io_number_spell(n, 10, k, out);
    return k;
}

/* Writes what decimal makes of n, with no line end, and answers as write_all does. */
static inline bool io_number_print_decimal(uint32_t fd, uint64_t n)
{
    uint8_t text[20] = {0};
    uint64_t k = io_number_decimal(n, text);
    return io_write_all(fd, text, k);
}

/* ---- os --------------------------------------------------------------------------------------------- */

/* Files by name, the program's arguments and errno. A path is a slice of at most 4,095 bytes, none of them 0. A
 * function that is passed any other answers -1, with errno ENAMETOOLONG or EINVAL, since a path that is cut short
 * names another file. */

static const uint8_t os_fail_table[2] = {
    58, 32,
};

static const uint8_t os_fail_table_2[1] = {
    10,
};

static uint32_t os_c_rattle_errno(void)
{
    return (uint32_t)errno;
}

/* The calling thread's errno. It means something only just after `arg` or a call that failed. */
static inline uint32_t os_errno(void)
{
    return os_c_rattle_errno();
}

static uint32_t os_c___xpg_strerror_r(uint32_t number, uint8_t *room, uint64_t room_len)
{
    return (uint32_t)strerror_r(signed32(number), (char *)room, (size_t)room_len);
}

/* How many bytes stand before the first 0, or all of them where none is 0. */
static inline uint64_t os_path_before_zero(const uint8_t *text, uint64_t text_len)
{
    uint64_t i = 0;
    while (i < text_len) {
        if (text[i] == 0) {
            break;
        }
        i += 1;
    }
    return i;
}

/* Writes a line to standard error: what failed, as the caller names it, a colon and errno's text. */
static inline void os_fail(const uint8_t *what, uint64_t what_len)
{
    uint32_t error = os_errno();
    uint8_t text[64] = {0};
    lent_mut_uint8_t view = (lent_mut_uint8_t){text, 64};
    os_c___xpg_strerror_r(error, view.at, view.len);
    uint64_t n = os_path_before_zero(view.at, view.len);
    io_write_all(2, what, what_len);
    io_write_all(2, os_fail_table, 2);
    io_write_all(2, text, n);
    io_write_all(2, os_fail_table_2, 1);
}

static uint64_t os_c_rattle_arg_count(void)
{
    return (uint64_t)argument_count;
}

/* How many arguments the program was started with, its own name among them. */
static inline uint64_t os_arg_count(void)
{
    return os_c_rattle_arg_count();
}

static uint64_t os_c_rattle_arg(uint64_t i, uint8_t *room, uint64_t room_len)
{
    if (i >= (uint64_t)argument_count) {
        return UINT64_MAX;
    }
    size_t n = strlen(arguments[i]);
    if (n > room_len) {
        memcpy(room, arguments[i], (size_t)room_len);
        return UINT64_MAX - 1;
    }
    memcpy(room, arguments[i], n);
    return n;
}

static inline uint32_t os_arg_error(uint64_t got)
{
    if (0 <= signed64(got)) {
        return 0;
    }
    uint32_t t;
    if (got == UINT64_C(0xFFFFFFFFFFFFFFFF)) {
        t = 22;
    } else {
        t = 36;
    }
    return t;
}

static void os_c_rattle_set_errno(uint32_t number)
{
    errno = signed32(number);
}

/* Puts argument i at the start of buf and answers its length, or 0 where it is missing or longer than buf. It always
 * sets errno: 0 where the whole argument is in buf, even an empty one, EINVAL where it is missing, and ENAMETOOLONG
 * where it is too long. One that is too long leaves its first bytes in buf. */
static inline uint64_t os_arg(uint64_t i, uint8_t *restrict buf, uint64_t buf_len)
{
    uint64_t got = os_c_rattle_arg(i, buf, buf_len);
    os_c_rattle_set_errno(os_arg_error(got));
    return io_count(got, buf, buf_len);
}

/* ---- std -------------------------------------------------------------------------------------------- */

/* The part of Rattle's std that is Rattle: `num`. steps calls two of its functions. */

/* a + b, modulo 2^64. */
static inline uint64_t std_num_wrapping_add_u64(uint64_t a, uint64_t b)
{
    if (a <= UINT64_C(0xFFFFFFFFFFFFFFFF) - b) {
        return a + b;
    }
    return a - (UINT64_C(0xFFFFFFFFFFFFFFFF) - b) - 1;
}

/* a - b, modulo 2^64: the number that b added to wraps back to a. */
static inline uint64_t std_num_wrapping_sub_u64(uint64_t a, uint64_t b)
{
    if (b <= a) {
        return a - b;
    }
    return a + (UINT64_C(0xFFFFFFFFFFFFFFFF) - b) + 1;
}

/* ---- frames ----------------------------------------------------------------------------------------- */

/* Takes the words of code 5 out of a telemetry stream: two octets limit, then the stream to its end. Prints a line
 * for each word. The first argument is the edition; without it the old sequence stays. */

/* Where the program stands after a call of the taker: the octets that the call took, whether it goes on, the words
 * and octets so far. */
typedef struct frames_Standing {
    telemetry_taker_Taker taker;
    uint64_t taken;
    bool more;
    uint64_t words;
    uint64_t octets;
} frames_Standing;

static const uint8_t frames_no_limit_table[22] = {
    102, 114, 97, 109, 101, 115, 58, 32, 115, 116, 97, 110, 100, 97, 114, 100, 32, 105, 110, 112, 117, 116,
};

static const uint8_t frames_no_limit_table_2[31] = {
    102, 114, 97, 109, 101, 115, 58, 32, 110, 111, 32, 108, 105, 109, 105, 116, 32, 111, 102, 32, 116, 119, 111, 32,
    111, 99, 116, 101, 116, 115, 10,
};

static const uint8_t frames_write_table[23] = {
    102, 114, 97, 109, 101, 115, 58, 32, 115, 116, 97, 110, 100, 97, 114, 100, 32, 111, 117, 116, 112, 117, 116,
};

static const uint8_t frames_put_table[1] = {
    32,
};

static const uint8_t frames_main_table[37] = {
    102, 114, 97, 109, 101, 115, 58, 32, 97, 110, 32, 101, 100, 105, 116, 105, 111, 110, 32, 116, 104, 97, 116, 32, 105,
    115, 32, 110, 111, 116, 32, 107, 110, 111, 119, 110, 10,
};

static const uint8_t frames_main_table_2[50] = {
    119, 111, 114, 100, 32, 111, 102, 102, 115, 101, 116, 32, 97, 110, 115, 119, 101, 114, 32, 102, 108, 105, 112, 115,
    32, 102, 105, 114, 115, 116, 32, 108, 97, 115, 116, 32, 117, 110, 108, 105, 107, 101, 32, 108, 111, 119, 101, 115,
    116, 10,
};

/* Why there is no limit, in one line on standard error. */
static inline void frames_no_limit(void)
{
    uint8_t more[1] = {0};
    uint64_t t = libc_read(0, more, 1);
    if (signed64(t) < 0) {
        os_fail(frames_no_limit_table, 22);
        return;
    }
    io_write_all(2, frames_no_limit_table_2, 31);
}

/* An edition is one digit; anything else is one that is not known. */
static inline uint8_t frames_edition_of(const uint8_t *text, uint64_t text_len)
{
    if (text_len != 1) {
        return 255;
    }
    uint8_t digit = text[0];
    if (digit < 48) {
        return 255;
    }
    return (uint8_t)(digit - 48);
}

/* The edition of the first argument, 0 where there is none. */
static inline uint8_t frames_edition(void)
{
    uint64_t t = os_arg_count();
    if (t < 2) {
        return 0;
    }
    uint8_t text[8] = {0};
    uint64_t n = os_arg(1, text, 8);
    return frames_edition_of(text, n);
}

/* The limit, high octet first. */
static inline uint16_t frames_limit_of(uint8_t high, uint8_t low)
{
    return (uint16_t)(256 * (uint16_t)high + (uint16_t)low);
}

/* Writes a text whole. If that fails, it is said on standard error. */
static inline bool frames_write(const uint8_t *text, uint64_t text_len)
{
    if (io_write_all(1, text, text_len)) {
        return true;
    }
    os_fail(frames_write_table, 23);
    return false;
}

/* How many octets were read; none where the input has ended, or a read failed, which is said on standard error. */
static inline uint64_t frames_read(uint8_t *restrict part, uint64_t part_len)
{
    uint64_t got = libc_read(0, part, part_len);
    if (signed64(got) < 0) {
        os_fail(frames_no_limit_table, 22);
    }
    return io_count(got, part, part_len);
}

/* A number behind a space. */
static inline void frames_put(uint64_t n)
{
    io_write_all(1, frames_put_table, 1);
    io_number_print_decimal(1, n);
}

/* The line of a word: whether it is written. */
static inline bool frames_line(uint64_t index, uint64_t offset, flipping_endings_Corrected r)
{
    io_number_print_decimal(1, index);
    frames_put(offset);
    frames_put(r.number);
    frames_put(r.flips);
    frames_put(r.first);
    frames_put(r.last);
    frames_put(r.unlike);
    frames_put(r.lowest);
    return frames_write(os_fail_table_2, 1);
}

/* One call of the taker. A complete word has its line; its first octet lies 1020 before the octets taken so far. */
static inline void frames_take(const frames_Standing *s, const uint8_t *part, uint64_t part_len,
        frames_Standing *restrict result)
{
    telemetry_taker_Taker taker = s->taker;
    telemetry_taker_Taken r;
    telemetry_taker_Taker_take(&taker, part, part_len, &r);
    telemetry_taker_Taker next = r.next;
    flipping_endings_Corrected corrected = r.corrected;
    uint64_t octets = std_num_wrapping_add_u64(s->octets, r.taken);
    if (!r.complete) {
        result->taker = next;
        result->taken = r.taken;
        result->more = s->more;
        result->words = s->words;
        result->octets = octets;
        return;
    }
    bool more = frames_line(s->words, std_num_wrapping_sub_u64(octets, 1020), corrected);
    result->taker = next;
    result->taken = r.taken;
    result->more = more;
    result->words = std_num_wrapping_add_u64(s->words, 1);
    result->octets = octets;
}

/* Call after call until the part is used up; the rest of it is brought again. */
static inline void frames_take_all(const frames_Standing *s, const uint8_t *part, uint64_t part_len,
        frames_Standing *restrict result)
{
    *result = *s;
    uint64_t at = 0;
    while (at < part_len) {
        if (!result->more) {
            return;
        }
        frames_Standing t;
        frames_take(result, part + at, part_len - at, &t);
        *result = t;
        at += result->taken;
    }
}

/* The next part of the stream; none ends it. */
static inline void frames_go_on(const frames_Standing *s, uint8_t *restrict part, uint64_t part_len,
        frames_Standing *restrict result)
{
    uint64_t n = frames_read(part, part_len);
    if (n == 0) {
        telemetry_taker_Taker taker = s->taker;
        result->taker = taker;
        result->taken = 0;
        result->more = false;
        result->words = s->words;
        result->octets = s->octets;
        return;
    }
    frames_take_all(s, part, n, result);
}

/* Part after part. */
static inline void frames_stream(const telemetry_taker_Taker *taker, uint8_t *restrict part, uint64_t part_len)
{
    frames_Standing s;
    s.taker = *taker;
    s.taken = 0;
    s.more = true;
    s.words = 0;
    s.octets = 0;
    uint64_t parts = 0;
    while (parts < UINT64_C(0x8000000000000000)) {
        frames_Standing t;
        frames_go_on(&s, part, part_len, &t);
        s = t;
        if (!s.more) {
            return;
        }
        parts += 1;
    }
}

static inline void frames_main(void)
{
    uint8_t head[2] = {0};
    uint64_t n = io_read_full(0, head, 2);
    if (n < 2) {
        frames_no_limit();
        return;
    }
    uint8_t t = frames_edition();
    telemetry_taker_Made made;
    telemetry_taker_Taker_told(t, frames_limit_of(head[0], head[1]), &made);
    if (made.number != 0) {
        io_write_all(2, frames_main_table, 37);
        return;
    }
    if (!frames_write(frames_main_table_2, 50)) {
        return;
    }
    uint8_t part[65536];
    io_large_buffer(part);
    telemetry_taker_Taker taker = made.taker;
    frames_stream(&taker, part, 0x10000);
}

int main(int argc, char **argv)
{
    argument_count = argc;
    arguments = argv;
    frames_main();
    return 0;
}
