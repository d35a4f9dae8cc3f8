/* The program unitread in C99, over POSIX: written by portable/translate from the MIR that was proved, and not to be edited.
 * The library's C is included whole, since a program calls more of it than the header has. */
#define _POSIX_C_SOURCE 200112L
#include <errno.h>
#include <stdbool.h>
#include <stddef.h>
#include <stdint.h>
#include <string.h>
#include <unistd.h>

#include "../pandoricchia.c"

/* A part of an array that is lent: where it begins, and how many. */
typedef struct lent_mut_uint8_t {
    uint8_t *at;
    uint64_t len;
} lent_mut_uint8_t;

/* The number that bits have if the first of them is a sign. */
static inline int32_t signed32(uint32_t x)
{
    return x <= INT32_MAX ? (int32_t)x : (int32_t)(-(int32_t)(UINT32_MAX - x) - 1);
}

/* The number that bits have if the first of them is a sign. */
static inline int64_t signed64(uint64_t x)
{
    return x <= INT64_MAX ? (int64_t)x : (int64_t)(-(int64_t)(UINT64_MAX - x) - 1);
}

/* ---- libc ------------------------------------------------------------------------------------------- */

static uint64_t libc_write(uint32_t file, const uint8_t *octets, uint64_t octets_len)
{
    return (uint64_t)write(signed32(file), octets, (size_t)octets_len);
}

static uint64_t libc_read(uint32_t file, uint8_t *room, uint64_t room_len)
{
    return (uint64_t)read(signed32(file), room, (size_t)room_len);
}

/* ---- io --------------------------------------------------------------------------------------------- */

/* Reading, writing and printing numbers, over the C library's read and write. Every function here is proved, and the
 * crate assumes nothing of its own. No public function has a `requires`. A call that a signal interrupts before it
 * moves a byte counts as one that failed. */

static inline uint64_t io_least(uint64_t a, uint64_t b)
{
    if (a < b) {
        return a;
    }
    return b;
}

static inline uint64_t io_clamp(uint64_t got, uint64_t most)
{
    if (0 < signed64(got)) {
        return io_least((uint64_t)signed64(got), most);
    }
    return 0;
}

/* 4,096 zeros, for a path (`libc::PATH_MAX`). The `ensures` gives only the length, which lending the array as a
 * slice needs. */
static inline void io_buffer(uint8_t *restrict result)
{
    memset(result, 0, 4096);
}

static inline void io_copy(const uint8_t *src, uint64_t from, uint8_t *restrict dst, uint64_t to, uint64_t n)
{
    uint64_t i = 0;
    while (i < n) {
        dst[to + i] = src[from + i];
        i += 1;
    }
}

/* One write of buf's bytes from index `from` on. They go by way of chunk: the borrow checker covers `&buf[from..]`,
 * but the proofs here do not use it yet. */
static inline uint64_t io_write_from(uint32_t fd, const uint8_t *buf, uint64_t buf_len, uint64_t from,
        uint8_t *restrict chunk, uint64_t chunk_len)
{
    uint64_t n = io_least(buf_len - from, chunk_len);
    io_copy(buf, from, chunk, 0, n);
    uint64_t t = libc_write(fd, chunk, n);
    return io_clamp(t, n);
}

/* Writes all of buf and answers true, or stops at the first write that takes nothing or fails and answers false,
 * when some of buf may have been written. On an empty buf it makes no call. */
static inline bool io_write_all(uint32_t fd, const uint8_t *buf, uint64_t buf_len)
{
    if (buf_len == 0) {
        return true;
    }
    uint64_t t = libc_write(fd, buf, buf_len);
    uint64_t done = io_clamp(t, buf_len);
    if (done == buf_len) {
        return true;
    }
    if (done == 0) {
        return false;
    }
    uint8_t space[4096];
    io_buffer(space);
    lent_mut_uint8_t chunk = (lent_mut_uint8_t){space, 4096};
    while (done < buf_len) {
        uint64_t put = io_write_from(fd, buf, buf_len, done, chunk.at, chunk.len);
        if (put == 0) {
            return false;
        }
        done += put;
    }
    return true;
}

/* One read into buf from index `to` on, by way of chunk for the same reason. */
static inline uint64_t io_read_to(uint32_t fd, uint8_t *restrict buf, uint64_t buf_len, uint64_t to,
        uint8_t *restrict chunk, uint64_t chunk_len)
{
    uint64_t n = io_least(buf_len - to, chunk_len);
    uint64_t t = libc_read(fd, chunk, n);
    uint64_t more = io_clamp(t, n);
    io_copy(chunk, 0, buf, to, more);
    return more;
}

/* Reads until buf is full, the input ends or a read fails, and answers how many bytes it put at the start of buf. */
static inline uint64_t io_read_full(uint32_t fd, uint8_t *restrict buf, uint64_t buf_len)
{
    uint64_t t = libc_read(fd, buf, buf_len);
    uint64_t done = io_clamp(t, buf_len);
    if (done == 0) {
        return 0;
    }
    if (done == buf_len) {
        return done;
    }
    uint8_t space[4096];
    io_buffer(space);
    lent_mut_uint8_t chunk = (lent_mut_uint8_t){space, 4096};
    while (done < buf_len) {
        uint64_t more = io_read_to(fd, buf, buf_len, done, chunk.at, chunk.len);
        if (more == 0) {
            break;
        }
        done += more;
    }
    return done;
}

/* How many digits n takes in base, or least where that is more. */
static inline uint64_t io_number_places(uint64_t n, uint64_t base, uint64_t least)
{
    uint64_t k = 1;
    uint64_t rest = n / base;
    while (0 < rest) {
        rest /= base;
        k += 1;
    }
    if (k < least) {
        return least;
    }
    return k;
}

static inline uint8_t io_number_glyph(uint64_t d)
{
    if (d < 10) {
        return (uint8_t)(48 + (uint8_t)d);
    }
    return (uint8_t)(87 + (uint8_t)d);
}

/* Puts the last k digits of n in base at the start of out. */
static inline void io_number_spell(uint64_t n, uint64_t base, uint64_t k, uint8_t *restrict out)
{
    uint64_t i = k;
    uint64_t rest = n;
    while (0 < i) {
        i -= 1;
        out[i] = io_number_glyph(rest % base);
        rest /= base;
    }
}

/* Puts n's decimal digits at the start of out, and answers how many there are. */
static inline uint64_t io_number_decimal(uint64_t n, uint8_t *restrict out)
{
    uint64_t k = io_number_places(n, 10, 1);
    io_number_spell(n, 10, k, out);
    return k;
}

/* Writes what decimal makes of n, with no line end, and answers as write_all does. */
static inline bool io_number_print_decimal(uint32_t fd, uint64_t n)
{
    uint8_t text[20] = {0};
    uint64_t k = io_number_decimal(n, text);
    return io_write_all(fd, text, k);
}

/* ---- os --------------------------------------------------------------------------------------------- */

/* Files by name, the program's arguments and errno. A path is a slice of at most 4,095 bytes, none of them 0. A
 * function that is passed any other answers -1, with errno ENAMETOOLONG or EINVAL, since a path that is cut short
 * names another file. */

static const uint8_t os_fail_table[2] = {
    58, 32,
};

static const uint8_t os_fail_table_2[1] = {
    10,
};

static uint32_t os_c_rattle_errno(void)
{
    return (uint32_t)errno;
}

/* The calling thread's errno. It means something only just after `arg` or a call that failed. */
static inline uint32_t os_errno(void)
{
    return os_c_rattle_errno();
}

static uint32_t os_c___xpg_strerror_r(uint32_t number, uint8_t *room, uint64_t room_len)
{
    return (uint32_t)strerror_r(signed32(number), (char *)room, (size_t)room_len);
}

/* How many bytes stand before the first 0, or all of them where none is 0. */
static inline uint64_t os_path_before_zero(const uint8_t *text, uint64_t text_len)
{
    uint64_t i = 0;
    while (i < text_len) {
        if (text[i] == 0) {
            break;
        }
        i += 1;
    }
    return i;
}

/* Writes a line to standard error: what failed, as the caller names it, a colon and errno's text. */
static inline void os_fail(const uint8_t *what, uint64_t what_len)
{
    uint32_t error = os_errno();
    uint8_t text[64] = {0};
    lent_mut_uint8_t view = (lent_mut_uint8_t){text, 64};
    os_c___xpg_strerror_r(error, view.at, view.len);
    uint64_t n = os_path_before_zero(view.at, view.len);
    io_write_all(2, what, what_len);
    io_write_all(2, os_fail_table, 2);
    io_write_all(2, text, n);
    io_write_all(2, os_fail_table_2, 1);
}

/* ---- units ------------------------------------------------------------------------------------------ */

/* Telecommand transmission units of codes 1 and 3, written, and their lengths. */

/* The octets that a codeblock hands out, for any number: code 3's where no unit is of the code. */
static inline uint64_t units_unitoffers_room(uint8_t code)
{
    units_unitoffers_UnitOffer u = units_unitoffers_unit_of(code);
    return u.information;
}

/* ---- unitread --------------------------------------------------------------------------------------- */

/* Reads a telecommand transmission unit: one octet code, two octets limit, then the unit. Prints a line for each
 * codeblock. */

static const uint8_t unitread_ended_table[24] = {
    117, 110, 105, 116, 114, 101, 97, 100, 58, 32, 115, 116, 97, 110, 100, 97, 114, 100, 32, 105, 110, 112, 117, 116,
};

static const uint8_t unitread_ended_table_2[44] = {
    117, 110, 105, 116, 114, 101, 97, 100, 58, 32, 97, 32, 117, 110, 105, 116, 32, 111, 102, 32, 109, 111, 114, 101, 32,
    116, 104, 97, 110, 32, 49, 51, 49, 48, 57, 54, 32, 111, 99, 116, 101, 116, 115, 10,
};

static const uint8_t unitread_put_table[1] = {
    32,
};

static const uint8_t unitread_line_table[2] = {
    45, 10,
};

static const uint8_t unitread_line_table_2[25] = {
    117, 110, 105, 116, 114, 101, 97, 100, 58, 32, 115, 116, 97, 110, 100, 97, 114, 100, 32, 111, 117, 116, 112, 117,
    116,
};

static const uint8_t unitread_main_table[60] = {
    99, 111, 100, 101, 98, 108, 111, 99, 107, 32, 97, 110, 115, 119, 101, 114, 32, 102, 108, 105, 112, 115, 32, 102,
    105, 114, 115, 116, 32, 108, 97, 115, 116, 32, 117, 110, 108, 105, 107, 101, 32, 108, 111, 119, 101, 115, 116, 32,
    105, 110, 102, 111, 114, 109, 97, 116, 105, 111, 110, 10,
};

/* No elements, but C asks for one. */
static const uint8_t unitread_main_table_2[1] = {0};

/* The longest unit of 64 KiB of information, code 1's. */
static inline void unitread_unit_buffer(uint8_t *restrict result)
{
    memset(result, 0, 131096);
}

/* Whether the input is at its end; if not, why it can't be taken is said. */
static inline bool unitread_ended(void)
{
    uint8_t more[1] = {0};
    uint64_t got = libc_read(0, more, 1);
    if (signed64(got) < 0) {
        os_fail(unitread_ended_table, 24);
        return false;
    }
    if (0 < signed64(got)) {
        io_write_all(2, unitread_ended_table_2, 44);
        return false;
    }
    return true;
}

/* The limit, high octet first. */
static inline uint16_t unitread_limit_of(uint8_t high, uint8_t low)
{
    return (uint16_t)(256 * (uint16_t)high + (uint16_t)low);
}

/* A number behind a space. */
static inline void unitread_put(uint64_t n)
{
    io_write_all(1, unitread_put_table, 1);
    io_number_print_decimal(1, n);
}

/* Index and correct's numbers. */
static inline void unitread_put_numbers(uint64_t index, flipping_endings_Corrected r)
{
    io_number_print_decimal(1, index);
    unitread_put(r.number);
    unitread_put(r.flips);
    unitread_put(r.first);
    unitread_put(r.last);
    unitread_put(r.unlike);
    unitread_put(r.lowest);
    io_write_all(1, unitread_put_table, 1);
}

static inline uint8_t unitread_digit(uint8_t d)
{
    if (d < 10) {
        return (uint8_t)(48 + d);
    }
    return (uint8_t)(55 + d);
}

static inline bool unitread_put_octet(uint8_t octet)
{
    uint8_t text[2] = {unitread_digit((uint8_t)(octet / 16)), unitread_digit((uint8_t)(octet % 16))};
    return io_write_all(1, text, 2);
}

static inline bool unitread_put_octets(const uint8_t *octets, uint64_t octets_len)
{
    uint64_t i = 0;
    while (i < octets_len) {
        if (!unitread_put_octet(octets[i])) {
            return false;
        }
        i += 1;
    }
    return io_write_all(1, os_fail_table_2, 1);
}

/* The line of an asking's answer: whether it is written, and there may be more. */
static inline bool unitread_line(uint64_t index, flipping_endings_Corrected r, const uint8_t *out, uint64_t out_len)
{
    unitread_put_numbers(index, r);
    if (r.number != 0) {
        io_write_all(1, unitread_line_table, 2);
        return false;
    }
    if (!unitread_put_octets(out, out_len)) {
        os_fail(unitread_line_table_2, 25);
        return false;
    }
    return true;
}

static inline void unitread_out_buffer(uint8_t *restrict result)
{
    memset(result, 0, 32);
}

/* One codeblock after another; no unit that is held has more than 8,192. */
static inline void unitread_lines(units_readings_Reading first, const uint8_t *unit, uint64_t unit_len,
        uint8_t *restrict out, uint64_t out_len)
{
    units_readings_Reading state = first;
    uint64_t index = 0;
    while (index < 8192) {
        units_readings_Handed handed = units_readings_read(state, unit, unit_len, out, out_len);
        if (handed.none) {
            return;
        }
        flipping_endings_Corrected r = handed.corrected;
        if (!unitread_line(index, r, out, out_len)) {
            return;
        }
        state = handed.next;
        index += 1;
    }
}

static inline void unitread_main(void)
{
    io_write_all(1, unitread_main_table, 60);
    uint8_t head[3] = {0};
    io_read_full(0, head, 3);
    uint8_t unit[131096];
    unitread_unit_buffer(unit);
    uint64_t n = io_read_full(0, unit, 0x20018);
    if (!unitread_ended()) {
        return;
    }
    units_readings_Reading state = units_readings_reader(head[0], unit, n, unitread_limit_of(head[1], head[2]));
    flipping_endings_Corrected kept = state.kept;
    if (kept.number != 0) {
        unitread_line(0, kept, unitread_main_table_2, 0);
        return;
    }
    uint8_t out[32];
    unitread_out_buffer(out);
    uint64_t size = units_unitoffers_room(head[0]);
    unitread_lines(state, unit, n, out, size);
}

int main(void)
{
    unitread_main();
    return 0;
}
