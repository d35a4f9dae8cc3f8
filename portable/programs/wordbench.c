/* The program wordbench in C99, over POSIX: written by portable/translate from the MIR that was proved, and not to be edited.
 * The library's C is included whole, since a program calls more of it than the header has. */
#define _POSIX_C_SOURCE 200112L
#include <errno.h>
#include <stdbool.h>
#include <stddef.h>
#include <stdint.h>
#include <string.h>
#include <unistd.h>

#include "../pandoricchia.c"

/* A part of an array that is lent: where it begins, and how many. */
typedef struct lent_mut_uint8_t {
    uint8_t *at;
    uint64_t len;
} lent_mut_uint8_t;

/* The number that bits have if the first of them is a sign. */
static inline int32_t signed32(uint32_t x)
{
    return x <= INT32_MAX ? (int32_t)x : (int32_t)(-(int32_t)(UINT32_MAX - x) - 1);
}

/* The number that bits have if the first of them is a sign. */
static inline int64_t signed64(uint64_t x)
{
    return x <= INT64_MAX ? (int64_t)x : (int64_t)(-(int64_t)(UINT64_MAX - x) - 1);
}

/* ---- libc ------------------------------------------------------------------------------------------- */

static uint64_t libc_read(uint32_t file, uint8_t *room, uint64_t room_len)
{
    return (uint64_t)read(signed32(file), room, (size_t)room_len);
}

static uint64_t libc_write(uint32_t file, const uint8_t *octets, uint64_t octets_len)
{
    return (uint64_t)write(signed32(file), octets, (size_t)octets_len);
}

/* ---- io --------------------------------------------------------------------------------------------- */

/* Reading, writing and printing numbers, over the C library's read and write. Every function here is proved, and the
 * crate assumes nothing of its own. No public function has a `requires`. A call that a signal interrupts before it
 * moves a byte counts as one that failed. */

static inline uint64_t io_least(uint64_t a, uint64_t b)
{
    if (a < b) {
        return a;
    }
    return b;
}

static inline uint64_t io_clamp(uint64_t got, uint64_t most)
{
    if (0 < signed64(got)) {
        return io_least((uint64_t)signed64(got), most);
    }
    return 0;
}

/* 4,096 zeros, for a path (`libc::PATH_MAX`). The `ensures` gives only the length, which lending the array as a
 * slice needs. */
static inline void io_buffer(uint8_t *restrict result)
{
    memset(result, 0, 4096);
}

static inline void io_copy(const uint8_t *src, uint64_t from, uint8_t *restrict dst, uint64_t to, uint64_t n)
{
    uint64_t i = 0;
    while (i < n) {
        dst[to + i] = src[from + i];
        i += 1;
    }
}

/* One write of buf's bytes from index `from` on. They go by way of chunk: the borrow checker covers `&buf[from..]`,
 * but the proofs here do not use it yet. */
static inline uint64_t io_write_from(uint32_t fd, const uint8_t *buf, uint64_t buf_len, uint64_t from,
        uint8_t *restrict chunk, uint64_t chunk_len)
{
    uint64_t n = io_least(buf_len - from, chunk_len);
    io_copy(buf, from, chunk, 0, n);
    uint64_t t = libc_write(fd, chunk, n);
    return io_clamp(t, n);
}

/* Writes all of buf and answers true, or stops at the first write that takes nothing or fails and answers false,
 * when some of buf may have been written. On an empty buf it makes no call. */
static inline bool io_write_all(uint32_t fd, const uint8_t *buf, uint64_t buf_len)
{
    if (buf_len == 0) {
        return true;
    }
    uint64_t t = libc_write(fd, buf, buf_len);
    uint64_t done = io_clamp(t, buf_len);
    if (done == buf_len) {
        return true;
    }
    if (done == 0) {
        return false;
    }
    uint8_t space[4096];
    io_buffer(space);
    lent_mut_uint8_t chunk = (lent_mut_uint8_t){space, 4096};
    while (done < buf_len) {
        uint64_t put = io_write_from(fd, buf, buf_len, done, chunk.at, chunk.len);
        if (put == 0) {
            return false;
        }
        done += put;
    }
    return true;
}

/* Turns what a call such as `libc::read(fd, buf)` answered into a number of buf's bytes: 0 where got is negative,
 * and never more than buf's length. It takes buf and not its length so that the contract can speak of buf, and
 * `&buf[..n]` then needs no proof file. */
static inline uint64_t io_count(uint64_t got, const uint8_t *buf, uint64_t buf_len)
{
    (void)buf;
    return io_clamp(got, buf_len);
}

/* 65,536 zeros, for a loop that moves much data and would spend its time on calls of 4,096 bytes. */
static inline void io_large_buffer(uint8_t *restrict result)
{
    memset(result, 0, 65536);
}

/* ---- wordlog ------------------------------------------------------------------------------------------- */

/* The log: a line of it, and the log of a recording. */

/* What the words of a block are corrected and numbered by. */
typedef struct wordlog_lines_Block {
    uint8_t code;
    uint16_t limit;
    uint64_t size;
    uint64_t index;
    uint64_t count;
} wordlog_lines_Block;

static const uint8_t wordlog_line_put_header_table[36] = {
    119, 111, 114, 100, 32, 97, 110, 115, 119, 101, 114, 32, 102, 108, 105, 112, 115, 32, 102, 105, 114, 115, 116, 32,
    108, 97, 115, 116, 32, 117, 110, 108, 105, 107, 101, 10,
};

static inline uint64_t core_convert_U64FromU8_from(uint8_t p0)
{
    return p0;
}

static inline uint64_t core_convert_U64FromU32_from(uint32_t p0)
{
    return p0;
}

/* Whether a recording has fewer than three octets, or a bad code. */
static inline bool wordlog_lines_is_bad(const uint8_t *head, uint64_t head_len)
{
    return head_len < 3 || !catalogue_offer_is_offered(head[0]);
}

/* The header, at the start of the text. */
static inline uint64_t wordlog_line_put_header(uint8_t *restrict text)
{
    core_copy_from_slice_u8(text, 36, wordlog_line_put_header_table);
    return 36;
}

/* Refusal 1: correct's record for a code that is not offered. */
static inline flipping_endings_Corrected wordlog_line_refusal(void)
{
    return flipping_endings_refused_correct(1);
}

/* What a line gives of an answer. A further field of the answer is one entry here, one in the definition, and one in
 * the proof. */
static inline void wordlog_line_numbers(flipping_endings_Corrected a, uint64_t *restrict result)
{
    result[0] = core_convert_U64FromU8_from(a.number);
    result[1] = core_convert_U64FromU32_from(a.flips);
    result[2] = core_convert_U64FromU32_from(a.first);
    result[3] = core_convert_U64FromU32_from(a.last);
    result[4] = core_convert_U64FromU32_from(a.unlike);
}

/* A number behind the text so far: answers where the text ends then. */
static inline uint64_t wordlog_line_put(uint64_t n, uint8_t *restrict text, uint64_t at)
{
    if (n < 10) {
        text[at] = (uint8_t)(48 + (uint8_t)n);
        return at + 1;
    }
    uint64_t end = wordlog_line_put(n / 10, text, at);
    text[end] = (uint8_t)(48 + (uint8_t)(n % 10));
    return end + 1;
}

/* A space and a number. 21 octets hold any. */
static inline uint64_t wordlog_line_put_field(uint64_t n, uint8_t *restrict text, uint64_t at)
{
    text[at] = 32;
    return wordlog_line_put(n, text, at + 1);
}

/* Numbers, a space before each. */
static inline uint64_t wordlog_line_put_fields(const uint64_t *numbers, uint64_t numbers_len, uint8_t *restrict text,
        uint64_t at)
{
    uint64_t end = at;
    uint64_t t = 0;
    uint64_t t2 = numbers_len;
    while (t < t2) {
        const uint64_t *n = numbers + t;
        end = wordlog_line_put_field(*n, text, end);
        t += 1;
    }
    return end;
}

/* The line of an answer. 128 octets hold any. */
static inline uint64_t wordlog_line_put_line(uint64_t index, flipping_endings_Corrected a, uint8_t *restrict text,
        uint64_t at)
{
    uint64_t values[5];
    wordlog_line_numbers(a, values);
    uint64_t start = wordlog_line_put(index, text, at);
    uint64_t end = wordlog_line_put_fields(values, 5, text, start);
    text[end] = 10;
    return end + 1;
}

/* The log of a bad head: the header, and the line of refusal 1. */
static inline uint64_t wordlog_lines_put_bad(uint8_t *restrict text)
{
    uint64_t end = wordlog_line_put_header(text);
    return wordlog_line_put_line(0, wordlog_line_refusal(), text, end);
}

/* The log of a recording's first three octets, or of the fewer that it has. */
static inline uint64_t wordlog_lines_begin(const uint8_t *head, uint64_t head_len, uint8_t *restrict text)
{
    if (wordlog_lines_is_bad(head, head_len)) {
        return wordlog_lines_put_bad(text);
    }
    return wordlog_line_put_header(text);
}

/* The octets of a word. */
static inline uint64_t wordlog_lines_word_octets(uint8_t code)
{
    return catalogue_offer_word_octets(code);
}

/* How many octets of whole words 64 KiB hold. */
static inline uint64_t wordlog_lines_block_octets(uint8_t code)
{
    uint64_t size = wordlog_lines_word_octets(code);
    return 0x10000 / size * size;
}

/* A block of words, before which so many octets of words were read. Its last word may be short. */
static inline wordlog_lines_Block wordlog_lines_block_at(const uint8_t *head, uint64_t read, const uint8_t *words,
        uint64_t words_len)
{
    (void)words;
    uint8_t code = head[0];
    uint64_t size = wordlog_lines_word_octets(code);
    uint64_t index = read / size;
    uint64_t count = (words_len + (size - 1)) / size;
    uint8_t t[2] = {head[1], head[2]};
    return (wordlog_lines_Block){.code = code, .limit = core_int_u16_from_be_bytes(t), .size = size, .index = index,
            .count = count};
}

/* Corrects a word into out, and writes its line. */
static inline uint64_t wordlog_line_write_word(uint8_t code, uint16_t limit, uint64_t index, const uint8_t *word,
        uint64_t word_len, uint8_t *restrict out, uint64_t out_len, uint8_t *restrict text, uint64_t at)
{
    flipping_endings_Corrected answer = codes_correct(code, word, word_len, limit, out, out_len);
    return wordlog_line_put_line(index, answer, text, at);
}

/* Corrects word k of the block's, and writes its line. */
static inline uint64_t wordlog_lines_Block_write_at(const wordlog_lines_Block *self, uint64_t k, const uint8_t *words,
        uint64_t words_len, uint8_t *restrict out, uint64_t out_len, uint8_t *restrict text, uint64_t at)
{
    uint64_t from = k * self->size;
    uint64_t to = core_int_usize_min(from + self->size, words_len);
    return wordlog_line_write_word(self->code, self->limit, self->index + k, words + from, to - from, out, out_len,
            text, at);
}

/* Corrects its words, one after another, and writes their lines: answers where the text ends. */
static inline uint64_t wordlog_lines_Block_write(const wordlog_lines_Block *self, const uint8_t *words,
        uint64_t words_len, uint8_t *restrict out, uint64_t out_len, uint8_t *restrict text)
{
    uint64_t end = 0;
    uint64_t k = 0;
    uint64_t t = self->count;
    while (k < t) {
        end = wordlog_lines_Block_write_at(self, k, words, words_len, out, out_len, text, end);
        k += 1;
    }
    return end;
}

/* What the log grows by: corrects a block of words, before which so many octets of words were read, and writes their
 * lines. */
static inline uint64_t wordlog_lines_go_on(const uint8_t *head, uint64_t read, const uint8_t *words,
        uint64_t words_len, uint8_t *restrict out, uint64_t out_len, uint8_t *restrict text)
{
    wordlog_lines_Block b = wordlog_lines_block_at(head, read, words, words_len);
    return wordlog_lines_Block_write(&b, words, words_len, out, out_len, text);
}

/* ---- os --------------------------------------------------------------------------------------------- */

/* Files by name, the program's arguments and errno. A path is a slice of at most 4,095 bytes, none of them 0. A
 * function that is passed any other answers -1, with errno ENAMETOOLONG or EINVAL, since a path that is cut short
 * names another file. */

static const uint8_t os_fail_table[2] = {
    58, 32,
};

static const uint8_t os_fail_table_2[1] = {
    10,
};

static uint32_t os_c_rattle_errno(void)
{
    return (uint32_t)errno;
}

/* The calling thread's errno. It means something only just after `arg` or a call that failed. */
static inline uint32_t os_errno(void)
{
    return os_c_rattle_errno();
}

static uint32_t os_c___xpg_strerror_r(uint32_t number, uint8_t *room, uint64_t room_len)
{
    return (uint32_t)strerror_r(signed32(number), (char *)room, (size_t)room_len);
}

/* How many bytes stand before the first 0, or all of them where none is 0. */
static inline uint64_t os_path_before_zero(const uint8_t *text, uint64_t text_len)
{
    uint64_t i = 0;
    while (i < text_len) {
        if (text[i] == 0) {
            break;
        }
        i += 1;
    }
    return i;
}

/* Writes a line to standard error: what failed, as the caller names it, a colon and errno's text. */
static inline void os_fail(const uint8_t *what, uint64_t what_len)
{
    uint32_t error = os_errno();
    uint8_t text[64] = {0};
    lent_mut_uint8_t view = (lent_mut_uint8_t){text, 64};
    os_c___xpg_strerror_r(error, view.at, view.len);
    uint64_t n = os_path_before_zero(view.at, view.len);
    io_write_all(2, what, what_len);
    io_write_all(2, os_fail_table, 2);
    io_write_all(2, text, n);
    io_write_all(2, os_fail_table_2, 1);
}

/* ---- wordbench -------------------------------------------------------------------------------------- */

/* Corrects a recording: one octet code, two octets limit, then words to the end. Prints its log. */

/* How many octets were read, and whether reading failed. */
typedef struct wordbench_Input {
    uint64_t octets;
    bool failed;
} wordbench_Input;

static const uint8_t wordbench_read_once_table[25] = {
    119, 111, 114, 100, 98, 101, 110, 99, 104, 58, 32, 115, 116, 97, 110, 100, 97, 114, 100, 32, 105, 110, 112, 117,
    116,
};

static const uint8_t wordbench_write_table[26] = {
    119, 111, 114, 100, 98, 101, 110, 99, 104, 58, 32, 115, 116, 97, 110, 100, 97, 114, 100, 32, 111, 117, 116, 112,
    117, 116,
};

/* One read. If it fails, that is said on standard error. */
static inline wordbench_Input wordbench_read_once(uint8_t *restrict part, uint64_t part_len)
{
    uint64_t got = libc_read(0, part, part_len);
    if (signed64(got) < 0) {
        os_fail(wordbench_read_once_table, 25);
    }
    return (wordbench_Input){.octets = io_count(got, part, part_len), .failed = signed64(got) < 0};
}

/* One read, behind the n octets that are there. */
static inline wordbench_Input wordbench_read_more(uint8_t *restrict octets, uint64_t octets_len, uint64_t n)
{
    return wordbench_read_once(octets + n, octets_len - n);
}

/* Reads until the octets are full, the input ends or a read fails. */
static inline wordbench_Input wordbench_fill(uint8_t *restrict octets, uint64_t octets_len)
{
    uint64_t n = 0;
    while (n < octets_len) {
        wordbench_Input input = wordbench_read_more(octets, octets_len, n);
        uint64_t more = input.octets;
        if (more == 0) {
            return (wordbench_Input){.octets = n, .failed = input.failed};
        }
        n += more;
    }
    return (wordbench_Input){.octets = n, .failed = false};
}

/* Writes a text whole. If a write fails, that is said on standard error. */
static inline bool wordbench_write(const uint8_t *text, uint64_t text_len)
{
    if (io_write_all(1, text, text_len)) {
        return true;
    }
    os_fail(wordbench_write_table, 26);
    return false;
}

static inline void wordbench_out_buffer(uint8_t *restrict result)
{
    memset(result, 0, 1022);
}

static inline void wordbench_text_buffer(uint8_t *restrict result)
{
    memset(result, 0, 524416);
}

/* One block of words, before which so many octets were read: whether its lines are written and another may follow. */
static inline bool wordbench_block(const uint8_t *head, uint64_t read, uint8_t *restrict words, uint64_t words_len,
        uint8_t *restrict out, uint64_t out_len, uint8_t *restrict text)
{
    wordbench_Input input = wordbench_fill(words, words_len);
    uint64_t n = input.octets;
    if (input.failed) {
        return false;
    }
    uint64_t end = wordlog_lines_go_on(head, read, words, n, out, out_len, text);
    return wordbench_write(text, end) && n == words_len;
}

/* Block after block, each of as many words. */
static inline void wordbench_blocks(const uint8_t *head, uint8_t *restrict words, uint64_t words_len,
        uint8_t *restrict out, uint64_t out_len, uint8_t *restrict text)
{
    uint64_t read = 0;
    while (read < UINT64_C(0x8000000000000000) && wordbench_block(head, read, words, words_len, out, out_len, text)) {
        read += words_len;
    }
}

/* All words, in blocks of at most 64 KiB. */
static inline void wordbench_all(const uint8_t *head)
{
    uint8_t words[65536];
    io_large_buffer(words);
    uint8_t out[1022];
    wordbench_out_buffer(out);
    uint8_t text[524416];
    wordbench_text_buffer(text);
    uint64_t size = wordlog_lines_word_octets(head[0]);
    uint64_t full = wordlog_lines_block_octets(head[0]);
    wordbench_blocks(head, words, full, out, size, text);
}

/* The log of a head, and of the words behind it where it is taken. */
static inline void wordbench_log(const uint8_t *head, uint64_t head_len)
{
    uint8_t text[256] = {0};
    uint64_t end = wordlog_lines_begin(head, head_len, text);
    if (wordbench_write(text, end) && !wordlog_lines_is_bad(head, head_len)) {
        wordbench_all(head);
    }
}

static inline void wordbench_main(void)
{
    uint8_t head[3] = {0};
    wordbench_Input input = wordbench_fill(head, 3);
    uint64_t n = input.octets;
    if (!input.failed) {
        wordbench_log(head, n);
    }
}

int main(void)
{
    wordbench_main();
    return 0;
}
