/* Pandoricchia: encoding, checking, opening and correcting words of five CCSDS LDPC codes.
 *
 *     code  name          word octets  information octets  checks
 *     1     (128,64)               16                   8      64
 *     2     (256,128)              32                  16     128
 *     3     (512,256)              64                  32     256
 *     4     (8176,7154)          1022                 895    1022
 *     5     (8160,7136)          1020                 892    1022
 *
 * Bits are numbered from 0; bit 0 is the most significant bit of octet 0. A word is the information bits, then the
 * parity; code 5 has two zero bits after it. Of code 4's information the last six bits of octet 894 must be 0.
 *
 * Octets are handed over as a pointer and their number. What a call reads must not overlap what it writes. Every call
 * answers for every code number and every length.
 *
 * A pointer whose length is 0 may be NULL: nothing is read or written through it. Octets may lie at any address; samples and flip
 * records must be aligned for their type.
 * The library keeps no state and allocates nothing: calls may run in any threads at once, each on its own output.
 * A call takes at most PANDORICCHIA_STACK_OCTETS of stack, most of them far less: each has a number of its own below. What is handed over
 * by value is counted in it, the room for the result is not. The archive asks for memcpy and memset, and nothing else.
 */
#ifndef PANDORICCHIA_H
#define PANDORICCHIA_H

#include <stdbool.h>
#include <stddef.h>
#include <stdint.h>

#ifdef __cplusplus
extern "C" {
#endif

/* The version of this header, and the same as a number: 65536 times the major number, 256 times the minor one, and the patch number.
 * The major number moves with the records and with what the calls take, and the shared library's soname moves with it. */
#define PANDORICCHIA_VERSION "0.10.0"
#define PANDORICCHIA_VERSION_NUMBER 0x000A00

/* The table above; for a code number that is not known until the program runs there are two calls below. */
#define PANDORICCHIA_WORD_OCTETS_1 16
#define PANDORICCHIA_WORD_OCTETS_2 32
#define PANDORICCHIA_WORD_OCTETS_3 64
#define PANDORICCHIA_WORD_OCTETS_4 1022
#define PANDORICCHIA_WORD_OCTETS_5 1020
#define PANDORICCHIA_INFORMATION_OCTETS_1 8
#define PANDORICCHIA_INFORMATION_OCTETS_2 16
#define PANDORICCHIA_INFORMATION_OCTETS_3 32
#define PANDORICCHIA_INFORMATION_OCTETS_4 895
#define PANDORICCHIA_INFORMATION_OCTETS_5 892

/* Enough for any code. */
#define PANDORICCHIA_MOST_WORD_OCTETS 1022
#define PANDORICCHIA_MOST_INFORMATION_OCTETS 895

/* Octets of stack that each call takes at most, and the most of them. Measured by outside/boundary.c, which paints the stack for each call
 * and code, on words that are quiet, that flip and that are refused: of the archive, and of the C file by gcc and by clang at -O2 and -O3,
 * with room to spare for other machines; not proved. Without optimising the C file may take more. */
#define PANDORICCHIA_VERSION_STACK_OCTETS 200
#define PANDORICCHIA_WORD_OCTETS_STACK_OCTETS 200
#define PANDORICCHIA_INFORMATION_OCTETS_STACK_OCTETS 200
#define PANDORICCHIA_ENCODE_STACK_OCTETS 1600
#define PANDORICCHIA_CHECK_STACK_OCTETS 2000
#define PANDORICCHIA_QUICK_STACK_OCTETS 4600
#define PANDORICCHIA_OPEN_STACK_OCTETS 2200
#define PANDORICCHIA_CORRECT_STACK_OCTETS 3900
#define PANDORICCHIA_CORRECT_SAMPLES_STACK_OCTETS 3900
#define PANDORICCHIA_LIST_STACK_OCTETS 6200
#define PANDORICCHIA_STEP_STACK_OCTETS 3800
#define PANDORICCHIA_NEAREST_STACK_OCTETS 1600
#define PANDORICCHIA_UNIT_OCTETS_STACK_OCTETS 200
#define PANDORICCHIA_WRITE_UNIT_STACK_OCTETS 1800
#define PANDORICCHIA_READER_STACK_OCTETS 200
#define PANDORICCHIA_READ_STACK_OCTETS 4200
#define PANDORICCHIA_TAKER_STACK_OCTETS 1300
#define PANDORICCHIA_TAKER_FOR_STACK_OCTETS 2600
#define PANDORICCHIA_TAKE_STACK_OCTETS 16100
#define PANDORICCHIA_BCH_ENCODE_STACK_OCTETS 200
#define PANDORICCHIA_BCH_CHECK_STACK_OCTETS 200
#define PANDORICCHIA_IMPORT_BLOCKS_STACK_OCTETS 700
#define PANDORICCHIA_IMPORTED_OCTETS_STACK_OCTETS 700
#define PANDORICCHIA_EXPORT_BLOCKS_STACK_OCTETS 700
#define PANDORICCHIA_EXPORTED_OCTETS_STACK_OCTETS 200
#define PANDORICCHIA_STACK_OCTETS 16100

/* The number that a call returns, by which calls, and what it says. The lowest that applies is given, except that 5 to 8 come in the
 * order of the run, 16 before them; list's 10 stands in place of any of 0 and 5 to 8; 18 comes before 17; import's and export's 20 to 23
 * come before 3, 21 to 23 block by block. A call that returns any other number than PANDORICCHIA_DONE is refused and has written nothing,
 * but for list, which writes its records with 5 to 8 too. */
enum pandoricchia_number {
    PANDORICCHIA_DONE = 0,           /* all but version, word_octets, information_octets, unit_octets, imported_octets, exported_octets and
                                      * taker, which have no number: done; the output, if there is one, is written whole */
    PANDORICCHIA_CODE = 1,           /* encode, check, quick, open, correct, correct_samples, list, step, write_unit, reader, read: the
                                      * code is not offered by this call */
    PANDORICCHIA_INPUT_LENGTH = 2,   /* encode, check, quick, open, correct, correct_samples, list, step, nearest, bch_encode, bch_check;
                                      * write_unit without information: the input's length is not what the call takes */
    PANDORICCHIA_OUTPUT_LENGTH = 3,  /* encode, correct, correct_samples, step, nearest, write_unit, read, bch_encode, bch_check,
                                      * import_blocks, export_blocks: the output's length is not what the call needs */
    PANDORICCHIA_LAST_SIX = 4,       /* encode, code 4: one of the six last bits is set */
    PANDORICCHIA_STUCK = 5,          /* correct, correct_samples, list, step, read, take: checks are broken, and no bit has an excess
                                      * above 0 */
    PANDORICCHIA_LIMIT = 6,          /* correct, correct_samples, list, read, take: the limit is reached */
    PANDORICCHIA_UNSENT = 7,         /* never given: no run sets a bit that is not sent */
    PANDORICCHIA_PARITY = 8,         /* correct and list, codes 4 and 5; correct_samples, code 4; take: quiet, but the parity is not the
                                      * encoder's */
    PANDORICCHIA_BROKEN = 9,         /* open: a check is broken */
    PANDORICCHIA_PLACES = 10,        /* list: the run has more flips than the table has places */
    PANDORICCHIA_NO_START = 11,      /* reader; read of such a reading: the whole start sequence is not there */
    PANDORICCHIA_NO_TAIL = 12,       /* reader; read of such a reading: what follows is not one or more whole codeblocks and the tail */
    PANDORICCHIA_NO_BCH_WORD = 13,   /* bch_check: no codeword differs in at most one bit; detect-only: the word is none */
    PANDORICCHIA_LAST_TWO = 14,      /* open, code 5: no check is broken, but one of the last two bits is set */
    PANDORICCHIA_OTHER_PARITY = 15,  /* open, code 5: neither, but the parity is not the encoder's */
    PANDORICCHIA_SAMPLE = 16,        /* correct_samples: a sample is infinite or not a number */
    PANDORICCHIA_NONE_NEAR = 17,     /* nearest: no codeword lies within the reach */
    PANDORICCHIA_REACH = 18,         /* nearest: the reach is above 3 */
    PANDORICCHIA_EDITION = 19,       /* taker_for: the edition is not known */
    PANDORICCHIA_TOO_LONG = 20,      /* import_blocks; export_blocks: not whole blocks or more than 128; more than 64,512 octets */
    PANDORICCHIA_BLOCK_CHECK = 21,   /* import_blocks: a block's frame check */
    PANDORICCHIA_BLOCK_NUMBER = 22,  /* import_blocks: a block's number */
    PANDORICCHIA_BLOCK_COUNT = 23    /* import_blocks: a block's count or filling */
};

/* What a number means, in a few words. */
static inline const char *pandoricchia_text(uint8_t number)
{
    switch (number) {
    case PANDORICCHIA_DONE:
        return "done";
    case PANDORICCHIA_CODE:
        return "code not offered by this call";
    case PANDORICCHIA_INPUT_LENGTH:
        return "input length differs";
    case PANDORICCHIA_OUTPUT_LENGTH:
        return "output length differs";
    case PANDORICCHIA_LAST_SIX:
        return "one of the six last bits set";
    case PANDORICCHIA_STUCK:
        return "checks broken, no excess above 0";
    case PANDORICCHIA_LIMIT:
        return "limit reached";
    case PANDORICCHIA_UNSENT:
        return "an unsent bit became 1";
    case PANDORICCHIA_PARITY:
        return "quiet, parity not the encoder's";
    case PANDORICCHIA_BROKEN:
        return "a check is broken";
    case PANDORICCHIA_PLACES:
        return "more flips than the table has places";
    case PANDORICCHIA_NO_START:
        return "the whole start is not there";
    case PANDORICCHIA_NO_TAIL:
        return "what follows is not one or more whole codeblocks and the tail";
    case PANDORICCHIA_NO_BCH_WORD:
        return "no codeword differs in at most one bit; detect-only: the word is none";
    case PANDORICCHIA_LAST_TWO:
        return "one of the last two bits set";
    case PANDORICCHIA_OTHER_PARITY:
        return "parity not the encoder's";
    case PANDORICCHIA_SAMPLE:
        return "a sample is infinite or not a number";
    case PANDORICCHIA_NONE_NEAR:
        return "no codeword within the reach";
    case PANDORICCHIA_REACH:
        return "reach above 3";
    case PANDORICCHIA_EDITION:
        return "edition not known";
    case PANDORICCHIA_TOO_LONG:
        return "not whole blocks or more than 128; more than 64,512 octets";
    case PANDORICCHIA_BLOCK_CHECK:
        return "a block's frame check";
    case PANDORICCHIA_BLOCK_NUMBER:
        return "a block's number";
    case PANDORICCHIA_BLOCK_COUNT:
        return "a block's count or filling";
    default:
        return "no such number";
    }
}

/* The version of the library, as a number. One whose major number is not the header's has other records, or other calls. */
uint32_t pandoricchia_version(void);

/* The octets of a word of a code, and of its information; 0 for a code that is not offered. */
size_t pandoricchia_word_octets(uint8_t code);
size_t pandoricchia_information_octets(uint8_t code);

/* Encode: information in, word out. Returns 0 to 4. */
uint8_t pandoricchia_encode(uint8_t code, const uint8_t *information, size_t information_len, uint8_t *word,
                            size_t word_len);

typedef struct pandoricchia_checked {
    uint8_t number;   /* 0 to 2 */
    uint32_t broken;  /* how many checks are broken; 0 where the call is refused */
    uint32_t lowest;  /* the lowest broken check, the number of checks if none is broken; 0 where the call is refused */
} pandoricchia_checked;

/* Check: counts the broken checks; for code 5 with the unsent bits 0 and the last two bits unread. A word without a
 * broken check is a codeword in codes 1 to 3, but need not be one in codes 4 and 5. */
pandoricchia_checked pandoricchia_check(uint8_t code, const uint8_t *word, size_t word_len);

typedef struct pandoricchia_answered {
    uint8_t number;      /* 0 to 2 */
    bool yes;            /* no check is broken */
    uint32_t evaluated;  /* the lowest broken check and 1 more, or all checks; 0 where the call is refused */
} pandoricchia_answered;

/* Quick: reads the checks in order, and stops at the first broken one. Yes exactly where check counts none. */
pandoricchia_answered pandoricchia_quick(uint8_t code, const uint8_t *word, size_t word_len);

typedef struct pandoricchia_opened {
    uint8_t number;   /* 0 to 2, 9, 14 or 15 */
    uint32_t lowest;  /* as check gives it; with 14 and 15 no check is broken */
    size_t octets;    /* how many of the leading octets are information; 0 where the call is refused */
} pandoricchia_opened;

/* Open, codes 1, 2, 3 and 5: for a codeword, how many of its leading octets are its information. Nothing is copied. What is
 * no codeword is refused by 9 if a check is broken, else by 14 if one of code 5's last two bits is set, else by 15. */
pandoricchia_opened pandoricchia_open(uint8_t code, const uint8_t *word, size_t word_len);

typedef struct pandoricchia_corrected {
    uint8_t number;   /* correct: 0 to 3, 5, 6 or 8; correct_samples: 16 too */
    uint32_t flips;   /* how many flips the run made: never more than the limit, nor than first */
    uint32_t first;   /* broken checks of the word as received */
    uint32_t last;    /* broken checks at the end of the run */
    uint32_t unlike;  /* in how many bits the word as received and the word at the end differ: never more than flips */
    uint32_t lowest;  /* the lowest broken check of the word as received, as check gives it */
} pandoricchia_corrected;

/* Correct: flips the bit of greatest excess, which is the number of its broken checks less that of its met ones, and of
 * several the lowest bit; again and again, until no check is broken (quiet), or no bit has an excess above 0, or limit
 * flips are made. On 0 out is a codeword. A run may flip a bit and later flip it back: unlike counts the bits that really
 * differ at its end, of those that the checks are over; code 5's unsent bits are among them, its last two are not.
 * Refusals 1 to 3 return all other values as 0, refusals 5 to 8 the flips made, the true counts, unlike as it stands, and
 * lowest. */
pandoricchia_corrected pandoricchia_correct(uint8_t code, const uint8_t *word, size_t word_len, uint16_t limit,
                                            uint8_t *out, size_t out_len);

/* Correct by sample sizes, codes 1 to 4: a sample for each bit, 128, 256, 512 or 8176 of them, which samples_len counts. A bit is 1
 * if its sample is below 0, so both zeros read as 0. Correct's run on the bits read, but of several bits of greatest excess the one
 * whose sample has the smallest magnitude is flipped, and of those the lowest. Samples are compared and no more: with equal
 * magnitudes it is correct. They are read by their bit patterns, a float being IEEE 754's of 32 bits: no mode of floating point, as
 * subnormals taken as 0, changes an answer. The numbers are correct's: unlike counts against the bits read, lowest is of those.
 * Refusals 1 to 3 and 16, in this order, return all other values as 0. */
pandoricchia_corrected pandoricchia_correct_samples(uint8_t code, const float *samples, size_t samples_len, uint16_t limit,
                                                    uint8_t *out, size_t out_len);

typedef struct pandoricchia_fliprecord {
    uint32_t bit;   /* the bit that was flipped; of code 5 in the run's numbering, 18 to 8175 */
    int8_t excess;  /* its excess, 1 to 5 */
    uint32_t left;  /* broken checks after the flip */
} pandoricchia_fliprecord;

typedef struct pandoricchia_listed {
    uint8_t number;  /* 0 to 2, 5, 6, 8 or 10 */
    uint32_t flips;  /* from here to lowest as correct gives them */
    uint32_t first;
    uint32_t last;
    uint32_t unlike;
    uint32_t lowest;
    uint32_t bit;    /* refusal 5: the lowest bit of greatest excess, of those that may be flipped; else 0 */
    int8_t excess;   /* refusal 5: that excess, 0 or below; else 0 */
} pandoricchia_listed;

/* List: correct's run, with a record for each flip in the table, on 0 and on 5 to 8 alike; records past the list stay as they
 * were. table_len counts records. Refusals 1, 2 and 10 return all other values as 0 and write no record. A table of as many
 * places as the limit, or as there are broken checks (half of them in codes 4 and 5), is never refused by 10. */
pandoricchia_listed pandoricchia_list(uint8_t code, const uint8_t *word, size_t word_len, uint16_t limit,
                                      pandoricchia_fliprecord *table, size_t table_len);

typedef struct pandoricchia_stepped {
    uint8_t number;  /* 0 to 3 or 5 */
    bool quiet;      /* no check is broken, and out is a copy of the word */
    uint32_t bit;    /* the bit that was flipped; 0 where the step is quiet or refused */
    int8_t excess;   /* its excess, 1 to 5; 0 where the step is quiet or refused */
} pandoricchia_stepped;

/* Step, codes 1 to 4: one flip of correct's run. */
pandoricchia_stepped pandoricchia_step(uint8_t code, const uint8_t *word, size_t word_len, uint8_t *out,
                                          size_t out_len);

typedef struct pandoricchia_reached {
    uint8_t number;    /* 0, 2, 3, 17 or 18 */
    uint32_t least;    /* the fewest flips that give a codeword; 0 where the call is refused */
    uint32_t bits[3];  /* which bits, increasing; unused places are 0 */
} pandoricchia_reached;

/* Nearest, code 1 alone: the fewest flips, up to a reach of 0 to 3, that make the word a codeword; of several lists of
 * bits the first. Out is the mended word. A codeword is copied, with least 0. */
pandoricchia_reached pandoricchia_nearest(const uint8_t *word, size_t word_len, uint8_t reach, uint8_t *out, size_t out_len);

/* Telecommand transmission units, codes 1 and 3: a start sequence, codeblocks, and for code 1 a tail. */

/* How many octets the unit of so many octets of information has; 0 where there is no unit. */
size_t pandoricchia_unit_octets(uint8_t code, size_t information_len);

/* Writes the unit of the information, which is filled up with octets 55 to whole codeblocks. Returns 0; 1 for another
 * code; 2 if there is no information; 3 if out is not exactly as long as the unit. */
uint8_t pandoricchia_write_unit(uint8_t code, const uint8_t *information, size_t information_len, uint8_t *out,
                                size_t out_len);

/* A reading of a unit. kept.number is 0 while it goes on; 1, 11 or 12 if there is no reader; 5 or 6 after a refused
 * codeblock. */
typedef struct pandoricchia_reading {
    pandoricchia_corrected kept;  /* the answer that ended the reading */
    uint8_t code;
    uint16_t limit;
    size_t place;  /* how many codeblocks were handed out */
} pandoricchia_reading;

/* A reader over a unit: its number is kept.number, 0, 1, 11 or 12. */
pandoricchia_reading pandoricchia_reader(uint8_t code, const uint8_t *unit, size_t unit_len, uint16_t limit);

typedef struct pandoricchia_handed {
    pandoricchia_corrected corrected;  /* correct's numbers for this codeblock */
    bool none;                         /* the last codeblock was handed out before: nothing is written, number is 0 */
    pandoricchia_reading next;         /* the reading from here on: hand it in at the next asking */
} pandoricchia_handed;

/* Asks for the next codeblock of the same unit, as its information octets. 3 first, if out is not the code's information
 * length, which ends nothing. 5 or 6 ends the reading, and is answered again and again, as none is after the last. */
pandoricchia_handed pandoricchia_read(pandoricchia_reading state, const uint8_t *unit, size_t unit_len, uint8_t *out,
                                      size_t out_len);

/* Telemetry straight from the receiver, code 5: words out of a stream of octets that comes in parts. */

/* A taker between two parts of the stream. A type may not have a function's name here. */
typedef struct pandoricchia_taking {
    size_t place;     /* octets of the marker that are matched, 0 to 3, or 4 and the octets held of the word */
    uint8_t edition;  /* 4 and 5 have the second randomiser, any other the old one */
    uint16_t limit;
    uint8_t octets[1020];
} pandoricchia_taking;

/* A taker at the start of a stream, that corrects under the limit; no edition is stated, so the old randomiser stays. */
pandoricchia_taking pandoricchia_taker(uint16_t limit);

typedef struct pandoricchia_made {
    uint8_t number;  /* 0 or 19 */
    pandoricchia_taking taker;
} pandoricchia_made;

/* The same for an edition, which is the issue number of CCSDS 131.0-B: 1, 2 and 3 have the old randomiser, as 0 has, which is not
 * stated; 4 and 5 have the second one. Any other is refused by 19, with a taker at the start for the old one. */
pandoricchia_made pandoricchia_taker_for(uint8_t edition, uint16_t limit);

typedef struct pandoricchia_taken {
    pandoricchia_taking next;          /* the taker from here on: hand it in with the next part */
    size_t taken;                      /* octets of the part that were taken: all, unless a word is complete */
    bool complete;                     /* a word is complete */
    pandoricchia_corrected corrected;  /* correct's numbers for it; all 0 where none is */
    uint8_t word[1020];                /* the corrected word; all zeros where it is refused, or none is complete */
} pandoricchia_taken;

/* Take: finds the marker 1A CF FC 1D at an octet boundary, takes 1020 octets, removes the randomiser and corrects. Goes on until a
 * word is complete or the part is used up; what was not taken of a part is brought again. No refusals of its own. */
pandoricchia_taken pandoricchia_take(pandoricchia_taking state, const uint8_t *part, size_t part_len);

/* The older BCH words, BCH (63,56) by CCSDS 231.0-B: 7 octets of information, then seven inverted parity bits and one
 * zero fill bit, 8 octets in all. These calls take no code number. */

/* BCH encode: information in, word out. Returns 0, 2 or 3. */
uint8_t pandoricchia_bch_encode(const uint8_t *information, size_t information_len, uint8_t *word, size_t word_len);

typedef struct pandoricchia_mended {
    uint8_t number;  /* 0, 2, 3 or 13 */
    uint8_t mended;  /* how many of the 63 bits were mended, 0 or 1; 0 where the call is refused */
} pandoricchia_mended;

/* BCH check: the word out, its fill bit 0 whatever it was. With detect_only a word is taken that is a codeword, without it
 * also one that differs from a codeword in a single bit of the 63, which is mended. */
pandoricchia_mended pandoricchia_bch_check(bool detect_only, const uint8_t *word, size_t word_len, uint8_t *out,
                                           size_t out_len);

typedef struct pandoricchia_imported {
    uint8_t number;  /* 0, 3 or 20 to 23 */
    uint32_t block;  /* the lowest block at fault for 21 to 23, counted from 0; else 0 */
} pandoricchia_imported;

/* Import: the octets of a recording from blocks of 512 octets. 20 comes first, then block by block 21, 22 and 23, then 3. */
pandoricchia_imported pandoricchia_import_blocks(const uint8_t *blocks, size_t blocks_len, uint8_t *out, size_t out_len);

/* The room that import needs; 0 where the blocks are refused. */
size_t pandoricchia_imported_octets(const uint8_t *blocks, size_t blocks_len);

/* Export: the blocks of a recording of up to 64,512 octets; no blocks for no octets. Returns 0, 3 or 20. */
uint8_t pandoricchia_export_blocks(const uint8_t *octets, size_t octets_len, uint8_t *out, size_t out_len);

/* The room that export needs for so many octets; 0 where they are refused. */
size_t pandoricchia_exported_octets(size_t octets_len);

#ifdef __cplusplus
}
#endif

#endif
