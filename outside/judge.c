/* Document 01's calls by their definitions: an array of single bits, every check and every excess counted anew before
 * each flip, the whole parity added up again wherever a codeword is asked for. Slow, so that it is easy to believe. */
#include "judge.h"

#include <stdlib.h>
#include <string.h>

/* The tables, digit by digit as they are printed.
 *
 * A parity table is a line for each block row: the entries of its blocks, "-" for the zero block. Tables 2-4 to 2-6 of
 * source document 001 have shifts. Of table 1 of source document 000 this is the third column, the absolute positions;
 * what one of them leaves modulo M is the shift. */

/* Table 2-4 of source document 001: code 1. */
static const char *const parity_16[] = {
    "0,7 2 14 6 - 0 13 0",
    "6 0,15 0 1 0 - 0 7",
    "4 1 0,15 14 11 0 - 3",
    "0 1 9 0,13 14 1 0 -",
};

/* Table 2-5: code 2. */
static const char *const parity_32[] = {
    "0,31 15 25 0 - 20 12 0",
    "28 0,30 29 24 0 - 1 20",
    "8 0 0,28 1 29 0 - 21",
    "18 30 0 0,30 25 26 0 -",
};

/* Table 2-6, whose caption names the wrong code: code 3. */
static const char *const parity_64[] = {
    "0,63 30 50 25 - 43 62 0",
    "56 0,61 50 23 0 - 37 26",
    "16 0 0,55 27 56 0 - 43",
    "35 56 62 0,11 58 3 0 -",
};

/* Table 1 of source document 000, third column: codes 4 and 5. */
static const char *const parity_511[] = {
    "0,176 523,750 1022,1374 1557,1964 2044,2436 2706,2964 3066,3417 3586,3936 "
    "4088,4395 4652,4928 5110,5317 5639,5902 6132,6531 6845,7100 7154,7401 7701,7926",
    "99,471 641,984 1220,1457 1793,2011 2259,2464 2837,3036 3114,3462 3770,4022 "
    "4361,4518 4901,5050 5206,5489 5812,6007 6376,6599 7007,7113 7205,7536 7857,8079",
};

/* The generator tables hold a string for each part of a printed row. Table 2-1 of source document 001: code 1. */
static const char *const generator_16[] = {
    "0E69", "166B", "EF4C", "0BC2",
    "7766", "137E", "BB24", "8418",
    "C480", "FEB9", "CD53", "A713",
    "4EAA", "22FA", "465E", "EA11",
};

/* Table 2-2: code 2. */
static const char *const generator_32[] = {
    "73F5E839", "0220CE51", "36ED68E9", "F39EB162",
    "BAC812C0", "BCD24379", "4786D928", "5A09095C",
    "7DF83F76", "A5FF4C38", "8E6C0D4E", "025EB712",
    "BAA37B32", "60CB31C5", "D0F66A31", "FAF511BC",
};

/* Table 2-3: code 3. */
static const char *const generator_64[] = {
    "1D21794A22761FAE", "59945014257E130D", "74D6054003794014", "2DADEB9CA25EF12E",
    "60E0B6623C5CE512", "4D2C81ECC7F469AB", "20678DBFB7523ECE", "2B54B906A9DBE98C",
    "F6739BCF54273E77", "167BDA120C6C4774", "4C071EFF5E32A759", "3138670C095C39B5",
    "28706BD045300258", "2DAB85F05B9201D0", "8DFDEE2D9D84CA88", "B371FAE63A4EB07E",
};

/* Table 2 of source document 000, B1,1 B1,2 B2,1 and so on: codes 4 and 5. */
static const char *const generator_511[] = {
    "55BF56CC55283DFEEFEA8C8CFF04E1EBD9067710988E25048D67525426939E20"
    "68D2DC6FCD2F822BEB6BD96C8A76F4932AAE9BC53AD20A2A9C86BB461E43759C",
    "6855AE08698A50AA3051768793DC238544AF3FE987391021AAF6383A6503409C"
    "3CE971A80B3ECE12363EE809A01D91204F1811123EAB867D3E40E8C652585D28",
    "62B21CF0AEE0649FA67B7D0EA6551C1CD194CA77501E0FCF8C85867B9CF679C1"
    "8BCF7939E10F8550661848A4E0A9E9EDB7DAB9EDABA18C168C8E28AACDDEAB1E",
    "64B71F486AD57125660C4512247B229F0017BA649C6C11148FB00B70808286F1"
    "A9790748D296A593FA4FD2C6D7AAF7750F0C71B31AEE5B400C7F5D73AAF00710",
    "681A8E51420BD8294ECE13E491D618083FFBBA830DB5FAF330209877D801F92B"
    "5E07117C57E75F6F0D873B3E520F21EAFD78C1612C6228111A369D5790F5929A",
    "04DF1DD77F1C20C1FB570D7DD7A1219EAECEA4B2877282651B0FFE713DF338A6"
    "3263BC0E324A87E2DC1AD64C9F10AAA585ED6905946EE167A73CF04AD2AF9218",
    "35951FEE6F20C902296C9488003345E6C5526C5519230454C556B8A04FC0DC64"
    "2D682D94B4594B5197037DF15B5817B26F16D0A3302C09383412822F6D2B234E",
    "7681CF7F278380E28F1262B22F40BF3405BFB92311A8A34D084C086464777431"
    "DBFDDD2E82A2E6742BAD6533B51B2BDEE0377E9F6E63DCA0B0F1DF97E73D5CD8",
    "188157AE41830744BAE0ADA6295E08B79A44081E111F69BBE7831D07BEEBF762"
    "32E065F752D4F218D39B6C5BF20AE5B8FF172A7F1F680E6BF5AAC3C4343736C2",
    "5D80A6007C175B5C0DD88A442440E2C29C6A136BBCE0D95A58A83B48CA0E7474"
    "E9476C92E33D164BFF943A61CE1031DFF441B0B175209B498394F4794644392E",
    "60CD1F1C282A1612657E8C7C1420332CA245C0756F78744C807966C3E1326438"
    "878BD2CCC83388415A612705AB192B3512EEF0D95248F7B73E5B0F412BF76DB4",
    "434B697B98C9F3E48502C8DBD891D0A0386996146DEBEF11D4B833033E05EDC2"
    "8F808F25E8F314135E6675B7608B66F7FF3392308242930025DDC4BB65CD7B6E",
    "766855125CFDC804DAF8DBE3660E8686420230ED4E049DF11D82E357C54FE256"
    "EA01F5681D95544C7A1E32B7C30A8E6CF5D0869E754FFDE6AEFA6D7BE8F1B148",
    "222975D325A487FE560A6D146311578D9C5501D28BC0A1FB48C9BDA173E86913"
    "3A3AA9506C42AE9F466E85611FC5F8F74E439638D66D2F00C682987A96D8887C",
    "14B5F98E8D55FC8E9B4EE453C6963E052147A857AC1E08675D99A308E7269FAC"
    "5600D7B155DE8CB1BAC786F45B46B523073692DE745FDF10724DDA38FD093B1C",
    "1B71AFFB8117BCF8B5D002A99FEEA49503C0359B056963FE5271140E626F6F8F"
    "CE9F29B37047F9CA89EBCE760405C6277F329065DF21AB3B779AB3E8C8955400",
    "0008B4E899E5F7E692BDCE69CE3FAD997183CFAEB2785D0C3D9CAE510316D4BD"
    "65A2A06CBA7F4E4C4A80839ACA81012343648EEA8DBBA2464A68E115AB3F4034",
    "5B7FE6808A10EA42FEF0ED9B41920F82023085C106FBBC1F56B567A14257021B"
    "C5FDA60CBA05B08FAD6DC3B0410295884C7CCDE0E56347D649DE6DDCEEB0C95E",
    "5E9B2B33EF82D0E64AA2226D6A0ADCD179D5932EE1CF401B336449D0FF775754"
    "CA56650716E61A43F963D59865C7F017F53830514306649822CAA72C152F6EB2",
    "2CD8140C8A37DE0D0261259F63AA2A420A8F81FECB661DBA5C62DF6C817B4A61"
    "D2BC1F068A50DFD0EA8FE1BD387601062E2276A4987A19A70B460C54F215E184",
    "06F1FF249192F2EAF063488E267EEE994E7760995C4FA6FFA0E4241825A7F5B6"
    "5C74FB16AC4C891BC008D33AD4FF97523EE5BD14126916E0502FF2F8E4A07FC2",
    "65287840D00243278F41CE1156D1868F24E02F91D3A1886ACE906CE741662B40"
    "B4EFDFB90F76C1ADD884D920AFA8B3427EEB84A759FA02E00635743F50B942F0",
    "4109DA2A24E41B1F375645229981D4B7E88C36A12DAB64E91C764CC43CCEC188"
    "EC8C5855C8FF488BB91003602BEF43DBEC4A621048906A2CDC5DBD4103431DB8",
    "2185E3BC7076BA51AAD6B199C8C60BCD70E8245B874927136E6D8DD527DF0693"
    "DC10A1C8E51B5BE93FF7538FA138B335738F4315361ABF8C73BF40593AE22BE4",
    "228845775A262505B47288E065B23B4A6D78AFBDDB2356B392C692EF56A35AB4"
    "AA27767DE72F058C6484457C95A8CCDD0EF225ABA56B7657B7F0E947DC17F972",
    "2630C6F79878E50CF5ABD353A6ED80BEACC7169179EA57435E44411BC7D56613"
    "6DFA983019F3443DE8E4C60940BC4E31DCEAD514D755AF95A622585D69572692",
    "7273E8342918E097B1C1F5FEF32A150AEF5E11184782B5BD5A1D8071E94578B0"
    "AC722D7BF49E8C78D391294371FFBA7B88FABF8CC03A62B940CE60D669DFB7B6",
    "087EA12042793307045B283D7305E93D8F74725034E77D25D3FF043ADC5F8B5B"
    "186DB70A968A816835EFB575952EAE7EA4E76DF0D5F097590E1A2A978025573E",
};

enum { MOST_BITS = 8176, MOST_CHECKS = 1022, MOST_ONES = 32, MOST_TIES = 5, MOST_ROWS = 28, MOST_SIZE = 511 };

struct code {
    unsigned word_octets, info_octets;
    unsigned size;                  /* M */
    unsigned block_rows, blocks;    /* block rows, and blocks in each */
    unsigned info_blocks;           /* how many of the blocks hold information */
    unsigned unsent;                /* leading zero bits that are not sent */
    const char *const *parity_text;
    const char *const *generator_text;

    /* Worked out from the text at first use. */
    bool ready;
    unsigned bits, checks, info_bits;
    unsigned ones[MOST_CHECKS];                       /* how many bits a check covers, */
    unsigned short covered[MOST_CHECKS][MOST_ONES];   /* and which */
    unsigned ties[MOST_BITS];                         /* how many checks a bit lies in, */
    unsigned short check_of[MOST_BITS][MOST_TIES];    /* and which */
    unsigned char row[MOST_ROWS][MOST_SIZE];          /* the printed generator rows, a bit an element */
};

static struct code codes[] = {
    {.word_octets = 16, .info_octets = 8, .size = 16, .block_rows = 4, .blocks = 8, .info_blocks = 4,
     .parity_text = parity_16, .generator_text = generator_16},
    {.word_octets = 32, .info_octets = 16, .size = 32, .block_rows = 4, .blocks = 8, .info_blocks = 4,
     .parity_text = parity_32, .generator_text = generator_32},
    {.word_octets = 64, .info_octets = 32, .size = 64, .block_rows = 4, .blocks = 8, .info_blocks = 4,
     .parity_text = parity_64, .generator_text = generator_64},
    {.word_octets = 1022, .info_octets = 895, .size = 511, .block_rows = 2, .blocks = 16, .info_blocks = 14,
     .parity_text = parity_511, .generator_text = generator_511},
    {.word_octets = 1020, .info_octets = 892, .size = 511, .block_rows = 2, .blocks = 16, .info_blocks = 14,
     .unsent = 18, .parity_text = parity_511, .generator_text = generator_511},
};

/* One entry s of a block: in row i of it, a one at column (i + s) mod M. */
static void add_entry(struct code *c, unsigned block_row, unsigned block, unsigned s)
{
    for (unsigned i = 0; i < c->size; i++) {
        unsigned check = block_row * c->size + i;
        unsigned bit = block * c->size + (i + s) % c->size;
        if (c->ones[check] == MOST_ONES || c->ties[bit] == MOST_TIES)
            abort();
        c->covered[check][c->ones[check]++] = (unsigned short)bit;
        c->check_of[bit][c->ties[bit]++] = (unsigned short)check;
    }
}

static void read_parity(struct code *c)
{
    for (unsigned r = 0; r < c->block_rows; r++) {
        const char *p = c->parity_text[r];
        for (unsigned b = 0; b < c->blocks; b++) {
            if (*p == '-') {
                p++;
            } else {
                char *end;
                add_entry(c, r, b, (unsigned)strtoul(p, &end, 10) % c->size);
                if (*end == ',')
                    add_entry(c, r, b, (unsigned)strtoul(end + 1, &end, 10) % c->size);
                p = end;
            }
            if (*p == ' ')
                p++;
        }
        if (*p != '\0')
            abort();
    }
}

static unsigned hex_digit(char digit)
{
    return digit <= '9' ? (unsigned)(digit - '0') : (unsigned)(digit - 'A') + 10;
}

/* A printed row is M bits; where its digits carry one bit more, that one stands in front and is dropped. */
static void read_generator(struct code *c)
{
    unsigned parts = c->blocks - c->info_blocks;
    for (unsigned n = 0; n < c->info_blocks * parts; n++) {
        const char *text = c->generator_text[n];
        unsigned pad = 4 * (unsigned)strlen(text) - c->size;
        if (pad > 1 || (pad == 1 && hex_digit(text[0]) >= 8))
            abort();
        for (unsigned k = 0; k < c->size; k++) {
            unsigned at = k + pad;
            c->row[n][k] = hex_digit(text[at / 4]) >> (3 - at % 4) & 1;
        }
    }
}

/* The code of a number from 1 to 5. */
static const struct code *code_of(uint8_t number)
{
    struct code *c = &codes[number - 1];
    if (!c->ready) {
        c->bits = c->blocks * c->size;
        c->checks = c->block_rows * c->size;
        c->info_bits = c->info_blocks * c->size;
        read_parity(c);
        read_generator(c);
        c->ready = true;
    }
    return c;
}

static bool offered(uint8_t code)
{
    return code >= 1 && code <= 5;
}

/* Bit 0 is the most significant bit of octet 0. */
static unsigned char get_bit(const uint8_t *octets, unsigned n)
{
    return octets[n / 8] >> (7 - n % 8) & 1;
}

/* The bits that the checks are over: the unsent ones as 0, then those of the octets. What the octets hold past the last
 * covered bit is not read. */
static void lift(const struct code *c, const uint8_t *octets, unsigned count, unsigned char *x)
{
    for (unsigned n = 0; n < c->unsent; n++)
        x[n] = 0;
    for (unsigned n = c->unsent; n < count; n++)
        x[n] = get_bit(octets, n - c->unsent);
}

/* The word as it is sent: without the unsent bits, and filled up with zeros. */
static void send_word(const struct code *c, const unsigned char *x, uint8_t *octets)
{
    for (unsigned i = 0; i < c->word_octets; i++)
        octets[i] = 0;
    for (unsigned n = c->unsent; n < c->bits; n++)
        if (x[n])
            octets[(n - c->unsent) / 8] |= (uint8_t)(0x80 >> (n - c->unsent) % 8);
}

/* sum[k + j mod size] += row[k]: the row shifted right circularly by j, added modulo 2. */
static void add_shifted(unsigned char *restrict sum, const unsigned char *restrict row, size_t size, size_t j)
{
    for (size_t k = 0; k < size - j; k++)
        sum[k + j] ^= row[k];
    for (size_t k = size - j; k < size; k++)
        sum[k + j - size] ^= row[k];
}

/* Parity: for each information bit that is 1, the row of its block, each part shifted by the bit's place in it. */
static void add_parity(const struct code *c, const unsigned char *x, unsigned char *parity)
{
    unsigned parts = c->blocks - c->info_blocks;
    memset(parity, 0, parts * c->size);
    for (unsigned n = 0; n < c->info_bits; n++)
        for (unsigned part = 0; x[n] && part < parts; part++)
            add_shifted(parity + part * c->size, c->row[n / c->size * parts + part], c->size, n % c->size);
}

static bool parity_is_the_encoders(const struct code *c, const unsigned char *x)
{
    unsigned char parity[MOST_CHECKS];
    add_parity(c, x, parity);
    return memcmp(parity, x + c->info_bits, c->bits - c->info_bits) == 0;
}

static unsigned char check_sum(const struct code *c, const unsigned char *x, unsigned check)
{
    unsigned char sum = 0;
    for (unsigned k = 0; k < c->ones[check]; k++)
        sum ^= x[c->covered[check][k]];
    return sum;
}

/* All checks of a word, 1 for a broken one; gives how many are broken. */
static uint32_t check_all(const struct code *c, const unsigned char *x, unsigned char *broken)
{
    uint32_t count = 0;
    for (unsigned check = 0; check < c->checks; check++) {
        broken[check] = check_sum(c, x, check);
        count += broken[check];
    }
    return count;
}

/* The lowest broken check, or the number of checks if none is broken. */
static uint32_t lowest_broken(const struct code *c, const unsigned char *broken)
{
    uint32_t check = 0;
    while (check < c->checks && !broken[check])
        check++;
    return check;
}

/* Broken checks of the bit less its met checks. */
static int excess_of(const struct code *c, const unsigned char *broken, unsigned bit)
{
    int excess = 0;
    for (unsigned k = 0; k < c->ties[bit]; k++)
        excess += broken[c->check_of[bit][k]] ? 1 : -1;
    return excess;
}

/* The sent bit of greatest excess; of several, the lowest number. */
static unsigned choose(const struct code *c, const unsigned char *broken, int *excess)
{
    unsigned best = c->unsent;
    *excess = excess_of(c, broken, best);
    for (unsigned bit = best + 1; bit < c->bits; bit++) {
        int e = excess_of(c, broken, bit);
        if (e > *excess) {
            *excess = e;
            best = bit;
        }
    }
    return best;
}

uint8_t judge_encode(uint8_t code, const uint8_t *info, size_t info_len, uint8_t *word, size_t word_len)
{
    if (!offered(code))
        return 1;
    const struct code *c = code_of(code);
    if (info_len != c->info_octets)
        return 2;
    if (word_len != c->word_octets)
        return 3;
    if (code == 4 && (info[894] & 0x3F) != 0)
        return 4;
    unsigned char x[MOST_BITS];
    lift(c, info, c->info_bits, x);
    add_parity(c, x, x + c->info_bits);
    send_word(c, x, word);
    return 0;
}

/* What is refused of a word in and a word out before a bit is read: the code, then the lengths. */
static uint8_t refused(uint8_t code, size_t len, size_t out_len)
{
    if (!offered(code))
        return 1;
    const struct code *c = code_of(code);
    if (len != c->word_octets)
        return 2;
    return out_len != c->word_octets ? 3 : 0;
}

struct judge_checked judge_check(uint8_t code, const uint8_t *word, size_t len)
{
    struct judge_checked answer = {0};
    answer.number = refused(code, len, len);
    if (answer.number != 0)
        return answer;
    const struct code *c = code_of(code);
    unsigned char x[MOST_BITS], broken[MOST_CHECKS];
    lift(c, word, c->bits, x);
    answer.broken = check_all(c, x, broken);
    answer.lowest = lowest_broken(c, broken);
    return answer;
}

/* Checks in order, to the first broken one. */
struct judge_answered judge_quick(uint8_t code, const uint8_t *word, size_t len)
{
    struct judge_answered answer = {0};
    answer.number = refused(code, len, len);
    if (answer.number != 0)
        return answer;
    const struct code *c = code_of(code);
    unsigned char x[MOST_BITS];
    lift(c, word, c->bits, x);
    for (unsigned check = 0; check < c->checks; check++) {
        answer.evaluated++;
        if (check_sum(c, x, check))
            return answer;
    }
    answer.yes = true;
    return answer;
}

struct judge_opened judge_open(uint8_t code, const uint8_t *word, size_t len)
{
    struct judge_opened answer = {0};
    if (!offered(code) || code == 4) {
        answer.number = 1;
        return answer;
    }
    const struct code *c = code_of(code);
    if (len != c->word_octets) {
        answer.number = 2;
        return answer;
    }
    unsigned char x[MOST_BITS], broken[MOST_CHECKS];
    lift(c, word, c->bits, x);
    bool after = false; /* whether a bit after the parity is set: code 5 has two */
    for (unsigned n = c->bits - c->unsent; n < 8 * c->word_octets; n++)
        if (get_bit(word, n))
            after = true;
    uint32_t count = check_all(c, x, broken);
    answer.lowest = lowest_broken(c, broken);
    answer.number = count > 0 ? 9 : after ? 14 : !parity_is_the_encoders(c, x) ? 15 : 0;
    answer.octets = answer.number == 0 ? c->info_octets : 0;
    return answer;
}

/* The run, from x to the word at its end: 0 where that is quiet, 5 or 6; the flips made, and the broken checks left. */
static uint8_t run(const struct code *c, unsigned char *x, uint16_t limit, uint32_t *flips, uint32_t *last)
{
    unsigned char broken[MOST_CHECKS];
    for (*flips = 0;; ++*flips) {
        *last = check_all(c, x, broken);
        if (*last == 0)
            return 0;
        int excess;
        unsigned bit = choose(c, broken, &excess);
        if (excess <= 0)
            return 5;
        if (*flips == limit)
            return 6;
        x[bit] ^= 1;
    }
}

/* What is refused after a quiet end: an unsent bit that is 1, then parity that is not the encoder's. */
static uint8_t refused_quiet(uint8_t code, const struct code *c, const unsigned char *x)
{
    for (unsigned n = 0; n < c->unsent; n++)
        if (x[n])
            return 7;
    return (code == 4 || code == 5) && !parity_is_the_encoders(c, x) ? 8 : 0;
}

/* In how many of the bits that the checks are over two words differ. */
static uint32_t count_unlike(const struct code *c, const unsigned char *x, const unsigned char *y)
{
    uint32_t count = 0;
    for (unsigned n = 0; n < c->bits; n++)
        if (x[n] != y[n])
            count++;
    return count;
}

struct judge_corrected judge_correct(uint8_t code, const uint8_t *word, size_t len, uint16_t limit, uint8_t *out,
                                     size_t out_len)
{
    struct judge_corrected answer = {0};
    answer.number = refused(code, len, out_len);
    if (answer.number != 0)
        return answer;
    const struct code *c = code_of(code);
    unsigned char received[MOST_BITS], x[MOST_BITS], broken[MOST_CHECKS];
    lift(c, word, c->bits, received);
    answer.first = check_all(c, received, broken);
    answer.lowest = lowest_broken(c, broken);
    memcpy(x, received, c->bits);
    answer.number = run(c, x, limit, &answer.flips, &answer.last);
    answer.unlike = count_unlike(c, received, x);
    if (answer.number == 0)
        answer.number = refused_quiet(code, c, x);
    if (answer.number == 0)
        send_word(c, x, out);
    return answer;
}

/* The run once more, with a record of each flip. No run has more flips than there are checks. */
struct judge_listed judge_list(uint8_t code, const uint8_t *word, size_t len, uint16_t limit, struct judge_fliprecord *table,
                               size_t places)
{
    struct judge_listed answer = {0};
    answer.number = refused(code, len, len);
    if (answer.number != 0)
        return answer;
    const struct code *c = code_of(code);
    unsigned char received[MOST_BITS], x[MOST_BITS], broken[MOST_CHECKS];
    struct judge_fliprecord list[MOST_CHECKS];
    lift(c, word, c->bits, received);
    memcpy(x, received, c->bits);
    answer.first = answer.last = check_all(c, x, broken);
    answer.lowest = lowest_broken(c, broken);
    while (answer.last > 0) {
        int excess;
        unsigned bit = choose(c, broken, &excess);
        if (excess <= 0) {
            answer.number = 5;
            answer.bit = bit;
            answer.excess = (int8_t)excess;
            break;
        }
        if (answer.flips == limit) {
            answer.number = 6;
            break;
        }
        if (answer.flips == c->checks)
            abort();
        x[bit] ^= 1;
        answer.last = check_all(c, x, broken);
        list[answer.flips++] = (struct judge_fliprecord){bit, (int8_t)excess, answer.last};
    }
    if (answer.flips > places)
        return (struct judge_listed){.number = 10};
    if (answer.number == 0)
        answer.number = refused_quiet(code, c, x);
    answer.unlike = count_unlike(c, received, x);
    for (uint32_t k = 0; k < answer.flips; k++)
        table[k] = list[k];
    return answer;
}

struct judge_stepped judge_step(uint8_t code, const uint8_t *word, size_t len, uint8_t *out, size_t out_len)
{
    struct judge_stepped answer = {0};
    answer.number = code == 5 ? 1 : refused(code, len, out_len);
    if (answer.number != 0)
        return answer;
    const struct code *c = code_of(code);
    unsigned char x[MOST_BITS], broken[MOST_CHECKS];
    lift(c, word, c->bits, x);
    if (check_all(c, x, broken) == 0) {
        answer.quiet = true;
        send_word(c, x, out);
        return answer;
    }
    int excess;
    unsigned bit = choose(c, broken, &excess);
    if (excess <= 0) {
        answer.number = 5;
        return answer;
    }
    x[bit] ^= 1;
    answer.bit = bit;
    answer.excess = (int8_t)excess;
    send_word(c, x, out);
    return answer;
}

bool judge_broken(uint8_t code, const uint8_t *word, uint32_t check)
{
    const struct code *c = code_of(code);
    unsigned char x[MOST_BITS];
    lift(c, word, c->bits, x);
    return check_sum(c, x, check) != 0;
}

void judge_checks(uint8_t code, const uint8_t *word, unsigned char *broken)
{
    const struct code *c = code_of(code);
    unsigned char x[MOST_BITS];
    lift(c, word, c->bits, x);
    check_all(c, x, broken);
}

int judge_excess(uint8_t code, const unsigned char *broken, uint32_t bit)
{
    return excess_of(code_of(code), broken, bit);
}
