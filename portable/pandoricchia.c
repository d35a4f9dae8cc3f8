/* Pandoricchia's proved library in C99: written by portable/translate from the MIR that was proved, and not to be edited.
 *
 * Crate after crate, callee before caller; `codes::correct` of the source is codes_correct here. A slice is handed over as a pointer, with
 * its length where that is used; a record above 128 octets by its address, and where it has an array and is given back, a function writes
 * it to where its caller wants it; a number of any sign as its bits, unsigned. No number overflows, no index is out of bounds and no shift
 * is as wide as its number: that is proved of the source. The translation is not proved.
 * docs/PORTABLE.md says what it was compared with. */
#include "pandoricchia.h"

#include <string.h>

/* A function of which each call has the loop to itself, where the compiler can be told so. */
#if defined(__GNUC__)
#define OWN_LOOP inline __attribute__((always_inline))
#else
#define OWN_LOOP inline
#endif

/* What this file takes for granted of the machine: each line is an error of the compiler where it does not hold. */
typedef char an_octet_has_8_bits[UINT8_MAX == 255 && sizeof(uint64_t) == 8 ? 1 : -1];
typedef char a_length_has_at_most_64_bits[sizeof(size_t) <= sizeof(uint64_t) ? 1 : -1];
typedef char a_float_has_32_bits[sizeof(float) == sizeof(uint32_t) ? 1 : -1];
#define OCTETS(record, field) sizeof(((pandoricchia_##record *)0)->field)
typedef char widths_of_checked[OCTETS(checked, number) == 1 && OCTETS(checked, broken) == 4
        && OCTETS(checked, lowest) == 4 ? 1 : -1];
typedef char widths_of_answered[OCTETS(answered, number) == 1 && OCTETS(answered, yes) == sizeof(bool)
        && OCTETS(answered, evaluated) == 4 ? 1 : -1];
typedef char widths_of_opened[OCTETS(opened, number) == 1 && OCTETS(opened, lowest) == 4
        && OCTETS(opened, octets) == sizeof(size_t) ? 1 : -1];
typedef char widths_of_corrected[OCTETS(corrected, number) == 1 && OCTETS(corrected, flips) == 4
        && OCTETS(corrected, first) == 4 && OCTETS(corrected, last) == 4 && OCTETS(corrected, unlike) == 4
        && OCTETS(corrected, lowest) == 4 ? 1 : -1];
typedef char widths_of_fliprecord[OCTETS(fliprecord, bit) == 4 && OCTETS(fliprecord, excess) == 1
        && OCTETS(fliprecord, left) == 4 ? 1 : -1];
typedef char widths_of_listed[OCTETS(listed, number) == 1 && OCTETS(listed, flips) == 4 && OCTETS(listed, first) == 4
        && OCTETS(listed, last) == 4 && OCTETS(listed, unlike) == 4 && OCTETS(listed, lowest) == 4
        && OCTETS(listed, bit) == 4 && OCTETS(listed, excess) == 1 ? 1 : -1];
typedef char widths_of_stepped[OCTETS(stepped, number) == 1 && OCTETS(stepped, quiet) == sizeof(bool)
        && OCTETS(stepped, bit) == 4 && OCTETS(stepped, excess) == 1 ? 1 : -1];
typedef char widths_of_reached[OCTETS(reached, number) == 1 && OCTETS(reached, least) == 4
        && OCTETS(reached, bits) == 12 ? 1 : -1];
typedef char widths_of_reading[OCTETS(reading, kept) == sizeof(pandoricchia_corrected) && OCTETS(reading, code) == 1
        && OCTETS(reading, limit) == 2 && OCTETS(reading, place) == sizeof(size_t) ? 1 : -1];
typedef char widths_of_handed[OCTETS(handed, corrected) == sizeof(pandoricchia_corrected)
        && OCTETS(handed, none) == sizeof(bool) && OCTETS(handed, next) == sizeof(pandoricchia_reading) ? 1 : -1];
typedef char widths_of_taking[OCTETS(taking, place) == sizeof(size_t) && OCTETS(taking, edition) == 1
        && OCTETS(taking, limit) == 2 && OCTETS(taking, octets) == 1020 ? 1 : -1];
typedef char widths_of_made[OCTETS(made, number) == 1 && OCTETS(made, taker) == sizeof(pandoricchia_taking) ? 1 : -1];
typedef char widths_of_taken[OCTETS(taken, next) == sizeof(pandoricchia_taking)
        && OCTETS(taken, taken) == sizeof(size_t) && OCTETS(taken, complete) == sizeof(bool)
        && OCTETS(taken, corrected) == sizeof(pandoricchia_corrected) && OCTETS(taken, word) == 1020 ? 1 : -1];
typedef char widths_of_mended[OCTETS(mended, number) == 1 && OCTETS(mended, mended) == 1 ? 1 : -1];
typedef char widths_of_imported[OCTETS(imported, number) == 1 && OCTETS(imported, block) == 4 ? 1 : -1];
#undef OCTETS

/* A part of an array that is lent: where it begins, and how many. */
typedef struct lent_float {
    const float *at;
    uint64_t len;
} lent_float;

/* A part of an array that is lent: where it begins, and how many. */
typedef struct lent_uint16_t {
    const uint16_t *at;
    uint64_t len;
} lent_uint16_t;

/* A part of an array that is lent: where it begins, and how many. */
typedef struct lent_uint32_t {
    const uint32_t *at;
    uint64_t len;
} lent_uint32_t;

/* A part of an array that is lent: where it begins, and how many. */
typedef struct lent_uint64_t {
    const uint64_t *at;
    uint64_t len;
} lent_uint64_t;

/* A part of an array that is lent: where it begins, and how many. */
typedef struct lent_uint8_t {
    const uint8_t *at;
    uint64_t len;
} lent_uint8_t;

/* A length for the caller; 0 where no object is that long. */
static inline size_t narrowed(uint64_t length)
{
    size_t n = (size_t)length;
    return n == length ? n : 0;
}

/* The number that bits have if the first of them is a sign. */
static inline int8_t signed8(uint8_t x)
{
    return x <= INT8_MAX ? (int8_t)x : (int8_t)(-(int8_t)(UINT8_MAX - x) - 1);
}

/* How many zeros are before the first one. */
static inline uint32_t leading_zeros64(uint64_t x)
{
    uint32_t n = 0;
    if (x == 0) {
        return 64;
    }
    if (x >> 32 == 0) {
        n += 32;
        x <<= 32;
    }
    if (x >> 48 == 0) {
        n += 16;
        x <<= 16;
    }
    if (x >> 56 == 0) {
        n += 8;
        x <<= 8;
    }
    if (x >> 60 == 0) {
        n += 4;
        x <<= 4;
    }
    if (x >> 62 == 0) {
        n += 2;
        x <<= 2;
    }
    return n + (uint32_t)(x >> 63 == 0);
}

/* How many ones there are. */
static inline uint32_t count_ones64(uint64_t x)
{
    x -= x >> 1 & UINT64_C(0x5555555555555555);
    x = (x & UINT64_C(0x3333333333333333)) + (x >> 2 & UINT64_C(0x3333333333333333));
    x = (x + (x >> 4)) & UINT64_C(0x0f0f0f0f0f0f0f0f);
    return (uint32_t)(x * UINT64_C(0x0101010101010101) >> 56);
}

/* The pattern of bits of a float that is lent; it is not read as a float, which some machines change. */
static inline uint32_t pattern_of(const float *x)
{
    uint32_t bits;
    memcpy(&bits, x, sizeof bits);
    return bits;
}

/* What a pointer points to where the caller hands over no elements. */
static const float no_float[1] = {0};
static const uint8_t no_uint8_t[1] = {0};

/* ---- refusals --------------------------------------------------------------------------------------- */

/* The refusals: one for each number that a call gives for what it does not do, and those that all calls share. */

/* Why a call refuses, by the names that the header has. */
enum { refusals_Refusal_Code = 0, refusals_Refusal_InputLength = 1, refusals_Refusal_OutputLength = 2,
        refusals_Refusal_LastSix = 3, refusals_Refusal_Stuck = 4, refusals_Refusal_Limit = 5,
        refusals_Refusal_Unsent = 6, refusals_Refusal_Parity = 7, refusals_Refusal_Broken = 8,
        refusals_Refusal_Places = 9, refusals_Refusal_NoStart = 10, refusals_Refusal_NoTail = 11,
        refusals_Refusal_NoBchWord = 12, refusals_Refusal_LastTwo = 13,
        refusals_Refusal_OtherParity = 14, refusals_Refusal_Sample = 15,
        refusals_Refusal_NoneNear = 16, refusals_Refusal_Reach = 17,
        refusals_Refusal_Edition = 18, refusals_Refusal_TooLong = 19,
        refusals_Refusal_BlockCheck = 20,
        refusals_Refusal_BlockNumber = 21,
        refusals_Refusal_BlockCount = 22 };
typedef struct refusals_Refusal {
    uint8_t tag;
} refusals_Refusal;

enum { refusals_Result_unit_Refusal_Ok = 0, refusals_Result_unit_Refusal_Err = 1 };
typedef struct refusals_Result_unit_Refusal {
    uint8_t tag;
    union {
        struct { refusals_Refusal field0; } Err;
    } as;
} refusals_Result_unit_Refusal;

typedef struct refusals_ErrResidual_Refusal {
    refusals_Refusal field0;
} refusals_ErrResidual_Refusal;

enum { refusals_ControlFlow_ErrResidual_Refusal_unit_Continue = 0,
        refusals_ControlFlow_ErrResidual_Refusal_unit_Break = 1 };
typedef struct refusals_ControlFlow_ErrResidual_Refusal_unit {
    uint8_t tag;
    union {
        struct { refusals_ErrResidual_Refusal field0; } Break;
    } as;
} refusals_ControlFlow_ErrResidual_Refusal_unit;

enum { refusals_Result_u8_Refusal_Ok = 0, refusals_Result_u8_Refusal_Err = 1 };
typedef struct refusals_Result_u8_Refusal {
    uint8_t tag;
    union {
        struct { uint8_t field0; } Ok;
        struct { refusals_Refusal field0; } Err;
    } as;
} refusals_Result_u8_Refusal;

/* Admits a call whose code is offered and whose input and output are as long as they must be; refused in this order. */
static inline refusals_Result_unit_Refusal refusals_admit(bool offered, uint64_t input, uint64_t long_,
        uint64_t output, uint64_t room)
{
    if (!offered) {
        return (refusals_Result_unit_Refusal){.tag = refusals_Result_unit_Refusal_Err,
                .as.Err = {.field0 = (refusals_Refusal){.tag = refusals_Refusal_Code}}};
    }
    if (input != long_) {
        return (refusals_Result_unit_Refusal){.tag = refusals_Result_unit_Refusal_Err,
                .as.Err = {.field0 = (refusals_Refusal){.tag = refusals_Refusal_InputLength}}};
    }
    if (output != room) {
        return (refusals_Result_unit_Refusal){.tag = refusals_Result_unit_Refusal_Err,
                .as.Err = {.field0 = (refusals_Refusal){.tag = refusals_Refusal_OutputLength}}};
    }
    return (refusals_Result_unit_Refusal){.tag = refusals_Result_unit_Refusal_Ok};
}

static inline refusals_ControlFlow_ErrResidual_Refusal_unit refusals_ResultTry_branch_unit_Refusal(
        refusals_Result_unit_Refusal p0)
{
    switch (p0.tag) {
    case refusals_Result_unit_Refusal_Ok:
        return (refusals_ControlFlow_ErrResidual_Refusal_unit){.tag = refusals_ControlFlow_ErrResidual_Refusal_unit_Continue};
    case refusals_Result_unit_Refusal_Err:
    default:
        return (refusals_ControlFlow_ErrResidual_Refusal_unit){.tag = refusals_ControlFlow_ErrResidual_Refusal_unit_Break, .as.Break = {.field0 = (refusals_ErrResidual_Refusal){.field0 = p0.as.Err.field0}}};
    }
}

static inline refusals_Refusal refusals_AnyFrom_from_Refusal(refusals_Refusal p0)
{
    return p0;
}

static inline refusals_Result_unit_Refusal refusals_ResultFromResidualErrResidual_from_residual_un(
        refusals_ErrResidual_Refusal p0)
{
    return (refusals_Result_unit_Refusal){.tag = refusals_Result_unit_Refusal_Err,
            .as.Err = {.field0 = refusals_AnyFrom_from_Refusal(p0.field0)}};
}

/* The number that C gets. */
static inline uint8_t refusals_Refusal_number(refusals_Refusal self)
{
    switch (self.tag) {
    case refusals_Refusal_Code:
        return 1;
    case refusals_Refusal_InputLength:
        return 2;
    case refusals_Refusal_OutputLength:
        return 3;
    case refusals_Refusal_LastSix:
        return 4;
    case refusals_Refusal_Stuck:
        return 5;
    case refusals_Refusal_Limit:
        return 6;
    case refusals_Refusal_Unsent:
        return 7;
    case refusals_Refusal_Parity:
        return 8;
    case refusals_Refusal_Broken:
        return 9;
    case refusals_Refusal_Places:
        return 10;
    case refusals_Refusal_NoStart:
        return 11;
    case refusals_Refusal_NoTail:
        return 12;
    case refusals_Refusal_NoBchWord:
        return 13;
    case refusals_Refusal_LastTwo:
        return 14;
    case refusals_Refusal_OtherParity:
        return 15;
    case refusals_Refusal_Sample:
        return 16;
    case refusals_Refusal_NoneNear:
        return 17;
    case refusals_Refusal_Reach:
        return 18;
    case refusals_Refusal_Edition:
        return 19;
    case refusals_Refusal_TooLong:
        return 20;
    case refusals_Refusal_BlockCheck:
        return 21;
    case refusals_Refusal_BlockNumber:
        return 22;
    case refusals_Refusal_BlockCount:
    default:
        return 23;
    }
}

/* The number of a call that gives nothing else: 0 where it is done. */
static inline uint8_t refusals_number(refusals_Result_unit_Refusal done)
{
    switch (done.tag) {
    case refusals_Result_unit_Refusal_Ok:
        return 0;
    case refusals_Result_unit_Refusal_Err:
    default: {
        refusals_Refusal refusal = done.as.Err.field0;
        return refusals_Refusal_number(refusal);
    }
    }
}

/* ---- core ------------------------------------------------------------------------------------------- */

/* What is used of the toolchain's own library, once for each type that it is used at. */

typedef struct core_alloc_AllocError {
    uint8_t nothing; /* it has no fields, but C asks for one */
} core_alloc_AllocError;

enum { core_Result_u64_AllocError_Ok = 0, core_Result_u64_AllocError_Err = 1 };
typedef struct core_Result_u64_AllocError {
    uint8_t tag;
    union {
        struct { uint64_t field0; } Ok;
        struct { core_alloc_AllocError field0; } Err;
    } as;
} core_Result_u64_AllocError;

enum { core_Option_u64_None = 0, core_Option_u64_Some = 1 };
typedef struct core_Option_u64 {
    uint8_t tag;
    union {
        struct { uint64_t field0; } Some;
    } as;
} core_Option_u64;

typedef struct core_option_NoValue {
    uint8_t nothing; /* it has no fields, but C asks for one */
} core_option_NoValue;

enum { core_ControlFlow_NoValue_u64_Continue = 0, core_ControlFlow_NoValue_u64_Break = 1 };
typedef struct core_ControlFlow_NoValue_u64 {
    uint8_t tag;
    union {
        struct { uint64_t field0; } Continue;
        struct { core_option_NoValue field0; } Break;
    } as;
} core_ControlFlow_NoValue_u64;

typedef struct core_ElementMismatch_u8 {
    lent_uint8_t field0;
    lent_uint8_t field1;
} core_ElementMismatch_u8;

typedef struct core_Iter_u8 {
    lent_uint8_t field0;
} core_Iter_u8;

enum { core_Option_ref_u8_None = 0, core_Option_ref_u8_Some = 1 };
typedef struct core_Option_ref_u8 {
    uint8_t tag;
    union {
        struct { const uint8_t *field0; } Some;
    } as;
} core_Option_ref_u8;

enum { core_Option_u32_None = 0, core_Option_u32_Some = 1 };
typedef struct core_Option_u32 {
    uint8_t tag;
    union {
        struct { uint32_t field0; } Some;
    } as;
} core_Option_u32;

enum { core_Result_u8_AllocError_Ok = 0, core_Result_u8_AllocError_Err = 1 };
typedef struct core_Result_u8_AllocError {
    uint8_t tag;
    union {
        struct { uint8_t field0; } Ok;
        struct { core_alloc_AllocError field0; } Err;
    } as;
} core_Result_u8_AllocError;

static inline core_Result_u64_AllocError core_clone_U64Clone_clone(const uint64_t *p0)
{
    return (core_Result_u64_AllocError){.tag = core_Result_u64_AllocError_Ok, .as.Ok = {.field0 = *p0}};
}

static inline uint64_t core_surely_u64(const uint64_t *p0)
{
    return core_clone_U64Clone_clone(p0).as.Ok.field0;
}

static inline void core_fill_u64(uint64_t *restrict p0, uint64_t p0_len, uint64_t p1)
{
    uint64_t t = p1;
    uint64_t t2 = p0_len;
    if (t2 == 0) {
        return;
    }
    uint64_t t3 = 0;
    while (t3 < t2 - 1) {
        p0[t3] = core_surely_u64(&t);
        t3 += 1;
    }
    p0[t2 - 1] = t;
}

static inline bool core_is_empty_u32(const float *p0, uint64_t p0_len)
{
    (void)p0;
    return p0_len == 0;
}

static inline uint8_t core_int_u8_max(uint8_t p0, uint8_t p1)
{
    if (p1 < p0) {
        return p0;
    }
    return p1;
}

static inline uint64_t core_int_usize_saturating_sub(uint64_t p0, uint64_t p1)
{
    if (p1 <= p0) {
        return p0 - p1;
    }
    return 0;
}

static inline uint64_t core_int_usize_min(uint64_t p0, uint64_t p1)
{
    if (p1 < p0) {
        return p1;
    }
    return p0;
}

static inline uint8_t core_int_u8_saturating_sub(uint8_t p0, uint8_t p1)
{
    if (p1 <= p0) {
        return (uint8_t)(p0 - p1);
    }
    return 0;
}

static inline void core_copy_from_slice_u64(uint64_t *restrict p0, uint64_t p0_len, const uint64_t *p1)
{
    uint64_t t = 0;
    while (t < p0_len) {
        p0[t] = p1[t];
        t += 1;
    }
}

static inline uint8_t core_convert_others_U8FromBool_from(bool p0)
{
    return (uint8_t)p0;
}

static inline uint32_t core_int_u32_saturating_sub(uint32_t p0, uint32_t p1)
{
    if (p1 <= p0) {
        return p0 - p1;
    }
    return 0;
}

static inline core_ControlFlow_NoValue_u64 core_OptionTry_branch_u64(core_Option_u64 p0)
{
    switch (p0.tag) {
    case core_Option_u64_Some:
        return (core_ControlFlow_NoValue_u64){.tag = core_ControlFlow_NoValue_u64_Continue,
                .as.Continue = {.field0 = p0.as.Some.field0}};
    case core_Option_u64_None:
    default:
        return (core_ControlFlow_NoValue_u64){.tag = core_ControlFlow_NoValue_u64_Break,
                .as.Break = {.field0 = (core_option_NoValue){0}}};
    }
}

static inline void core_copy_from_slice_u8(uint8_t *restrict p0, uint64_t p0_len, const uint8_t *p1)
{
    uint64_t t = 0;
    while (t < p0_len) {
        p0[t] = p1[t];
        t += 1;
    }
}

static inline uint64_t core_size_of_param_u8(void)
{
    return 1;
}

static inline uint64_t core_group_u8(void)
{
    uint64_t t = core_size_of_param_u8();
    return 32 * (uint64_t)(t == 1) + 16 * (uint64_t)(t == 2) + 8 * (uint64_t)(t == 4);
}

static inline bool core_cmp_numbers_U8PartialEq_eq(const uint8_t *p0, const uint8_t *p1)
{
    return *p0 == *p1;
}

static inline bool core_ElementMismatchPlaceTest_at_u8(const core_ElementMismatch_u8 *p0, uint64_t p1)
{
    return !core_cmp_numbers_U8PartialEq_eq(p0->field0.at + p1, p0->field1.at + p1);
}

static inline uint64_t core_first_by_one_ElementMismatch_u8(const core_ElementMismatch_u8 *p0, uint64_t p1, uint64_t p2)
{
    uint64_t t = p1;
    while (t < p2) {
        if (core_ElementMismatchPlaceTest_at_u8(p0, t)) {
            return t;
        }
        t += 1;
    }
    return p2;
}

static inline bool core_any_in_turn_ElementMismatch_u8(const core_ElementMismatch_u8 *p0, uint64_t p1)
{
    uint64_t t = 0;
    while (4 <= p1 - t) {
        if (core_first_by_one_ElementMismatch_u8(p0, t, t + 4) < t + 4) {
            return true;
        }
        t += 4;
    }
    return core_first_by_one_ElementMismatch_u8(p0, t, p1) < p1;
}

static inline bool core_any_in_run_ElementMismatch_u8(const core_ElementMismatch_u8 *p0, uint64_t p1, uint64_t p2)
{
    bool t = false;
    uint64_t t2 = 0;
    while (t2 < p2) {
        t = (int)t | core_ElementMismatchPlaceTest_at_u8(p0, p1 + t2);
        t2 += 1;
    }
    return t;
}

static inline bool core_any_in_three_ElementMismatch_u8(const core_ElementMismatch_u8 *p0, uint64_t p1)
{
    return (int)((int)core_any_in_run_ElementMismatch_u8(p0, 0, 1) | core_any_in_run_ElementMismatch_u8(p0, p1 / 2, 1))
            | core_any_in_run_ElementMismatch_u8(p0, p1 - 1, 1);
}

static inline bool core_any_in_ends_ElementMismatch_u8(const core_ElementMismatch_u8 *p0, uint64_t p1, uint64_t p2)
{
    return (int)core_any_in_run_ElementMismatch_u8(p0, 0, p2) | core_any_in_run_ElementMismatch_u8(p0, p1 - p2, p2);
}

static inline bool core_any_in_quarters_ElementMismatch_u8(const core_ElementMismatch_u8 *p0, uint64_t p1, uint64_t p2)
{
    uint64_t t = p1 - p2;
    return (int)((int)((int)core_any_in_run_ElementMismatch_u8(p0, 0, p2)
            | core_any_in_run_ElementMismatch_u8(p0, core_int_usize_min(p2, t), p2))
            | core_any_in_run_ElementMismatch_u8(p0, core_int_usize_min(2 * p2, t), p2))
            | core_any_in_run_ElementMismatch_u8(p0, t, p2);
}

static inline uint64_t core_skip_groups_ElementMismatch_u8(const core_ElementMismatch_u8 *p0, uint64_t p1, uint64_t p2,
        uint64_t p3)
{
    uint64_t t = p1;
    while (0 < p3 && p3 <= p2 - t && !core_any_in_run_ElementMismatch_u8(p0, t, p3)) {
        t += p3;
    }
    return t;
}

static inline bool core_any_by_groups_ElementMismatch_u8(const core_ElementMismatch_u8 *p0, uint64_t p1, uint64_t p2)
{
    if (p2 < 8) {
        return core_any_in_turn_ElementMismatch_u8(p0, p1);
    }
    if (p1 < p2 / 8) {
        return 0 < p1 && core_any_in_three_ElementMismatch_u8(p0, p1);
    }
    if (p1 <= p2 / 4) {
        return core_any_in_ends_ElementMismatch_u8(p0, p1, p2 / 8);
    }
    if (p1 <= p2) {
        return core_any_in_quarters_ElementMismatch_u8(p0, p1, p2 / 4);
    }
    if (p1 <= 2 * p2) {
        return core_any_in_ends_ElementMismatch_u8(p0, p1, p2);
    }
    if (p2 <= p1 - core_skip_groups_ElementMismatch_u8(p0, core_skip_groups_ElementMismatch_u8(p0, 0, p1, 2 * p2), p1,
            p2)) {
        return true;
    }
    return core_any_in_run_ElementMismatch_u8(p0, p1 - p2, p2);
}

static inline bool core_all_equal_u8(const uint8_t *p0, uint64_t p0_len, const uint8_t *p1, uint64_t p1_len)
{
    if (p0_len != p1_len) {
        return false;
    }
    core_ElementMismatch_u8 t = (core_ElementMismatch_u8){.field0 = (lent_uint8_t){p0, p0_len},
            .field1 = (lent_uint8_t){p1, p1_len}};
    return !core_any_by_groups_ElementMismatch_u8(&t, p0_len, core_group_u8());
}

static inline bool core_parts_equal_u8(const uint8_t *p0, uint64_t p0_len, const uint8_t *p1, uint64_t p1_len)
{
    return core_all_equal_u8(p0, p0_len, p1, p1_len);
}

static inline bool core_starts_with_u8(const uint8_t *p0, uint64_t p0_len, const uint8_t *p1, uint64_t p1_len)
{
    if (p0_len < p1_len) {
        return false;
    }
    return core_parts_equal_u8(p1, p1_len, p0, p1_len);
}

static inline bool core_any_by_one_ElementMismatch_u8(const core_ElementMismatch_u8 *p0, uint64_t p1)
{
    return core_first_by_one_ElementMismatch_u8(p0, 0, p1) < p1;
}

static inline bool core_groups_equal_u8(const uint8_t *p0, uint64_t p0_len, const uint8_t *p1, uint64_t p1_len)
{
    core_ElementMismatch_u8 t = (core_ElementMismatch_u8){.field0 = (lent_uint8_t){p0, p0_len},
            .field1 = (lent_uint8_t){p1, p1_len}};
    return !core_any_by_groups_ElementMismatch_u8(&t, p0_len, core_group_u8());
}

static inline bool core_slices_equal_u8(const uint8_t *p0, uint64_t p0_len, const uint8_t *p1, uint64_t p1_len)
{
    if (p0_len != p1_len) {
        return false;
    }
    if (core_group_u8() < 8) {
        return core_parts_equal_u8(p0, p0_len, p1, p1_len);
    }
    core_ElementMismatch_u8 t = (core_ElementMismatch_u8){.field0 = (lent_uint8_t){p0, p0_len},
            .field1 = (lent_uint8_t){p1, p1_len}};
    uint64_t t2 = core_group_u8() / 8;
    if (p0_len < t2) {
        return !core_any_by_one_ElementMismatch_u8(&t, p0_len);
    }
    if (core_any_in_run_ElementMismatch_u8(&t, 0, t2)) {
        return false;
    }
    return core_groups_equal_u8(p0, p0_len, p1, p1_len);
}

static inline bool core_RefSlicePartialEq_eq_u8(const lent_uint8_t *p0, const lent_uint8_t *p1)
{
    return core_slices_equal_u8((*p0).at, (*p0).len, (*p1).at, (*p1).len);
}

static inline uint16_t core_convert_U16FromU8_from(uint8_t p0)
{
    return p0;
}

static inline uint16_t core_int_u16_from_be_bytes(const uint8_t *p0)
{
    uint8_t t[2];
    memcpy(t, p0, 2);
    return (uint16_t)((uint16_t)t[0] * 256 + (uint16_t)t[1]);
}

static inline uint32_t core_int_u32_from_be_bytes(const uint8_t *p0)
{
    uint8_t t[4];
    memcpy(t, p0, 4);
    return (uint32_t)t[0] * 0x1000000 + (uint32_t)t[1] * 0x10000 + (uint32_t)t[2] * 256 + (uint32_t)t[3];
}

static inline core_Iter_u8 core_iter_u8(const uint8_t *p0, uint64_t p0_len)
{
    return (core_Iter_u8){.field0 = (lent_uint8_t){p0, p0_len}};
}

static inline bool core_is_empty_u8(const uint8_t *p0, uint64_t p0_len)
{
    (void)p0;
    return p0_len == 0;
}

static inline core_Option_ref_u8 core_IterIterator_next_u8(core_Iter_u8 *restrict p0)
{
    lent_uint8_t t = p0->field0;
    if (core_is_empty_u8(t.at, t.len)) {
        return (core_Option_ref_u8){.tag = core_Option_ref_u8_None};
    }
    p0->field0 = (lent_uint8_t){t.at + 1, t.len - 1};
    return (core_Option_ref_u8){.tag = core_Option_ref_u8_Some, .as.Some = {.field0 = t.at + 0}};
}

static inline void core_int_u32_to_be_bytes(uint32_t p0, uint8_t *restrict result)
{
    result[0] = (uint8_t)((p0 / 0x1000000) % 256);
    result[1] = (uint8_t)((p0 / 0x10000) % 256);
    result[2] = (uint8_t)((p0 / 256) % 256);
    result[3] = (uint8_t)(p0 % 256);
}

static inline void core_int_u16_to_be_bytes(uint16_t p0, uint8_t *restrict result)
{
    result[0] = (uint8_t)((p0 / 256) % 256);
    result[1] = (uint8_t)(p0 % 256);
}

static inline core_Result_u8_AllocError core_clone_U8Clone_clone(const uint8_t *p0)
{
    return (core_Result_u8_AllocError){.tag = core_Result_u8_AllocError_Ok, .as.Ok = {.field0 = *p0}};
}

static inline uint8_t core_surely_u8(const uint8_t *p0)
{
    return core_clone_U8Clone_clone(p0).as.Ok.field0;
}

static inline void core_fill_u8(uint8_t *restrict p0, uint64_t p0_len, uint8_t p1)
{
    uint8_t t = p1;
    uint64_t t2 = p0_len;
    if (t2 == 0) {
        return;
    }
    uint64_t t3 = 0;
    while (t3 < t2 - 1) {
        p0[t3] = core_surely_u8(&t);
        t3 += 1;
    }
    p0[t2 - 1] = t;
}

/* ---- vectors ---------------------------------------------------------------------------------------- */

/* Vectors of bits in words of 64. */

/* Two words, one after the other. */
typedef struct vectors_Pair {
    uint64_t first;
    uint64_t second;
} vectors_Pair;

/* The number of the first n octets from octet at on. */
static inline uint64_t vectors_gathered(const uint8_t *octets, uint64_t at, uint64_t n)
{
    uint64_t number = 0;
    lent_uint8_t t = (lent_uint8_t){octets + at, at + n - at};
    uint64_t octet = 0;
    uint64_t t2 = t.len;
    while (octet < t2) {
        const uint8_t *t3 = t.at + octet;
        number = number * 256 + (uint64_t)*t3;
        octet += 1;
    }
    return number;
}

/* The 64 bits of the eight octets from octet at on: in two halves the compiler knows them as one load. */
static inline uint64_t vectors_eight(const uint8_t *octets, uint64_t at)
{
    return (vectors_gathered(octets, at, 4) << 32) | vectors_gathered(octets, at + 4, 4);
}

/* The 64 bits of a and then b from bit t on. */
static inline uint64_t vectors_funnel(uint64_t a, uint64_t b, uint64_t t)
{
    if (t == 0) {
        return a;
    }
    return (a << t) | (b >> (64 - t));
}

/* The first t bits of v. */
static inline uint64_t vectors_front(uint64_t v, uint64_t t)
{
    if (t == 64) {
        return v;
    }
    return v ^ ((v << t) >> t);
}

/* Clears the bits from bit n on of the word that has it. */
static inline void vectors_trim_word(uint64_t *restrict ws, uint64_t n)
{
    uint64_t k = n / 64;
    ws[k] = vectors_front(ws[k], n % 64);
}

/* Clears the bits from bit n on. */
static inline void vectors_trim(uint64_t *restrict ws, uint64_t ws_len, uint64_t n)
{
    uint64_t k = n / 64;
    if (k < ws_len) {
        vectors_trim_word(ws, n);
        uint64_t t = k + 1;
        core_fill_u64(ws + t, ws_len - t, 0);
    }
}

/* All bits u places later, of which the last u are 0; zeros in front. */
static inline void vectors_lift(uint64_t *restrict ws, uint64_t ws_len, uint64_t u)
{
    if (0 < u) {
        uint64_t before = 0;
        uint64_t t = 0;
        uint64_t t2 = ws_len;
        while (t < t2) {
            uint64_t *word = ws + t;
            uint64_t v = *word;
            *word = vectors_funnel(before, v, 64 - u);
            before = v;
            t += 1;
        }
    }
}

/* The words of v that have a right neighbour among its first n, and n words behind each of them the 64 bits that
 * begin t bits later in v. */
static inline void vectors_double_words(const uint64_t *v, uint64_t n, uint64_t t, uint64_t *restrict d)
{
    uint64_t a = v[0];
    uint64_t k = 0;
    uint64_t t2 = n - 1;
    while (k < t2) {
        uint64_t b = v[k + 1];
        d[k] = a;
        d[n + k] = vectors_funnel(a, b, t);
        a = b;
        k += 1;
    }
}

/* The m bits of v twice over. They stand in n words, t bits short of filling them, so they begin again t bits before
 * word n. */
static inline void vectors_double(const uint64_t *v, uint64_t m, uint64_t *restrict d, uint64_t d_len)
{
    uint64_t n = (m + 63) / 64;
    uint64_t t = 64 * n - m;
    vectors_double_words(v, n, t, d);
    uint64_t a = v[n - 1];
    d[n - 1] = a | ((v[0] >> 1) >> (63 - t));
    if (2 * n - 1 < d_len) {
        d[2 * n - 1] = vectors_funnel(a, 0, t);
        vectors_trim(d, d_len, 128 * n);
    }
}

/* The 64 bits from bit t of word q on. */
static inline uint64_t vectors_span(const uint64_t *y, uint64_t q, uint64_t t)
{
    return vectors_funnel(y[q], y[q + 1], t);
}

/* Adds the w words of d from bit s on to those of acc from word at on. */
static inline void vectors_add_turned(const uint64_t *d, uint64_t s, uint64_t *restrict acc, uint64_t at, uint64_t w)
{
    uint64_t q = s / 64;
    uint64_t t = s % 64;
    uint64_t j = 0;
    while (j < w) {
        acc[at + j] ^= vectors_span(d, q + j, t);
        j += 1;
    }
}

/* Adds the 64 bits of v to word at of acc. */
static inline void vectors_add_word(uint64_t v, uint64_t *restrict acc, uint64_t at)
{
    acc[at] ^= v;
}

static inline void vectors_copying_copy(const uint8_t *octets, uint64_t octets_len, uint8_t *restrict out)
{
    uint64_t i = 0;
    uint64_t t = octets_len;
    while (i < t) {
        out[i] = octets[i];
        i += 1;
    }
}

/* Writes the first n octets of v from octet at on. */
static inline void vectors_put(uint64_t v, uint64_t n, uint8_t *restrict out, uint64_t at)
{
    uint64_t j = 0;
    while (j < n) {
        out[at + j] = (uint8_t)((v >> (56 - 8 * j)) % 256);
        j += 1;
    }
}

/* The octets of the bits from bit u on. */
static inline void vectors_store(const uint64_t *ws, uint64_t u, uint8_t *restrict out, uint64_t out_len)
{
    uint64_t q = u / 64;
    uint64_t t = u % 64;
    uint64_t whole = out_len / 8;
    uint64_t k = 0;
    while (k < whole) {
        vectors_put(vectors_span(ws, q + k, t), 8, out, 8 * k);
        k += 1;
    }
    uint64_t rest = out_len % 8;
    if (0 < rest) {
        vectors_put(vectors_span(ws, q + whole, t), rest, out, 8 * whole);
    }
}

/* The words that the octets fill whole. */
static inline void vectors_load_whole(const uint8_t *octets, uint64_t octets_len, uint64_t *restrict ws)
{
    uint64_t whole = octets_len / 8;
    uint64_t k = 0;
    while (k < whole) {
        ws[k] = vectors_eight(octets, 8 * k);
        k += 1;
    }
}

/* The octets behind the words that they fill whole, fewer than eight, and zeros behind them. */
static inline uint64_t vectors_last(const uint8_t *octets, uint64_t octets_len)
{
    uint64_t n = octets_len % 8;
    if (n == 0) {
        return 0;
    }
    return vectors_gathered(octets, octets_len - n, n) << (64 - 8 * n);
}

/* The octets, put in front of a vector of zeros. */
static inline void vectors_load(const uint8_t *octets, uint64_t octets_len, uint64_t *restrict ws, uint64_t ws_len)
{
    vectors_load_whole(octets, octets_len, ws);
    uint64_t k = octets_len / 8;
    if (k < ws_len) {
        ws[k] = vectors_last(octets, octets_len);
    }
}

/* The 64 bits from bit p on. */
static inline uint64_t vectors_window(const uint64_t *y, uint64_t p)
{
    return vectors_span(y, p / 64, p % 64);
}

/* The m bits of v twice over, where one word holds them. Two shifts to the right, since m may be 64. */
static inline vectors_Pair vectors_double_word(uint64_t v, uint64_t m)
{
    return (vectors_Pair){.first = v | ((v >> 1) >> (m - 1)), .second = vectors_funnel(v, 0, 64 - m)};
}

/* The words that the octets fill whole, all bits u places later, and the last of them as it was. */
static inline uint64_t vectors_load_whole_later(const uint8_t *octets, uint64_t octets_len, uint64_t u,
        uint64_t *restrict ws)
{
    uint64_t whole = octets_len / 8;
    uint64_t before = 0;
    uint64_t k = 0;
    while (k < whole) {
        uint64_t v = vectors_eight(octets, 8 * k);
        ws[k] = vectors_funnel(before, v, 64 - u);
        before = v;
        k += 1;
    }
    return before;
}

/* The octets, put u bits behind the front of a vector of zeros: moved as they are loaded, since a sweep of its own
 * takes longer. */
static inline void vectors_load_later(const uint8_t *octets, uint64_t octets_len, uint64_t u, uint64_t *restrict ws)
{
    uint64_t before = vectors_load_whole_later(octets, octets_len, u, ws);
    uint64_t k = octets_len / 8;
    uint64_t v = vectors_last(octets, octets_len);
    ws[k] = vectors_funnel(before, v, 64 - u);
    ws[k + 1] = vectors_funnel(v, 0, 64 - u);
}

/* The m bits from bit p on. */
static inline void vectors_cut(const uint64_t *y, uint64_t p, uint64_t m, uint64_t *restrict v, uint64_t v_len)
{
    uint64_t q = p / 64;
    uint64_t t = p % 64;
    uint64_t k = 0;
    uint64_t t2 = v_len;
    while (k < t2) {
        uint64_t *word = v + k;
        *word = vectors_span(y, q + k, t);
        k += 1;
    }
    vectors_trim(v, v_len, m);
}

/* How many bits are set. */
static inline uint64_t vectors_ones(const uint64_t *ws, uint64_t ws_len)
{
    uint64_t n = 0;
    uint64_t t = 0;
    uint64_t t2 = ws_len;
    while (t < t2) {
        const uint64_t *word = ws + t;
        n += (uint64_t)count_ones64(*word);
        t += 1;
    }
    return n;
}

/* How many words in front are 0, counted by fours. */
static inline uint64_t vectors_skip(const uint64_t *ws, uint64_t ws_len)
{
    uint64_t fours = ws_len / 4;
    uint64_t j = 0;
    while (j < fours) {
        uint64_t k = 4 * j;
        if ((ws[k] | ws[k + 1] | (ws[k + 2] | ws[k + 3])) != 0) {
            return k;
        }
        j += 1;
    }
    return 4 * fours;
}

/* The first bit that is set, or the number of bits if none is. */
static inline uint64_t vectors_first(const uint64_t *ws, uint64_t ws_len)
{
    uint64_t k = vectors_skip(ws, ws_len);
    uint64_t t = ws_len;
    while (k < t) {
        if (ws[k] != 0) {
            return 64 * k + (uint64_t)leading_zeros64(ws[k]);
        }
        k += 1;
    }
    return 64 * ws_len;
}

/* Whether a bit is set. */
static inline bool vectors_any(const uint64_t *ws, uint64_t ws_len)
{
    uint64_t v = 0;
    uint64_t t = 0;
    uint64_t t2 = ws_len;
    while (t < t2) {
        const uint64_t *word = ws + t;
        v |= *word;
        t += 1;
    }
    return v != 0;
}

/* Flips bit n. */
static inline void vectors_flip_bit(uint64_t *restrict ws, uint64_t n)
{
    uint64_t q = n / 64;
    ws[q] ^= UINT64_C(1) << (63 - n % 64);
}

/* Whether bit n is set. */
static inline bool vectors_is_set(const uint64_t *ws, uint64_t n)
{
    return (ws[n / 64] >> (63 - n % 64)) % 2 == 1;
}

/* ---- bch -------------------------------------------------------------------------------------------- */

/* The older BCH words: encoding, and checking in two modes. A word is divided as a whole: each coefficient of the
 * remainder is the sum of the bits at the ones of one row. */

/* A record of C's: its number says whether the rest counts. */
typedef pandoricchia_mended bch_Mended;

/* Row j has a one for each bit of a word that counts towards the coefficient of x^(6-j) of its remainder. The fill
 * bit is in none. */
static const uint64_t bch_ROWS[7] = {
    UINT64_C(0xA9912D8E86B9EF80), UINT64_C(0xFD59BB49C5E51840), UINT64_C(0x7EACDDA4E2F28C20),
    UINT64_C(0x3F566ED271794610), UINT64_C(0x1FAB376938BCA308), UINT64_C(0xA644B63A1AE7BE04),
    UINT64_C(0x53225B1D0D73DF02),
};

/* The bits of eight octets at most, zeros behind them. */
static inline uint64_t bch_taken(const uint8_t *octets, uint64_t octets_len)
{
    uint64_t y[2] = {0};
    vectors_load(octets, octets_len, y, 2);
    return y[0];
}

/* 1 if an odd number of bits are set. */
static inline uint64_t bch_odd(uint64_t v)
{
    return count_ones64(v) % 2;
}

/* What the generator leaves of a word's 63 bits. */
static inline uint64_t bch_divide(uint64_t v)
{
    uint64_t r = 0;
    uint64_t t = 0;
    while (t < 7) {
        uint64_t row = bch_ROWS[t];
        r = 2 * r + bch_odd(row & v);
        t += 1;
    }
    return r;
}

/* The octets of a word, the fill bit 0. */
static inline void bch_write(uint64_t v, uint8_t *restrict out, uint64_t out_len)
{
    uint64_t y[2] = {0};
    y[0] = v & UINT64_C(0xFFFFFFFFFFFFFFFE);
    vectors_store(y, 0, out, out_len);
}

/* The word of the information, or why there is none. */
static inline refusals_Result_unit_Refusal bch_encoded(const uint8_t *information, uint64_t information_len,
        uint8_t *restrict word, uint64_t word_len)
{
    if (information_len != 7) {
        return (refusals_Result_unit_Refusal){.tag = refusals_Result_unit_Refusal_Err,
                .as.Err = {.field0 = (refusals_Refusal){.tag = refusals_Refusal_InputLength}}};
    }
    if (word_len != 8) {
        return (refusals_Result_unit_Refusal){.tag = refusals_Result_unit_Refusal_Err,
                .as.Err = {.field0 = (refusals_Refusal){.tag = refusals_Refusal_OutputLength}}};
    }
    uint64_t v = bch_taken(information, information_len);
    uint64_t r = bch_divide(v);
    bch_write(v ^ (r * 2) ^ 254, word, word_len);
    return (refusals_Result_unit_Refusal){.tag = refusals_Result_unit_Refusal_Ok};
}

/* Information in, word out. */
static inline uint8_t bch_bch_encode(const uint8_t *information, uint64_t information_len, uint8_t *restrict word,
        uint64_t word_len)
{
    refusals_Result_unit_Refusal t = bch_encoded(information, information_len, word, word_len);
    return refusals_number(t);
}

/* The bits of the 63 each of which alone leaves r. */
static inline uint64_t bch_places(uint64_t r)
{
    uint64_t m = UINT64_C(0xFFFFFFFFFFFFFFFE);
    uint64_t j = 0;
    const uint64_t *t = bch_ROWS;
    while (j < 7) {
        const uint64_t *row = t + j;
        if ((r >> (6 - j)) % 2 == 1) {
            m &= *row;
        } else {
            m &= *row ^ UINT64_C(0xFFFFFFFFFFFFFFFF);
        }
        j += 1;
    }
    return m;
}

/* How many bits are mended of a word of the right length, which goes into an output of the right length. */
static inline refusals_Result_u8_Refusal bch_judge(bool detect_only, const uint8_t *word, uint64_t word_len,
        uint8_t *restrict out, uint64_t out_len)
{
    uint64_t v = bch_taken(word, word_len);
    uint64_t r = bch_divide(v ^ 254);
    if (r == 0) {
        bch_write(v, out, out_len);
        return (refusals_Result_u8_Refusal){.tag = refusals_Result_u8_Refusal_Ok, .as.Ok = {.field0 = 0}};
    }
    if (detect_only) {
        return (refusals_Result_u8_Refusal){.tag = refusals_Result_u8_Refusal_Err,
                .as.Err = {.field0 = (refusals_Refusal){.tag = refusals_Refusal_NoBchWord}}};
    }
    uint64_t m = bch_places(r);
    if (m == 0) {
        return (refusals_Result_u8_Refusal){.tag = refusals_Result_u8_Refusal_Err,
                .as.Err = {.field0 = (refusals_Refusal){.tag = refusals_Refusal_NoBchWord}}};
    }
    bch_write(v ^ m, out, out_len);
    return (refusals_Result_u8_Refusal){.tag = refusals_Result_u8_Refusal_Ok, .as.Ok = {.field0 = 1}};
}

/* The same of a word and an output of any length. */
static inline refusals_Result_u8_Refusal bch_checked(bool detect_only, const uint8_t *word, uint64_t word_len,
        uint8_t *restrict out, uint64_t out_len)
{
    if (word_len != 8) {
        return (refusals_Result_u8_Refusal){.tag = refusals_Result_u8_Refusal_Err,
                .as.Err = {.field0 = (refusals_Refusal){.tag = refusals_Refusal_InputLength}}};
    }
    if (out_len != 8) {
        return (refusals_Result_u8_Refusal){.tag = refusals_Result_u8_Refusal_Err,
                .as.Err = {.field0 = (refusals_Refusal){.tag = refusals_Refusal_OutputLength}}};
    }
    return bch_judge(detect_only, word, word_len, out, out_len);
}

/* Single error correction, or detect-only: the word out, or 13. */
static inline bch_Mended bch_bch_check(bool detect_only, const uint8_t *word, uint64_t word_len, uint8_t *restrict out,
        uint64_t out_len)
{
    refusals_Result_u8_Refusal t = bch_checked(detect_only, word, word_len, out, out_len);
    switch (t.tag) {
    case refusals_Result_u8_Refusal_Ok: {
        uint8_t mended = t.as.Ok.field0;
        return (bch_Mended){.number = 0, .mended = mended};
    }
    case refusals_Result_u8_Refusal_Err:
    default: {
        refusals_Refusal refusal = t.as.Err.field0;
        return (bch_Mended){.number = refusals_Refusal_number(refusal), .mended = 0};
    }
    }
}

/* ---- blocks ----------------------------------------------------------------------------------------- */

/* No functions: recordings in blocks of 512 octets, the definitions in specs/ and the theorems in proofs/. */

/* The table, for a caller to lend again and again. */
typedef struct blocks_framecheck_Remainders {
    uint16_t entries[256];
} blocks_framecheck_Remainders;

typedef struct blocks_importing_fn_clear_all_Self {
    uint8_t nothing; /* it has no fields, but C asks for one */
} blocks_importing_fn_clear_all_Self;

/* Why octets are refused, and the place of the block at fault; 0 where no block is. */
typedef struct blocks_importing_Faulty {
    refusals_Refusal refusal;
    uint32_t block;
} blocks_importing_Faulty;

enum { blocks_Result_unit_Faulty_Ok = 0, blocks_Result_unit_Faulty_Err = 1 };
typedef struct blocks_Result_unit_Faulty {
    uint8_t tag;
    union {
        struct { blocks_importing_Faulty field0; } Err;
    } as;
} blocks_Result_unit_Faulty;

/* A record of C's: its number says whether the rest counts. */
typedef pandoricchia_imported blocks_importing_Imported;

/* The remainder of every octet's polynomial times x^16. */
static const uint16_t blocks_framecheck_TABLE[256] = {
    0, 4129, 8258, 12387, 16516, 20645, 24774, 28903, 33032, 37161, 41290, 45419, 49548, 53677, 57806, 61935, 4657, 528,
    12915, 8786, 21173, 17044, 29431, 25302, 37689, 33560, 45947, 41818, 54205, 50076, 62463, 58334, 9314, 13379, 1056,
    5121, 25830, 29895, 17572, 21637, 42346, 46411, 34088, 38153, 58862, 62927, 50604, 54669, 13907, 9842, 5649, 1584,
    30423, 26358, 22165, 18100, 46939, 42874, 38681, 34616, 63455, 59390, 55197, 51132, 18628, 22757, 26758, 30887,
    2112, 6241, 10242, 14371, 51660, 55789, 59790, 63919, 35144, 39273, 43274, 47403, 23285, 19156, 31415, 27286, 6769,
    2640, 14899, 10770, 56317, 52188, 64447, 60318, 39801, 35672, 47931, 43802, 27814, 31879, 19684, 23749, 11298,
    15363, 3168, 7233, 60846, 64911, 52716, 56781, 44330, 48395, 36200, 40265, 32407, 28342, 24277, 20212, 15891, 11826,
    7761, 3696, 65439, 61374, 57309, 53244, 48923, 44858, 40793, 36728, 37256, 33193, 45514, 41451, 53516, 49453, 61774,
    57711, 4224, 161, 12482, 8419, 20484, 16421, 28742, 24679, 33721, 37784, 41979, 46042, 49981, 54044, 58239, 62302,
    689, 4752, 8947, 13010, 16949, 21012, 25207, 29270, 46570, 42443, 38312, 34185, 62830, 58703, 54572, 50445, 13538,
    9411, 5280, 1153, 29798, 25671, 21540, 17413, 42971, 47098, 34713, 38840, 59231, 63358, 50973, 55100, 9939, 14066,
    1681, 5808, 26199, 30326, 17941, 22068, 55628, 51565, 63758, 59695, 39368, 35305, 47498, 43435, 22596, 18533, 30726,
    26663, 6336, 2273, 14466, 10403, 52093, 56156, 60223, 64286, 35833, 39896, 43963, 48026, 19061, 23124, 27191, 31254,
    2801, 6864, 10931, 14994, 64814, 60687, 56684, 52557, 48554, 44427, 40424, 36297, 31782, 27655, 23652, 19525, 15522,
    11395, 7392, 3265, 61215, 65342, 53085, 57212, 44955, 49082, 36825, 40952, 28183, 32310, 20053, 24180, 11923, 16050,
    3793, 7920,
};

/* Whether so many octets are whole blocks, at most 128 of them. */
static inline bool blocks_importing_is_whole(uint64_t long_)
{
    return long_ % 512 == 0 && long_ / 512 <= 128;
}

static inline void blocks_framecheck_table(blocks_framecheck_Remainders *restrict result)
{
    memcpy(result->entries, blocks_framecheck_TABLE, 256 * sizeof(uint16_t));
}

/* The frame check over octets; the table is lent. */
static inline uint16_t blocks_framecheck_over(const uint8_t *octets, uint64_t octets_len,
        const blocks_framecheck_Remainders *t)
{
    uint16_t r = 65535;
    uint64_t t2 = 0;
    uint64_t t3 = octets_len;
    while (t2 < t3) {
        const uint8_t *octet = octets + t2;
        r = (uint16_t)((uint16_t)((uint32_t)r << 8)
                ^ t->entries[(uint64_t)((r >> 8) ^ core_convert_U16FromU8_from(*octet))]);
        t2 += 1;
    }
    return r;
}

/* Whether the check of a block is right. */
static inline bool blocks_importing_is_sound(const uint8_t *block, const blocks_framecheck_Remainders *t)
{
    uint8_t t2[2] = {block[510], block[511]};
    return blocks_framecheck_over(block, 510, t) == core_int_u16_from_be_bytes(t2);
}

/* The number that a block says of itself. */
static inline uint64_t blocks_importing_number(const uint8_t *block)
{
    uint8_t t[4] = {block[0], block[1], block[2], block[3]};
    return core_int_u32_from_be_bytes(t);
}

/* How many octets of a block are used. */
static inline uint64_t blocks_importing_used(const uint8_t *block)
{
    uint8_t t[2] = {block[4], block[5]};
    return core_int_u16_from_be_bytes(t);
}

static inline bool blocks_importing_count_right(bool last, uint64_t used)
{
    if (last) {
        return 1 <= used && used <= 504;
    }
    return used == 504;
}

static inline bool blocks_importing_fn_clear_all(blocks_importing_fn_clear_all_Self *restrict p0, const uint8_t *p1)
{
    (void)p0;
    return *p1 == 0;
}

static inline bool blocks_importing_fn_clear_all_FnMut_call_mut(blocks_importing_fn_clear_all_Self *restrict p0,
        const uint8_t *p1)
{
    return blocks_importing_fn_clear_all(p0, p1);
}

static inline bool blocks_Iterator_all_Iter_u8_ref_u8_all(core_Iter_u8 *restrict p0,
        blocks_importing_fn_clear_all_Self p1)
{
    blocks_importing_fn_clear_all_Self t = p1;
    for (;;) {
        core_Option_ref_u8 t2 = core_IterIterator_next_u8(p0);
        switch (t2.tag) {
        case core_Option_ref_u8_Some:
            if (!blocks_importing_fn_clear_all_FnMut_call_mut(&t, t2.as.Some.field0)) {
                return false;
            }
            break;
        case core_Option_ref_u8_None:
        default:
            goto end;
        }
    }
    end:;
    return true;
}

/* Whether all of the octets are zeros. */
static inline bool blocks_importing_clear(const uint8_t *octets, uint64_t octets_len)
{
    core_Iter_u8 t = core_iter_u8(octets, octets_len);
    return blocks_Iterator_all_Iter_u8_ref_u8_all(&t, (blocks_importing_fn_clear_all_Self){0});
}

/* Whether zeros stand after the used octets. */
static inline bool blocks_importing_is_filled(const uint8_t *block, uint64_t used)
{
    uint64_t from = 6 + used;
    return blocks_importing_clear(block + from, 510 - from);
}

/* The fault of a block at a place: its check, its number, its count or its filling. */
static inline refusals_Result_unit_Refusal blocks_importing_fault(uint64_t place, bool last, const uint8_t *block,
        const blocks_framecheck_Remainders *t)
{
    if (!blocks_importing_is_sound(block, t)) {
        return (refusals_Result_unit_Refusal){.tag = refusals_Result_unit_Refusal_Err,
                .as.Err = {.field0 = (refusals_Refusal){.tag = refusals_Refusal_BlockCheck}}};
    }
    if (blocks_importing_number(block) != place) {
        return (refusals_Result_unit_Refusal){.tag = refusals_Result_unit_Refusal_Err,
                .as.Err = {.field0 = (refusals_Refusal){.tag = refusals_Refusal_BlockNumber}}};
    }
    uint64_t n = blocks_importing_used(block);
    if (!blocks_importing_count_right(last, n)) {
        return (refusals_Result_unit_Refusal){.tag = refusals_Result_unit_Refusal_Err,
                .as.Err = {.field0 = (refusals_Refusal){.tag = refusals_Refusal_BlockCount}}};
    }
    if (!blocks_importing_is_filled(block, n)) {
        return (refusals_Result_unit_Refusal){.tag = refusals_Result_unit_Refusal_Err,
                .as.Err = {.field0 = (refusals_Refusal){.tag = refusals_Refusal_BlockCount}}};
    }
    return (refusals_Result_unit_Refusal){.tag = refusals_Result_unit_Refusal_Ok};
}

/* The fault of the lowest block at fault, with its place. */
static inline blocks_Result_unit_Faulty blocks_importing_first_fault(const uint8_t *blocks, uint64_t n,
        const blocks_framecheck_Remainders *t)
{
    uint64_t k = 0;
    while (k < n) {
        uint64_t at = k * 512;
        refusals_Result_unit_Refusal t2 = blocks_importing_fault(k, k + 1 == n, blocks + at, t);
        switch (t2.tag) {
        case refusals_Result_unit_Refusal_Ok:
            break;
        case refusals_Result_unit_Refusal_Err:
        default: {
            refusals_Refusal refusal = t2.as.Err.field0;
            return (blocks_Result_unit_Faulty){.tag = blocks_Result_unit_Faulty_Err,
                    .as.Err = {.field0 = (blocks_importing_Faulty){.refusal = refusal, .block = (uint32_t)k}}};
        }
        }
        k += 1;
    }
    return (blocks_Result_unit_Faulty){.tag = blocks_Result_unit_Faulty_Ok};
}

/* What is at fault with some octets: a length not of whole blocks or too many, then the lowest block at fault. */
static inline blocks_Result_unit_Faulty blocks_importing_found(const uint8_t *blocks, uint64_t blocks_len)
{
    if (!blocks_importing_is_whole(blocks_len)) {
        return (blocks_Result_unit_Faulty){.tag = blocks_Result_unit_Faulty_Err,
                .as.Err = {.field0 = (blocks_importing_Faulty){.refusal = (
                refusals_Refusal){.tag = refusals_Refusal_TooLong}, .block = 0}}};
    }
    blocks_framecheck_Remainders t;
    blocks_framecheck_table(&t);
    return blocks_importing_first_fault(blocks, blocks_len / 512, &t);
}

/* The place of what is at fault with some octets. So short an answer comes back in registers, and of two equal calls
 * the compiler may make one: so `fromblocks`, which asks for the room and then imports, looks through its blocks
 * once. */
static inline core_Option_u32 blocks_importing_place_at_fault(const uint8_t *blocks, uint64_t blocks_len)
{
    blocks_Result_unit_Faulty t = blocks_importing_found(blocks, blocks_len);
    switch (t.tag) {
    case blocks_Result_unit_Faulty_Ok:
        return (core_Option_u32){.tag = core_Option_u32_None};
    case blocks_Result_unit_Faulty_Err:
    default: {
        blocks_importing_Faulty faulty = t.as.Err.field0;
        return (core_Option_u32){.tag = core_Option_u32_Some, .as.Some = {.field0 = faulty.block}};
    }
    }
}

/* What is at fault with some octets, where its place is known: the block there alone is looked at again. It is not
 * inlined, so that its table and that of the first look never take stack together. */
static inline blocks_Result_unit_Faulty blocks_importing_fault_at(const uint8_t *blocks, uint64_t blocks_len,
        uint32_t block)
{
    if (!blocks_importing_is_whole(blocks_len)) {
        return (blocks_Result_unit_Faulty){.tag = blocks_Result_unit_Faulty_Err,
                .as.Err = {.field0 = (blocks_importing_Faulty){.refusal = (
                refusals_Refusal){.tag = refusals_Refusal_TooLong}, .block = 0}}};
    }
    uint64_t n = blocks_len / 512;
    uint64_t place = block;
    uint64_t at = place * 512;
    blocks_framecheck_Remainders t;
    blocks_framecheck_table(&t);
    refusals_Result_unit_Refusal t2 = blocks_importing_fault(place, place + 1 == n, blocks + at, &t);
    switch (t2.tag) {
    case refusals_Result_unit_Refusal_Ok:
        return (blocks_Result_unit_Faulty){.tag = blocks_Result_unit_Faulty_Ok};
    case refusals_Result_unit_Refusal_Err:
    default: {
        refusals_Refusal refusal = t2.as.Err.field0;
        return (blocks_Result_unit_Faulty){.tag = blocks_Result_unit_Faulty_Err,
                .as.Err = {.field0 = (blocks_importing_Faulty){.refusal = refusal, .block = block}}};
    }
    }
}

/* How many octets are used in n blocks, all but the last of them full. */
static inline uint64_t blocks_importing_room(const uint8_t *blocks, uint64_t n)
{
    if (n == 0) {
        return 0;
    }
    uint64_t last = n - 1;
    uint64_t at = last * 512;
    return 504 * last + blocks_importing_used(blocks + at);
}

/* The used octets of n blocks, one block after another. */
static inline void blocks_importing_take_data(const uint8_t *blocks, uint64_t n, uint8_t *restrict out)
{
    uint64_t end = 0;
    uint64_t k = 0;
    while (k < n) {
        uint64_t at = k * 512;
        uint64_t count = blocks_importing_used(blocks + at);
        uint64_t from = at + 6;
        uint64_t to = from + count;
        uint64_t start = end;
        end = start + count;
        vectors_copying_copy(blocks + from, to - from, out + start);
        k += 1;
    }
}

/* The octets of a recording in blocks, or why there are none. */
static inline blocks_Result_unit_Faulty blocks_importing_take_blocks(const uint8_t *blocks, uint64_t blocks_len,
        uint8_t *restrict out, uint64_t out_len)
{
    core_Option_u32 t = blocks_importing_place_at_fault(blocks, blocks_len);
    switch (t.tag) {
    case core_Option_u32_Some: {
        uint32_t block = t.as.Some.field0;
        return blocks_importing_fault_at(blocks, blocks_len, block);
    }
    case core_Option_u32_None:
    default:
        break;
    }
    uint64_t n = blocks_len / 512;
    if (out_len != blocks_importing_room(blocks, n)) {
        return (blocks_Result_unit_Faulty){.tag = blocks_Result_unit_Faulty_Err,
                .as.Err = {.field0 = (blocks_importing_Faulty){.refusal = (
                refusals_Refusal){.tag = refusals_Refusal_OutputLength}, .block = 0}}};
    }
    blocks_importing_take_data(blocks, n, out);
    return (blocks_Result_unit_Faulty){.tag = blocks_Result_unit_Faulty_Ok};
}

/* The octets of a recording in blocks: 20 for a length not of whole blocks or too many, 21 to 23 for the lowest
 * block at fault, 3 if the output is not as long as needed. */
static inline blocks_importing_Imported blocks_importing_import_blocks(const uint8_t *blocks, uint64_t blocks_len,
        uint8_t *restrict out, uint64_t out_len)
{
    blocks_Result_unit_Faulty t = blocks_importing_take_blocks(blocks, blocks_len, out, out_len);
    switch (t.tag) {
    case blocks_Result_unit_Faulty_Ok:
        return (blocks_importing_Imported){.number = 0, .block = 0};
    case blocks_Result_unit_Faulty_Err:
    default: {
        blocks_importing_Faulty faulty = t.as.Err.field0;
        refusals_Refusal refusal = faulty.refusal;
        return (blocks_importing_Imported){.number = refusals_Refusal_number(refusal), .block = faulty.block};
    }
    }
}

/* The room that import needs, 0 where there is none. */
static inline uint64_t blocks_importing_imported_octets(const uint8_t *blocks, uint64_t blocks_len)
{
    switch (blocks_importing_place_at_fault(blocks, blocks_len).tag) {
    case core_Option_u32_None:
        return blocks_importing_room(blocks, blocks_len / 512);
    case core_Option_u32_Some:
    default:
        return 0;
    }
}

/* The number of a block and its count. */
static inline void blocks_exporting_put_head(uint32_t place, uint16_t count, uint8_t *restrict out, uint64_t out_len)
{
    uint8_t t[4];
    core_int_u32_to_be_bytes(place, t);
    core_copy_from_slice_u8(out, 4, t);
    uint8_t t2[2];
    core_int_u16_to_be_bytes(count, t2);
    core_copy_from_slice_u8(out + 4, out_len - 4, t2);
}

/* The used octets, and zeros after them. */
static inline void blocks_exporting_put_data(const uint8_t *used, uint64_t used_len, uint8_t *restrict out,
        uint64_t out_len)
{
    uint64_t n = used_len;
    vectors_copying_copy(used, used_len, out);
    core_fill_u8(out + n, out_len - n, 0);
}

/* What the check is made over: head and data. */
static inline void blocks_exporting_put_front(uint32_t place, const uint8_t *used, uint64_t used_len,
        uint8_t *restrict out, uint64_t out_len)
{
    blocks_exporting_put_head(place, (uint16_t)used_len, out, 6);
    blocks_exporting_put_data(used, used_len, out + 6, out_len - 6);
}

/* The check behind the 510 octets that it is made over. */
static inline void blocks_exporting_put_check(uint8_t *restrict out, uint64_t out_len,
        const blocks_framecheck_Remainders *t)
{
    uint16_t check = blocks_framecheck_over(out, 510, t);
    uint8_t t2[2];
    core_int_u16_to_be_bytes(check, t2);
    core_copy_from_slice_u8(out + 510, out_len - 510, t2);
}

/* One block. */
static inline void blocks_exporting_put_block(uint32_t place, const uint8_t *used, uint64_t used_len,
        uint8_t *restrict out, uint64_t out_len, const blocks_framecheck_Remainders *t)
{
    blocks_exporting_put_front(place, used, used_len, out, 510);
    blocks_exporting_put_check(out, out_len, t);
}

/* As many blocks as the output holds. */
static inline void blocks_exporting_put_blocks(const uint8_t *octets, uint64_t octets_len, uint64_t n,
        uint8_t *restrict out, const blocks_framecheck_Remainders *t)
{
    uint64_t k = 0;
    while (k < n) {
        uint64_t from = k * 504;
        uint64_t end = core_int_usize_min(from + 504, octets_len);
        uint64_t at = k * 512;
        uint64_t past = at + 512;
        blocks_exporting_put_block((uint32_t)k, octets + from, end - from, out + at, past - at, t);
        k += 1;
    }
}

/* The blocks of a recording, or why there are none. */
static inline refusals_Result_unit_Refusal blocks_exporting_exported(const uint8_t *octets, uint64_t octets_len,
        uint8_t *restrict out, uint64_t out_len)
{
    if (64512 < octets_len) {
        return (refusals_Result_unit_Refusal){.tag = refusals_Result_unit_Refusal_Err,
                .as.Err = {.field0 = (refusals_Refusal){.tag = refusals_Refusal_TooLong}}};
    }
    uint64_t n = (octets_len + 503) / 504;
    if (out_len != 512 * n) {
        return (refusals_Result_unit_Refusal){.tag = refusals_Result_unit_Refusal_Err,
                .as.Err = {.field0 = (refusals_Refusal){.tag = refusals_Refusal_OutputLength}}};
    }
    blocks_framecheck_Remainders t;
    blocks_framecheck_table(&t);
    blocks_exporting_put_blocks(octets, octets_len, n, out, &t);
    return (refusals_Result_unit_Refusal){.tag = refusals_Result_unit_Refusal_Ok};
}

/* The blocks of a recording: 20 for more than 64,512 octets, 3 if the output is not as long as needed. */
static inline uint8_t blocks_exporting_export_blocks(const uint8_t *octets, uint64_t octets_len, uint8_t *restrict out,
        uint64_t out_len)
{
    refusals_Result_unit_Refusal t = blocks_exporting_exported(octets, octets_len, out, out_len);
    return refusals_number(t);
}

/* The room that export needs for so many octets, 0 where there is none. */
static inline uint64_t blocks_exporting_exported_octets(uint64_t long_)
{
    if (64512 < long_) {
        return 0;
    }
    return 512 * ((long_ + 503) / 504);
}

/* ---- layout ----------------------------------------------------------------------------------------- */

/* How a code is handed to the engine: its shape in numbers, and its parity table as one flat list. */

typedef struct layout_Shape {
    uint64_t size;
    uint64_t words;
    uint64_t blocks;
    uint64_t rows;
} layout_Shape;

/* A code's parity table as the engine has it: two places for each block, row after row, and its shape. */
typedef struct layout_Parity {
    lent_uint16_t places;
    layout_Shape shape;
} layout_Parity;

/* ---- catalogue -------------------------------------------------------------------------------------- */

/* What is fixed by a code number: lengths and shapes (offer), and the parity tables as constants (tables). */

typedef struct catalogue_offer_Offer {
    bool offered;
    bool opens;
    bool steps;
    uint64_t word;
    uint64_t information;
    uint8_t multiple;
    uint64_t bits;
    uint64_t unsent;
    uint64_t fill;
    bool asked;
    layout_Shape shape;
} catalogue_offer_Offer;

/* What some code number fixes, of a code that is offered. */
typedef struct catalogue_offer_KnownOffer {
    catalogue_offer_Offer offer;
} catalogue_offer_KnownOffer;

/* Table 1 of document 000, M = 511. */
static const uint16_t catalogue_tables_PARITY511[64] = {
    0, 176, 12, 239, 0, 352, 24, 431, 0, 392, 151, 409, 0, 351, 9, 359, 0, 307, 53, 329, 0, 207, 18, 281, 0, 399, 202,
    457, 0, 247, 36, 261,
    99, 471, 130, 473, 198, 435, 260, 478, 215, 420, 282, 481, 48, 396, 193, 445, 273, 430, 302, 451, 96, 379, 191, 386,
    244, 467, 364, 470, 51, 382, 192, 414,
};

/* Table 2-4 of document 001, M = 16. */
static const uint16_t catalogue_tables_PARITY16[64] = {
    0, 7, 2, 65535, 14, 65535, 6, 65535, 65535, 65535, 0, 65535, 13, 65535, 0, 65535,
    6, 65535, 0, 15, 0, 65535, 1, 65535, 0, 65535, 65535, 65535, 0, 65535, 7, 65535,
    4, 65535, 1, 65535, 0, 15, 14, 65535, 11, 65535, 0, 65535, 65535, 65535, 3, 65535,
    0, 65535, 1, 65535, 9, 65535, 0, 13, 14, 65535, 1, 65535, 0, 65535, 65535, 65535,
};

/* Table 2-5 of document 001, M = 32. */
static const uint16_t catalogue_tables_PARITY32[64] = {
    0, 31, 15, 65535, 25, 65535, 0, 65535, 65535, 65535, 20, 65535, 12, 65535, 0, 65535,
    28, 65535, 0, 30, 29, 65535, 24, 65535, 0, 65535, 65535, 65535, 1, 65535, 20, 65535,
    8, 65535, 0, 65535, 0, 28, 1, 65535, 29, 65535, 0, 65535, 65535, 65535, 21, 65535,
    18, 65535, 30, 65535, 0, 65535, 0, 30, 25, 65535, 26, 65535, 0, 65535, 65535, 65535,
};

/* Table 2-6 of document 001, M = 64. */
static const uint16_t catalogue_tables_PARITY64[64] = {
    0, 63, 30, 65535, 50, 65535, 25, 65535, 65535, 65535, 43, 65535, 62, 65535, 0, 65535,
    56, 65535, 0, 61, 50, 65535, 23, 65535, 0, 65535, 65535, 65535, 37, 65535, 26, 65535,
    16, 65535, 0, 65535, 0, 55, 27, 65535, 56, 65535, 0, 65535, 65535, 65535, 43, 65535,
    35, 65535, 56, 65535, 62, 65535, 0, 11, 58, 65535, 3, 65535, 0, 65535, 65535, 65535,
};

/* And of a telecommand code's, by M: four rows of eight blocks, each in one word. */
static inline layout_Shape catalogue_offer_telecommand_shape(uint64_t size)
{
    return (layout_Shape){.size = size, .words = 1, .blocks = 8, .rows = 4};
}

/* A telecommand code: its octets, its bits, and M. */
static inline catalogue_offer_Offer catalogue_offer_telecommand(uint64_t word, uint64_t information, uint64_t bits,
        uint64_t size)
{
    return (catalogue_offer_Offer){.offered = true, .opens = true, .steps = true, .word = word,
            .information = information, .multiple = 1, .bits = bits, .unsent = 0, .fill = 0, .asked = false,
            .shape = catalogue_offer_telecommand_shape(size)};
}

/* A near-Earth code: whether every bit is sent, its octets, and what is not sent or sent besides. */
static inline catalogue_offer_Offer catalogue_offer_near_earth(bool whole, uint64_t word, uint64_t information,
        uint8_t multiple, uint64_t unsent, uint64_t fill)
{
    return (catalogue_offer_Offer){.offered = true, .opens = !whole, .steps = whole, .word = word,
            .information = information, .multiple = multiple, .bits = 8176, .unsent = unsent, .fill = fill,
            .asked = true, .shape = (layout_Shape){.size = 511, .words = 8, .blocks = 16, .rows = 2}};
}

/* A number that no code has: what is measured by it is refused before it is used. */
static inline catalogue_offer_Offer catalogue_offer_none(void)
{
    return (catalogue_offer_Offer){.offered = false, .opens = false, .steps = false, .word = 16, .information = 8,
            .multiple = 1, .bits = 128, .unsent = 0, .fill = 0, .asked = false,
            .shape = catalogue_offer_telecommand_shape(16)};
}

/* What a code number fixes. */
static inline catalogue_offer_Offer catalogue_offer_of(uint8_t code)
{
    switch (code) {
    case 1:
        return catalogue_offer_telecommand(16, 8, 128, 16);
    case 2:
        return catalogue_offer_telecommand(32, 16, 256, 32);
    case 3:
        return catalogue_offer_telecommand(64, 32, 512, 64);
    case 4:
        return catalogue_offer_near_earth(true, 1022, 895, 64, 0, 0);
    case 5:
        return catalogue_offer_near_earth(false, 1020, 892, 1, 18, 2);
    default:
        return catalogue_offer_none();
    }
}

/* Whether a code is offered. */
static inline bool catalogue_offer_is_offered(uint8_t code)
{
    return catalogue_offer_of(code).offered;
}

/* The octets of a word. */
static inline uint64_t catalogue_offer_word_octets(uint8_t code)
{
    return catalogue_offer_of(code).word;
}

/* The octets of a word's information. */
static inline uint64_t catalogue_offer_information_octets(uint8_t code)
{
    return catalogue_offer_of(code).information;
}

/* The blocks of a row, one place after another from place at on. */
static inline void catalogue_tables_flatten_row(const uint16_t *nested, uint64_t nested_len, uint16_t *restrict h,
        uint64_t at)
{
    uint64_t b = 0;
    uint64_t t = nested_len;
    while (b < t) {
        const uint16_t *block = nested + 2 * b;
        h[at + 2 * b] = block[0];
        h[at + 2 * b + 1] = block[1];
        b += 1;
    }
}

/* Rows of blocks that fill the places of h, one place after another. */
static inline void catalogue_tables_flatten_16_2(const uint16_t *nested, uint16_t *restrict h)
{
    uint64_t r = 0;
    uint64_t t = 2;
    while (r < t) {
        const uint16_t *row = nested + 32 * r;
        catalogue_tables_flatten_row(row, 16, h, UINT64_C(2) * 16 * r);
        r += 1;
    }
}

static inline void catalogue_tables_lend511(uint16_t *restrict h)
{
    catalogue_tables_flatten_16_2(catalogue_tables_PARITY511, h);
}

/* Rows of blocks that fill the places of h, one place after another. */
static inline void catalogue_tables_flatten_8_4(const uint16_t *nested, uint16_t *restrict h)
{
    uint64_t r = 0;
    uint64_t t = 4;
    while (r < t) {
        const uint16_t *row = nested + 16 * r;
        catalogue_tables_flatten_row(row, 8, h, UINT64_C(2) * 8 * r);
        r += 1;
    }
}

/* The places of each table, laid flat, out of a copy: the compiler lays these itself then, which saves check 120
 * instructions. A function for each, since the clause of each names its own table. */
static inline void catalogue_tables_lend16(uint16_t *restrict h)
{
    catalogue_tables_flatten_8_4(catalogue_tables_PARITY16, h);
}

static inline void catalogue_tables_lend32(uint16_t *restrict h)
{
    catalogue_tables_flatten_8_4(catalogue_tables_PARITY32, h);
}

static inline void catalogue_tables_lend64(uint16_t *restrict h)
{
    catalogue_tables_flatten_8_4(catalogue_tables_PARITY64, h);
}

/* The same where one word holds a row. `lend` has the one caller that its speed rests on, so it does not call this. */
static inline layout_Shape catalogue_tables_lend_narrow(uint64_t size, uint16_t *restrict h)
{
    if (size == 16) {
        catalogue_tables_lend16(h);
        return catalogue_offer_telecommand_shape(16);
    }
    if (size == 32) {
        catalogue_tables_lend32(h);
        return catalogue_offer_telecommand_shape(32);
    }
    catalogue_tables_lend64(h);
    return catalogue_offer_telecommand_shape(64);
}

/* The parity table whose blocks have this size, lent: its places into h, and its shape, in numbers that a compiler
 * sees. */
static inline layout_Shape catalogue_tables_lend(uint64_t size, uint16_t *restrict h)
{
    if (size == 16) {
        catalogue_tables_lend16(h);
        return catalogue_offer_telecommand_shape(16);
    }
    if (size == 32) {
        catalogue_tables_lend32(h);
        return catalogue_offer_telecommand_shape(32);
    }
    if (size == 64) {
        catalogue_tables_lend64(h);
        return catalogue_offer_telecommand_shape(64);
    }
    catalogue_tables_lend511(h);
    return (layout_Shape){.size = 511, .words = 8, .blocks = 16, .rows = 2};
}

/* ---- syndromes -------------------------------------------------------------------------------------- */

/* The syndrome of a word, row after row, for whatever table is lent. */

/* What stands at the two places of a block. */
typedef struct syndromes_Places {
    uint64_t first;
    uint64_t second;
} syndromes_Places;

/* A block, doubled in words. */
typedef struct syndromes_addends_Doubled {
    lent_uint64_t words;
} syndromes_addends_Doubled;

/* The checks that cover one bit of a block. */
typedef struct syndromes_addends_Covering {
    uint64_t bit;
} syndromes_addends_Covering;

/* The two places of block b of row r. */
static inline syndromes_Places syndromes_read_places(layout_Parity parity, uint64_t b, uint64_t r)
{
    lent_uint16_t h = parity.places;
    uint64_t at = 2 * (r * parity.shape.blocks + b);
    return (syndromes_Places){.first = h.at[at], .second = h.at[at + 1]};
}

static inline void syndromes_addends_DoubledAddend_add(syndromes_addends_Doubled self, uint64_t s, layout_Shape sh,
        uint64_t *restrict acc, uint64_t r)
{
    vectors_add_turned(self.words.at, s, acc, r * sh.words, sh.words);
}

/* Adds what the shift s adds to row r; a number that is M or more is no shift. */
static inline void syndromes_add_entry_Doubled(syndromes_addends_Doubled addend, uint64_t s, layout_Shape sh,
        uint64_t *restrict acc, uint64_t r)
{
    if (s < sh.size) {
        syndromes_addends_DoubledAddend_add(addend, s, sh, acc, r);
    }
}

/* Adds what each shift of block b adds to row r. */
static inline void syndromes_add_row_Doubled(syndromes_addends_Doubled addend, layout_Parity parity, uint64_t b,
        uint64_t *restrict acc, uint64_t r)
{
    layout_Shape sh = parity.shape;
    syndromes_Places p = syndromes_read_places(parity, b, r);
    syndromes_add_entry_Doubled(addend, p.first, sh, acc, r);
    syndromes_add_entry_Doubled(addend, p.second, sh, acc, r);
}

/* Adds what the shifts of block b add to every row. */
static inline void syndromes_add_block_Doubled(syndromes_addends_Doubled addend, layout_Parity parity, uint64_t b,
        uint64_t *restrict acc)
{
    uint64_t r = 0;
    uint64_t t = parity.shape.rows;
    while (r < t) {
        syndromes_add_row_Doubled(addend, parity, b, acc, r);
        r += 1;
    }
}

/* Clears what is past bit M of row r, where it does not fill its last word. */
static inline void syndromes_trim_row(uint64_t *restrict z, layout_Shape sh, uint64_t r)
{
    uint64_t t = sh.size % 64;
    if (0 < t) {
        uint64_t last = r * sh.words + sh.words - 1;
        z[last] = vectors_front(z[last], t);
    }
}

/* Clears what is past bit M of every row. */
static inline void syndromes_trim_rows(uint64_t *restrict z, layout_Shape sh)
{
    uint64_t r = 0;
    uint64_t t = sh.rows;
    while (r < t) {
        syndromes_trim_row(z, sh, r);
        r += 1;
    }
}

static inline void syndromes_addends_PairAddend_add(vectors_Pair self, uint64_t s, layout_Shape sh,
        uint64_t *restrict acc, uint64_t r)
{
    (void)sh;
    vectors_add_word(vectors_funnel(self.first, self.second, s), acc, r);
}

/* Adds what the shift s adds to row r; a number that is M or more is no shift. */
static inline void syndromes_add_entry_Pair(vectors_Pair addend, uint64_t s, layout_Shape sh, uint64_t *restrict acc,
        uint64_t r)
{
    if (s < sh.size) {
        syndromes_addends_PairAddend_add(addend, s, sh, acc, r);
    }
}

/* Adds what each shift of block b adds to row r. */
static inline void syndromes_add_row_Pair(vectors_Pair addend, layout_Parity parity, uint64_t b,
        uint64_t *restrict acc, uint64_t r)
{
    layout_Shape sh = parity.shape;
    syndromes_Places p = syndromes_read_places(parity, b, r);
    syndromes_add_entry_Pair(addend, p.first, sh, acc, r);
    syndromes_add_entry_Pair(addend, p.second, sh, acc, r);
}

/* Adds what the shifts of block b add to every row. */
static inline void syndromes_add_block_Pair(vectors_Pair addend, layout_Parity parity, uint64_t b,
        uint64_t *restrict acc)
{
    uint64_t r = 0;
    uint64_t t = parity.shape.rows;
    while (r < t) {
        syndromes_add_row_Pair(addend, parity, b, acc, r);
        r += 1;
    }
}

/* The same where one word holds a block. */
static inline void syndromes_add_narrow_blocks(const uint64_t *y, layout_Parity parity, uint64_t *restrict acc)
{
    layout_Shape sh = parity.shape;
    uint64_t b = 0;
    uint64_t t = sh.blocks;
    while (b < t) {
        uint64_t v = vectors_front(vectors_window(y, b * sh.size), sh.size);
        syndromes_add_block_Pair(vectors_double_word(v, sh.size), parity, b, acc);
        b += 1;
    }
}

/* The m bits of y from bit p on, doubled into d; part has room for them. */
static inline void syndromes_double_block(const uint64_t *y, uint64_t p, uint64_t m, uint64_t *restrict part,
        uint64_t part_len, uint64_t *restrict d, uint64_t d_len)
{
    vectors_cut(y, p, m, part, part_len);
    vectors_double(part, m, d, d_len);
}

/* Adds block b of y to every row; part and d have room for a block, and for a doubled one. */
static inline void syndromes_add_wide_block(const uint64_t *y, layout_Parity parity, uint64_t b,
        uint64_t *restrict part, uint64_t part_len, uint64_t *restrict d, uint64_t d_len, uint64_t *restrict acc)
{
    layout_Shape sh = parity.shape;
    syndromes_double_block(y, b * sh.size, sh.size, part, part_len, d, d_len);
    syndromes_add_block_Doubled((syndromes_addends_Doubled){.words = (lent_uint64_t){d, d_len}}, parity, b, acc);
}

/* Adds every block of y to the rows. */
static inline void syndromes_add_blocks(const uint64_t *y, layout_Parity parity, uint64_t *restrict part,
        uint64_t part_len, uint64_t *restrict d, uint64_t d_len, uint64_t *restrict acc)
{
    uint64_t b = 0;
    uint64_t t = parity.shape.blocks;
    while (b < t) {
        syndromes_add_wide_block(y, parity, b, part, part_len, d, d_len, acc);
        b += 1;
    }
}

/* Adds every block of y to the rows, of whatever width. */
static inline void syndromes_add_all(const uint64_t *y, layout_Parity parity, uint64_t *restrict acc)
{
    layout_Shape sh = parity.shape;
    if (sh.words == 1) {
        syndromes_add_narrow_blocks(y, parity, acc);
        return;
    }
    uint64_t part[8] = {0};
    uint64_t d[16] = {0};
    uint64_t words = sh.words;
    syndromes_add_blocks(y, parity, part, words, d, 2 * words, acc);
}

/* The syndrome of y, made from zeros. */
static inline void syndromes_syndrome(const uint64_t *y, layout_Parity parity, uint64_t *restrict z)
{
    layout_Shape sh = parity.shape;
    syndromes_add_all(y, parity, z);
    syndromes_trim_rows(z, sh);
}

/* How many checks are broken. */
static inline uint32_t syndromes_broken(const uint64_t *z)
{
    return (uint32_t)vectors_ones(z, 16);
}

/* The lowest broken check, or the number of checks if none is broken. */
static inline uint32_t syndromes_lowest(const uint64_t *z, layout_Shape sh)
{
    uint64_t place = vectors_first(z, 16);
    if (1024 <= place) {
        return (uint32_t)(sh.rows * sh.size);
    }
    uint64_t wide = 64 * sh.words;
    return (uint32_t)(place / wide * sh.size + place % wide);
}

/* Whether no check is broken. */
static inline bool syndromes_is_quiet(const uint64_t *z)
{
    return !vectors_any(z, 16);
}

static inline void syndromes_addends_CoveringAddend_add(syndromes_addends_Covering self, uint64_t s, layout_Shape sh,
        uint64_t *restrict acc, uint64_t r)
{
    uint64_t i = self.bit + (sh.size - s);
    if (sh.size <= i) {
        i -= sh.size;
    }
    vectors_flip_bit(acc, 64 * sh.words * r + i);
}

/* Adds what the shift s adds to row r; a number that is M or more is no shift. */
static inline void syndromes_add_entry_Covering(syndromes_addends_Covering addend, uint64_t s, layout_Shape sh,
        uint64_t *restrict acc, uint64_t r)
{
    if (s < sh.size) {
        syndromes_addends_CoveringAddend_add(addend, s, sh, acc, r);
    }
}

/* Adds what each shift of block b adds to row r. */
static inline void syndromes_add_row_Covering(syndromes_addends_Covering addend, layout_Parity parity, uint64_t b,
        uint64_t *restrict acc, uint64_t r)
{
    layout_Shape sh = parity.shape;
    syndromes_Places p = syndromes_read_places(parity, b, r);
    syndromes_add_entry_Covering(addend, p.first, sh, acc, r);
    syndromes_add_entry_Covering(addend, p.second, sh, acc, r);
}

/* Adds what the shifts of block b add to every row. */
static inline void syndromes_add_block_Covering(syndromes_addends_Covering addend, layout_Parity parity, uint64_t b,
        uint64_t *restrict acc)
{
    uint64_t r = 0;
    uint64_t t = parity.shape.rows;
    while (r < t) {
        syndromes_add_row_Covering(addend, parity, b, acc, r);
        r += 1;
    }
}

/* Flips bit n of a word, and its checks with it. */
static inline void syndromes_flip(uint64_t *restrict y, uint64_t *restrict z, layout_Parity parity, uint64_t n)
{
    layout_Shape sh = parity.shape;
    vectors_flip_bit(y, n);
    syndromes_addends_Covering covering = (syndromes_addends_Covering){.bit = n % sh.size};
    syndromes_add_block_Covering(covering, parity, n / sh.size, z);
}

/* ---- word ------------------------------------------------------------------------------------------- */

/* One word: as received, what is measured of it, what is made of a quiet one, in how many bits two differ. */

/* Octets as they are sent, and how many of the word's bits stand in front of them and are not. */
typedef struct word_received_Sent {
    lent_uint8_t octets;
    uint64_t unsent;
} word_received_Sent;

/* For each parity block, 1 if an odd number of bits are set of the blocks that it is counted with. */
typedef struct word_ownparity_Together {
    uint64_t first;
    uint64_t second;
} word_ownparity_Together;

/* Room for what is measured of a word: the places of its code's parity table, its bits, and its syndrome. */
typedef struct word_measured_Room {
    uint16_t h[64];
    uint64_t y[130];
    uint64_t z[16];
} word_measured_Room;

/* A received word, and its code, which says how long it is. */
typedef struct word_received_Received {
    catalogue_offer_KnownOffer code;
    lent_uint8_t word;
} word_received_Received;

/* An octet, and zeros behind it. */
static inline uint64_t word_received_leading(uint8_t octet)
{
    return (uint64_t)octet << 56;
}

/* The 64 bits from bit t of octet at on. */
static inline uint64_t word_received_window(const uint8_t *octets, uint64_t at, uint64_t t)
{
    uint64_t v = vectors_eight(octets, at);
    if (t == 0) {
        return v;
    }
    return vectors_funnel(v, word_received_leading(octets[at + 8]), t);
}

/* The 511 bits from bit p on. The last word is read from one bit before its own, so that no octet past the bits is
 * read. */
static inline void word_received_cut(const uint8_t *octets, uint64_t p, uint64_t *restrict v)
{
    uint64_t at = p / 8;
    uint64_t t = p % 8;
    uint64_t k = 0;
    while (k < 7) {
        v[k] = word_received_window(octets, at + 8 * k, t);
        k += 1;
    }
    uint64_t last = p + 447;
    v[7] = vectors_funnel(word_received_window(octets, last / 8, last % 8), 0, 1);
}

/* The first 511 bits, cut short by the unsent ones. */
static inline void word_received_cut_short(word_received_Sent sent, uint64_t *restrict v, uint64_t v_len)
{
    word_received_cut(sent.octets.at, 0, v);
    vectors_trim(v, v_len, 511 - sent.unsent);
}

/* The first 511 bits, the unsent ones in front as zeros. */
static inline void word_received_cut_first(word_received_Sent sent, uint64_t *restrict v, uint64_t v_len)
{
    word_received_cut_short(sent, v, v_len);
    vectors_lift(v, v_len, sent.unsent);
}

/* Block b of a near-Earth word, from octets that reach as far, with the unsent bits in front as zeros. */
static inline void word_received_cut_block(word_received_Sent sent, uint64_t b, uint64_t *restrict v, uint64_t v_len)
{
    if (b == 0) {
        word_received_cut_first(sent, v, v_len);
    } else {
        word_received_cut(sent.octets.at, b * 511 - sent.unsent, v);
    }
}

/* All words added up, place by place. */
static inline uint64_t word_ownparity_folded(const uint64_t *ws, uint64_t ws_len)
{
    uint64_t v = 0;
    uint64_t t = 0;
    uint64_t t2 = ws_len;
    while (t < t2) {
        const uint64_t *word = ws + t;
        v ^= *word;
        t += 1;
    }
    return v;
}

/* 1 if an odd number of bits are set. */
static inline uint64_t word_ownparity_odd_word(uint64_t v)
{
    return count_ones64(v) % 2;
}

/* 1 if an odd number of bits are set. */
static inline uint64_t word_ownparity_odd_of(const uint64_t *ws, uint64_t ws_len)
{
    return word_ownparity_odd_word(word_ownparity_folded(ws, ws_len));
}

/* By a number that has a bit for each of the 16 blocks, set where an odd number of its bits are. */
static inline word_ownparity_Together word_ownparity_odd_together(uint64_t v)
{
    return (word_ownparity_Together){.first = word_ownparity_odd_word(1766 & v),
            .second = word_ownparity_odd_word(3453 & v)};
}

/* Of zeros. */
static inline void word_measured_Room_new(word_measured_Room *restrict result)
{
    memset(result->h, 0, 64 * sizeof(uint16_t));
    memset(result->y, 0, 130 * sizeof(uint64_t));
    memset(result->z, 0, 16 * sizeof(uint64_t));
}

/* The bits that the checks are over, from octets that are handed in, into a vector of zeros; the unsent ones stand
 * in front as zeros. */
static inline void word_received_take(word_received_Sent sent, uint64_t *restrict y, uint64_t y_len)
{
    lent_uint8_t octets = sent.octets;
    uint64_t unsent = sent.unsent;
    if (0 < unsent) {
        vectors_load_later(octets.at, octets.len, unsent, y);
    } else {
        vectors_load(octets.at, octets.len, y, y_len);
    }
}

/* The parity table of blocks of this size into h, its shape, and the syndrome of the bits that y holds into z, which
 * is handed over as zeros. */
static inline layout_Shape word_measured_checks(uint64_t size, const uint64_t *y, uint16_t *restrict h,
        uint64_t *restrict z)
{
    layout_Shape sh = catalogue_tables_lend(size, h);
    syndromes_syndrome(y, (layout_Parity){.places = (lent_uint16_t){h, 64}, .shape = sh}, z);
    return sh;
}

/* What is measured, by the two numbers of a code's record that it takes: the record itself would be written out for
 * each call. */
static inline layout_Shape word_measured_measure_by(word_received_Sent sent, uint64_t size,
        word_measured_Room *restrict room)
{
    word_received_take(sent, room->y, 130);
    return word_measured_checks(size, room->y, room->h, room->z);
}

/* The parity table into h, its shape, the word's bits into y, and its syndrome into z; y and z are handed over as
 * zeros. */
static inline layout_Shape word_measured_Room_measure(word_measured_Room *restrict self,
        word_received_Received received)
{
    catalogue_offer_Offer o = received.code.offer;
    word_received_Sent sent = (word_received_Sent){.octets = received.word, .unsent = o.unsent};
    return word_measured_measure_by(sent, o.shape.size, self);
}

/* Whether one of n bits from bit `at` on is set. */
static inline bool word_judging_some_set(const uint64_t *y, uint64_t at, uint64_t n)
{
    uint64_t v[1] = {0};
    vectors_cut(y, at, n, v, 1);
    return 0 < vectors_ones(v, 1);
}

/* The same of the m bits from bit p on. */
static inline uint64_t word_ownparity_odd(const uint64_t *y, uint64_t p, uint64_t m)
{
    uint64_t v[8] = {0};
    vectors_cut(y, p, m, v, 8);
    return word_ownparity_odd_of(v, 8);
}

/* For each of the 16 blocks, whether an odd number of its bits are set. */
static inline uint64_t word_ownparity_odd_blocks(const uint64_t *y)
{
    uint64_t v = 0;
    uint64_t j = 0;
    while (j < 16) {
        v = 2 * v + word_ownparity_odd(y, j * 511, 511);
        j += 1;
    }
    return v;
}

/* Whether the parity of a word that meets every check is the encoder's. */
static inline bool word_ownparity_own_parity(const uint64_t *y)
{
    word_ownparity_Together odd = word_ownparity_odd_together(word_ownparity_odd_blocks(y));
    return odd.first + odd.second == 0;
}

/* What is wrong with a measured word: a broken check, a bit set after the parity, or parity unlike the encoder's. */
static inline refusals_Result_unit_Refusal word_judging_fault(catalogue_offer_KnownOffer code, const uint64_t *y,
        const uint64_t *z)
{
    if (!syndromes_is_quiet(z)) {
        return (refusals_Result_unit_Refusal){.tag = refusals_Result_unit_Refusal_Err,
                .as.Err = {.field0 = (refusals_Refusal){.tag = refusals_Refusal_Broken}}};
    }
    catalogue_offer_Offer o = code.offer;
    if (!o.asked) {
        return (refusals_Result_unit_Refusal){.tag = refusals_Result_unit_Refusal_Ok};
    }
    if (word_judging_some_set(y, o.bits, o.fill)) {
        return (refusals_Result_unit_Refusal){.tag = refusals_Result_unit_Refusal_Err,
                .as.Err = {.field0 = (refusals_Refusal){.tag = refusals_Refusal_LastTwo}}};
    }
    if (word_ownparity_own_parity(y)) {
        return (refusals_Result_unit_Refusal){.tag = refusals_Result_unit_Refusal_Ok};
    }
    return (refusals_Result_unit_Refusal){.tag = refusals_Result_unit_Refusal_Err,
            .as.Err = {.field0 = (refusals_Refusal){.tag = refusals_Refusal_OtherParity}}};
}

/* In how many of their 64 bits two words differ. */
static inline uint64_t word_unlike_apart(uint64_t v, uint64_t w)
{
    if (v == w) {
        return 0;
    }
    return count_ones64(v ^ w);
}

/* In how many of the first 64 k bits the octets differ from what stands in y from bit u on. */
static inline uint64_t word_unlike_apart_whole(const uint8_t *octets, const uint64_t *y, uint64_t u, uint64_t k)
{
    uint64_t sum = 0;
    uint64_t j = 0;
    while (j < k) {
        sum += word_unlike_apart(vectors_eight(octets, 8 * j), vectors_window(y, u + 64 * j));
        j += 1;
    }
    return sum;
}

/* In how many of the first n bits the octets differ from what stands in y from bit u on; they hold these bits, and
 * end within 64 of the last. It is not inlined, so that the function above it, which has the code's record, is. */
static inline uint64_t word_unlike_unlike(const uint8_t *octets, uint64_t octets_len, const uint64_t *y, uint64_t u,
        uint64_t n)
{
    uint64_t k = n / 64;
    uint64_t t = n % 64;
    uint64_t sum = word_unlike_apart_whole(octets, y, u, k);
    if (t == 0) {
        return sum;
    }
    uint64_t v = vectors_front(vectors_last(octets, octets_len), t);
    uint64_t w = vectors_front(vectors_window(y, u + 64 * k), t);
    return sum + word_unlike_apart(v, w);
}

/* The number of a run: after a quiet end 8 for parity unlike the encoder's. No run sets an unsent bit, so 7 is never
 * given. */
static inline uint8_t word_judging_judge(catalogue_offer_KnownOffer code, const uint64_t *y, uint8_t number)
{
    if (number != 0) {
        return number;
    }
    if (!code.offer.asked) {
        return 0;
    }
    if (word_ownparity_own_parity(y)) {
        return 0;
    }
    return 8;
}

/* The octets of a word as it is sent: the unsent bits are left out, and zero bits follow the last of its bits, in
 * one word with it. Where none follow, all are sent. */
static inline void word_received_write(uint64_t *restrict y, uint64_t unsent, uint64_t bits, uint8_t *restrict out,
        uint64_t out_len)
{
    if (bits < 8 * out_len + unsent) {
        vectors_trim_word(y, bits);
        vectors_store(y, unsent, out, out_len);
    } else {
        vectors_store(y, 0, out, out_len);
    }
}

/* In how many of the first 64 k bits two vectors differ. */
static inline uint64_t word_unlike_unlike_words(const uint64_t *x, const uint64_t *y, uint64_t k)
{
    uint64_t sum = 0;
    uint64_t j = 0;
    while (j < k) {
        sum += word_unlike_apart(x[j], y[j]);
        j += 1;
    }
    return sum;
}

/* ---- encoder ---------------------------------------------------------------------------------------- */

/* The encoder: lists of steps that solve the checks for the parity, over rows, for codes 1 to 3 and for codes 4 and
 * 5. */

static const uint16_t encoder_wideparity_walk_wide_table[150] = {
    1, 1, 247, 65535, 65535, 65535, 65535, 65535, 65535, 65535,
    1, 0, 51, 382, 65535, 65535, 65535, 65535, 65535, 65535,
    1, 1, 61, 151, 187, 204, 212, 254, 271, 65535,
    1, 1, 72, 106, 122, 206, 209, 240, 331, 65535,
    1, 1, 31, 175, 182, 243, 275, 443, 449, 65535,
    1, 1, 39, 62, 350, 364, 375, 387, 486, 65535,
    1, 1, 78, 124, 189, 217, 239, 263, 461, 65535,
    1, 1, 33, 48, 189, 281, 411, 444, 467, 65535,
    1, 1, 88, 139, 154, 184, 399, 465, 466, 65535,
    1, 1, 102, 111, 132, 192, 243, 245, 335, 65535,
    0, 1, 36, 261, 65535, 65535, 65535, 65535, 65535, 65535,
    0, 0, 460, 477, 494, 65535, 65535, 65535, 65535, 65535,
    0, 0, 307, 375, 443, 65535, 65535, 65535, 65535, 65535,
    0, 0, 206, 239, 478, 65535, 65535, 65535, 65535, 65535,
    0, 0, 313, 379, 445, 65535, 65535, 65535, 65535, 65535,
};

static const uint16_t encoder_narrowparity_narrow_steps_table[10] = {
    3, 2, 1, 65535, 65535, 65535, 65535, 65535, 65535, 65535,
};

static const uint16_t encoder_narrowparity_narrow_steps_table_2[10] = {
    3, 1, 12, 14, 65535, 65535, 65535, 65535, 65535, 65535,
};

static const uint16_t encoder_narrowparity_narrow_steps_table_3[10] = {
    0, 2, 0, 65535, 65535, 65535, 65535, 65535, 65535, 65535,
};

static const uint16_t encoder_narrowparity_narrow_steps_table_4[10] = {
    0, 1, 11, 65535, 65535, 65535, 65535, 65535, 65535, 65535,
};

static const uint16_t encoder_narrowparity_narrow_steps_table_5[10] = {
    0, 0, 12, 14, 65535, 65535, 65535, 65535, 65535, 65535,
};

static const uint16_t encoder_narrowparity_narrow_steps_table_6[10] = {
    0, 3, 11, 13, 65535, 65535, 65535, 65535, 65535, 65535,
};

static const uint16_t encoder_narrowparity_narrow_steps_table_7[10] = {
    0, 0, 10, 15, 65535, 65535, 65535, 65535, 65535, 65535,
};

static const uint16_t encoder_narrowparity_narrow_steps_table_8[10] = {
    0, 0, 7, 12, 14, 15, 65535, 65535, 65535, 65535,
};

static const uint16_t encoder_narrowparity_narrow_steps_table_9[10] = {
    3, 0, 3, 4, 5, 65535, 65535, 65535, 65535, 65535,
};

static const uint16_t encoder_narrowparity_narrow_steps_table_10[10] = {
    3, 3, 12, 14, 65535, 65535, 65535, 65535, 65535, 65535,
};

static const uint16_t encoder_narrowparity_narrow_steps_table_11[10] = {
    3, 3, 4, 8, 65535, 65535, 65535, 65535, 65535, 65535,
};

static const uint16_t encoder_narrowparity_narrow_steps_table_12[10] = {
    1, 3, 0, 65535, 65535, 65535, 65535, 65535, 65535, 65535,
};

static const uint16_t encoder_narrowparity_narrow_steps_table_13[10] = {
    1, 0, 7, 65535, 65535, 65535, 65535, 65535, 65535, 65535,
};

static const uint16_t encoder_narrowparity_narrow_steps_table_14[10] = {
    2, 1, 11, 65535, 65535, 65535, 65535, 65535, 65535, 65535,
};

static const uint16_t encoder_narrowparity_narrow_steps_table_15[10] = {
    2, 0, 3, 65535, 65535, 65535, 65535, 65535, 65535, 65535,
};

static const uint16_t encoder_narrowparity_narrow_steps_table_16[10] = {
    3, 2, 26, 65535, 65535, 65535, 65535, 65535, 65535, 65535,
};

static const uint16_t encoder_narrowparity_narrow_steps_table_17[10] = {
    3, 1, 23, 25, 65535, 65535, 65535, 65535, 65535, 65535,
};

static const uint16_t encoder_narrowparity_narrow_steps_table_18[10] = {
    0, 2, 20, 65535, 65535, 65535, 65535, 65535, 65535, 65535,
};

static const uint16_t encoder_narrowparity_narrow_steps_table_19[10] = {
    0, 1, 17, 65535, 65535, 65535, 65535, 65535, 65535, 65535,
};

static const uint16_t encoder_narrowparity_narrow_steps_table_20[10] = {
    0, 0, 2, 8, 65535, 65535, 65535, 65535, 65535, 65535,
};

static const uint16_t encoder_narrowparity_narrow_steps_table_21[10] = {
    0, 3, 20, 26, 65535, 65535, 65535, 65535, 65535, 65535,
};

static const uint16_t encoder_narrowparity_narrow_steps_table_22[10] = {
    0, 0, 8, 13, 29, 31, 65535, 65535, 65535, 65535,
};

static const uint16_t encoder_narrowparity_narrow_steps_table_23[10] = {
    0, 0, 5, 6, 9, 15, 65535, 65535, 65535, 65535,
};

static const uint16_t encoder_narrowparity_narrow_steps_table_24[10] = {
    3, 0, 11, 13, 15, 65535, 65535, 65535, 65535, 65535,
};

static const uint16_t encoder_narrowparity_narrow_steps_table_25[10] = {
    3, 3, 2, 8, 65535, 65535, 65535, 65535, 65535, 65535,
};

static const uint16_t encoder_narrowparity_narrow_steps_table_26[10] = {
    3, 3, 4, 16, 65535, 65535, 65535, 65535, 65535, 65535,
};

static const uint16_t encoder_narrowparity_narrow_steps_table_27[10] = {
    1, 3, 1, 65535, 65535, 65535, 65535, 65535, 65535, 65535,
};

static const uint16_t encoder_narrowparity_narrow_steps_table_28[10] = {
    1, 0, 20, 65535, 65535, 65535, 65535, 65535, 65535, 65535,
};

static const uint16_t encoder_narrowparity_narrow_steps_table_29[10] = {
    2, 1, 29, 65535, 65535, 65535, 65535, 65535, 65535, 65535,
};

static const uint16_t encoder_narrowparity_narrow_steps_table_30[10] = {
    2, 0, 21, 65535, 65535, 65535, 65535, 65535, 65535, 65535,
};

static const uint16_t encoder_narrowparity_narrow_steps_table_31[10] = {
    3, 2, 3, 65535, 65535, 65535, 65535, 65535, 65535, 65535,
};

static const uint16_t encoder_narrowparity_narrow_steps_table_32[10] = {
    3, 1, 58, 59, 65535, 65535, 65535, 65535, 65535, 65535,
};

static const uint16_t encoder_narrowparity_narrow_steps_table_33[10] = {
    0, 2, 43, 65535, 65535, 65535, 65535, 65535, 65535, 65535,
};

static const uint16_t encoder_narrowparity_narrow_steps_table_34[10] = {
    0, 1, 35, 65535, 65535, 65535, 65535, 65535, 65535, 65535,
};

static const uint16_t encoder_narrowparity_narrow_steps_table_35[10] = {
    0, 0, 31, 32, 65535, 65535, 65535, 65535, 65535, 65535,
};

static const uint16_t encoder_narrowparity_narrow_steps_table_36[10] = {
    0, 3, 8, 62, 65535, 65535, 65535, 65535, 65535, 65535,
};

static const uint16_t encoder_narrowparity_narrow_steps_table_37[10] = {
    0, 0, 24, 51, 65535, 65535, 65535, 65535, 65535, 65535,
};

static const uint16_t encoder_narrowparity_narrow_steps_table_38[10] = {
    0, 0, 15, 19, 36, 49, 65535, 65535, 65535, 65535,
};

static const uint16_t encoder_narrowparity_narrow_steps_table_39[10] = {
    0, 0, 5, 22, 37, 46, 48, 51, 56, 59,
};

static const uint16_t encoder_narrowparity_narrow_steps_table_40[10] = {
    3, 0, 20, 21, 46, 65535, 65535, 65535, 65535, 65535,
};

static const uint16_t encoder_narrowparity_narrow_steps_table_41[10] = {
    3, 3, 0, 2, 33, 34, 65535, 65535, 65535, 65535,
};

static const uint16_t encoder_narrowparity_narrow_steps_table_42[10] = {
    1, 3, 37, 65535, 65535, 65535, 65535, 65535, 65535, 65535,
};

static const uint16_t encoder_narrowparity_narrow_steps_table_43[10] = {
    1, 0, 26, 65535, 65535, 65535, 65535, 65535, 65535, 65535,
};

static const uint16_t encoder_narrowparity_narrow_steps_table_44[10] = {
    2, 1, 56, 65535, 65535, 65535, 65535, 65535, 65535, 65535,
};

static const uint16_t encoder_narrowparity_narrow_steps_table_45[10] = {
    2, 0, 43, 65535, 65535, 65535, 65535, 65535, 65535, 65535,
};

/* Cuts information block b straight from the octets and doubles it into d; part has room for a block. The number has
 * one bit more, set where the block's bits are odd in number. */
static inline uint64_t encoder_wideparity_double_block(word_received_Sent sent, uint64_t b, uint64_t odd,
        uint64_t *restrict part, uint64_t *restrict d)
{
    word_received_cut_block(sent, b, part, 8);
    uint64_t more = 2 * odd + word_ownparity_odd_of(part, 8);
    vectors_double(part, 511, d, 16);
    return more;
}

/* Adds information block b to the rows, by way of part and d. The number has one bit more, as above. */
static inline uint64_t encoder_wideparity_add_wide_block(word_received_Sent sent, uint64_t b, uint64_t odd,
        layout_Parity parity, uint64_t *restrict part, uint64_t *restrict d, uint64_t *restrict z)
{
    uint64_t more = encoder_wideparity_double_block(sent, b, odd, part, d);
    syndromes_add_block_Doubled((syndromes_addends_Doubled){.words = (lent_uint64_t){d, 16}}, parity, b, z);
    return more;
}

/* Adds the information blocks to the rows. The number has a bit for each block, set where its bits are odd in
 * number. */
static inline uint64_t encoder_wideparity_add_wide(word_received_Sent sent, layout_Parity parity, uint64_t *restrict z)
{
    uint64_t part[8] = {0};
    uint64_t d[16] = {0};
    uint64_t odd = 0;
    uint64_t b = 0;
    while (b < 14) {
        odd = encoder_wideparity_add_wide_block(sent, b, odd, parity, part, d, z);
        b += 1;
    }
    return odd;
}

/* The checks that the information breaks while the parity is 0, into z, which is handed over as zeros; and the
 * number for all 16 blocks. */
static inline uint64_t encoder_wideparity_lay_wide(word_received_Sent sent, layout_Shape sh, uint64_t *restrict z)
{
    uint16_t h[64] = {0};
    catalogue_tables_lend511(h);
    layout_Parity parity = (layout_Parity){.places = (lent_uint16_t){h, 64}, .shape = sh};
    uint64_t odd = encoder_wideparity_add_wide(sent, parity, z);
    syndromes_trim_rows(z, sh);
    return 4 * odd;
}

/* Doubles the row whose copies a step adds. */
static inline void encoder_wideparity_double_row(const uint64_t *z, const uint16_t *step, layout_Shape sh,
        uint64_t *restrict d, uint64_t d_len)
{
    uint64_t at = (uint64_t)step[1] * sh.words;
    vectors_double(z + at, sh.size, d, d_len);
}

/* Adds a doubled row to the w words of a row from word at on, turned by each of the shifts of a step. */
static inline void encoder_wideparity_add_turns(const uint64_t *d, const uint16_t *step, uint64_t step_len,
        uint64_t size, uint64_t *restrict z, uint64_t at, uint64_t w)
{
    lent_uint16_t t = (lent_uint16_t){step + 2, step_len - 2};
    uint64_t shift = 0;
    uint64_t t2 = t.len;
    while (shift < t2) {
        const uint16_t *t3 = t.at + shift;
        if (size <= (uint64_t)*t3) {
            break;
        }
        vectors_add_turned(d, *t3, z, at, w);
        shift += 1;
    }
}

/* A step where more words hold a row; d has room for a doubled one. */
static inline void encoder_wideparity_step_wide(const uint16_t *step, uint64_t step_len, layout_Shape sh,
        uint64_t *restrict d, uint64_t *restrict z)
{
    encoder_wideparity_double_row(z, step, sh, d, 16);
    encoder_wideparity_add_turns(d, step, step_len, sh.size, z, (uint64_t)step[0] * sh.words, sh.words);
    syndromes_trim_rows(z, sh);
}

/* The same where more words hold it, for M = 511. */
static inline void encoder_wideparity_walk_wide(layout_Shape sh, uint64_t *restrict z)
{
    uint64_t d[16] = {0};
    uint64_t t = 0;
    const uint16_t *t2 = encoder_wideparity_walk_wide_table;
    while (t < 15) {
        const uint16_t *step = t2 + 10 * t;
        encoder_wideparity_step_wide(step, 10, sh, d, z);
        t += 1;
    }
}

/* A word of ones for 1, and of zeros for 0. */
static inline uint64_t encoder_wideparity_ones_if(uint64_t odd)
{
    if (odd == 1) {
        return UINT64_C(0xFFFFFFFFFFFFFFFF);
    }
    return 0;
}

/* Adds a word of 64 equal bits to each word of row r, of 511 bits. */
static inline void encoder_wideparity_invert_row(uint64_t *restrict z, uint64_t r, uint64_t v)
{
    uint64_t last = 8 * r + 7;
    uint64_t k = 8 * r;
    while (k < last) {
        vectors_add_word(v, z, k);
        k += 1;
    }
    vectors_add_word(vectors_front(v, 63), z, last);
}

/* Inverts the rows that end with every bit the other way, by a number that has a bit for each block, set where its
 * bits are odd in number. */
static inline void encoder_wideparity_invert(uint64_t odd, uint64_t *restrict z)
{
    word_ownparity_Together together = word_ownparity_odd_together(odd);
    encoder_wideparity_invert_row(z, 0, encoder_wideparity_ones_if(together.first));
    encoder_wideparity_invert_row(z, 1, encoder_wideparity_ones_if(together.second));
}

/* The parity of the information of a near-Earth code, row after row, into z, which is handed over as zeros. */
static inline void encoder_wideparity_solve_wide(word_received_Sent sent, layout_Shape sh, uint64_t *restrict z)
{
    uint64_t odd = encoder_wideparity_lay_wide(sent, sh, z);
    encoder_wideparity_walk_wide(sh, z);
    encoder_wideparity_invert(odd, z);
}

/* Octet at, and zeros behind it; zeros alone past the last octet. */
static inline uint64_t encoder_parityrows_spare(const uint8_t *octets, uint64_t octets_len, uint64_t at)
{
    if (at < octets_len) {
        return word_received_leading(octets[at]);
    }
    return 0;
}

/* Puts the last bits of the information, which do not fill an octet, into y, which is handed over as zeros. */
static inline void encoder_parityrows_put_spare(const uint8_t *information, uint64_t information_len, uint64_t n,
        uint64_t *restrict y)
{
    y[0] = encoder_parityrows_spare(information, information_len, n / 8);
}

/* Adds the 64 bits of v to those of y from bit p on. */
static inline void encoder_parityrows_put_word(uint64_t v, uint64_t *restrict y, uint64_t p)
{
    uint64_t u[4] = {0, v, 0, 0};
    vectors_add_turned(u, 64 - p % 64, y, p / 64, 2);
}

/* Adds row r of z to the bits of y from bit p on. */
static inline void encoder_parityrows_put_row(const uint64_t *z, layout_Shape sh, uint64_t r, uint64_t *restrict y,
        uint64_t p)
{
    uint64_t j = 0;
    uint64_t t = sh.words;
    while (j < t) {
        encoder_parityrows_put_word(z[r * sh.words + j], y, p + 64 * j);
        j += 1;
    }
}

/* Puts the rows behind the first bits of y, as parity block a the row (a + first) mod R. */
static inline void encoder_parityrows_put_rows(const uint64_t *z, layout_Shape sh, uint64_t first,
        uint64_t *restrict y, uint64_t at)
{
    uint64_t a = 0;
    uint64_t t = sh.rows;
    while (a < t) {
        encoder_parityrows_put_row(z, sh, (a + first) % sh.rows, y, at + a * sh.size);
        a += 1;
    }
}

/* What is sent from octet n / 8 on, where n bits of the information are: the last of them, and the rows. y is handed
 * over as zeros. */
static inline void encoder_parityrows_lay_tail(const uint8_t *information, uint64_t information_len, uint64_t n,
        const uint64_t *z, layout_Shape sh, uint64_t first, uint64_t *restrict y)
{
    encoder_parityrows_put_spare(information, information_len, n, y);
    encoder_parityrows_put_rows(z, sh, first, y, n % 8);
}

/* Writes octets, and behind them those of y. */
static inline void encoder_parityrows_write_both(const uint8_t *front, uint64_t front_len, const uint64_t *y,
        uint8_t *restrict word, uint64_t word_len)
{
    uint64_t at = front_len;
    vectors_copying_copy(front, front_len, word);
    vectors_store(y, 0, word + at, word_len - at);
}

/* Writes the word: the octets that n bits of the information fill, and behind them what is laid from there on. */
static inline void encoder_parityrows_write(const uint8_t *information, uint64_t information_len, uint64_t n,
        const uint64_t *z, layout_Shape sh, uint64_t first, uint8_t *restrict word, uint64_t word_len)
{
    uint64_t y[18] = {0};
    encoder_parityrows_lay_tail(information, information_len, n, z, sh, first, y);
    uint64_t at = n / 8;
    encoder_parityrows_write_both(information, at, y, word, word_len);
}

/* The word of a near-Earth code. The shape stands in numbers, so that a compiler sees them in the walk. */
static inline void encoder_wideparity_encode(catalogue_offer_KnownOffer code, const uint8_t *information,
        uint64_t information_len, uint8_t *restrict word, uint64_t word_len)
{
    catalogue_offer_Offer o = code.offer;
    layout_Shape sh = (layout_Shape){.size = 511, .words = 8, .blocks = 16, .rows = 2};
    uint64_t z[16] = {0};
    word_received_Sent sent = (word_received_Sent){.octets = (lent_uint8_t){information, information_len},
            .unsent = o.unsent};
    encoder_wideparity_solve_wide(sent, sh, z);
    encoder_parityrows_write(information, information_len, 7154 - o.unsent, z, sh, 0, word, word_len);
}

/* Adds information block b, of the words y, to the rows, where one word holds it. */
static inline void encoder_narrowparity_add_narrow_block(const uint64_t *y, layout_Parity parity, uint64_t b,
        uint64_t *restrict z)
{
    uint64_t size = parity.shape.size;
    uint64_t v = vectors_front(vectors_window(y, b * size), size);
    syndromes_add_block_Pair(vectors_double_word(v, size), parity, b, z);
}

/* Adds the information blocks to the rows, where one word holds a block. */
static inline void encoder_narrowparity_add_narrow(const uint8_t *octets, uint64_t octets_len, layout_Parity parity,
        uint64_t *restrict z)
{
    uint64_t y[5] = {0};
    vectors_load(octets, octets_len, y, 5);
    uint64_t b = 0;
    while (b < 4) {
        encoder_narrowparity_add_narrow_block(y, parity, b, z);
        b += 1;
    }
}

/* The checks that the information breaks while the parity is 0, into z, which is handed over as zeros, where one
 * word holds a row. */
static inline void encoder_narrowparity_lay_narrow(const uint8_t *octets, uint64_t octets_len, layout_Shape sh,
        uint64_t *restrict z)
{
    uint16_t h[64] = {0};
    catalogue_tables_lend_narrow(sh.size, h);
    layout_Parity parity = (layout_Parity){.places = (lent_uint16_t){h, 64}, .shape = sh};
    encoder_narrowparity_add_narrow(octets, octets_len, parity, z);
    syndromes_trim_rows(z, sh);
}

/* The list of steps for M, where one word holds a row. */
static inline void encoder_narrowparity_narrow_steps(uint64_t size, uint16_t *restrict result)
{
    switch (size) {
    case 16:
        memcpy(result + 0, encoder_narrowparity_narrow_steps_table, 10 * sizeof(uint16_t));
        memcpy(result + 10, encoder_narrowparity_narrow_steps_table_2, 10 * sizeof(uint16_t));
        memcpy(result + 20, encoder_narrowparity_narrow_steps_table_3, 10 * sizeof(uint16_t));
        memcpy(result + 30, encoder_narrowparity_narrow_steps_table_4, 10 * sizeof(uint16_t));
        memcpy(result + 40, encoder_narrowparity_narrow_steps_table_5, 10 * sizeof(uint16_t));
        memcpy(result + 50, encoder_narrowparity_narrow_steps_table_6, 10 * sizeof(uint16_t));
        memcpy(result + 60, encoder_narrowparity_narrow_steps_table_7, 10 * sizeof(uint16_t));
        memcpy(result + 70, encoder_narrowparity_narrow_steps_table_8, 10 * sizeof(uint16_t));
        memcpy(result + 80, encoder_narrowparity_narrow_steps_table_9, 10 * sizeof(uint16_t));
        memcpy(result + 90, encoder_narrowparity_narrow_steps_table_10, 10 * sizeof(uint16_t));
        memcpy(result + 100, encoder_narrowparity_narrow_steps_table_11, 10 * sizeof(uint16_t));
        memcpy(result + 110, encoder_narrowparity_narrow_steps_table_12, 10 * sizeof(uint16_t));
        memcpy(result + 120, encoder_narrowparity_narrow_steps_table_13, 10 * sizeof(uint16_t));
        memcpy(result + 130, encoder_narrowparity_narrow_steps_table_14, 10 * sizeof(uint16_t));
        memcpy(result + 140, encoder_narrowparity_narrow_steps_table_15, 10 * sizeof(uint16_t));
        return;
    case 32:
        memcpy(result + 0, encoder_narrowparity_narrow_steps_table_16, 10 * sizeof(uint16_t));
        memcpy(result + 10, encoder_narrowparity_narrow_steps_table_17, 10 * sizeof(uint16_t));
        memcpy(result + 20, encoder_narrowparity_narrow_steps_table_18, 10 * sizeof(uint16_t));
        memcpy(result + 30, encoder_narrowparity_narrow_steps_table_19, 10 * sizeof(uint16_t));
        memcpy(result + 40, encoder_narrowparity_narrow_steps_table_20, 10 * sizeof(uint16_t));
        memcpy(result + 50, encoder_narrowparity_narrow_steps_table_21, 10 * sizeof(uint16_t));
        memcpy(result + 60, encoder_narrowparity_narrow_steps_table_22, 10 * sizeof(uint16_t));
        memcpy(result + 70, encoder_narrowparity_narrow_steps_table_23, 10 * sizeof(uint16_t));
        memcpy(result + 80, encoder_narrowparity_narrow_steps_table_24, 10 * sizeof(uint16_t));
        memcpy(result + 90, encoder_narrowparity_narrow_steps_table_25, 10 * sizeof(uint16_t));
        memcpy(result + 100, encoder_narrowparity_narrow_steps_table_26, 10 * sizeof(uint16_t));
        memcpy(result + 110, encoder_narrowparity_narrow_steps_table_27, 10 * sizeof(uint16_t));
        memcpy(result + 120, encoder_narrowparity_narrow_steps_table_28, 10 * sizeof(uint16_t));
        memcpy(result + 130, encoder_narrowparity_narrow_steps_table_29, 10 * sizeof(uint16_t));
        memcpy(result + 140, encoder_narrowparity_narrow_steps_table_30, 10 * sizeof(uint16_t));
        return;
    default:
        memcpy(result + 0, encoder_narrowparity_narrow_steps_table_31, 10 * sizeof(uint16_t));
        memcpy(result + 10, encoder_narrowparity_narrow_steps_table_32, 10 * sizeof(uint16_t));
        memcpy(result + 20, encoder_narrowparity_narrow_steps_table_33, 10 * sizeof(uint16_t));
        memcpy(result + 30, encoder_narrowparity_narrow_steps_table_34, 10 * sizeof(uint16_t));
        memcpy(result + 40, encoder_narrowparity_narrow_steps_table_35, 10 * sizeof(uint16_t));
        memcpy(result + 50, encoder_narrowparity_narrow_steps_table_36, 10 * sizeof(uint16_t));
        memcpy(result + 60, encoder_narrowparity_narrow_steps_table_37, 10 * sizeof(uint16_t));
        memcpy(result + 70, encoder_narrowparity_narrow_steps_table_38, 10 * sizeof(uint16_t));
        memcpy(result + 80, encoder_narrowparity_narrow_steps_table_39, 10 * sizeof(uint16_t));
        memcpy(result + 90, encoder_narrowparity_narrow_steps_table_40, 10 * sizeof(uint16_t));
        memcpy(result + 100, encoder_narrowparity_narrow_steps_table_41, 10 * sizeof(uint16_t));
        memcpy(result + 110, encoder_narrowparity_narrow_steps_table_42, 10 * sizeof(uint16_t));
        memcpy(result + 120, encoder_narrowparity_narrow_steps_table_43, 10 * sizeof(uint16_t));
        memcpy(result + 130, encoder_narrowparity_narrow_steps_table_44, 10 * sizeof(uint16_t));
        memcpy(result + 140, encoder_narrowparity_narrow_steps_table_45, 10 * sizeof(uint16_t));
        return;
    }
}

/* The copies of a doubled row that are turned by the shifts of a step, summed; one word holds the row. */
static inline uint64_t encoder_narrowparity_turns(vectors_Pair d, const uint16_t *step, uint64_t step_len,
        uint64_t size)
{
    uint64_t sum = 0;
    lent_uint16_t t = (lent_uint16_t){step + 2, step_len - 2};
    uint64_t shift = 0;
    uint64_t t2 = t.len;
    while (shift < t2) {
        const uint16_t *t3 = t.at + shift;
        if (size <= (uint64_t)*t3) {
            break;
        }
        sum ^= vectors_funnel(d.first, d.second, *t3);
        shift += 1;
    }
    return sum;
}

/* A step where one word holds a row. */
static inline void encoder_narrowparity_step_narrow(const uint16_t *step, uint64_t step_len, layout_Shape sh,
        uint64_t *restrict z)
{
    vectors_Pair d = vectors_double_word(z[(uint64_t)step[1]], sh.size);
    vectors_add_word(vectors_front(encoder_narrowparity_turns(d, step, step_len, sh.size), sh.size), z, step[0]);
}

/* The steps, one after the other, where one word holds a row. */
static inline void encoder_narrowparity_walk_narrow(layout_Shape sh, uint64_t *restrict z)
{
    uint16_t steps[150];
    encoder_narrowparity_narrow_steps(sh.size, steps);
    uint64_t t = 0;
    const uint16_t *t2 = steps;
    while (t < 15) {
        const uint16_t *step = t2 + 10 * t;
        encoder_narrowparity_step_narrow(step, 10, sh, z);
        t += 1;
    }
}

/* The parity of the information of a telecommand code, row after row, into z, which is handed over as zeros. */
static inline void encoder_narrowparity_solve_narrow(const uint8_t *octets, uint64_t octets_len, layout_Shape sh,
        uint64_t *restrict z)
{
    encoder_narrowparity_lay_narrow(octets, octets_len, sh, z);
    encoder_narrowparity_walk_narrow(sh, z);
}

/* The word of a telecommand code. */
static inline void encoder_narrowparity_encode(catalogue_offer_KnownOffer code, const uint8_t *information,
        uint64_t information_len, uint8_t *restrict word, uint64_t word_len)
{
    catalogue_offer_Offer o = code.offer;
    uint64_t size = o.shape.size;
    layout_Shape sh = catalogue_offer_telecommand_shape(size);
    uint64_t z[16] = {0};
    encoder_narrowparity_solve_narrow(information, information_len, sh, z);
    encoder_parityrows_write(information, information_len, 4 * size, z, sh, 1, word, word_len);
}

/* The word of information of the right length whose spare bits are 0, into an output of the right length. */
static inline void encoder_solver_encode(catalogue_offer_KnownOffer code, const uint8_t *information,
        uint64_t information_len, uint8_t *restrict word, uint64_t word_len)
{
    catalogue_offer_Offer o = code.offer;
    layout_Shape of = o.shape;
    if (of.size == 511) {
        encoder_wideparity_encode(code, information, information_len, word, word_len);
    } else {
        encoder_narrowparity_encode(code, information, information_len, word, word_len);
    }
}

/* ---- magnitudes ------------------------------------------------------------------------------------- */

/* Samples by their bit patterns, and the run that chooses by their sizes. A pattern is read and compared as a whole
 * number, so that no mode of the machine's floating point matters. */

/* The bits of some samples, and whether all of these are finite. */
typedef struct magnitudes_Marked_u32 {
    uint32_t bits;
    bool finite;
} magnitudes_Marked_u32;

/* The bits of some samples, and whether all of these are finite. */
typedef struct magnitudes_Marked_u64 {
    uint64_t bits;
    bool finite;
} magnitudes_Marked_u64;

/* The first bit of v that is set. */
static inline uint64_t magnitudes_first_set(uint64_t v)
{
    return leading_zeros64(v);
}

/* A pattern without its sign. */
static inline uint32_t magnitudes_unsigned(uint32_t p)
{
    return p % UINT32_C(0x80000000);
}

/* Of two bits, the later one only if its sample is smaller. */
static inline uint64_t magnitudes_smaller(const float *samples, uint64_t earlier, uint64_t later)
{
    if (magnitudes_unsigned(pattern_of(samples + later)) < magnitudes_unsigned(pattern_of(samples + earlier))) {
        return later;
    }
    return earlier;
}

/* v with bit n flipped. */
static inline uint64_t magnitudes_with_flipped(uint64_t v, uint64_t n)
{
    return v ^ (UINT64_C(1) << (63 - n));
}

/* The smallest of a bit and of the bits that are set in mask, which begins with bit `first`. */
static inline uint64_t magnitudes_smallest_of(const float *samples, uint64_t mask, uint64_t first, uint64_t bit)
{
    uint64_t left = mask;
    uint64_t best = bit;
    while (left != 0) {
        uint64_t i = magnitudes_first_set(left);
        best = magnitudes_smaller(samples, best, first + i);
        left = magnitudes_with_flipped(left, i);
    }
    return best;
}

/* Whether a sample is read as 1: the sign is set, and the rest is not 0. */
static inline bool magnitudes_is_one(uint32_t p)
{
    return UINT32_C(0x80000000) < p;
}

/* The power of 2, if the sample is read as 1. */
static inline uint32_t magnitudes_mark(uint32_t p, uint64_t place)
{
    if (magnitudes_is_one(p)) {
        return UINT32_C(1) << (uint32_t)place;
    }
    return 0;
}

/* Whether a sample is finite: the exponent's field is not all ones. */
static inline bool magnitudes_is_finite(uint32_t p)
{
    return magnitudes_unsigned(p) / 0x800000 != 255;
}

/* The bits of the n samples from sample `at` on, in front, and whether these are finite. */
static inline magnitudes_Marked_u32 magnitudes_half(const float *samples, uint64_t at, uint64_t n)
{
    uint32_t bits = 0;
    bool finite = true;
    uint64_t i = 0;
    while (i < n) {
        bits |= magnitudes_mark(pattern_of(samples + (at + i)), 31 - i);
        finite = magnitudes_is_finite(pattern_of(samples + (at + i))) & finite;
        i += 1;
    }
    return (magnitudes_Marked_u32){.bits = bits, .finite = finite};
}

/* The same of up to 64 samples: in two halves, whose loops the compiler takes four samples at a time. */
static inline magnitudes_Marked_u64 magnitudes_word(const float *samples, uint64_t at, uint64_t n)
{
    uint64_t m = core_int_usize_min(n, 32);
    magnitudes_Marked_u32 a = magnitudes_half(samples, at, m);
    magnitudes_Marked_u32 b = magnitudes_half(samples, at + m, n - m);
    return (magnitudes_Marked_u64){.bits = ((uint64_t)a.bits << 32) | (uint64_t)b.bits, .finite = b.finite & a.finite};
}

/* The words that the samples fill whole. */
static inline bool magnitudes_read_whole(const float *samples, uint64_t samples_len, uint64_t *restrict y)
{
    uint64_t whole = samples_len / 64;
    bool finite = true;
    uint64_t k = 0;
    while (k < whole) {
        magnitudes_Marked_u64 w = magnitudes_word(samples, 64 * k, 64);
        y[k] = w.bits;
        finite = w.finite & finite;
        k += 1;
    }
    return finite;
}

/* The bits read from the samples, in front of a vector of zeros, and whether every sample is finite. */
static inline bool magnitudes_read(const float *samples, uint64_t samples_len, uint64_t *restrict y)
{
    bool finite = magnitudes_read_whole(samples, samples_len, y);
    uint64_t k = samples_len / 64;
    uint64_t n = samples_len % 64;
    magnitudes_Marked_u64 w = magnitudes_word(samples, 64 * k, n);
    y[k] = w.bits;
    return w.finite & finite;
}

/* ---- planes ----------------------------------------------------------------------------------------- */

/* 64 small counts side by side in three bit planes. */

/* Count i is written with bit i of each plane; bit 0 is the most significant. */
typedef struct planes_Planes {
    uint64_t one;
    uint64_t two;
    uint64_t four;
} planes_Planes;

/* The counts after an addition, and the places where a count passed 7: there it begins anew. */
typedef struct planes_Sum {
    planes_Planes planes;
    uint64_t over;
} planes_Sum;

/* The last bit of v at each of 64 places. */
static inline uint64_t planes_spread(uint64_t v)
{
    if (v % 2 == 1) {
        return UINT64_C(0xFFFFFFFFFFFFFFFF);
    }
    return 0;
}

/* Every count is v. */
static inline planes_Planes planes_all(uint64_t v)
{
    return (planes_Planes){.one = planes_spread(v), .two = planes_spread(v / 2), .four = planes_spread(v / 4)};
}

/* Bit i of x is added to count i, for all 64 at once: three half adders. */
static inline planes_Sum planes_add(planes_Planes p, uint64_t x)
{
    uint64_t carry = p.one & x;
    uint64_t next = p.two & carry;
    return (planes_Sum){.planes = (planes_Planes){.one = p.one ^ x, .two = p.two ^ carry, .four = p.four ^ next},
            .over = p.four & next};
}

/* ---- flipping --------------------------------------------------------------------------------------- */

/* The flipping run: what it keeps (bounds), the bit of greatest excess (choice, narrow), the run (runs), how correct
 * ends (endings). */

/* How a run ends: quiet, stuck, or with as many flips as the limit allows. */
enum { flipping_runs_Ending_Quiet = 0, flipping_runs_Ending_Stuck = 1, flipping_runs_Ending_Limit = 2 };
typedef struct flipping_runs_Ending {
    uint8_t tag;
} flipping_runs_Ending;

/* How a run ended, and after how many flips. */
typedef struct flipping_runs_Ran {
    flipping_runs_Ending ending;
    uint32_t flips;
} flipping_runs_Ran;

/* A run, and the broken checks at its end. */
typedef struct flipping_runs_Ended {
    flipping_runs_Ran ran;
    uint32_t last;
} flipping_runs_Ended;

/* Of the bits of a block, those that have none, at most one and at most two of some checks met; and how many checks
 * these are. */
typedef struct flipping_narrow_Weights {
    uint64_t none;
    uint64_t one;
    uint64_t two;
    uint32_t checks;
} flipping_narrow_Weights;

/* A score, and the bits that have it. */
typedef struct flipping_narrow_Level {
    uint32_t score;
    uint64_t mask;
} flipping_narrow_Level;

/* A part of an array that is lent: where it begins, and how many. */
typedef struct lent_flipping_narrow_Level {
    const flipping_narrow_Level *at;
    uint64_t len;
} lent_flipping_narrow_Level;

/* The greatest score, and the first block that has it. */
typedef struct flipping_narrow_Peak {
    uint32_t score;
    uint64_t block;
} flipping_narrow_Peak;

/* A bit, and its score. */
typedef struct flipping_choice_Best {
    uint32_t score;
    uint64_t bit;
} flipping_choice_Best;

/* What a run by the sizes of the samples keeps where one word holds a block: as many samples as bits, or none, where
 * all bits have equal sizes. */
typedef struct flipping_runs_ByRows {
    lent_float samples;
    layout_Parity parity;
    uint64_t rows[4];
    uint64_t from;
} flipping_runs_ByRows;

/* Where the checks of each block's bits are read, in words of this shape: the starts of every block, and how many it
 * has. */
typedef struct flipping_bounds_Places {
    layout_Shape shape;
    uint16_t starts[128];
    uint8_t counts[16];
} flipping_bounds_Places;

/* Places, and for each block how many of its checks every bit has met at least. */
typedef struct flipping_bounds_Bounds {
    flipping_bounds_Places places;
    uint8_t met[16];
} flipping_bounds_Bounds;

/* What a run by the bounds of the blocks keeps; bits before bit `from` are not sent. */
typedef struct flipping_runs_ByBounds {
    flipping_bounds_Bounds *bounds;
    uint64_t *rows;
    uint64_t from;
} flipping_runs_ByBounds;

/* A record of C's: its number says whether the rest counts. */
typedef pandoricchia_corrected flipping_endings_Corrected;

typedef struct flipping_ErrResidual_Ending {
    flipping_runs_Ending field0;
} flipping_ErrResidual_Ending;

/* What comes next: quiet; or stuck, with the greatest excess and the lowest bit that has it; or this bit, of this
 * excess, is to be flipped. */
enum { flipping_runs_Next_Quiet = 0, flipping_runs_Next_Stuck = 1, flipping_runs_Next_Flip = 2 };
typedef struct flipping_runs_Next {
    uint8_t tag;
    union {
        struct { uint64_t field0; uint8_t field1; } Stuck;
        struct { uint64_t field0; uint8_t field1; } Flip;
    } as;
} flipping_runs_Next;

/* A run that ends. */
static inline flipping_runs_Ended flipping_runs_at_end(flipping_runs_Ending ending, uint32_t flips, uint32_t last)
{
    return (flipping_runs_Ended){.ran = (flipping_runs_Ran){.ending = ending, .flips = flips}, .last = last};
}

/* The first m bits of v over and over. */
static inline uint64_t flipping_narrow_repeated(uint64_t v, uint64_t m)
{
    uint64_t all = v;
    uint64_t n = m;
    while (n < 64) {
        all |= all >> n;
        n *= 2;
    }
    return all;
}

/* The rows of the syndrome z. */
static inline void flipping_narrow_begin(const uint64_t *z, layout_Shape sh, uint64_t *restrict rows)
{
    uint64_t r = 0;
    while (r < 4) {
        uint64_t *row = rows + r;
        *row = flipping_narrow_repeated(z[r], sh.size);
        r += 1;
    }
}

/* The bits of block b that are sent. */
static inline uint64_t flipping_narrow_sent_in(uint64_t b, uint64_t from, uint64_t m)
{
    uint64_t all = vectors_front(UINT64_C(0xFFFFFFFFFFFFFFFF), m);
    if (b == 0) {
        return all ^ vectors_front(all, from);
    }
    return all;
}

/* One check more of each bit: it is broken where x has a one. */
static inline flipping_narrow_Weights flipping_narrow_with_check(flipping_narrow_Weights w, uint64_t x)
{
    uint64_t two = (w.two & x) | w.one;
    uint64_t one = (w.one & x) | w.none;
    uint64_t none = w.none & x;
    return (flipping_narrow_Weights){.none = none, .one = one, .two = two, .checks = w.checks + 1};
}

/* The checks of one place of the table, in this row, if it has an entry. */
static inline flipping_narrow_Weights flipping_narrow_with_place(flipping_narrow_Weights w, uint64_t row, uint64_t s,
        uint64_t m)
{
    if (s < m) {
        return flipping_narrow_with_check(w, vectors_funnel(row, row, (64 - s) % 64));
    }
    return w;
}

/* The checks of the two places of a block in this row. */
static inline flipping_narrow_Weights flipping_narrow_with_row(flipping_narrow_Weights w, uint64_t row,
        const uint16_t *h, uint64_t at, uint64_t m)
{
    flipping_narrow_Weights v = flipping_narrow_with_place(w, row, h[at], m);
    return flipping_narrow_with_place(v, row, h[at + 1], m);
}

/* The weights of those bits of block b that are in mask. */
static inline flipping_narrow_Weights flipping_narrow_weigh(const uint64_t *rows, layout_Parity parity, uint64_t b,
        uint64_t mask)
{
    lent_uint16_t h = parity.places;
    layout_Shape sh = parity.shape;
    flipping_narrow_Weights w = (flipping_narrow_Weights){.none = mask, .one = mask, .two = mask, .checks = 0};
    uint64_t r = 0;
    while (r < 4) {
        w = flipping_narrow_with_row(w, rows[r], h.at, 2 * (r * sh.blocks + b), sh.size);
        r += 1;
    }
    return w;
}

/* The greatest score above 8 of the bits that were weighed, and the bits that have it. */
static inline flipping_narrow_Level flipping_narrow_highest(flipping_narrow_Weights w)
{
    if (w.none != 0) {
        return (flipping_narrow_Level){.score = 8 + w.checks, .mask = w.none};
    }
    if (w.one != 0) {
        return (flipping_narrow_Level){.score = 6 + w.checks, .mask = w.one};
    }
    if (w.two != 0) {
        return (flipping_narrow_Level){.score = 4 + w.checks, .mask = w.two};
    }
    return (flipping_narrow_Level){.score = 0, .mask = 0};
}

/* For each block the greatest score above 8 of its bits, and the bits that have it; bits before bit `from` are not
 * sent. */
static inline void flipping_narrow_weigh_all(const uint64_t *rows, layout_Parity parity, uint64_t from,
        flipping_narrow_Level *restrict levels)
{
    layout_Shape sh = parity.shape;
    uint64_t b = 0;
    uint64_t t = sh.blocks;
    while (b < t) {
        levels[b] = flipping_narrow_highest(flipping_narrow_weigh(rows, parity, b,
                flipping_narrow_sent_in(b, from, sh.size)));
        b += 1;
    }
}

/* A block, or a later one with this score, if that is greater. */
static inline flipping_narrow_Peak flipping_narrow_better(flipping_narrow_Peak p, uint32_t score, uint64_t b)
{
    if (p.score < score) {
        return (flipping_narrow_Peak){.score = score, .block = b};
    }
    return p;
}

/* The greatest of the scores, and the first block that has it; 8 if none is greater. */
static inline flipping_narrow_Peak flipping_narrow_greatest(const flipping_narrow_Level *levels, uint64_t blocks)
{
    flipping_narrow_Peak p = (flipping_narrow_Peak){.score = 8, .block = 0};
    lent_flipping_narrow_Level b = (lent_flipping_narrow_Level){levels, blocks};
    uint64_t level = 0;
    uint64_t t = b.len;
    while (level < t) {
        const flipping_narrow_Level *t2 = b.at + level;
        p = flipping_narrow_better(p, t2->score, level);
        level += 1;
    }
    return p;
}

/* The first bit of this block that is set in its mask. */
static inline uint64_t flipping_narrow_first_bit(uint64_t mask, uint64_t block, uint64_t m)
{
    return block * m + (uint64_t)leading_zeros64(mask);
}

/* The smallest of a bit and of those that are set in the mask of a block which begins with bit `first`, if it has
 * the score `top`. */
static inline uint64_t flipping_narrow_peak_in(const float *samples, uint32_t score, uint64_t mask, uint32_t top,
        uint64_t first, uint64_t bit)
{
    if (score != top) {
        return bit;
    }
    return magnitudes_smallest_of(samples, mask, first, bit);
}

/* The smallest of a bit and of those that the masks have of the blocks with this score. */
static inline uint64_t flipping_narrow_smallest_peak(const float *samples, const flipping_narrow_Level *levels,
        layout_Shape sh, uint32_t top, uint64_t bit)
{
    uint64_t best = bit;
    uint64_t b = 0;
    uint64_t t = sh.blocks;
    while (b < t) {
        flipping_narrow_Level level = levels[b];
        best = flipping_narrow_peak_in(samples, level.score, level.mask, top, b * sh.size, best);
        b += 1;
    }
    return best;
}

/* The bit of the greatest score above 8 where the blocks have been weighed; of several the one with the smallest
 * sample, then the lowest number; without samples the lowest. A score of 8 says that there is none. */
static inline flipping_choice_Best flipping_narrow_best_of(const float *samples, uint64_t samples_len,
        const flipping_narrow_Level *levels, layout_Shape sh)
{
    flipping_narrow_Peak p = flipping_narrow_greatest(levels, sh.blocks);
    uint32_t score = p.score;
    uint64_t low = flipping_narrow_first_bit(levels[p.block].mask, p.block, sh.size);
    if (score <= 8) {
        return (flipping_choice_Best){.score = score, .bit = low};
    }
    if (core_is_empty_u32(samples, samples_len)) {
        return (flipping_choice_Best){.score = score, .bit = low};
    }
    return (flipping_choice_Best){.score = score,
            .bit = flipping_narrow_smallest_peak(samples, levels, sh, score, low)};
}

/* The best bit from bit `from` on, after all blocks have been weighed. */
static inline flipping_choice_Best flipping_narrow_choose(const float *samples, uint64_t samples_len,
        const uint64_t *rows, layout_Parity parity, uint64_t from)
{
    layout_Parity here = parity;
    flipping_narrow_Level levels[16] = {0};
    flipping_narrow_weigh_all(rows, here, from, levels);
    return flipping_narrow_best_of(samples, samples_len, levels, here.shape);
}

static inline flipping_choice_Best flipping_runs_ByRowsKeeper_choose(flipping_runs_ByRows *restrict self)
{
    lent_float samples = self->samples;
    return flipping_narrow_choose(samples.at, samples.len, self->rows, self->parity, self->from);
}

/* Flips the check of a row that covers bit k by the shift s; a number that is m or more is no shift. `each` has the
 * first bit of every m set. */
static inline uint64_t flipping_narrow_flip_place(uint64_t row, uint64_t each, uint64_t s, uint64_t k, uint64_t m)
{
    if (s < m) {
        return row ^ vectors_funnel(each, each, (64 + s - k) % 64);
    }
    return row;
}

/* Flips the checks of a row that cover bit k by the shifts of two places. */
static inline uint64_t flipping_narrow_flip_row(uint64_t row, uint64_t each, const uint16_t *h, uint64_t at,
        uint64_t k, uint64_t m)
{
    uint64_t v = flipping_narrow_flip_place(row, each, h[at], k, m);
    return flipping_narrow_flip_place(v, each, h[at + 1], k, m);
}

/* Flips the checks that cover bit k of block b, row after row. `each` has the first bit of every M set. */
static inline void flipping_narrow_flip_rows(uint64_t *restrict rows, layout_Parity parity, uint64_t each, uint64_t b,
        uint64_t k)
{
    lent_uint16_t h = parity.places;
    layout_Shape sh = parity.shape;
    uint64_t r = 0;
    while (r < 4) {
        rows[r] = flipping_narrow_flip_row(rows[r], each, h.at, 2 * (r * sh.blocks + b), k, sh.size);
        r += 1;
    }
}

/* Flips a bit of a word, and its checks with it. */
static inline void flipping_narrow_flip(uint64_t *restrict y, uint64_t *restrict rows, layout_Parity parity,
        uint64_t bit)
{
    vectors_flip_bit(y, bit);
    uint64_t m = parity.shape.size;
    uint64_t each = flipping_narrow_repeated(UINT64_C(1) << 63, m);
    flipping_narrow_flip_rows(rows, parity, each, bit / m, bit % m);
}

static inline void flipping_runs_ByRowsKeeper_flip(flipping_runs_ByRows *restrict self, uint64_t *restrict y,
        uint64_t bit)
{
    flipping_narrow_flip(y, self->rows, self->parity, bit);
}

/* The run from the word y, of which this is kept, under a limit: flips until it ends. So many checks are broken. */
static inline flipping_runs_Ended flipping_runs_go_on_ByRows(flipping_runs_ByRows *restrict kept, uint64_t *restrict y,
        uint16_t limit, uint32_t first)
{
    uint32_t most = limit;
    uint32_t flips = 0;
    uint32_t left = first;
    while (0 < left) {
        flipping_choice_Best best = flipping_runs_ByRowsKeeper_choose(kept);
        uint32_t top = best.score;
        if (top <= 8) {
            return flipping_runs_at_end((flipping_runs_Ending){.tag = flipping_runs_Ending_Stuck}, flips, left);
        }
        if (most <= flips) {
            return flipping_runs_at_end((flipping_runs_Ending){.tag = flipping_runs_Ending_Limit}, flips, left);
        }
        flipping_runs_ByRowsKeeper_flip(kept, y, best.bit);
        left -= top - 8;
        flips += 1;
    }
    return flipping_runs_at_end((flipping_runs_Ending){.tag = flipping_runs_Ending_Quiet}, flips, 0);
}

/* The run by the sizes of the samples, where one word holds a block: as many samples as bits, or none, where all
 * bits have equal sizes. */
static inline flipping_runs_Ended flipping_runs_run_narrow(const float *samples, uint64_t samples_len,
        uint64_t *restrict y, const uint64_t *z, layout_Parity parity, uint64_t from, uint16_t limit, uint32_t first)
{
    uint64_t rows[4] = {0};
    flipping_narrow_begin(z, parity.shape, rows);
    flipping_runs_ByRows kept;
    kept.samples = (lent_float){samples, samples_len};
    kept.parity = parity;
    memcpy(kept.rows, rows, 4 * sizeof(uint64_t));
    kept.from = from;
    return flipping_runs_go_on_ByRows(&kept, y, limit, first);
}

/* The first m bits of v, twice over from word `to` of d on. */
static inline void flipping_bounds_double_narrow_row(uint64_t v, uint64_t m, uint64_t *restrict d, uint64_t to)
{
    vectors_Pair p = vectors_double_word(vectors_front(v, m), m);
    d[to] = p.first;
    d[to + 1] = p.second;
}

/* The m bits of a row that begins with word `at`. */
static inline void flipping_bounds_row(const uint64_t *z, uint64_t at, uint64_t words, uint64_t m,
        uint64_t *restrict v, uint64_t v_len)
{
    uint64_t k = 0;
    while (k < words) {
        v[k] = z[at + k];
        k += 1;
    }
    vectors_trim(v, v_len, m);
}

/* The m bits of a row that begins with word `at`, twice over from word `to` of d on. */
static inline void flipping_bounds_double_row(const uint64_t *z, uint64_t at, uint64_t words, uint64_t m,
        uint64_t *restrict v, uint64_t v_len, uint64_t *restrict d, uint64_t to)
{
    if (words == 1) {
        flipping_bounds_double_narrow_row(z[at], m, d, to);
        return;
    }
    flipping_bounds_row(z, at, words, m, v, v_len);
    uint64_t end = to + 2 * words;
    vectors_double(v, m, d + to, end - to);
}

/* Every row of the syndrome twice over. */
static inline void flipping_bounds_double_rows(const uint64_t *z, layout_Shape sh, uint64_t *restrict v,
        uint64_t *restrict d)
{
    uint64_t words = sh.words;
    uint64_t m = sh.size;
    uint64_t r = 0;
    uint64_t t = sh.rows;
    while (r < t) {
        flipping_bounds_double_row(z, r * words, words, m, v, 8, d, 16 * r);
        r += 1;
    }
}

/* Writes one start more, if place `at` of h has an entry, and says how many there are then. */
static inline uint64_t flipping_bounds_note(const uint16_t *h, uint64_t at, uint64_t m, uint64_t row,
        uint16_t *restrict starts, uint64_t n)
{
    uint64_t s = h[at];
    if (s < m) {
        starts[n] = (uint16_t)(row + (m - s));
        return n + 1;
    }
    return n;
}

/* The starts of block b at its two places of row r, behind n others, and how many there are then. */
static inline uint64_t flipping_bounds_note_row(layout_Parity parity, uint64_t b, uint64_t r,
        uint16_t *restrict starts, uint64_t n)
{
    lent_uint16_t h = parity.places;
    layout_Shape sh = parity.shape;
    uint64_t at = 2 * (r * sh.blocks + b);
    uint64_t next = flipping_bounds_note(h.at, at, sh.size, 1024 * r, starts, n);
    return flipping_bounds_note(h.at, at + 1, sh.size, 1024 * r, starts, next);
}

/* The starts of block b at its eight places, and how many they are. */
static inline uint64_t flipping_bounds_gather(layout_Parity parity, uint64_t b, uint16_t *restrict starts)
{
    uint64_t n = 8 * b;
    uint64_t row = 0;
    uint64_t t = parity.shape.rows;
    while (row < t) {
        n = flipping_bounds_note_row(parity, b, row, starts, n);
        row += 1;
    }
    return n - 8 * b;
}

/* The starts of every block, and how many each has. */
static inline void flipping_bounds_Places_gather(flipping_bounds_Places *restrict self, layout_Parity parity)
{
    uint64_t b = 0;
    uint64_t t = parity.shape.blocks;
    while (b < t) {
        uint64_t t2 = flipping_bounds_gather(parity, b, self->starts);
        self->counts[b] = (uint8_t)t2;
        b += 1;
    }
}

/* The doubled rows of the syndrome z, and the bounds of the blocks of this shape: no met check is counted on yet. */
static inline void flipping_bounds_begin(const uint64_t *z, layout_Parity parity, uint64_t *restrict rows,
        flipping_bounds_Bounds *restrict result)
{
    layout_Shape sh = parity.shape;
    uint64_t v[8] = {0};
    flipping_bounds_double_rows(z, sh, v, rows);
    result->places.shape = sh;
    memset(result->places.starts, 0, 128 * sizeof(uint16_t));
    memset(result->places.counts, 0, 16);
    memset(result->met, 0, 16);
    flipping_bounds_Places_gather(&result->places, parity);
}

/* The bound of block b, by how many checks its bits have and how many of these every bit has met. */
static inline uint8_t flipping_choice_bound_of(const uint8_t *counts, const uint8_t *met, uint64_t b)
{
    return (uint8_t)(8 + counts[b] - 2 * met[b]);
}

/* The greatest bound. */
static inline uint8_t flipping_choice_greatest(const uint8_t *counts, const uint8_t *met, uint64_t blocks)
{
    uint8_t top = 0;
    uint64_t b = 0;
    while (b < blocks) {
        top = core_int_u8_max(top, flipping_choice_bound_of(counts, met, b));
        b += 1;
    }
    return top;
}

/* The greatest bound. */
static inline uint8_t flipping_bounds_Bounds_greatest(const flipping_bounds_Bounds *self)
{
    return flipping_choice_greatest(self->places.counts, self->met, self->places.shape.blocks);
}

/* The bound of block b. */
static inline uint8_t flipping_bounds_Bounds_bound_of(const flipping_bounds_Bounds *self, uint64_t b)
{
    return flipping_choice_bound_of(self->places.counts, self->met, b);
}

/* The first bit of block b that counts, where bits from bit `from` on do, which is one of block 0. */
static inline uint64_t flipping_choice_begin_in(uint64_t b, uint64_t from)
{
    if (b == 0) {
        return from;
    }
    return 0;
}

/* Of 64 bits, those of which at most so many checks are met, none or one; mostly the first checks show that there is
 * none. */
static inline uint64_t flipping_bounds_few_met(const uint64_t *d, const uint16_t *starts, uint64_t first, uint64_t n,
        uint64_t at, uint64_t met)
{
    uint64_t found = UINT64_C(0xFFFFFFFFFFFFFFFF);
    uint64_t spare = planes_spread(met);
    uint64_t e = 0;
    while (e < n) {
        uint64_t x = vectors_window(d, (uint64_t)starts[first + e] + at);
        found = (found & x) | spare;
        if (found == 0) {
            return 0;
        }
        spare &= x;
        e += 1;
    }
    return found;
}

/* Of 64 bits, those of which at least so many checks are broken: the counts begin so far below 8, and pass 7 there. */
static inline uint64_t flipping_bounds_many_broken(const uint64_t *d, const uint16_t *starts, uint64_t first,
        uint64_t n, uint64_t at, uint64_t need)
{
    planes_Planes counts = planes_all(8 - need);
    uint64_t over = 0;
    uint64_t e = 0;
    while (e < n) {
        planes_Sum more = planes_add(counts, vectors_window(d, (uint64_t)starts[first + e] + at));
        counts = more.planes;
        over |= more.over;
        e += 1;
    }
    return over;
}

/* Of 64 bits, those of which at most so many of the n checks are met. */
static inline uint64_t flipping_bounds_lightest(const uint64_t *d, const uint16_t *starts, uint64_t first, uint64_t n,
        uint64_t at, uint64_t met)
{
    if (met <= 1) {
        return flipping_bounds_few_met(d, starts, first, n, at, met);
    }
    if (met == n) {
        return UINT64_C(0xFFFFFFFFFFFFFFFF);
    }
    return flipping_bounds_many_broken(d, starts, first, n, at, n - met);
}

/* Of 64 bits from bit `at` on, how many stand ahead of bit k. */
static inline uint64_t flipping_bounds_ahead(uint64_t k, uint64_t at)
{
    return core_int_usize_min(core_int_usize_saturating_sub(k, at), 64);
}

/* Of the bits that are set in v, which begins with bit `at`, those from bit `begin` to before bit m. */
static inline uint64_t flipping_bounds_between(uint64_t v, uint64_t at, uint64_t begin, uint64_t m)
{
    uint64_t c = vectors_front(v, flipping_bounds_ahead(m, at));
    return c ^ vectors_front(c, flipping_bounds_ahead(begin, at));
}

/* Of the 64 bits of a block from bit `at` on: those from bit `begin` to before bit m that have at most so many of
 * their n checks met. */
static inline uint64_t flipping_bounds_weigh(const uint64_t *d, const uint16_t *starts, uint64_t first, uint64_t n,
        uint64_t met, uint64_t at, uint64_t begin, uint64_t m)
{
    uint64_t found = flipping_bounds_lightest(d, starts, first, n, at, met);
    if (found == 0) {
        return 0;
    }
    return flipping_bounds_between(found, at, begin, m);
}

/* The first bit of block b from bit `begin` on that has at most so many of its checks met; M if there is none. */
static OWN_LOOP uint64_t flipping_bounds_Bounds_first_in_block(const flipping_bounds_Bounds *self,
        const uint64_t *rows, uint64_t b, uint64_t met, uint64_t begin)
{
    uint64_t m = self->places.shape.size;
    uint64_t n = self->places.counts[b];
    uint64_t k = 0;
    uint64_t t = self->places.shape.words;
    while (k < t) {
        uint64_t found = flipping_bounds_weigh(rows, self->places.starts, 8 * b, n, met, 64 * k, begin, m);
        if (found != 0) {
            return 64 * k + (uint64_t)leading_zeros64(found);
        }
        k += 1;
    }
    return m;
}

/* The same: a search for bits without a met check is the most frequent one, and a loop of its own for the compiler. */
static inline uint64_t flipping_bounds_Bounds_first_light(const flipping_bounds_Bounds *self, const uint64_t *rows,
        uint64_t b, uint64_t met, uint64_t begin)
{
    if (met == 0) {
        return flipping_bounds_Bounds_first_in_block(self, rows, b, 0, begin);
    }
    return flipping_bounds_Bounds_first_in_block(self, rows, b, met, begin);
}

/* The first bit of block b that counts and has at most as many of its checks met as the block's bound says; M if
 * there is none. */
static inline uint64_t flipping_bounds_Bounds_first_met(const flipping_bounds_Bounds *self, const uint64_t *rows,
        uint64_t from, uint64_t b)
{
    return flipping_bounds_Bounds_first_light(self, rows, b, self->met[b], flipping_choice_begin_in(b, from));
}

/* The first bit of block b of score `top`, where its bound is not greater; M if there is none. If the bound was
 * `top`, it goes down then. */
static inline uint64_t flipping_bounds_Bounds_look(flipping_bounds_Bounds *restrict self, const uint64_t *rows,
        uint64_t from, uint64_t b, uint8_t top)
{
    uint64_t m = self->places.shape.size;
    if (flipping_bounds_Bounds_bound_of(self, b) != top) {
        return m;
    }
    uint64_t k = flipping_bounds_Bounds_first_met(self, rows, from, b);
    if (k < m) {
        return k;
    }
    self->met[b] = (uint8_t)(self->met[b] + 1);
    return m;
}

/* The first bit of score `top` from bit `from` on, where no bound is greater; the number of bits if there is none. */
static inline uint64_t flipping_bounds_Bounds_first_at(flipping_bounds_Bounds *restrict self, const uint64_t *rows,
        uint64_t from, uint8_t top)
{
    layout_Shape sh = self->places.shape;
    uint64_t b = 0;
    uint64_t t = sh.blocks;
    while (b < t) {
        uint64_t k = flipping_bounds_Bounds_look(self, rows, from, b, top);
        if (k < sh.size) {
            return b * sh.size + k;
        }
        b += 1;
    }
    return sh.blocks * sh.size;
}

/* The bit of the greatest score from bit `from` on; of several, the lowest number. */
static inline flipping_choice_Best flipping_bounds_Bounds_choose(flipping_bounds_Bounds *restrict self,
        const uint64_t *rows, uint64_t from)
{
    uint64_t end = self->places.shape.blocks * self->places.shape.size;
    for (;;) {
        uint8_t top = flipping_bounds_Bounds_greatest(self);
        uint64_t bit = flipping_bounds_Bounds_first_at(self, rows, from, top);
        if (bit < end) {
            return (flipping_choice_Best){.score = top, .bit = bit};
        }
    }
}

static inline flipping_choice_Best flipping_runs_ByBoundsKeeper_choose(flipping_runs_ByBounds *restrict self)
{
    return flipping_bounds_Bounds_choose(self->bounds, self->rows, self->from);
}

/* Flips the check at p, in both places. */
static inline void flipping_bounds_flip_check(uint64_t *restrict d, uint64_t p, uint64_t m)
{
    vectors_flip_bit(d, p);
    if (p % 1024 < m) {
        vectors_flip_bit(d, p + m);
    } else {
        vectors_flip_bit(d, p - m);
    }
}

/* Flips the checks of bit k of a block. */
static inline void flipping_bounds_flip_checks(uint64_t *restrict d, const uint16_t *starts, uint64_t first,
        uint64_t n, uint64_t k, uint64_t m)
{
    uint64_t e = 0;
    while (e < n) {
        flipping_bounds_flip_check(d, (uint64_t)starts[first + e] + k, m);
        e += 1;
    }
}

/* After a flip that broke so many checks, the bits of each block may have so many met checks fewer. */
static inline void flipping_bounds_raise(uint8_t *restrict met, uint64_t met_len, uint8_t by)
{
    uint64_t t = 0;
    uint64_t t2 = met_len;
    while (t < t2) {
        uint8_t *m = met + t;
        *m = core_int_u8_saturating_sub(*m, by);
        t += 1;
    }
}

/* Flips the checks of a bit and raises the bounds; the bit has as many met checks as the bound of its block says. */
static inline void flipping_bounds_Bounds_flip(flipping_bounds_Bounds *restrict self, uint64_t *restrict rows,
        uint64_t bit)
{
    layout_Shape sh = self->places.shape;
    uint64_t b = bit / sh.size;
    uint64_t n = self->places.counts[b];
    flipping_bounds_flip_checks(rows, self->places.starts, 8 * b, n, bit % sh.size, sh.size);
    uint8_t by = self->met[b];
    flipping_bounds_raise(self->met, 16, by);
}

static inline void flipping_runs_ByBoundsKeeper_flip(flipping_runs_ByBounds *restrict self, uint64_t *restrict y,
        uint64_t bit)
{
    vectors_flip_bit(y, bit);
    flipping_bounds_Bounds_flip(self->bounds, self->rows, bit);
}

/* The run from the word y, of which this is kept, under a limit: flips until it ends. So many checks are broken. */
static inline flipping_runs_Ended flipping_runs_go_on_ByBounds(flipping_runs_ByBounds *restrict kept,
        uint64_t *restrict y, uint16_t limit, uint32_t first)
{
    uint32_t most = limit;
    uint32_t flips = 0;
    uint32_t left = first;
    while (0 < left) {
        flipping_choice_Best best = flipping_runs_ByBoundsKeeper_choose(kept);
        uint32_t top = best.score;
        if (top <= 8) {
            return flipping_runs_at_end((flipping_runs_Ending){.tag = flipping_runs_Ending_Stuck}, flips, left);
        }
        if (most <= flips) {
            return flipping_runs_at_end((flipping_runs_Ending){.tag = flipping_runs_Ending_Limit}, flips, left);
        }
        flipping_runs_ByBoundsKeeper_flip(kept, y, best.bit);
        left -= top - 8;
        flips += 1;
    }
    return flipping_runs_at_end((flipping_runs_Ending){.tag = flipping_runs_Ending_Quiet}, flips, 0);
}

/* The run from the word y with the syndrome z, of which so many checks are broken, by the bounds of its blocks. */
static inline flipping_runs_Ended flipping_runs_run_bounded(uint64_t *restrict y, const uint64_t *z,
        layout_Parity parity, uint64_t from, uint16_t limit, uint32_t first)
{
    uint64_t rows[65] = {0};
    flipping_bounds_Bounds bounds;
    flipping_bounds_begin(z, parity, rows, &bounds);
    flipping_runs_ByBounds kept = (flipping_runs_ByBounds){.bounds = &bounds, .rows = rows, .from = from};
    return flipping_runs_go_on_ByBounds(&kept, y, limit, first);
}

/* The run from the word y with the syndrome z, of which so many checks are broken, under a limit: flips until it
 * ends. */
static inline flipping_runs_Ended flipping_runs_run(uint64_t *restrict y, const uint64_t *z, layout_Parity parity,
        uint64_t from, uint16_t limit, uint32_t first)
{
    if (first == 0) {
        return flipping_runs_at_end((flipping_runs_Ending){.tag = flipping_runs_Ending_Quiet}, 0, 0);
    }
    if (parity.shape.words == 1) {
        return flipping_runs_run_narrow(no_float, 0, y, z, parity, from, limit, first);
    }
    return flipping_runs_run_bounded(y, z, parity, from, limit, first);
}

/* In how many bits the word at the end of a run differs from the received one: no flip leaves it, and one flips one
 * bit. */
static inline uint32_t flipping_endings_unlike_after(word_received_Received received, const uint64_t *y, uint32_t flips)
{
    if (flips <= 1) {
        return flips;
    }
    catalogue_offer_Offer o = received.code.offer;
    return (uint32_t)word_unlike_unlike(received.word.at, received.word.len, y, o.unsent, o.bits - o.unsent);
}

/* The number by which the calls' records give an ending. */
static inline uint8_t flipping_runs_Ending_number(flipping_runs_Ending self)
{
    switch (self.tag) {
    case flipping_runs_Ending_Quiet:
        return 0;
    case flipping_runs_Ending_Stuck:
        return 5;
    case flipping_runs_Ending_Limit:
    default:
        return 6;
    }
}

/* What correct gives besides its number where it is refused by 1 to 3, and on samples also by 16. */
static inline flipping_endings_Corrected flipping_endings_refused_correct(uint8_t number)
{
    return (flipping_endings_Corrected){.number = number, .flips = 0, .first = 0, .last = 0, .unlike = 0, .lowest = 0};
}

static inline flipping_runs_Ending flipping_AnyFrom_from_Ending(flipping_runs_Ending p0)
{
    return p0;
}

/* What comes next for a word that has a broken check and the syndrome z, by the bounds of its blocks; bits before
 * bit `from` are not sent. */
static inline flipping_runs_Next flipping_runs_next_bounded(const uint64_t *z, layout_Parity parity, uint64_t from)
{
    uint64_t rows[65] = {0};
    flipping_bounds_Bounds bounds;
    flipping_bounds_begin(z, parity, rows, &bounds);
    flipping_choice_Best best = flipping_bounds_Bounds_choose(&bounds, rows, from);
    uint8_t excess = (uint8_t)(signed8((uint8_t)best.score) - 8);
    if (best.score <= 8) {
        return (flipping_runs_Next){.tag = flipping_runs_Next_Stuck,
                .as.Stuck = {.field0 = best.bit, .field1 = excess}};
    }
    return (flipping_runs_Next){.tag = flipping_runs_Next_Flip, .as.Flip = {.field0 = best.bit, .field1 = excess}};
}

/* The same where one word holds a block: a bit that is to be flipped shows at once. All bits have equal sizes. */
static inline flipping_runs_Next flipping_runs_next_narrow(const uint64_t *z, layout_Parity parity, uint64_t from)
{
    uint64_t rows[4] = {0};
    flipping_narrow_begin(z, parity.shape, rows);
    flipping_choice_Best best = flipping_narrow_choose(no_float, 0, rows, parity, from);
    if (8 < best.score) {
        uint8_t excess = (uint8_t)(signed8((uint8_t)best.score) - 8);
        return (flipping_runs_Next){.tag = flipping_runs_Next_Flip, .as.Flip = {.field0 = best.bit, .field1 = excess}};
    }
    return flipping_runs_next_bounded(z, parity, from);
}

/* What comes next for the word whose syndrome is z; bits before bit `from` are not sent. */
static inline flipping_runs_Next flipping_runs_comes_next(const uint64_t *z, layout_Parity parity, uint64_t from)
{
    if (syndromes_is_quiet(z)) {
        return (flipping_runs_Next){.tag = flipping_runs_Next_Quiet};
    }
    if (parity.shape.words == 1) {
        return flipping_runs_next_narrow(z, parity, from);
    }
    return flipping_runs_next_bounded(z, parity, from);
}

/* ---- codes ------------------------------------------------------------------------------------------ */

/* The calls. Each takes any code number, any lengths and any contents; what it refuses it refuses by number, and
 * writes nothing. */

/* A record of C's: its number says whether the rest counts. */
typedef pandoricchia_checked codes_Checked;

/* What is wrong with a word, if anything is, and its lowest broken check. */
typedef struct codes_Found {
    refusals_Result_unit_Refusal fault;
    uint32_t lowest;
} codes_Found;

/* What open gives: the number, the lowest broken check, and the information octets as a part of the word, lent back.
 * A number, and no Result: a word is refused by 9 together with its lowest broken check. */
typedef struct codes_Opened {
    uint8_t number;
    uint32_t lowest;
    lent_uint8_t part;
} codes_Opened;

/* A run on a received word: its end, and how many checks are broken at its start and which is the lowest of them. */
typedef struct codes_Course {
    flipping_runs_Ended ended;
    uint32_t first;
    uint32_t lowest;
} codes_Course;

/* A record of C's: its number, and whether it was quiet, say whether the rest counts. */
typedef pandoricchia_stepped codes_Stepped;

/* Whether the last octet of the information is not a multiple of what it must be: one of code 4's last six bits is
 * set. */
static inline bool codes_six_set(catalogue_offer_KnownOffer code, const uint8_t *information)
{
    catalogue_offer_Offer o = code.offer;
    uint64_t last = o.information - 1;
    return information[last] % o.multiple != 0;
}

/* The word of the information, or why there is none. */
static inline refusals_Result_unit_Refusal codes_encoded(uint8_t code, const uint8_t *information,
        uint64_t information_len, uint8_t *restrict word, uint64_t word_len)
{
    catalogue_offer_Offer o = catalogue_offer_of(code);
    refusals_ControlFlow_ErrResidual_Refusal_unit t = refusals_ResultTry_branch_unit_Refusal(refusals_admit(o.offered,
            information_len, o.information, word_len, o.word));
    switch (t.tag) {
    case refusals_ControlFlow_ErrResidual_Refusal_unit_Continue:
        break;
    case refusals_ControlFlow_ErrResidual_Refusal_unit_Break:
    default:
        return refusals_ResultFromResidualErrResidual_from_residual_un(t.as.Break.field0);
    }
    catalogue_offer_KnownOffer t2 = (catalogue_offer_KnownOffer){.offer = o};
    if (codes_six_set(t2, information)) {
        return (refusals_Result_unit_Refusal){.tag = refusals_Result_unit_Refusal_Err,
                .as.Err = {.field0 = (refusals_Refusal){.tag = refusals_Refusal_LastSix}}};
    }
    encoder_solver_encode(t2, information, information_len, word, word_len);
    return (refusals_Result_unit_Refusal){.tag = refusals_Result_unit_Refusal_Ok};
}

/* Information in, word out. */
static inline uint8_t codes_encode(uint8_t code, const uint8_t *information, uint64_t information_len,
        uint8_t *restrict word, uint64_t word_len)
{
    refusals_Result_unit_Refusal t = codes_encoded(code, information, information_len, word, word_len);
    return refusals_number(t);
}

/* How many checks of a word of the right length are broken, and the lowest of them. */
static inline codes_Checked codes_check_taken(word_received_Received received)
{
    word_measured_Room room;
    word_measured_Room_new(&room);
    layout_Shape sh = word_measured_Room_measure(&room, received);
    return (codes_Checked){.number = 0, .broken = syndromes_broken(room.z), .lowest = syndromes_lowest(room.z, sh)};
}

/* What a refused check gives besides its number. */
static inline codes_Checked codes_refused_check(refusals_Refusal refusal)
{
    return (codes_Checked){.number = refusals_Refusal_number(refusal), .broken = 0, .lowest = 0};
}

/* How many checks are broken, and the lowest of them. */
static inline codes_Checked codes_check(uint8_t code, const uint8_t *word, uint64_t word_len)
{
    catalogue_offer_Offer o = catalogue_offer_of(code);
    refusals_Result_unit_Refusal t = refusals_admit(o.offered, word_len, o.word, 0, 0);
    switch (t.tag) {
    case refusals_Result_unit_Refusal_Ok:
        return codes_check_taken((word_received_Received){.code = (catalogue_offer_KnownOffer){.offer = o},
                .word = (lent_uint8_t){word, word_len}});
    case refusals_Result_unit_Refusal_Err:
    default: {
        refusals_Refusal refusal = t.as.Err.field0;
        return codes_refused_check(refusal);
    }
    }
}

/* What is wrong with a word of the right length, and its lowest broken check. */
static inline codes_Found codes_fault_of(word_received_Received received)
{
    word_measured_Room room;
    word_measured_Room_new(&room);
    layout_Shape sh = word_measured_Room_measure(&room, received);
    return (codes_Found){.fault = word_judging_fault(received.code, room.y, room.z),
            .lowest = syndromes_lowest(room.z, sh)};
}

/* The information octets of a word of the right length, where it is a codeword. */
static inline codes_Opened codes_open_taken(word_received_Received received)
{
    catalogue_offer_Offer o = received.code.offer;
    lent_uint8_t word = received.word;
    codes_Found found = codes_fault_of(received);
    uint64_t t;
    switch (found.fault.tag) {
    case refusals_Result_unit_Refusal_Ok:
        t = o.information;
        break;
    case refusals_Result_unit_Refusal_Err:
    default:
        t = 0;
        break;
    }
    uint64_t end = t;
    return (codes_Opened){.number = refusals_number(found.fault), .lowest = found.lowest,
            .part = (lent_uint8_t){word.at, end}};
}

/* The information octets of a codeword, lent back as a part of the word. */
static inline codes_Opened codes_open(uint8_t code, const uint8_t *word, uint64_t word_len)
{
    catalogue_offer_Offer o = catalogue_offer_of(code);
    refusals_Result_unit_Refusal t = refusals_admit(o.opens, word_len, o.word, 0, 0);
    switch (t.tag) {
    case refusals_Result_unit_Refusal_Ok:
        return codes_open_taken((word_received_Received){.code = (catalogue_offer_KnownOffer){.offer = o},
                .word = (lent_uint8_t){word, word_len}});
    case refusals_Result_unit_Refusal_Err:
    default: {
        refusals_Refusal refusal = t.as.Err.field0;
        return (codes_Opened){.number = refusals_Refusal_number(refusal), .lowest = 0, .part = (lent_uint8_t){word, 0}};
    }
    }
}

/* The flipping run on a word of the right length; y and z of the room are handed over as zeros, and y comes back as
 * the word at its end. */
static inline codes_Course codes_run_taken(word_received_Received received, uint16_t limit,
        word_measured_Room *restrict room)
{
    catalogue_offer_Offer o = received.code.offer;
    layout_Shape sh = word_measured_Room_measure(room, received);
    uint32_t first = syndromes_broken(room->z);
    uint32_t lowest = syndromes_lowest(room->z, sh);
    layout_Parity parity = (layout_Parity){.places = (lent_uint16_t){room->h, 64}, .shape = sh};
    flipping_runs_Ended ended = flipping_runs_run(room->y, room->z, parity, o.unsent, limit, first);
    return (codes_Course){.ended = ended, .first = first, .lowest = lowest};
}

/* The word y into an output of the right length, if its number says that it is taken. */
static inline void codes_write_taken(catalogue_offer_KnownOffer code, uint8_t number, uint64_t *restrict y,
        uint8_t *restrict out, uint64_t out_len)
{
    if (number == 0) {
        catalogue_offer_Offer o = code.offer;
        word_received_write(y, o.unsent, o.bits, out, out_len);
    }
}

/* What correct gives of a run that has ended with the word y: its numbers, and the word where it is taken. */
static inline flipping_endings_Corrected codes_finish(word_received_Received received, uint64_t *restrict y,
        codes_Course run, uint8_t *restrict out, uint64_t out_len)
{
    flipping_runs_Ended ended = run.ended;
    flipping_runs_Ran ran = ended.ran;
    uint32_t unlike = flipping_endings_unlike_after(received, y, ran.flips);
    uint8_t number = word_judging_judge(received.code, y, flipping_runs_Ending_number(ran.ending));
    codes_write_taken(received.code, number, y, out, out_len);
    return (flipping_endings_Corrected){.number = number, .flips = ran.flips, .first = run.first, .last = ended.last,
            .unlike = unlike, .lowest = run.lowest};
}

/* The flipping run on a word of the right length, into an output of the right length. */
static inline flipping_endings_Corrected codes_correct_taken(word_received_Received received, uint16_t limit,
        uint8_t *restrict out, uint64_t out_len)
{
    word_measured_Room room;
    word_measured_Room_new(&room);
    codes_Course run = codes_run_taken(received, limit, &room);
    return codes_finish(received, room.y, run, out, out_len);
}

/* The flipping run on a received word, under a limit. */
static inline flipping_endings_Corrected codes_correct(uint8_t code, const uint8_t *word, uint64_t word_len,
        uint16_t limit, uint8_t *restrict out, uint64_t out_len)
{
    catalogue_offer_Offer o = catalogue_offer_of(code);
    refusals_Result_unit_Refusal t = refusals_admit(o.offered, word_len, o.word, out_len, o.word);
    switch (t.tag) {
    case refusals_Result_unit_Refusal_Ok: {
        word_received_Received received = (word_received_Received){.code = (catalogue_offer_KnownOffer){.offer = o},
                .word = (lent_uint8_t){word, word_len}};
        return codes_correct_taken(received, limit, out, out_len);
    }
    case refusals_Result_unit_Refusal_Err:
    default: {
        refusals_Refusal refusal = t.as.Err.field0;
        return flipping_endings_refused_correct(refusals_Refusal_number(refusal));
    }
    }
}

/* What comes next for a word of the right length; y and z of the room are handed over as zeros, and y comes back as
 * the word's bits. */
static inline flipping_runs_Next codes_next_of(word_received_Received received, word_measured_Room *restrict room)
{
    catalogue_offer_Offer o = received.code.offer;
    layout_Shape sh = word_measured_Room_measure(room, received);
    layout_Parity parity = (layout_Parity){.places = (lent_uint16_t){room->h, 64}, .shape = sh};
    return flipping_runs_comes_next(room->z, parity, o.unsent);
}

/* What a refused step gives besides its number. */
static inline codes_Stepped codes_refused_step(refusals_Refusal refusal)
{
    return (codes_Stepped){.number = refusals_Refusal_number(refusal), .quiet = false, .bit = 0, .excess = 0};
}

/* A word with one bit flipped, into an output of the right length. */
static inline void codes_write_flipped(catalogue_offer_KnownOffer code, uint64_t *restrict y, uint64_t bit,
        uint8_t *restrict out, uint64_t out_len)
{
    catalogue_offer_Offer o = code.offer;
    vectors_flip_bit(y, bit);
    word_received_write(y, o.unsent, o.bits, out, out_len);
}

/* What step gives of a word y and what comes next for it. */
static inline codes_Stepped codes_step_out(word_received_Received received, flipping_runs_Next next,
        uint64_t *restrict y, uint8_t *restrict out, uint64_t out_len)
{
    switch (next.tag) {
    case flipping_runs_Next_Quiet:
        vectors_copying_copy(received.word.at, received.word.len, out);
        return (codes_Stepped){.number = 0, .quiet = true, .bit = 0, .excess = 0};
    case flipping_runs_Next_Stuck:
        return codes_refused_step((refusals_Refusal){.tag = refusals_Refusal_Stuck});
    case flipping_runs_Next_Flip:
    default: {
        uint64_t bit = next.as.Flip.field0;
        uint8_t excess = next.as.Flip.field1;
        codes_write_flipped(received.code, y, bit, out, out_len);
        return (codes_Stepped){.number = 0, .quiet = false, .bit = (uint32_t)bit, .excess = signed8(excess)};
    }
    }
}

/* One flip of the run on a word of the right length, into an output of the right length. */
static inline codes_Stepped codes_step_taken(word_received_Received received, uint8_t *restrict out, uint64_t out_len)
{
    word_measured_Room room;
    word_measured_Room_new(&room);
    flipping_runs_Next next = codes_next_of(received, &room);
    return codes_step_out(received, next, room.y, out, out_len);
}

/* One flip of the run, with the bit's number and excess; or quiet, in which case the word is copied. */
static inline codes_Stepped codes_step(uint8_t code, const uint8_t *word, uint64_t word_len, uint8_t *restrict out,
        uint64_t out_len)
{
    catalogue_offer_Offer o = catalogue_offer_of(code);
    refusals_Result_unit_Refusal t = refusals_admit(o.steps, word_len, o.word, out_len, o.word);
    switch (t.tag) {
    case refusals_Result_unit_Refusal_Ok: {
        word_received_Received received = (word_received_Received){.code = (catalogue_offer_KnownOffer){.offer = o},
                .word = (lent_uint8_t){word, word_len}};
        return codes_step_taken(received, out, out_len);
    }
    case refusals_Result_unit_Refusal_Err:
    default: {
        refusals_Refusal refusal = t.as.Err.field0;
        return codes_refused_step(refusal);
    }
    }
}

/* ---- lists ------------------------------------------------------------------------------------------ */

/* The call list: the records of a run go into the caller's table, one by one; `list` only stores them. */

/* For a flip: its bit number, its excess, and the broken checks left after it. */
typedef pandoricchia_fliprecord lists_listing_FlipRecord;

/* Correct's numbers, then bit and excess of the reason. A record of C's: its number says whether the rest counts. */
typedef pandoricchia_listed lists_listing_Listed;

/* A list that is being written. Where it goes on, a flip was made, and its record belongs at this place; else the
 * answer is made. A flag, not an enum: the definitions `Lists` and `Goes` hold this form, and both ends need the
 * record and the answer so far. */
typedef struct lists_listing_Listing {
    bool goes;
    uint64_t place;
    lists_listing_FlipRecord record;
    lists_listing_Listed answer;
    uint16_t limit;
    catalogue_offer_Offer offer;
} lists_listing_Listing;

/* The list before the first flip, of a word of which so many checks are broken, and this the lowest. */
static inline lists_listing_Listing lists_listing_begun(catalogue_offer_Offer o, uint16_t limit, uint32_t first,
        uint32_t lowest)
{
    return (lists_listing_Listing){.goes = false, .place = 0,
            .record = (lists_listing_FlipRecord){.bit = 0, .excess = 0, .left = first},
            .answer = (lists_listing_Listed){.number = 0, .flips = 0, .first = first, .last = first,
            .unlike = 0, .lowest = lowest, .bit = 0, .excess = 0}, .limit = limit, .offer = o};
}

/* The list of a word of the right length before the first flip; y and z of the room are handed over as zeros. */
static inline lists_listing_Listing lists_listing_measured_list(word_received_Received received, uint16_t limit,
        word_measured_Room *restrict room)
{
    layout_Shape sh = word_measured_Room_measure(room, received);
    uint32_t first = syndromes_broken(room->z);
    uint32_t lowest = syndromes_lowest(room->z, sh);
    return lists_listing_begun(received.code.offer, limit, first, lowest);
}

/* No run has more flips than checks are broken at its start; for the near-Earth codes than half as many. */
static inline uint32_t lists_listing_most_flips(catalogue_offer_Offer o, uint32_t first)
{
    if (o.asked) {
        return first / 2;
    }
    return first;
}

/* How many flips the run on a word has. */
static inline uint64_t lists_listing_count_flips(word_received_Received received, uint16_t limit)
{
    catalogue_offer_Offer o = received.code.offer;
    word_measured_Room room;
    word_measured_Room_new(&room);
    layout_Shape sh = word_measured_Room_measure(&room, received);
    uint32_t first = syndromes_broken(room.z);
    layout_Parity parity = (layout_Parity){.places = (lent_uint16_t){room.h, 64}, .shape = sh};
    flipping_runs_Ended ended = flipping_runs_run(room.y, room.z, parity, o.unsent, limit, first);
    return ended.ran.flips;
}

/* Whether a table of so many places serves the run on a word: by the bounds where they tell, else the flips are
 * counted. */
static inline bool lists_listing_serves(word_received_Received received, uint16_t limit, uint32_t first,
        uint64_t places)
{
    if ((uint64_t)limit <= places) {
        return true;
    }
    if ((uint64_t)lists_listing_most_flips(received.code.offer, first) <= places) {
        return true;
    }
    return lists_listing_count_flips(received, limit) <= places;
}

/* What a refused list gives besides its number. */
static inline lists_listing_Listing lists_listing_refused(refusals_Refusal refusal)
{
    return (lists_listing_Listing){.goes = false, .place = 0,
            .record = (lists_listing_FlipRecord){.bit = 0, .excess = 0, .left = 0},
            .answer = (lists_listing_Listed){.number = refusals_Refusal_number(refusal), .flips = 0,
            .first = 0, .last = 0, .unlike = 0, .lowest = 0, .bit = 0, .excess = 0}, .limit = 0,
            .offer = catalogue_offer_of(0)};
}

/* What comes next for the word that was measured. */
static inline flipping_runs_Next lists_listing_coming(catalogue_offer_KnownOffer code, const word_measured_Room *room)
{
    catalogue_offer_Offer o = code.offer;
    layout_Parity parity = (layout_Parity){.places = (lent_uint16_t){room->h, 64}, .shape = o.shape};
    return flipping_runs_comes_next(room->z, parity, o.unsent);
}

/* The list at the end of the run: its number, and bit and excess of the reason. Inlined, as the list would be
 * written out for a call. */
static inline lists_listing_Listing lists_listing_ended(const lists_listing_Listing *l, uint64_t flips,
        word_received_Received received, const uint64_t *y, uint8_t number, uint32_t bit, uint8_t excess)
{
    lists_listing_Listed begun = l->answer;
    lists_listing_FlipRecord record = l->record;
    uint32_t count = (uint32_t)flips;
    uint32_t unlike = flipping_endings_unlike_after(received, y, count);
    uint8_t judged = word_judging_judge(received.code, y, number);
    return (lists_listing_Listing){.goes = false, .place = flips, .record = record,
            .answer = (lists_listing_Listed){.number = judged, .flips = count, .first = begun.first,
            .last = record.left, .unlike = unlike, .lowest = begun.lowest, .bit = bit,
            .excess = signed8(excess)}, .limit = l->limit, .offer = l->offer};
}

/* The list after one more flip, with its record. */
static inline lists_listing_Listing lists_listing_went(const lists_listing_Listing *l, uint64_t flips, uint32_t bit,
        uint8_t excess, uint32_t left)
{
    return (lists_listing_Listing){.goes = true, .place = flips,
            .record = (lists_listing_FlipRecord){.bit = bit, .excess = signed8(excess), .left = left},
            .answer = l->answer, .limit = l->limit, .offer = l->offer};
}

/* The list after one flip more, or at the limit. */
static inline lists_listing_Listing lists_listing_flip_on(const lists_listing_Listing *l, uint64_t flips,
        word_received_Received received, uint64_t bit, uint8_t excess, word_measured_Room *restrict room)
{
    if ((uint64_t)l->limit <= flips) {
        return lists_listing_ended(l, flips, received, room->y, 6, 0, 0);
    }
    catalogue_offer_Offer o = l->offer;
    layout_Parity parity = (layout_Parity){.places = (lent_uint16_t){room->h, 64}, .shape = o.shape};
    syndromes_flip(room->y, room->z, parity, bit);
    uint32_t left = syndromes_broken(room->z);
    return lists_listing_went(l, flips, (uint32_t)bit, excess, left);
}

/* What comes after so many flips: one more, or the end. */
static inline lists_listing_Listing lists_listing_pass(const lists_listing_Listing *l, uint64_t flips,
        const uint8_t *word, uint64_t word_len, word_measured_Room *restrict room)
{
    catalogue_offer_KnownOffer code = (catalogue_offer_KnownOffer){.offer = l->offer};
    word_received_Received received = (word_received_Received){.code = code, .word = (lent_uint8_t){word, word_len}};
    flipping_runs_Next t = lists_listing_coming(code, room);
    switch (t.tag) {
    case flipping_runs_Next_Quiet:
        return lists_listing_ended(l, flips, received, room->y, 0, 0, 0);
    case flipping_runs_Next_Stuck: {
        uint64_t bit = t.as.Stuck.field0;
        uint8_t excess = t.as.Stuck.field1;
        return lists_listing_ended(l, flips, received, room->y, 5, (uint32_t)bit, excess);
    }
    case flipping_runs_Next_Flip:
    default: {
        uint64_t bit2 = t.as.Flip.field0;
        uint8_t excess2 = t.as.Flip.field1;
        return lists_listing_flip_on(l, flips, received, bit2, excess2, room);
    }
    }
}

/* The list of the run on a word of the right length. */
static inline lists_listing_Listing lists_listing_begin_taken(word_received_Received received, uint16_t limit,
        uint64_t places, word_measured_Room *restrict room)
{
    lists_listing_Listing l = lists_listing_measured_list(received, limit, room);
    lists_listing_Listed answer = l.answer;
    if (!lists_listing_serves(received, limit, answer.first, places)) {
        return lists_listing_refused((refusals_Refusal){.tag = refusals_Refusal_Places});
    }
    return lists_listing_pass(&l, 0, received.word.at, received.word.len, room);
}

/* The list of the run on a received word, under a limit, for a table of so many places; y and z of the room are
 * handed over as zeros. */
static inline lists_listing_Listing lists_listing_begin(uint8_t code, const uint8_t *word, uint64_t word_len,
        uint16_t limit, uint64_t places, word_measured_Room *restrict room)
{
    catalogue_offer_Offer o = catalogue_offer_of(code);
    refusals_Result_unit_Refusal t = refusals_admit(o.offered, word_len, o.word, 0, 0);
    switch (t.tag) {
    case refusals_Result_unit_Refusal_Ok: {
        word_received_Received received = (word_received_Received){.code = (catalogue_offer_KnownOffer){.offer = o},
                .word = (lent_uint8_t){word, word_len}};
        return lists_listing_begin_taken(received, limit, places, room);
    }
    case refusals_Result_unit_Refusal_Err:
    default: {
        refusals_Refusal refusal = t.as.Err.field0;
        return lists_listing_refused(refusal);
    }
    }
}

/* The next record of the list, or its end. */
static inline lists_listing_Listing lists_listing_next(const lists_listing_Listing *l, const uint8_t *word,
        uint64_t word_len, word_measured_Room *restrict room)
{
    return lists_listing_pass(l, l->place + 1, word, word_len, room);
}

/* The list of the run on a received word, under a limit, into the caller's table. */
static inline lists_listing_Listed lists_list(uint8_t code, const uint8_t *word, uint64_t word_len, uint16_t limit,
        lists_listing_FlipRecord *restrict table, uint64_t table_len)
{
    word_measured_Room room;
    word_measured_Room_new(&room);
    lists_listing_Listing l = lists_listing_begin(code, word, word_len, limit, table_len, &room);
    while (l.goes) {
        table[l.place] = l.record;
        l = lists_listing_next(&l, word, word_len, &room);
    }
    return l.answer;
}

/* ---- nearest ---------------------------------------------------------------------------------------- */

/* The nearest command of code 1, by plain search: which few bits, flipped, give a codeword. The search carries the
 * broken checks in one word, and a flip adds the bit's column to it. */

/* Up to three bits to flip; the places that are not used are 0. */
typedef struct nearest_Flips {
    uint32_t count;
    uint32_t bits[3];
} nearest_Flips;

enum { nearest_Result_Flips_Refusal_Ok = 0, nearest_Result_Flips_Refusal_Err = 1 };
typedef struct nearest_Result_Flips_Refusal {
    uint8_t tag;
    union {
        struct { nearest_Flips field0; } Ok;
        struct { refusals_Refusal field0; } Err;
    } as;
} nearest_Result_Flips_Refusal;

enum { nearest_Option_Flips_None = 0, nearest_Option_Flips_Some = 1 };
typedef struct nearest_Option_Flips {
    uint8_t tag;
    union {
        struct { nearest_Flips field0; } Some;
    } as;
} nearest_Option_Flips;

/* The places of bits that are not used are 0. A record of C's: its number says whether the rest counts. */
typedef pandoricchia_reached nearest_Reached;

/* Column n has a one for each check that covers bit n: check 0 is the most significant. */
static const uint64_t nearest_COLUMNS[128] = {
    UINT64_C(0x8040002000088000), UINT64_C(0x4020001000044000), UINT64_C(0x2010000800022000),
    UINT64_C(0x1008000400011000), UINT64_C(0x0804000280000800), UINT64_C(0x0402000140000400),
    UINT64_C(0x0201800020000200), UINT64_C(0x8100400010000100), UINT64_C(0x4080200008000080),
    UINT64_C(0x2040100004000040), UINT64_C(0x1020080002000020), UINT64_C(0x0810040001000010),
    UINT64_C(0x0408020000800008), UINT64_C(0x0204010000400004), UINT64_C(0x0102008000200002),
    UINT64_C(0x0081004000100001), UINT64_C(0x0002C00000010001), UINT64_C(0x0001600080008000),
    UINT64_C(0x8000300040004000), UINT64_C(0x4000180020002000), UINT64_C(0x20000C0010001000),
    UINT64_C(0x1000060008000800), UINT64_C(0x0800030004000400), UINT64_C(0x0400018002000200),
    UINT64_C(0x020000C001000100), UINT64_C(0x0100006000800080), UINT64_C(0x0080003000400040),
    UINT64_C(0x0040001800200020), UINT64_C(0x0020000C00100010), UINT64_C(0x0010000600080008),
    UINT64_C(0x0008000300040004), UINT64_C(0x0004800100020002), UINT64_C(0x20008000C0000100),
    UINT64_C(0x1000400060000080), UINT64_C(0x0800200030000040), UINT64_C(0x0400100018000020),
    UINT64_C(0x020008000C000010), UINT64_C(0x0100040006000008), UINT64_C(0x0080020003000004),
    UINT64_C(0x0040010001800002), UINT64_C(0x0020008000C00001), UINT64_C(0x0010004000608000),
    UINT64_C(0x0008002000304000), UINT64_C(0x0004001000182000), UINT64_C(0x00020008000C1000),
    UINT64_C(0x0001000400060800), UINT64_C(0x8000000200030400), UINT64_C(0x4000000180010200),
    UINT64_C(0x0020000120009000), UINT64_C(0x0010800010004800), UINT64_C(0x0008400008002400),
    UINT64_C(0x0004200004001200), UINT64_C(0x0002100002000900), UINT64_C(0x0001080001000480),
    UINT64_C(0x8000040000800240), UINT64_C(0x4000020000400120), UINT64_C(0x2000010000200090),
    UINT64_C(0x1000008000100048), UINT64_C(0x0800004000080024), UINT64_C(0x0400002000040012),
    UINT64_C(0x0200001000020009), UINT64_C(0x0100000800018004), UINT64_C(0x0080000480004002),
    UINT64_C(0x0040000240002001), UINT64_C(0x0000800004002000), UINT64_C(0x0000400002001000),
    UINT64_C(0x0000200001000800), UINT64_C(0x0000100000800400), UINT64_C(0x0000080000400200),
    UINT64_C(0x0000040000200100), UINT64_C(0x0000020000100080), UINT64_C(0x0000010000080040),
    UINT64_C(0x0000008000040020), UINT64_C(0x0000004000020010), UINT64_C(0x0000002000010008),
    UINT64_C(0x0000001080000004), UINT64_C(0x0000000840000002), UINT64_C(0x0000000420000001),
    UINT64_C(0x0000000210008000), UINT64_C(0x0000000108004000), UINT64_C(0x8000000080000001),
    UINT64_C(0x4000000040008000), UINT64_C(0x2000000020004000), UINT64_C(0x1000000010002000),
    UINT64_C(0x0800000008001000), UINT64_C(0x0400000004000800), UINT64_C(0x0200000002000400),
    UINT64_C(0x0100000001000200), UINT64_C(0x0080000000800100), UINT64_C(0x0040000000400080),
    UINT64_C(0x0020000000200040), UINT64_C(0x0010000000100020), UINT64_C(0x0008000000080010),
    UINT64_C(0x0004000000040008), UINT64_C(0x0002000000020004), UINT64_C(0x0001000000010002),
    UINT64_C(0x1000800000008000), UINT64_C(0x0800400000004000), UINT64_C(0x0400200000002000),
    UINT64_C(0x0200100000001000), UINT64_C(0x0100080000000800), UINT64_C(0x0080040000000400),
    UINT64_C(0x0040020000000200), UINT64_C(0x0020010000000100), UINT64_C(0x0010008000000080),
    UINT64_C(0x0008004000000040), UINT64_C(0x0004002000000020), UINT64_C(0x0002001000000010),
    UINT64_C(0x0001000800000008), UINT64_C(0x8000000400000004), UINT64_C(0x4000000200000002),
    UINT64_C(0x2000000100000001), UINT64_C(0x8000004000040000), UINT64_C(0x4000002000020000),
    UINT64_C(0x2000001000010000), UINT64_C(0x1000000880000000), UINT64_C(0x0800000440000000),
    UINT64_C(0x0400000220000000), UINT64_C(0x0200000110000000), UINT64_C(0x0100800008000000),
    UINT64_C(0x0080400004000000), UINT64_C(0x0040200002000000), UINT64_C(0x0020100001000000),
    UINT64_C(0x0010080000800000), UINT64_C(0x0008040000400000), UINT64_C(0x0004020000200000),
    UINT64_C(0x0002010000100000), UINT64_C(0x0001008000080000),
};

static inline nearest_Result_Flips_Refusal nearest_ResultFromResidualErrResidual_from_residual_Fli(
        refusals_ErrResidual_Refusal p0)
{
    return (nearest_Result_Flips_Refusal){.tag = nearest_Result_Flips_Refusal_Err,
            .as.Err = {.field0 = refusals_AnyFrom_from_Refusal(p0.field0)}};
}

/* The broken checks of a word. */
static inline uint64_t nearest_syndrome(const uint64_t *columns, uint64_t columns_len, const uint64_t *y)
{
    uint64_t z = 0;
    uint64_t n = 0;
    uint64_t t = columns_len;
    while (n < t) {
        const uint64_t *column = columns + n;
        if (vectors_is_set(y, n)) {
            z ^= *column;
        }
        n += 1;
    }
    return z;
}

/* The lowest bit from a bit on that is covered by just these checks. Most of a search's time goes here. */
static inline core_Option_u64 nearest_only(const uint64_t *columns, uint64_t z, uint64_t from)
{
    uint64_t n = from;
    while (n < 128) {
        if (columns[n] == z) {
            return (core_Option_u64){.tag = core_Option_u64_Some, .as.Some = {.field0 = n}};
        }
        n += 1;
    }
    return (core_Option_u64){.tag = core_Option_u64_None};
}

static inline nearest_Option_Flips nearest_OptionFromResidualNoValue_from_residual_Flips(core_option_NoValue p0)
{
    (void)p0;
    return (nearest_Option_Flips){.tag = nearest_Option_Flips_None};
}

/* The first so many bits from a bit on that, flipped, leave no check broken: by choosing a bit, and searching behind
 * it with one flip fewer left. */
static inline nearest_Option_Flips nearest_search(const uint64_t *columns, uint64_t z, uint64_t from, uint8_t left)
{
    if (left == 0) {
        if (z != 0) {
            return (nearest_Option_Flips){.tag = nearest_Option_Flips_None};
        }
        nearest_Option_Flips result;
        result.tag = nearest_Option_Flips_Some;
        result.as.Some.field0.count = 0;
        memset(result.as.Some.field0.bits, 0, 3 * sizeof(uint32_t));
        return result;
    }
    if (left == 1) {
        core_ControlFlow_NoValue_u64 t = core_OptionTry_branch_u64(nearest_only(columns, z, from));
        uint64_t t2;
        switch (t.tag) {
        case core_ControlFlow_NoValue_u64_Continue: {
            uint64_t n = t.as.Continue.field0;
            t2 = n;
            break;
        }
        case core_ControlFlow_NoValue_u64_Break:
        default: {
            core_option_NoValue behind = t.as.Break.field0;
            return nearest_OptionFromResidualNoValue_from_residual_Flips(behind);
        }
        }
        uint64_t n2 = t2;
        nearest_Option_Flips result2;
        result2.tag = nearest_Option_Flips_Some;
        result2.as.Some.field0.count = 1;
        result2.as.Some.field0.bits[0] = (uint32_t)n2;
        result2.as.Some.field0.bits[1] = 0;
        result2.as.Some.field0.bits[2] = 0;
        return result2;
    }
    uint64_t b = from;
    while (b < 128) {
        nearest_Option_Flips t3 = nearest_search(columns, z ^ columns[b], b + 1, (uint8_t)(left - 1));
        switch (t3.tag) {
        case nearest_Option_Flips_Some: {
            uint32_t t4[3];
            memcpy(t4, t3.as.Some.field0.bits, 3 * sizeof(uint32_t));
            nearest_Option_Flips result3;
            result3.tag = nearest_Option_Flips_Some;
            result3.as.Some.field0.count = left;
            result3.as.Some.field0.bits[0] = (uint32_t)b;
            result3.as.Some.field0.bits[1] = t4[0];
            result3.as.Some.field0.bits[2] = t4[1];
            return result3;
        }
        case nearest_Option_Flips_None:
        default:
            break;
        }
        b += 1;
    }
    return (nearest_Option_Flips){.tag = nearest_Option_Flips_None};
}

/* No bits, then one more each time, up to the reach. */
static inline nearest_Option_Flips nearest_fewest_of(const uint64_t *columns, uint64_t z, uint8_t reach)
{
    if (reach == 0) {
        return nearest_search(columns, z, 0, 0);
    }
    nearest_Option_Flips t = nearest_fewest_of(columns, z, (uint8_t)(reach - 1));
    switch (t.tag) {
    case nearest_Option_Flips_Some: {
        nearest_Flips fewer = t.as.Some.field0;
        nearest_Option_Flips result;
        result.tag = nearest_Option_Flips_Some;
        result.as.Some.field0 = fewer;
        return result;
    }
    case nearest_Option_Flips_None:
    default:
        return nearest_search(columns, z, 0, reach);
    }
}

/* The flips for a word. The columns are lent as a copy, since a constant is made anew wherever it is read. */
static inline nearest_Option_Flips nearest_list_for(const uint64_t *y, uint8_t reach)
{
    uint64_t z = nearest_syndrome(nearest_COLUMNS, 128, y);
    return nearest_fewest_of(nearest_COLUMNS, z, reach);
}

/* Flips the bits of a list. */
static inline void nearest_flip_listed(uint64_t *restrict y, const nearest_Flips *l)
{
    uint32_t bits[3];
    memcpy(bits, l->bits, 3 * sizeof(uint32_t));
    uint64_t count = l->count;
    lent_uint32_t t = (lent_uint32_t){bits, count};
    uint64_t bit = 0;
    uint64_t t2 = t.len;
    while (bit < t2) {
        const uint32_t *t3 = t.at + bit;
        vectors_flip_bit(y, *t3);
        bit += 1;
    }
}

/* The word with the bits of its list flipped, handed out. */
static inline void nearest_hand_out(uint64_t *restrict y, const nearest_Flips *l, uint8_t *restrict out,
        uint64_t out_len)
{
    nearest_flip_listed(y, l);
    vectors_store(y, 0, out, out_len);
}

/* A word, an output of the right length, and a reach that is offered. */
static inline nearest_Result_Flips_Refusal nearest_mended(uint64_t *restrict y, uint8_t reach, uint8_t *restrict out,
        uint64_t out_len)
{
    nearest_Option_Flips t = nearest_list_for(y, reach);
    switch (t.tag) {
    case nearest_Option_Flips_Some: {
        nearest_Flips l = t.as.Some.field0;
        nearest_hand_out(y, &l, out, out_len);
        nearest_Result_Flips_Refusal result;
        result.tag = nearest_Result_Flips_Refusal_Ok;
        result.as.Ok.field0 = l;
        return result;
    }
    case nearest_Option_Flips_None:
    default:
        return (nearest_Result_Flips_Refusal){.tag = nearest_Result_Flips_Refusal_Err,
                .as.Err = {.field0 = (refusals_Refusal){.tag = refusals_Refusal_NoneNear}}};
    }
}

/* The same of a word's octets. */
static inline nearest_Result_Flips_Refusal nearest_searched(const uint8_t *word, uint64_t word_len, uint8_t reach,
        uint8_t *restrict out, uint64_t out_len)
{
    uint64_t y[3] = {0};
    vectors_load(word, word_len, y, 3);
    return nearest_mended(y, reach, out, out_len);
}

/* The same of a word, a reach and an output of any length. */
static inline nearest_Result_Flips_Refusal nearest_nearest_flips(const uint8_t *word, uint64_t word_len, uint8_t reach,
        uint8_t *restrict out, uint64_t out_len)
{
    refusals_ControlFlow_ErrResidual_Refusal_unit t = refusals_ResultTry_branch_unit_Refusal(refusals_admit(true,
            word_len, 16, out_len, 16));
    switch (t.tag) {
    case refusals_ControlFlow_ErrResidual_Refusal_unit_Continue:
        break;
    case refusals_ControlFlow_ErrResidual_Refusal_unit_Break:
    default:
        return nearest_ResultFromResidualErrResidual_from_residual_Fli(t.as.Break.field0);
    }
    if (3 < reach) {
        return (nearest_Result_Flips_Refusal){.tag = nearest_Result_Flips_Refusal_Err,
                .as.Err = {.field0 = (refusals_Refusal){.tag = refusals_Refusal_Reach}}};
    }
    return nearest_searched(word, word_len, reach, out, out_len);
}

/* The fewest flips up to a reach that give a codeword, the first such list of bits in increasing order, and the
 * mended word. */
static inline nearest_Reached nearest_nearest(const uint8_t *word, uint64_t word_len, uint8_t reach,
        uint8_t *restrict out, uint64_t out_len)
{
    nearest_Result_Flips_Refusal t = nearest_nearest_flips(word, word_len, reach, out, out_len);
    switch (t.tag) {
    case nearest_Result_Flips_Refusal_Ok: {
        nearest_Flips l = t.as.Ok.field0;
        uint32_t bits[3];
        memcpy(bits, l.bits, 3 * sizeof(uint32_t));
        nearest_Reached result;
        result.number = 0;
        result.least = l.count;
        memcpy(result.bits, bits, 3 * sizeof(uint32_t));
        return result;
    }
    case nearest_Result_Flips_Refusal_Err:
    default: {
        refusals_Refusal refusal = t.as.Err.field0;
        nearest_Reached result2;
        result2.number = refusals_Refusal_number(refusal);
        result2.least = 0;
        memset(result2.bits, 0, 3 * sizeof(uint32_t));
        return result2;
    }
    }
}

/* ---- quick ------------------------------------------------------------------------------------------ */

/* A quick no: the checks in order, up to the first group with a broken one. A group is worked out at once; the
 * number reported is the definition's. */

/* A record of C's: its number says whether the rest counts. */
typedef pandoricchia_answered quick_Answered;

/* The 64 bits of the octets from bit p on, of nine octets. */
static inline uint64_t quick_lowest_wide_octets_from(const uint8_t *octets, uint64_t p)
{
    uint64_t at = p / 8;
    return vectors_funnel(vectors_eight(octets, at), (uint64_t)octets[at + 8] << 56, p % 8);
}

/* The same of the word that the checks are over, with the bits that are not sent. */
static inline uint64_t quick_lowest_wide_lifted_from(word_received_Sent sent, uint64_t p)
{
    lent_uint8_t octets = sent.octets;
    uint64_t u = sent.unsent;
    if (p < u) {
        return vectors_eight(octets.at, 0) >> (u - p);
    }
    return quick_lowest_wide_octets_from(octets.at, p - u);
}

/* The same where the last of them may be the last of all. */
static inline uint64_t quick_lowest_wide_octets_to(const uint8_t *octets, uint64_t p)
{
    if (p % 8 == 0) {
        return vectors_eight(octets, p / 8);
    }
    return quick_lowest_wide_octets_from(octets, p);
}

/* What the shift s adds to the first 64 checks of a row, where the block has the m bits from bit p on. Its last 64
 * bits and its first ones are read where it goes round. */
static inline uint64_t quick_lowest_wide_wide_entry(word_received_Sent sent, uint64_t p, uint64_t m, uint64_t s)
{
    uint64_t end = m - 64;
    if (s < end) {
        return quick_lowest_wide_lifted_from(sent, p + s);
    }
    if (s < m) {
        return vectors_funnel(quick_lowest_wide_octets_to(sent.octets.at, p + end - sent.unsent),
                quick_lowest_wide_lifted_from(sent, p), s - end);
    }
    return 0;
}

/* The first 64 checks of row 0. */
static inline uint64_t quick_lowest_wide_first_group(word_received_Sent sent, layout_Parity parity)
{
    lent_uint16_t h = parity.places;
    layout_Shape sh = parity.shape;
    uint64_t v = 0;
    uint64_t k = 0;
    uint64_t t = 2 * sh.blocks;
    while (k < t) {
        v ^= quick_lowest_wide_wide_entry(sent, k / 2 * sh.size, sh.size, h.at[k]);
        k += 1;
    }
    return v;
}

/* The block of the m bits from bit p on, twice over. */
static inline void quick_lowest_wide_double_block(const uint64_t *y, uint64_t p, uint64_t m, uint64_t *restrict d,
        uint64_t d_len)
{
    uint64_t block[8] = {0};
    vectors_cut(y, p, m, block, 8);
    vectors_double(block, m, d, d_len);
}

/* Every block twice over, each in 16 words. */
static inline void quick_lowest_wide_double_blocks(const uint64_t *y, layout_Shape sh, uint64_t *restrict d)
{
    uint64_t b = 0;
    uint64_t t = sh.blocks;
    while (b < t) {
        uint64_t at = 16 * b;
        uint64_t end = at + 16;
        quick_lowest_wide_double_block(y, b * sh.size, sh.size, d + at, end - at);
        b += 1;
    }
}

/* Where each place of row r begins in the doubled blocks. It is worked out once, so that a group costs no more than
 * its windows. */
static inline void quick_lowest_wide_begin_row(layout_Parity parity, uint64_t r, uint64_t *restrict begins)
{
    lent_uint16_t h = parity.places;
    layout_Shape sh = parity.shape;
    uint64_t k = 0;
    uint64_t t = 2 * sh.blocks;
    while (k < t) {
        begins[k] = 1024 * (k / 2) + (uint64_t)h.at[2 * (r * sh.blocks) + k];
        k += 1;
    }
}

/* The first 64 checks: the sum of the 64 bits from each beginning on. */
static inline uint64_t quick_lowest_wide_wide_group(const uint64_t *d, const uint64_t *begins, uint64_t begins_len)
{
    uint64_t v = 0;
    uint64_t t = 0;
    uint64_t t2 = begins_len;
    while (t < t2) {
        const uint64_t *begin = begins + t;
        v ^= vectors_window(d, *begin);
        t += 1;
    }
    return v;
}

/* The lowest broken one of m checks, group after group, or m if none is broken. */
static inline uint64_t quick_lowest_wide_groups_lowest(const uint64_t *d, const uint64_t *begins, uint64_t begins_len,
        uint64_t m)
{
    uint64_t g = 0;
    uint64_t t = (m + 63) / 64;
    while (g < t) {
        uint64_t v = quick_lowest_wide_wide_group(d + g, begins, begins_len);
        if (v != 0) {
            uint64_t l = 64 * g + (uint64_t)leading_zeros64(v);
            if (l < m) {
                return l;
            }
            return m;
        }
        g += 1;
    }
    return m;
}

/* The lowest broken check of row r, counted from the row's first, or M if none is broken. */
static inline uint64_t quick_lowest_wide_wide_row_lowest(const uint64_t *d, layout_Parity parity, uint64_t r)
{
    uint64_t begins[32] = {0};
    quick_lowest_wide_begin_row(parity, r, begins);
    return quick_lowest_wide_groups_lowest(d, begins, 32, parity.shape.size);
}

/* The lowest broken check, row after row. */
static inline uint32_t quick_lowest_wide_wide_rows_lowest(const uint64_t *d, layout_Parity parity)
{
    layout_Shape sh = parity.shape;
    uint64_t row = 0;
    uint64_t t = sh.rows;
    while (row < t) {
        uint64_t l = quick_lowest_wide_wide_row_lowest(d, parity, row);
        if (l < sh.size) {
            return (uint32_t)(row * sh.size + l);
        }
        row += 1;
    }
    return (uint32_t)(sh.rows * sh.size);
}

/* The lowest broken check of a word that is laid out whole. */
static inline uint32_t quick_lowest_wide_whole_lowest(word_received_Sent sent, layout_Parity parity)
{
    uint64_t y[130] = {0};
    word_received_take(sent, y, 130);
    uint64_t d[256] = {0};
    quick_lowest_wide_double_blocks(y, parity.shape, d);
    return quick_lowest_wide_wide_rows_lowest(d, parity);
}

/* The lowest broken check where a row is wider than a group. The first group comes straight from the octets; if it
 * is met, the word is laid out, and group comes after group, from the first on: to begin with the second would cost
 * more instructions, not fewer. */
static inline uint32_t quick_lowest_wide_lowest(word_received_Received received)
{
    catalogue_offer_Offer o = received.code.offer;
    uint16_t h[64] = {0};
    catalogue_tables_lend511(h);
    layout_Parity parity = (layout_Parity){.places = (lent_uint16_t){h, 64},
            .shape = (layout_Shape){.size = 511, .words = 8, .blocks = 16, .rows = 2}};
    word_received_Sent sent = (word_received_Sent){.octets = received.word, .unsent = o.unsent};
    uint64_t v = quick_lowest_wide_first_group(sent, parity);
    if (v != 0) {
        return leading_zeros64(v);
    }
    return quick_lowest_wide_whole_lowest(sent, parity);
}

/* What the shift s adds to the checks of a row, where one word holds the block of m bits; d is the block twice over. */
static inline uint64_t quick_lowest_narrow_narrow_entry(vectors_Pair d, uint64_t m, uint64_t s)
{
    if (s < m) {
        return vectors_funnel(d.first, d.second, s);
    }
    return 0;
}

/* What block b adds to the checks of row r. */
static inline uint64_t quick_lowest_narrow_narrow_block(const uint64_t *y, layout_Parity parity, uint64_t b, uint64_t r)
{
    lent_uint16_t h = parity.places;
    layout_Shape sh = parity.shape;
    uint64_t block = vectors_front(vectors_window(y, b * sh.size), sh.size);
    vectors_Pair d = vectors_double_word(block, sh.size);
    uint64_t at = 2 * (r * sh.blocks + b);
    return quick_lowest_narrow_narrow_entry(d, sh.size, h.at[at])
            ^ quick_lowest_narrow_narrow_entry(d, sh.size, h.at[at + 1]);
}

/* The checks of row r. */
static inline uint64_t quick_lowest_narrow_narrow_group(const uint64_t *y, layout_Parity parity, uint64_t r)
{
    uint64_t v = 0;
    uint64_t b = 0;
    uint64_t t = parity.shape.blocks;
    while (b < t) {
        v ^= quick_lowest_narrow_narrow_block(y, parity, b, r);
        b += 1;
    }
    return v;
}

/* The lowest broken check, row after row. */
static inline uint32_t quick_lowest_narrow_rows_lowest(const uint64_t *y, layout_Parity parity)
{
    layout_Shape sh = parity.shape;
    uint64_t r = 0;
    uint64_t t = sh.rows;
    while (r < t) {
        uint64_t v = vectors_front(quick_lowest_narrow_narrow_group(y, parity, r), sh.size);
        if (v != 0) {
            return (uint32_t)(r * sh.size) + leading_zeros64(v);
        }
        r += 1;
    }
    return (uint32_t)(sh.rows * sh.size);
}

/* The lowest broken check where one word holds a row. */
static inline uint32_t quick_lowest_narrow_lowest(word_received_Received received)
{
    catalogue_offer_Offer o = received.code.offer;
    layout_Shape of = o.shape;
    uint16_t h[64] = {0};
    layout_Shape sh = catalogue_tables_lend_narrow(of.size, h);
    uint64_t y[17] = {0};
    vectors_load(received.word.at, received.word.len, y, 17);
    layout_Parity parity = (layout_Parity){.places = (lent_uint16_t){h, 64}, .shape = sh};
    return quick_lowest_narrow_rows_lowest(y, parity);
}

/* The lowest broken check, or the number of checks if none is broken. */
static inline uint32_t quick_lowest_broken(word_received_Received received)
{
    catalogue_offer_Offer o = received.code.offer;
    layout_Shape sh = o.shape;
    if (sh.size == 511) {
        return quick_lowest_wide_lowest(received);
    }
    return quick_lowest_narrow_lowest(received);
}

/* The answer by the lowest broken check: that many checks were evaluated, and it; or all of them. */
static inline quick_Answered quick_answer(uint32_t lowest, uint32_t all)
{
    if (lowest == all) {
        return (quick_Answered){.number = 0, .yes = true, .evaluated = all};
    }
    return (quick_Answered){.number = 0, .yes = false, .evaluated = lowest + 1};
}

/* Whether every check of a word of the right length is met, and how many were evaluated. */
static inline quick_Answered quick_quick_taken(word_received_Received received)
{
    catalogue_offer_Offer o = received.code.offer;
    layout_Shape sh = o.shape;
    uint32_t lowest = quick_lowest_broken(received);
    return quick_answer(lowest, (uint32_t)(sh.rows * sh.size));
}

/* What a refused call gives besides its number. */
static inline quick_Answered quick_refused(refusals_Refusal refusal)
{
    return (quick_Answered){.number = refusals_Refusal_number(refusal), .yes = false, .evaluated = 0};
}

/* Whether every check is met, and how many were evaluated. */
static inline quick_Answered quick_quick(uint8_t code, const uint8_t *word, uint64_t word_len)
{
    catalogue_offer_Offer o = catalogue_offer_of(code);
    refusals_Result_unit_Refusal t = refusals_admit(o.offered, word_len, o.word, 0, 0);
    switch (t.tag) {
    case refusals_Result_unit_Refusal_Ok:
        return quick_quick_taken((word_received_Received){.code = (catalogue_offer_KnownOffer){.offer = o},
                .word = (lent_uint8_t){word, word_len}});
    case refusals_Result_unit_Refusal_Err:
    default: {
        refusals_Refusal refusal = t.as.Err.field0;
        return quick_refused(refusal);
    }
    }
}

/* ---- samples ---------------------------------------------------------------------------------------- */

/* Correct on samples: the run on the bits read from them, which chooses by their sizes. What runs is given samples
 * by their bit patterns. */

/* What a run begins with: its code's shape, and how many checks of the word are broken and the lowest of them. */
typedef struct samples_Begun {
    layout_Shape shape;
    uint32_t first;
    uint32_t lowest;
} samples_Begun;

/* A run, the broken checks at its end, and in how many bits the word then differs from the one that was read. */
typedef struct samples_sizing_Ended {
    flipping_runs_Ran ran;
    uint32_t last;
    uint32_t unlike;
} samples_sizing_Ended;

/* The bounds of the blocks, and for each block its smallest bit at that bound; or UNKNOWN. */
typedef struct samples_raising_Kept {
    flipping_bounds_Bounds bounds;
    uint64_t bits[16];
} samples_raising_Kept;

/* The bit that is flipped next, and by how many checks fewer are broken then. */
typedef struct samples_sizing_Flip {
    uint64_t bit;
    uint32_t fewer;
} samples_sizing_Flip;

enum { samples_Result_Flip_Ending_Ok = 0, samples_Result_Flip_Ending_Err = 1 };
typedef struct samples_Result_Flip_Ending {
    uint8_t tag;
    union {
        struct { samples_sizing_Flip field0; } Ok;
        struct { flipping_runs_Ending field0; } Err;
    } as;
} samples_Result_Flip_Ending;

enum { samples_ControlFlow_ErrResidual_Ending_Flip_Continue = 0,
        samples_ControlFlow_ErrResidual_Ending_Flip_Break = 1 };
typedef struct samples_ControlFlow_ErrResidual_Ending_Flip {
    uint8_t tag;
    union {
        struct { samples_sizing_Flip field0; } Continue;
        struct { flipping_ErrResidual_Ending field0; } Break;
    } as;
} samples_ControlFlow_ErrResidual_Ending_Flip;

/* What a pass comes to: the broken checks that are left, and in how many bits the word differs then. */
typedef struct samples_sizing_Passed {
    uint32_t left;
    uint32_t unlike;
} samples_sizing_Passed;

enum { samples_Result_Passed_Ending_Ok = 0, samples_Result_Passed_Ending_Err = 1 };
typedef struct samples_Result_Passed_Ending {
    uint8_t tag;
    union {
        struct { samples_sizing_Passed field0; } Ok;
        struct { flipping_runs_Ending field0; } Err;
    } as;
} samples_Result_Passed_Ending;

/* How many of its checks every bit of a block has met at least, and the smallest bit that has met no more; or
 * UNKNOWN. */
typedef struct samples_raising_Low {
    uint8_t met;
    uint64_t bit;
} samples_raising_Low;

/* Samples by their bit patterns, one for each bit of a word, of a code that correct on samples takes. */
typedef struct samples_Sampled {
    catalogue_offer_KnownOffer code;
    lent_float samples;
} samples_Sampled;

static const uint64_t samples_sizing_run_bounded_table[16] = {
    UINT64_C(0x0000000000001FF0), UINT64_C(0x0000000000001FF0), UINT64_C(0x0000000000001FF0),
    UINT64_C(0x0000000000001FF0), UINT64_C(0x0000000000001FF0), UINT64_C(0x0000000000001FF0),
    UINT64_C(0x0000000000001FF0), UINT64_C(0x0000000000001FF0), UINT64_C(0x0000000000001FF0),
    UINT64_C(0x0000000000001FF0), UINT64_C(0x0000000000001FF0), UINT64_C(0x0000000000001FF0),
    UINT64_C(0x0000000000001FF0), UINT64_C(0x0000000000001FF0), UINT64_C(0x0000000000001FF0),
    UINT64_C(0x0000000000001FF0),
};

/* Admits so many samples and an output of so many octets. */
static inline refusals_Result_unit_Refusal samples_admit(catalogue_offer_Offer o, uint64_t samples, uint64_t octets)
{
    return refusals_admit(o.steps, samples, o.bits, octets, o.word);
}

/* The parity table of blocks of this size into h, and the syndrome of the bits that y holds into z, which is handed
 * over as zeros. */
static inline samples_Begun samples_begin(uint64_t size, const uint64_t *y, uint16_t *restrict h, uint64_t *restrict z)
{
    layout_Shape sh = word_measured_checks(size, y, h, z);
    return (samples_Begun){.shape = sh, .first = syndromes_broken(z), .lowest = syndromes_lowest(z, sh)};
}

/* A run that ends. */
static inline samples_sizing_Ended samples_sizing_at_end(flipping_runs_Ending ending, uint32_t flips, uint32_t last,
        uint32_t unlike)
{
    return (samples_sizing_Ended){.ran = (flipping_runs_Ran){.ending = ending, .flips = flips}, .last = last,
            .unlike = unlike};
}

/* The run of `runs` that ended so, and in how many bits the words y at its end differ from x, as they were read. */
static inline samples_sizing_Ended samples_sizing_ended_narrow(const float *samples, uint64_t samples_len,
        const uint64_t *x, const uint64_t *y, flipping_runs_Ended end)
{
    (void)samples;
    return (samples_sizing_Ended){.ran = end.ran, .last = end.last,
            .unlike = (uint32_t)word_unlike_unlike_words(x, y, (samples_len + 63) / 64)};
}

/* The same where one word holds a block: the run of `runs`, and the words as they were read beside those at its end. */
static inline samples_sizing_Ended samples_sizing_run_narrow(const float *samples, uint64_t samples_len,
        uint64_t *restrict y, const uint64_t *z, layout_Parity parity, uint16_t limit, uint32_t first)
{
    uint64_t x[16] = {0};
    core_copy_from_slice_u64(x, 16, y);
    flipping_runs_Ended end = flipping_runs_run_narrow(samples, samples_len, y, z, parity, 0, limit, first);
    return samples_sizing_ended_narrow(samples, samples_len, x, y, end);
}

/* Of two bits the smaller; of equals the lower number. */
static inline uint64_t samples_raising_lesser(const float *samples, uint64_t a, uint64_t b)
{
    if (a < b) {
        return magnitudes_smaller(samples, a, b);
    }
    return magnitudes_smaller(samples, b, a);
}

/* The smaller of two bits of which the first may be none. */
static inline uint64_t samples_smallest_lead(const float *samples, uint64_t samples_len, uint64_t best, uint64_t bit)
{
    if (best < samples_len) {
        return samples_raising_lesser(samples, best, bit);
    }
    return bit;
}

/* How many of the n checks of bit k of a block are broken. */
static inline uint8_t samples_raising_broken_of(const uint64_t *d, const uint16_t *starts, uint64_t from, uint8_t n,
        uint64_t k)
{
    uint64_t end = n;
    uint8_t broken = 0;
    uint64_t e = 0;
    while (e < end) {
        broken = (uint8_t)(broken
                + core_convert_others_U8FromBool_from(vectors_is_set(d, (uint64_t)starts[from + e] + k)));
        e += 1;
    }
    return broken;
}

/* The smallest of the bits up to block b, from the one before it and the one that is known of the block; the number
 * of samples if the block is to be weighed for it. */
static inline uint64_t samples_smallest_still(const float *samples, uint64_t samples_len, const uint64_t *d,
        const uint16_t *starts, uint64_t from, uint8_t n, uint8_t met, uint64_t m, uint64_t bit, uint64_t best)
{
    uint64_t end = samples_len;
    if (end <= bit) {
        return end;
    }
    uint64_t r = samples_smallest_lead(samples, samples_len, best, bit);
    if (r == best) {
        return best;
    }
    if (samples_raising_broken_of(d, starts, from, n, bit % m) + met < n) {
        return end;
    }
    return bit;
}

/* Of 64 bits, those that have none of four checks met: the first bit's stand at a, b, c and e. Mostly two of them
 * show that there is none. */
static inline uint64_t samples_smallest_none_met(const uint64_t *d, uint64_t a, uint64_t b, uint64_t c, uint64_t e)
{
    uint64_t x = vectors_window(d, a);
    if (x == 0) {
        return 0;
    }
    uint64_t y = x & vectors_window(d, b);
    if (y == 0) {
        return 0;
    }
    return y & vectors_window(d, c) & vectors_window(d, e);
}

/* The smallest of a bit, if it is one, and of the bits that are set in mask, which begins with bit `first`. */
static inline uint64_t samples_smallest_among(const float *samples, uint64_t samples_len, uint64_t mask,
        uint64_t first, uint64_t bit)
{
    if (mask == 0) {
        return bit;
    }
    if (bit < samples_len) {
        return magnitudes_smallest_of(samples, mask, first, bit);
    }
    return magnitudes_smallest_of(samples, mask, first, first + magnitudes_first_set(mask));
}

/* The smallest bit of a block that has none of its four checks met; if there is none, the number of samples. */
static inline uint64_t samples_smallest_smallest_none(const float *samples, uint64_t samples_len, const uint64_t *d,
        const uint16_t *starts, uint64_t from, uint64_t m, uint64_t first)
{
    uint64_t s0 = starts[from];
    uint64_t s1 = starts[from + 1];
    uint64_t s2 = starts[from + 2];
    uint64_t s3 = starts[from + 3];
    uint64_t best = samples_len;
    uint64_t at = 0;
    while (at < m) {
        uint64_t v = samples_smallest_none_met(d, s0 + at, s1 + at, s2 + at, s3 + at);
        if (v != 0) {
            best = samples_smallest_among(samples, samples_len, vectors_front(v, flipping_bounds_ahead(m, at)), first
                    + at, best);
        }
        at += 64;
    }
    return best;
}

/* The smallest bit of a block that has at most so many of its n checks met; if there is none, the number of samples. */
static inline uint64_t samples_smallest_smallest_in(const float *samples, uint64_t samples_len, const uint64_t *d,
        const uint16_t *starts, uint64_t from, uint64_t n, uint64_t met, uint64_t m, uint64_t first)
{
    uint64_t best = samples_len;
    uint64_t at = 0;
    while (at < m) {
        uint64_t mask = flipping_bounds_weigh(d, starts, from, n, met, at, 0, m);
        best = samples_smallest_among(samples, samples_len, mask, first + at, best);
        at += 64;
    }
    return best;
}

/* The same as smallest_in; if it is for bits with none of four checks met, by the quicker way. */
static inline uint64_t samples_smallest_smallest_light(const float *samples, uint64_t samples_len, const uint64_t *d,
        const uint16_t *starts, uint64_t from, uint64_t n, uint64_t met, uint64_t m, uint64_t first)
{
    if (met == 0 && n == 4) {
        return samples_smallest_smallest_none(samples, samples_len, d, starts, from, m, first);
    }
    return samples_smallest_smallest_in(samples, samples_len, d, starts, from, n, met, m, first);
}

/* The smallest of a bit and of those of block b that have no more checks met than is kept of it. If there is none of
 * these, one more is met. */
static inline uint64_t samples_raising_Kept_weigh(samples_raising_Kept *restrict self, const float *samples,
        uint64_t samples_len, const uint64_t *rows, uint64_t b, uint64_t best)
{
    uint64_t m = self->bounds.places.shape.size;
    uint64_t n = self->bounds.places.counts[b];
    uint64_t met = self->bounds.met[b];
    uint64_t bit = samples_smallest_smallest_light(samples, samples_len, rows, self->bounds.places.starts, 8 * b, n,
            met, m, b * m);
    self->bits[b] = bit;
    if (bit < samples_len) {
        return samples_smallest_lead(samples, samples_len, best, bit);
    }
    self->bounds.met[b] = (uint8_t)(self->bounds.met[b] + 1);
    return best;
}

/* The same, by the bit that is known of the block; the block is weighed only if that does not tell. */
static inline uint64_t samples_raising_Kept_at_bound(samples_raising_Kept *restrict self, const float *samples,
        uint64_t samples_len, const uint64_t *rows, uint64_t b, uint64_t best)
{
    uint64_t m = self->bounds.places.shape.size;
    uint8_t n = self->bounds.places.counts[b];
    uint64_t r = samples_smallest_still(samples, samples_len, rows, self->bounds.places.starts, 8 * b, n,
            self->bounds.met[b], m, self->bits[b], best);
    if (r < samples_len) {
        return r;
    }
    return samples_raising_Kept_weigh(self, samples, samples_len, rows, b, best);
}

/* The smallest of a bit and of those of block b that have the score `top`, where no bit of the block has a greater
 * one. */
static inline uint64_t samples_raising_Kept_settle(samples_raising_Kept *restrict self, const float *samples,
        uint64_t samples_len, const uint64_t *rows, uint64_t b, uint8_t top, uint64_t best)
{
    if (flipping_bounds_Bounds_bound_of(&self->bounds, b) != top) {
        return best;
    }
    return samples_raising_Kept_at_bound(self, samples, samples_len, rows, b, best);
}

/* The smallest bit of score `top`, where no bit has a greater one; if there is none, the number of samples. */
static inline uint64_t samples_raising_Kept_smallest_at(samples_raising_Kept *restrict self, const float *samples,
        uint64_t samples_len, const uint64_t *rows, uint8_t top)
{
    uint64_t best = samples_len;
    uint64_t b = 0;
    uint64_t t = self->bounds.places.shape.blocks;
    while (b < t) {
        best = samples_raising_Kept_settle(self, samples, samples_len, rows, b, top, best);
        b += 1;
    }
    return best;
}

/* The smallest bit of the greatest score: the bounds go down until one is found. */
static inline flipping_choice_Best samples_raising_Kept_choose(samples_raising_Kept *restrict self,
        const float *samples, uint64_t samples_len, const uint64_t *rows)
{
    for (;;) {
        uint8_t top = flipping_bounds_Bounds_greatest(&self->bounds);
        uint64_t bit = samples_raising_Kept_smallest_at(self, samples, samples_len, rows, top);
        if (bit < samples_len) {
            return (flipping_choice_Best){.score = top, .bit = bit};
        }
    }
}

/* What comes next for a word of which rows and blocks are kept, and that has a broken check: the bit that is
 * flipped; or the run ends, stuck, or with as many flips as the limit allows. */
static inline samples_Result_Flip_Ending samples_sizing_comes_next(const float *samples, uint64_t samples_len,
        const uint64_t *rows, samples_raising_Kept *restrict kept, uint16_t limit, uint32_t flips)
{
    flipping_choice_Best best = samples_raising_Kept_choose(kept, samples, samples_len, rows);
    if (best.score <= 8) {
        return (samples_Result_Flip_Ending){.tag = samples_Result_Flip_Ending_Err,
                .as.Err = {.field0 = (flipping_runs_Ending){.tag = flipping_runs_Ending_Stuck}}};
    }
    if ((uint32_t)limit <= flips) {
        return (samples_Result_Flip_Ending){.tag = samples_Result_Flip_Ending_Err,
                .as.Err = {.field0 = (flipping_runs_Ending){.tag = flipping_runs_Ending_Limit}}};
    }
    return (samples_Result_Flip_Ending){.tag = samples_Result_Flip_Ending_Ok,
            .as.Ok = {.field0 = (samples_sizing_Flip){.bit = best.bit, .fewer = best.score - 8}}};
}

static inline samples_ControlFlow_ErrResidual_Ending_Flip samples_ResultTry_branch_Flip_Ending(
        samples_Result_Flip_Ending p0)
{
    switch (p0.tag) {
    case samples_Result_Flip_Ending_Ok:
        return (samples_ControlFlow_ErrResidual_Ending_Flip){.tag = samples_ControlFlow_ErrResidual_Ending_Flip_Continue, .as.Continue = {.field0 = p0.as.Ok.field0}};
    case samples_Result_Flip_Ending_Err:
    default:
        return (samples_ControlFlow_ErrResidual_Ending_Flip){.tag = samples_ControlFlow_ErrResidual_Ending_Flip_Break,
                .as.Break = {.field0 = (flipping_ErrResidual_Ending){.field0 = p0.as.Err.field0}}};
    }
}

static inline samples_Result_Passed_Ending samples_ResultFromResidualErrResidual_from_residual_Pas(
        flipping_ErrResidual_Ending p0)
{
    return (samples_Result_Passed_Ending){.tag = samples_Result_Passed_Ending_Err,
            .as.Err = {.field0 = flipping_AnyFrom_from_Ending(p0.field0)}};
}

/* In how many bits the word y differs from the one that was read, once bit `bit` is flipped; before that in so many. */
static inline uint32_t samples_sizing_counted(const float *samples, const uint64_t *y, uint64_t bit, uint32_t unlike)
{
    if (magnitudes_is_one(pattern_of(samples + bit)) == vectors_is_set(y, bit)) {
        return unlike + 1;
    }
    return core_int_u32_saturating_sub(unlike, 1);
}

/* Flips a bit of the word y, and says in how many bits y differs from what was read then; before that in so many. */
static inline uint32_t samples_sizing_flip_counted(const float *samples, uint64_t *restrict y, uint64_t bit,
        uint32_t unlike)
{
    uint32_t r = samples_sizing_counted(samples, y, bit, unlike);
    vectors_flip_bit(y, bit);
    return r;
}

/* The first place of the check at p. */
static inline uint64_t samples_raising_nearer(uint64_t p, uint64_t m)
{
    if (p % 1024 < m) {
        return p;
    }
    return p - m;
}

/* The bit of a block that the check at p covers by the start s, where the check stands M places on once more; M or
 * more if there is none. */
static inline uint64_t samples_raising_bit_at(uint64_t p, uint64_t s, uint64_t m)
{
    if (s <= p) {
        return p - s;
    }
    if (s <= p + m) {
        return p + m - s;
    }
    return m;
}

/* What is known of a block, by the number of checks that every bit has met and the smallest bit, when bit k of it is
 * seen too, of whose n checks so many are broken. It is made of numbers: a record that came in whole would be copied
 * whole. */
static inline samples_raising_Low samples_raising_meet(const float *samples, uint64_t samples_len, uint8_t n,
        uint8_t broken, uint64_t first, uint64_t k, uint8_t met, uint64_t known)
{
    if (n < broken + met) {
        return (samples_raising_Low){.met = (uint8_t)(n - broken), .bit = first + k};
    }
    if (broken + met < n) {
        return (samples_raising_Low){.met = met, .bit = known};
    }
    if (samples_len <= known) {
        return (samples_raising_Low){.met = met, .bit = known};
    }
    return (samples_raising_Low){.met = met, .bit = samples_raising_lesser(samples, known, first + k)};
}

/* What is known of a block when bit k is seen too, if it is one of its m bits. */
static inline samples_raising_Low samples_raising_look(const float *samples, uint64_t samples_len, const uint64_t *d,
        const uint16_t *starts, uint64_t from, uint8_t n, uint64_t m, uint64_t first, uint64_t k,
        samples_raising_Low low)
{
    if (m <= k) {
        return low;
    }
    return samples_raising_meet(samples, samples_len, n, samples_raising_broken_of(d, starts, from, n, k), first, k,
            low.met, low.bit);
}

/* What is known of a block when the bits that the check at p covers are seen too. */
static inline samples_raising_Low samples_raising_raise_in(const float *samples, uint64_t samples_len,
        const uint64_t *d, const uint16_t *starts, uint64_t from, uint8_t n, uint64_t m, uint64_t first, uint64_t p,
        samples_raising_Low low)
{
    uint64_t end = n;
    samples_raising_Low now = low;
    uint64_t e = 0;
    while (e < end) {
        uint64_t k = samples_raising_bit_at(p, starts[from + e], m);
        now = samples_raising_look(samples, samples_len, d, starts, from, n, m, first, k, now);
        e += 1;
    }
    return now;
}

/* What is known of block b when the bits that the check at p covers are seen too; what is known of the others stays. */
static inline void samples_raising_Kept_raise_block(samples_raising_Kept *restrict self, const float *samples,
        uint64_t samples_len, const uint64_t *rows, uint64_t p, uint64_t b)
{
    uint64_t m = self->bounds.places.shape.size;
    samples_raising_Low was = (samples_raising_Low){.met = self->bounds.met[b], .bit = self->bits[b]};
    samples_raising_Low low = samples_raising_raise_in(samples, samples_len, rows, self->bounds.places.starts, 8 * b,
            self->bounds.places.counts[b], m, b * m, p, was);
    self->bounds.met[b] = low.met;
    self->bits[b] = low.bit;
}

/* What is known of every block when the bits that the check at p covers are seen too. */
static inline void samples_raising_Kept_raise_all(samples_raising_Kept *restrict self, const float *samples,
        uint64_t samples_len, const uint64_t *rows, uint64_t p)
{
    uint64_t b = 0;
    uint64_t t = self->bounds.places.shape.blocks;
    while (b < t) {
        samples_raising_Kept_raise_block(self, samples, samples_len, rows, p, b);
        b += 1;
    }
}

/* The same, if the check at p is broken. */
static inline void samples_raising_Kept_raise_check(samples_raising_Kept *restrict self, const float *samples,
        uint64_t samples_len, const uint64_t *rows, uint64_t p)
{
    if (!vectors_is_set(rows, p)) {
        return;
    }
    uint64_t m = self->bounds.places.shape.size;
    samples_raising_Kept_raise_all(self, samples, samples_len, rows, samples_raising_nearer(p, m));
}

/* What is known of every block when the bits are seen too that a broken check of bit k of block b covers. */
static inline void samples_raising_Kept_raise(samples_raising_Kept *restrict self, const float *samples,
        uint64_t samples_len, const uint64_t *rows, uint64_t b, uint64_t k)
{
    uint64_t n = self->bounds.places.counts[b];
    uint64_t e = 0;
    while (e < n) {
        uint64_t p = (uint64_t)self->bounds.places.starts[8 * b + e] + k;
        samples_raising_Kept_raise_check(self, samples, samples_len, rows, p);
        e += 1;
    }
}

/* Flips the checks of a bit. Only the bits that a check covers which is broken then have fewer checks met than
 * before: these are seen anew. */
static inline void samples_raising_Kept_flip(samples_raising_Kept *restrict self, const float *samples,
        uint64_t samples_len, uint64_t *restrict rows, uint64_t bit)
{
    uint64_t m = self->bounds.places.shape.size;
    uint64_t b = bit / m;
    uint64_t k = bit % m;
    uint64_t n = self->bounds.places.counts[b];
    flipping_bounds_flip_checks(rows, self->bounds.places.starts, 8 * b, n, k, m);
    samples_raising_Kept_raise(self, samples, samples_len, rows, b, k);
}

/* Flips a bit in y, and in what is kept if a check is broken then: so many fewer than before are. */
static inline samples_sizing_Passed samples_sizing_pass(const float *samples, uint64_t samples_len,
        uint64_t *restrict y, uint64_t *restrict rows, samples_raising_Kept *restrict kept, samples_sizing_Flip flip,
        uint32_t was, uint32_t unlike)
{
    uint32_t now = samples_sizing_flip_counted(samples, y, flip.bit, unlike);
    uint32_t left = was - flip.fewer;
    if (0 < left) {
        samples_raising_Kept_flip(kept, samples, samples_len, rows, flip.bit);
    }
    return (samples_sizing_Passed){.left = left, .unlike = now};
}

/* A pass of the run, for a word y with so many broken checks, one or more: a bit is flipped, or the run ends. */
static inline samples_Result_Passed_Ending samples_sizing_go_once(const float *samples, uint64_t samples_len,
        uint64_t *restrict y, uint64_t *restrict rows, samples_raising_Kept *restrict kept, uint16_t limit,
        uint32_t flips, uint32_t left, uint32_t unlike)
{
    samples_Result_Flip_Ending t = samples_sizing_comes_next(samples, samples_len, rows, kept, limit, flips);
    samples_ControlFlow_ErrResidual_Ending_Flip t2 = samples_ResultTry_branch_Flip_Ending(t);
    samples_sizing_Flip t3;
    switch (t2.tag) {
    case samples_ControlFlow_ErrResidual_Ending_Flip_Continue:
        t3 = t2.as.Continue.field0;
        break;
    case samples_ControlFlow_ErrResidual_Ending_Flip_Break:
    default:
        return samples_ResultFromResidualErrResidual_from_residual_Pas(t2.as.Break.field0);
    }
    samples_sizing_Flip flip = t3;
    samples_sizing_Passed t4 = samples_sizing_pass(samples, samples_len, y, rows, kept, flip, left, unlike);
    return (samples_Result_Passed_Ending){.tag = samples_Result_Passed_Ending_Ok, .as.Ok = {.field0 = t4}};
}

/* The run from the word y that was read, of which rows and blocks are kept, under a limit: flips until it ends. So
 * many checks are broken. */
static inline samples_sizing_Ended samples_sizing_go_on(const float *samples, uint64_t samples_len,
        uint64_t *restrict y, uint64_t *restrict rows, samples_raising_Kept *restrict kept, uint16_t limit,
        uint32_t first)
{
    uint32_t flips = 0;
    uint32_t left = first;
    uint32_t unlike = 0;
    while (0 < left) {
        samples_Result_Passed_Ending t = samples_sizing_go_once(samples, samples_len, y, rows, kept, limit, flips,
                left, unlike);
        switch (t.tag) {
        case samples_Result_Passed_Ending_Ok: {
            samples_sizing_Passed passed = t.as.Ok.field0;
            left = passed.left;
            unlike = passed.unlike;
            break;
        }
        case samples_Result_Passed_Ending_Err:
        default: {
            flipping_runs_Ending ending = t.as.Err.field0;
            return samples_sizing_at_end(ending, flips, left, unlike);
        }
        }
        flips += 1;
    }
    return samples_sizing_at_end((flipping_runs_Ending){.tag = flipping_runs_Ending_Quiet}, flips, 0, unlike);
}

/* The run from the word y that was read, with the syndrome z, of which so many checks are broken, by the bounds of
 * its blocks. */
static inline samples_sizing_Ended samples_sizing_run_bounded(const float *samples, uint64_t samples_len,
        uint64_t *restrict y, const uint64_t *z, layout_Parity parity, uint16_t limit, uint32_t first)
{
    uint64_t rows[65] = {0};
    flipping_bounds_Bounds t;
    flipping_bounds_begin(z, parity, rows, &t);
    samples_raising_Kept kept;
    kept.bounds = t;
    memcpy(kept.bits, samples_sizing_run_bounded_table, 16 * sizeof(uint64_t));
    return samples_sizing_go_on(samples, samples_len, y, rows, &kept, limit, first);
}

/* The run from the word y that was read, with the syndrome z, of which so many checks are broken, under a limit:
 * flips until it ends. */
static inline samples_sizing_Ended samples_sizing_run(const float *samples, uint64_t samples_len, uint64_t *restrict y,
        const uint64_t *z, layout_Parity parity, uint16_t limit, uint32_t first)
{
    if (first == 0) {
        return samples_sizing_at_end((flipping_runs_Ending){.tag = flipping_runs_Ending_Quiet}, 0, 0, 0);
    }
    if (parity.shape.words == 1) {
        return samples_sizing_run_narrow(samples, samples_len, y, z, parity, limit, first);
    }
    return samples_sizing_run_bounded(samples, samples_len, y, z, parity, limit, first);
}

/* The run on the bits y, whose syndrome is z, and its judgement; y is the word at its end. So many checks are
 * broken, and so is the lowest. */
static inline flipping_endings_Corrected samples_run_judged(catalogue_offer_KnownOffer code, const float *samples,
        uint64_t samples_len, uint16_t limit, uint64_t *restrict y, const uint64_t *z, layout_Parity parity,
        uint32_t first, uint32_t lowest)
{
    samples_sizing_Ended end = samples_sizing_run(samples, samples_len, y, z, parity, limit, first);
    flipping_runs_Ran ran = end.ran;
    return (flipping_endings_Corrected){.number = word_judging_judge(code, y, flipping_runs_Ending_number(ran.ending)),
            .flips = ran.flips, .first = first, .last = end.last, .unlike = end.unlike, .lowest = lowest};
}

/* The same from the start, with room for the table and the syndrome, which is handed over as zeros. */
static inline flipping_endings_Corrected samples_run_within(samples_Sampled sampled, uint16_t limit,
        uint64_t *restrict y, uint16_t *restrict h, uint64_t *restrict z)
{
    catalogue_offer_Offer o = sampled.code.offer;
    layout_Shape of = o.shape;
    samples_Begun begun = samples_begin(of.size, y, h, z);
    layout_Parity parity = (layout_Parity){.places = (lent_uint16_t){h, 64}, .shape = begun.shape};
    return samples_run_judged(sampled.code, sampled.samples.at, sampled.samples.len, limit, y, z, parity, begun.first,
            begun.lowest);
}

/* The run on the bits y that were read from as many samples as the code has bits, and its judgement; y is the word
 * at its end. */
static inline flipping_endings_Corrected samples_run_read(samples_Sampled sampled, uint16_t limit, uint64_t *restrict y)
{
    uint16_t h[64] = {0};
    uint64_t z[16] = {0};
    return samples_run_within(sampled, limit, y, h, z);
}

/* The same, into an output of the right length if the run is not refused. */
static inline flipping_endings_Corrected samples_correct_read(samples_Sampled sampled, uint16_t limit,
        uint64_t *restrict y, uint8_t *restrict out, uint64_t out_len)
{
    flipping_endings_Corrected r = samples_run_read(sampled, limit, y);
    if (r.number == 0) {
        catalogue_offer_Offer o = sampled.code.offer;
        word_received_write(y, o.unsent, o.bits, out, out_len);
    }
    return r;
}

/* The run on samples, as many as the code has bits, into an output of the right length; 16 if one of them is not
 * finite. */
static inline flipping_endings_Corrected samples_correct_taken(samples_Sampled sampled, uint16_t limit,
        uint8_t *restrict out, uint64_t out_len)
{
    uint64_t y[130] = {0};
    if (!magnitudes_read(sampled.samples.at, sampled.samples.len, y)) {
        return flipping_endings_refused_correct(16);
    }
    return samples_correct_read(sampled, limit, y, out, out_len);
}

/* The run on samples by their bit patterns, one for each bit, under a limit. */
static inline flipping_endings_Corrected samples_correct_patterns(uint8_t code, const float *samples,
        uint64_t samples_len, uint16_t limit, uint8_t *restrict out, uint64_t out_len)
{
    catalogue_offer_Offer o = catalogue_offer_of(code);
    refusals_Result_unit_Refusal t = samples_admit(o, samples_len, out_len);
    switch (t.tag) {
    case refusals_Result_unit_Refusal_Ok: {
        samples_Sampled sampled = (samples_Sampled){.code = (catalogue_offer_KnownOffer){.offer = o},
                .samples = (lent_float){samples, samples_len}};
        return samples_correct_taken(sampled, limit, out, out_len);
    }
    case refusals_Result_unit_Refusal_Err:
    default: {
        refusals_Refusal refusal = t.as.Err.field0;
        return flipping_endings_refused_correct(refusals_Refusal_number(refusal));
    }
    }
}

/* ---- randomiser ------------------------------------------------------------------------------------- */

/* Randomising: the telecommand sequence, added to octets in place. */

/* The octets of the telecommand sequence, which come again after 255; 64 more, so that a codeblock is done without a
 * test for the end. */
static const uint8_t randomiser_TELECOMMAND[319] = {
    255, 57, 158, 90, 104, 233, 6, 245, 108, 137, 47, 161, 49, 94, 8, 192, 82, 168, 187, 174, 78, 194, 199, 237, 102,
    220, 56, 212, 248, 134, 80, 61, 254, 115, 60, 180, 209, 210, 13, 234, 217, 18, 95, 66, 98, 188, 17, 128, 165, 81,
    119, 92, 157, 133, 143, 218, 205, 184, 113, 169, 241, 12, 160, 123, 252, 230, 121, 105, 163, 164, 27, 213, 178, 36,
    190, 132, 197, 120, 35, 1, 74, 162, 238, 185, 59, 11, 31, 181, 155, 112, 227, 83, 226, 25, 64, 247, 249, 204, 242,
    211, 71, 72, 55, 171, 100, 73, 125, 9, 138, 240, 70, 2, 149, 69, 221, 114, 118, 22, 63, 107, 54, 225, 198, 167, 196,
    50, 129, 239, 243, 153, 229, 166, 142, 144, 111, 86, 200, 146, 250, 19, 21, 224, 140, 5, 42, 139, 186, 228, 236, 44,
    126, 214, 109, 195, 141, 79, 136, 101, 3, 223, 231, 51, 203, 77, 29, 32, 222, 173, 145, 37, 244, 38, 43, 193, 24,
    10, 85, 23, 117, 201, 216, 88, 253, 172, 219, 135, 26, 159, 16, 202, 7, 191, 206, 103, 150, 154, 58, 65, 189, 91,
    34, 75, 232, 76, 87, 130, 48, 20, 170, 46, 235, 147, 176, 177, 251, 89, 183, 14, 53, 62, 33, 148, 15, 127, 156, 207,
    45, 52, 116, 131, 122, 182, 68, 151, 208, 152, 175, 4, 96, 41, 84, 93, 215, 39, 97, 99, 246, 179, 110, 28, 106, 124,
    67, 40, 30, 255, 57, 158, 90, 104, 233, 6, 245, 108, 137, 47, 161, 49, 94, 8, 192, 82, 168, 187, 174, 78, 194, 199,
    237, 102, 220, 56, 212, 248, 134, 80, 61, 254, 115, 60, 180, 209, 210, 13, 234, 217, 18, 95, 66, 98, 188, 17, 128,
    165, 81, 119, 92, 157, 133, 143, 218, 205, 184, 113, 169, 241, 12, 160, 123,
};

/* Eight octets of a sequence from `from` on, added to as many octets as one 64-bit word. */
static inline void randomiser_add_word(uint8_t *restrict octets, uint64_t octets_len, const uint8_t *sequence,
        uint64_t from)
{
    uint64_t words[2] = {vectors_eight(octets, 0) ^ vectors_eight(sequence, from), 0};
    vectors_store(words, 0, octets, octets_len);
}

/* The same for octets that are whole words, one after another. */
static inline void randomiser_add_words(uint8_t *restrict octets, uint64_t octets_len, const uint8_t *sequence,
        uint64_t from)
{
    uint64_t k = 0;
    uint64_t t = octets_len / 8;
    while (k < t) {
        uint64_t at = 8 * k;
        uint64_t end = at + 8;
        randomiser_add_word(octets + at, end - at, sequence, from + at);
        k += 1;
    }
}

/* The same octet by octet. */
static inline void randomiser_add_octets(uint8_t *restrict octets, uint64_t octets_len, const uint8_t *sequence,
        uint64_t from)
{
    uint64_t i = 0;
    uint64_t t = octets_len;
    while (i < t) {
        uint8_t *octet = octets + i;
        *octet = (uint8_t)(*octet ^ sequence[from + i]);
        i += 1;
    }
}

/* The octets of a sequence from `from` on, added to as many octets: by words, and the last ones, fewer than eight,
 * by octets. */
static inline void randomiser_add(uint8_t *restrict octets, uint64_t octets_len, const uint8_t *sequence, uint64_t from)
{
    uint64_t whole = octets_len / 8 * 8;
    randomiser_add_words(octets, whole, sequence, from);
    randomiser_add_octets(octets + whole, octets_len - whole, sequence, from + whole);
}

/* Randomises up to 64 octets in place, or takes it off again; `used` octets of the sequence were used before. */
static inline void randomiser_randomise(uint8_t *restrict octets, uint64_t octets_len, uint64_t used)
{
    uint64_t from = used % 255;
    randomiser_add(octets, octets_len, randomiser_TELECOMMAND, from);
}

/* ---- telemetry -------------------------------------------------------------------------------------- */

/* Telemetry: the randomisers' sequences, and the taker of words out of a stream. */

/* A taker between two parts: its place (octets of the marker matched, or 4 and the octets held of the word), what it
 * was told, the octets. */
typedef pandoricchia_taking telemetry_taker_Taker;

/* A taker for an edition, and 19 where that is not known. A record of C's: its number says whether the rest counts. */
typedef pandoricchia_made telemetry_taker_Made;

/* How far a search went: the place then, and the octets searched. */
typedef struct telemetry_taker_Searched {
    uint64_t place;
    uint64_t at;
} telemetry_taker_Searched;

/* A call's answer: the moved taker, the octets taken, whether a word is complete, correct's numbers and the word. A
 * record of C's: `complete` says whether the numbers and the word count. */
typedef pandoricchia_taken telemetry_taker_Taken;

/* The marker (CCSDS: the attached sync marker, ASM). */
static const uint8_t telemetry_taker_MARKER[4] = {
    26, 207, 252, 29,
};

/* The first octets of the second sequence. Octet i is the sum of those 24 and 136 places before it. */
static const uint8_t telemetry_sequences_START[136] = {
    28, 113, 185, 27, 169, 186, 132, 87, 180, 188, 80, 84, 191, 208, 85, 64, 47, 73, 49, 150, 82, 152, 44, 214, 207,
    152, 106, 159, 204, 213, 79, 153, 149, 96, 208, 164, 246, 130, 60, 218, 84, 243, 66, 62, 108, 142, 235, 35, 23, 126,
    67, 199, 218, 181, 69, 230, 111, 17, 21, 45, 47, 121, 163, 196, 90, 180, 186, 25, 115, 96, 172, 54, 134, 195, 39,
    147, 238, 8, 234, 77, 204, 176, 249, 118, 169, 138, 22, 5, 188, 144, 198, 155, 3, 40, 147, 233, 101, 95, 89, 156,
    41, 240, 22, 63, 245, 170, 175, 51, 49, 172, 27, 162, 69, 126, 253, 28, 226, 212, 236, 244, 235, 25, 94, 68, 42,
    111, 232, 49, 205, 173, 79, 48, 177, 173, 228, 93,
};

/* The octets of the first sequence, which come again after 255: four times in a word. */
static const uint8_t telemetry_sequences_SEQUENCE[255] = {
    255, 72, 14, 192, 154, 13, 112, 188, 142, 44, 147, 173, 167, 183, 70, 206, 90, 151, 125, 204, 50, 162, 191, 62, 10,
    16, 241, 136, 148, 205, 234, 177, 254, 144, 29, 129, 52, 26, 225, 121, 28, 89, 39, 91, 79, 110, 141, 156, 181, 46,
    251, 152, 101, 69, 126, 124, 20, 33, 227, 17, 41, 155, 213, 99, 253, 32, 59, 2, 104, 53, 194, 242, 56, 178, 78, 182,
    158, 221, 27, 57, 106, 93, 247, 48, 202, 138, 252, 248, 40, 67, 198, 34, 83, 55, 170, 199, 250, 64, 118, 4, 208,
    107, 133, 228, 113, 100, 157, 109, 61, 186, 54, 114, 212, 187, 238, 97, 149, 21, 249, 240, 80, 135, 140, 68, 166,
    111, 85, 143, 244, 128, 236, 9, 160, 215, 11, 200, 226, 201, 58, 218, 123, 116, 108, 229, 169, 119, 220, 195, 42,
    43, 243, 224, 161, 15, 24, 137, 76, 222, 171, 31, 233, 1, 216, 19, 65, 174, 23, 145, 197, 146, 117, 180, 246, 232,
    217, 203, 82, 239, 185, 134, 84, 87, 231, 193, 66, 30, 49, 18, 153, 189, 86, 63, 210, 3, 176, 38, 131, 92, 47, 35,
    139, 36, 235, 105, 237, 209, 179, 150, 165, 223, 115, 12, 168, 175, 207, 130, 132, 60, 98, 37, 51, 122, 172, 127,
    164, 7, 96, 77, 6, 184, 94, 71, 22, 73, 214, 211, 219, 163, 103, 45, 75, 190, 230, 25, 81, 95, 159, 5, 8, 120, 196,
    74, 102, 245, 88,
};

static inline void telemetry_taker_zeros(uint8_t *restrict result)
{
    memset(result, 0, 1020);
}

static inline void telemetry_taker_fresh(uint8_t edition, uint16_t limit, telemetry_taker_Taker *restrict result)
{
    result->place = 0;
    result->edition = edition;
    result->limit = limit;
    telemetry_taker_zeros(result->octets);
}

/* A taker at the start of a stream, under a limit, for the old sequence. */
static inline void telemetry_taker_Taker_new(uint16_t limit, telemetry_taker_Taker *restrict result)
{
    telemetry_taker_fresh(0, limit, result);
}

/* The same for an edition: 0 where none is stated, or 1 to 5. */
static inline void telemetry_taker_Taker_told(uint8_t edition, uint16_t limit, telemetry_taker_Made *restrict result)
{
    if (5 < edition) {
        result->number = refusals_Refusal_number((refusals_Refusal){.tag = refusals_Refusal_Edition});
        telemetry_taker_fresh(0, limit, &result->taker);
        return;
    }
    result->number = 0;
    telemetry_taker_fresh(edition, limit, &result->taker);
}

static inline uint64_t telemetry_taker_read_place(uint64_t place)
{
    if (place < 1024) {
        return place;
    }
    return 0;
}

/* The next place from `from` on where the marker's first octet stands, or the end of the part. */
static inline uint64_t telemetry_taker_skip(const uint8_t *part, uint64_t part_len, uint64_t from)
{
    uint64_t i = from;
    uint64_t t = part_len;
    while (i < t) {
        if (part[i] == 26) {
            return i;
        }
        i += 1;
    }
    return part_len;
}

/* The same where nothing is matched; else the next octet counts, whatever it is. */
static inline uint64_t telemetry_taker_jump(uint64_t m, const uint8_t *part, uint64_t part_len, uint64_t from)
{
    if (m == 0) {
        return telemetry_taker_skip(part, part_len, from);
    }
    return from;
}

/* The octets of the marker matched after one octet more. Only the marker's first octet begins one. */
static inline uint64_t telemetry_taker_matched(uint64_t m, uint8_t octet)
{
    if (octet == 26) {
        return 1;
    }
    if (octet == telemetry_taker_MARKER[m]) {
        return m + 1;
    }
    return 0;
}

/* Searches a part until the marker is whole or the part is used up. A taker that holds octets of a word searches
 * nothing. */
static inline telemetry_taker_Searched telemetry_taker_search(uint64_t place, const uint8_t *part, uint64_t part_len)
{
    if (3 < place) {
        return (telemetry_taker_Searched){.place = place, .at = 0};
    }
    uint64_t m = place;
    uint64_t i = telemetry_taker_jump(m, part, part_len, 0);
    while (i < part_len) {
        m = telemetry_taker_matched(m, part[i]);
        if (3 < m) {
            return (telemetry_taker_Searched){.place = m, .at = i + 1};
        }
        i = telemetry_taker_jump(m, part, part_len, i + 1);
    }
    return (telemetry_taker_Searched){.place = m, .at = i};
}

/* Correct's numbers where no word is complete. */
static inline flipping_endings_Corrected telemetry_taker_none(void)
{
    return flipping_endings_refused_correct(0);
}

static inline void telemetry_taker_waiting(uint64_t taken, uint64_t place, uint8_t edition, uint16_t limit,
        const uint8_t *octets, telemetry_taker_Taken *restrict result)
{
    flipping_endings_Corrected corrected = telemetry_taker_none();
    result->next.place = (size_t)place;
    result->next.edition = edition;
    result->next.limit = limit;
    memcpy(result->next.octets, octets, 1020);
    result->taken = (size_t)taken;
    result->complete = false;
    result->corrected = corrected;
    telemetry_taker_zeros(result->word);
}

/* Octets of a part into their places behind those held. */
static inline void telemetry_taker_hold(uint8_t *restrict octets, uint64_t held, const uint8_t *part, uint64_t part_len)
{
    uint64_t end = held + part_len;
    core_copy_from_slice_u8(octets + held, end - held, part);
}

/* Whether an edition has the second sequence. */
static inline bool telemetry_sequences_is_newer(uint8_t edition)
{
    return edition == 4 || edition == 5;
}

static inline void telemetry_sequences_buffer(uint8_t *restrict result)
{
    memset(result, 0, 1020);
}

/* The others, each from two before it. */
static inline void telemetry_sequences_extend(uint8_t *restrict octets, uint64_t octets_len)
{
    uint64_t i = 136;
    uint64_t t = octets_len;
    while (i < t) {
        octets[i] = (uint8_t)(octets[i - 24] ^ octets[i - 136]);
        i += 1;
    }
}

/* As many octets of the second sequence. */
static inline void telemetry_sequences_lay_second(uint8_t *restrict octets, uint64_t octets_len)
{
    core_copy_from_slice_u8(octets, 136, telemetry_sequences_START);
    telemetry_sequences_extend(octets, octets_len);
}

/* The second sequence, added to a word of 1020 octets in place. */
static inline void telemetry_sequences_add_second(uint8_t *restrict word, uint64_t word_len)
{
    uint8_t sequence[1020];
    telemetry_sequences_buffer(sequence);
    telemetry_sequences_lay_second(sequence, 1020);
    randomiser_add(word, word_len, sequence, 0);
}

/* The first sequence, added to a word of 1020 octets in place. */
static inline void telemetry_sequences_add_first(uint8_t *restrict word)
{
    uint64_t k = 0;
    while (k < 4) {
        uint64_t at = 255 * k;
        uint64_t end = at + 255;
        randomiser_add(word + at, end - at, telemetry_sequences_SEQUENCE, 0);
        k += 1;
    }
}

/* Randomises a word of 1020 octets in place as an edition has it, or takes it off again. */
static inline void telemetry_sequences_randomise_word(uint8_t edition, uint8_t *restrict word, uint64_t word_len)
{
    if (telemetry_sequences_is_newer(edition)) {
        telemetry_sequences_add_second(word, word_len);
    } else {
        telemetry_sequences_add_first(word);
    }
}

/* A whole word: derandomised, corrected and handed out. */
static inline void telemetry_taker_completed(uint64_t taken, uint8_t edition, uint16_t limit, const uint8_t *octets,
        telemetry_taker_Taken *restrict result)
{
    uint8_t received[1020];
    memcpy(received, octets, 1020);
    telemetry_sequences_randomise_word(edition, received, 1020);
    uint8_t mended[1020];
    telemetry_taker_zeros(mended);
    flipping_endings_Corrected corrected = codes_correct(5, received, 1020, limit, mended, 1020);
    result->next.place = 0;
    result->next.edition = edition;
    result->next.limit = limit;
    memcpy(result->next.octets, octets, 1020);
    result->taken = (size_t)taken;
    result->complete = true;
    result->corrected = corrected;
    memcpy(result->word, mended, 1020);
}

/* Goes on with a part of the stream until a word is complete or the part is used up. */
static inline void telemetry_taker_Taker_take(const telemetry_taker_Taker *self, const uint8_t *part,
        uint64_t part_len, telemetry_taker_Taken *restrict result)
{
    uint8_t edition = self->edition;
    uint16_t limit = self->limit;
    uint8_t octets[1020];
    memcpy(octets, self->octets, 1020);
    telemetry_taker_Searched searched = telemetry_taker_search(telemetry_taker_read_place(self->place), part, part_len);
    uint64_t place = searched.place;
    uint64_t at = searched.at;
    if (place < 4) {
        telemetry_taker_waiting(at, place, edition, limit, octets, result);
        return;
    }
    uint64_t room = 1024 - place;
    uint64_t left = part_len - at;
    if (left < room) {
        telemetry_taker_hold(octets, place - 4, part + at, part_len - at);
        telemetry_taker_waiting(part_len, place + left, edition, limit, octets, result);
        return;
    }
    uint64_t end = at + room;
    telemetry_taker_hold(octets, place - 4, part + at, end - at);
    telemetry_taker_completed(end, edition, limit, octets, result);
}

/* ---- units ------------------------------------------------------------------------------------------ */

/* Telecommand transmission units of codes 1 and 3, written, and their lengths. */

/* What a code number fixes of units: whether they are of this code, the octets of a codeblock, of its information
 * and of the tail, and how many codeblocks no length can hold. A flag, and no Option: the definition `unit_offer_of`
 * gives every number an offer, and `room` speaks of any. */
typedef struct units_unitoffers_UnitOffer {
    bool offered;
    uint64_t word;
    uint64_t information;
    uint64_t tail;
    uint64_t most;
} units_unitoffers_UnitOffer;

/* A code that units are of. */
typedef struct units_unitoffers_UnitCode {
    uint8_t number;
} units_unitoffers_UnitCode;

enum { units_Option_UnitCode_None = 0, units_Option_UnitCode_Some = 1 };
typedef struct units_Option_UnitCode {
    uint8_t tag;
    union {
        struct { units_unitoffers_UnitCode field0; } Some;
    } as;
} units_Option_UnitCode;

enum { units_Result_UnitCode_Refusal_Ok = 0, units_Result_UnitCode_Refusal_Err = 1 };
typedef struct units_Result_UnitCode_Refusal {
    uint8_t tag;
    union {
        struct { units_unitoffers_UnitCode field0; } Ok;
        struct { refusals_Refusal field0; } Err;
    } as;
} units_Result_UnitCode_Refusal;

enum { units_ControlFlow_ErrResidual_Refusal_UnitCode_Continue = 0,
        units_ControlFlow_ErrResidual_Refusal_UnitCode_Break = 1 };
typedef struct units_ControlFlow_ErrResidual_Refusal_UnitCode {
    uint8_t tag;
    union {
        struct { units_unitoffers_UnitCode field0; } Continue;
        struct { refusals_ErrResidual_Refusal field0; } Break;
    } as;
} units_ControlFlow_ErrResidual_Refusal_UnitCode;

/* A reading of a unit: the answer that ended it (its number is 0 while it goes on), its code and limit, and the
 * codeblocks handed out. */
typedef pandoricchia_reading units_readings_Reading;

/* An asking's answer: correct's numbers, whether there is none, and the reading from here on. A record of C's:
 * `none`, and the number in `corrected`, say whether the rest counts. */
typedef pandoricchia_handed units_readings_Handed;

static const uint8_t units_unitoffers_START[8] = {
    3, 71, 118, 199, 39, 40, 149, 176,
};

static const uint8_t units_write_last_table[32] = {
    85, 85, 85, 85, 85, 85, 85, 85, 85, 85, 85, 85, 85, 85, 85, 85, 85, 85, 85, 85, 85, 85, 85, 85, 85, 85, 85, 85, 85,
    85, 85, 85,
};

static const uint8_t units_unitoffers_TAIL[16] = {
    85, 85, 85, 86, 170, 170, 170, 170, 85, 85, 85, 85, 85, 85, 85, 85,
};

/* Units are of codes 1 and 3. Another number has code 3's octets, and is refused before they are used. */
static inline units_unitoffers_UnitOffer units_unitoffers_unit_of(uint8_t code)
{
    switch (code) {
    case 1:
        return (units_unitoffers_UnitOffer){.offered = true, .word = 16, .information = 8, .tail = 16,
                .most = UINT64_C(0xFFFFFFFFFFFFFFF)};
    default:
        return (units_unitoffers_UnitOffer){.offered = code == 3, .word = 64, .information = 32, .tail = 0,
                .most = UINT64_C(0x400000000000000)};
    }
}

/* The octets of a unit, 0 where there is none. */
static inline uint64_t units_unit_octets(uint8_t code, uint64_t long_)
{
    units_unitoffers_UnitOffer u = units_unitoffers_unit_of(code);
    if (!u.offered) {
        return 0;
    }
    if (long_ == 0) {
        return 0;
    }
    uint64_t blocks = (long_ - 1) / u.information + 1;
    if (blocks < u.most) {
        uint64_t ends = 8 + u.tail;
        return u.word * blocks + ends;
    }
    return 0;
}

static inline units_Option_UnitCode units_unitoffers_UnitCode_of(uint8_t code)
{
    units_unitoffers_UnitOffer u = units_unitoffers_unit_of(code);
    if (u.offered) {
        return (units_Option_UnitCode){.tag = units_Option_UnitCode_Some,
                .as.Some = {.field0 = (units_unitoffers_UnitCode){.number = code}}};
    }
    return (units_Option_UnitCode){.tag = units_Option_UnitCode_None};
}

/* Whether so much information can be written into so much room: the code that it is written by. */
static inline units_Result_UnitCode_Refusal units_writable(uint8_t code, uint64_t long_, uint64_t room)
{
    units_Option_UnitCode t = units_unitoffers_UnitCode_of(code);
    units_unitoffers_UnitCode unit_code;
    switch (t.tag) {
    case units_Option_UnitCode_Some:
        unit_code = t.as.Some.field0;
        break;
    case units_Option_UnitCode_None:
    default:
        return (units_Result_UnitCode_Refusal){.tag = units_Result_UnitCode_Refusal_Err,
                .as.Err = {.field0 = (refusals_Refusal){.tag = refusals_Refusal_Code}}};
    }
    if (long_ == 0) {
        return (units_Result_UnitCode_Refusal){.tag = units_Result_UnitCode_Refusal_Err,
                .as.Err = {.field0 = (refusals_Refusal){.tag = refusals_Refusal_InputLength}}};
    }
    uint64_t needed = units_unit_octets(code, long_);
    if (needed == 0) {
        return (units_Result_UnitCode_Refusal){.tag = units_Result_UnitCode_Refusal_Err,
                .as.Err = {.field0 = (refusals_Refusal){.tag = refusals_Refusal_OutputLength}}};
    }
    if (room != needed) {
        return (units_Result_UnitCode_Refusal){.tag = units_Result_UnitCode_Refusal_Err,
                .as.Err = {.field0 = (refusals_Refusal){.tag = refusals_Refusal_OutputLength}}};
    }
    return (units_Result_UnitCode_Refusal){.tag = units_Result_UnitCode_Refusal_Ok, .as.Ok = {.field0 = unit_code}};
}

static inline units_ControlFlow_ErrResidual_Refusal_UnitCode units_ResultTry_branch_UnitCode_Refusal(
        units_Result_UnitCode_Refusal p0)
{
    switch (p0.tag) {
    case units_Result_UnitCode_Refusal_Ok:
        return (units_ControlFlow_ErrResidual_Refusal_UnitCode){.tag = units_ControlFlow_ErrResidual_Refusal_UnitCode_Continue, .as.Continue = {.field0 = p0.as.Ok.field0}};
    case units_Result_UnitCode_Refusal_Err:
    default:
        return (units_ControlFlow_ErrResidual_Refusal_UnitCode){.tag = units_ControlFlow_ErrResidual_Refusal_UnitCode_Break, .as.Break = {.field0 = (refusals_ErrResidual_Refusal){.field0 = p0.as.Err.field0}}};
    }
}

static inline uint64_t units_unitoffers_UnitCode_tail_octets(units_unitoffers_UnitCode self)
{
    units_unitoffers_UnitOffer u = units_unitoffers_unit_of(self.number);
    return u.tail;
}

static inline void units_write_start(uint8_t *restrict out, uint64_t out_len)
{
    core_copy_from_slice_u8(out, out_len, units_unitoffers_START);
}

/* The octets of a codeblock. */
static inline uint64_t units_unitoffers_UnitCode_word_octets(units_unitoffers_UnitCode self)
{
    units_unitoffers_UnitOffer u = units_unitoffers_unit_of(self.number);
    return u.word;
}

static inline uint64_t units_unitoffers_UnitCode_information_octets(units_unitoffers_UnitCode self)
{
    units_unitoffers_UnitOffer u = units_unitoffers_unit_of(self.number);
    return u.information;
}

/* A whole part of the information as a codeblock, randomised; `used` octets of codeblocks came before. */
static inline void units_write_part(units_unitoffers_UnitCode code, const uint8_t *part, uint64_t part_len,
        uint64_t used, uint8_t *restrict out, uint64_t out_len)
{
    codes_encode(code.number, part, part_len, out, out_len);
    randomiser_randomise(out, out_len, used);
}

/* The last part of the information, with its fill. */
static inline void units_write_last(units_unitoffers_UnitCode code, const uint8_t *rest, uint64_t rest_len,
        uint64_t used, uint8_t *restrict out, uint64_t out_len)
{
    uint8_t part[32];
    memcpy(part, units_write_last_table, 32);
    uint64_t long_ = rest_len;
    core_copy_from_slice_u8(part, long_, rest);
    uint64_t size = units_unitoffers_UnitCode_information_octets(code);
    units_write_part(code, part, size, used, out, out_len);
}

/* Codeblock k. */
static inline void units_write_block(units_unitoffers_UnitCode code, const uint8_t *information,
        uint64_t information_len, uint64_t k, uint64_t used, uint8_t *restrict out, uint64_t out_len)
{
    uint64_t size = units_unitoffers_UnitCode_information_octets(code);
    uint64_t from = k * size;
    uint64_t left = information_len - from;
    if (left < size) {
        units_write_last(code, information + from, information_len - from, used, out, out_len);
    } else {
        uint64_t end = from + size;
        units_write_part(code, information + from, end - from, used, out, out_len);
    }
}

/* All codeblocks, into an output that they fill. */
static inline void units_write_blocks(units_unitoffers_UnitCode code, const uint8_t *information,
        uint64_t information_len, uint8_t *restrict out, uint64_t out_len)
{
    uint64_t word = units_unitoffers_UnitCode_word_octets(code);
    uint64_t k = 0;
    uint64_t t = out_len / word;
    while (k < t) {
        uint64_t at = k * word;
        uint64_t end = at + word;
        units_write_block(code, information, information_len, k, at, out + at, end - at);
        k += 1;
    }
}

/* The start and all codeblocks, into an output that they fill. */
static inline void units_write_front(units_unitoffers_UnitCode code, const uint8_t *information,
        uint64_t information_len, uint8_t *restrict out, uint64_t out_len)
{
    units_write_start(out, 8);
    units_write_blocks(code, information, information_len, out + 8, out_len - 8);
}

static inline void units_write_tail(units_unitoffers_UnitCode code, uint8_t *restrict out, uint64_t out_len)
{
    (void)code;
    core_copy_from_slice_u8(out, out_len, units_unitoffers_TAIL);
}

/* The tail behind them. */
static inline void units_write_taken(units_unitoffers_UnitCode code, const uint8_t *information,
        uint64_t information_len, uint8_t *restrict out, uint64_t out_len)
{
    uint64_t room = out_len - units_unitoffers_UnitCode_tail_octets(code);
    units_write_front(code, information, information_len, out, room);
    units_write_tail(code, out + room, out_len - room);
}

/* A unit of the information, or why there is none. */
static inline refusals_Result_unit_Refusal units_written(uint8_t code, const uint8_t *information,
        uint64_t information_len, uint8_t *restrict out, uint64_t out_len)
{
    units_ControlFlow_ErrResidual_Refusal_UnitCode t = units_ResultTry_branch_UnitCode_Refusal(units_writable(code,
            information_len, out_len));
    units_unitoffers_UnitCode t2;
    switch (t.tag) {
    case units_ControlFlow_ErrResidual_Refusal_UnitCode_Continue:
        t2 = t.as.Continue.field0;
        break;
    case units_ControlFlow_ErrResidual_Refusal_UnitCode_Break:
    default:
        return refusals_ResultFromResidualErrResidual_from_residual_un(t.as.Break.field0);
    }
    units_unitoffers_UnitCode unit_code = t2;
    units_write_taken(unit_code, information, information_len, out, out_len);
    return (refusals_Result_unit_Refusal){.tag = refusals_Result_unit_Refusal_Ok};
}

/* A unit of the information. */
static inline uint8_t units_write_unit(uint8_t code, const uint8_t *information, uint64_t information_len,
        uint8_t *restrict out, uint64_t out_len)
{
    refusals_Result_unit_Refusal t = units_written(code, information, information_len, out, out_len);
    return refusals_number(t);
}

static inline bool units_readings_is_started(const uint8_t *unit, uint64_t unit_len)
{
    return core_starts_with_u8(unit, unit_len, units_unitoffers_START, 8);
}

/* The octets between the start and the tail of a unit of so many octets. */
static inline uint64_t units_readings_between(units_unitoffers_UnitCode code, uint64_t long_)
{
    return core_int_usize_saturating_sub(long_, 8 + units_unitoffers_UnitCode_tail_octets(code));
}

static inline bool units_readings_is_tail(units_unitoffers_UnitCode code, const uint8_t *end, uint64_t end_len)
{
    lent_uint8_t long_ = (lent_uint8_t){end, end_len};
    lent_uint8_t t = (lent_uint8_t){units_unitoffers_TAIL, units_unitoffers_UnitCode_tail_octets(code)};
    return core_RefSlicePartialEq_eq_u8(&long_, &t);
}

/* Whether what follows the start is one or more whole codeblocks and the tail. */
static inline bool units_readings_is_shaped(units_unitoffers_UnitCode code, const uint8_t *unit, uint64_t unit_len)
{
    uint64_t word = units_unitoffers_UnitCode_word_octets(code);
    uint64_t rest = units_readings_between(code, unit_len);
    if (rest < word) {
        return false;
    }
    if (rest % word != 0) {
        return false;
    }
    uint64_t end = 8 + rest;
    return units_readings_is_tail(code, unit + end, unit_len - end);
}

/* Whether a unit can be read. */
static inline refusals_Result_unit_Refusal units_readings_readable(uint8_t code, const uint8_t *unit, uint64_t unit_len)
{
    units_Option_UnitCode t = units_unitoffers_UnitCode_of(code);
    units_unitoffers_UnitCode unit_code;
    switch (t.tag) {
    case units_Option_UnitCode_Some:
        unit_code = t.as.Some.field0;
        break;
    case units_Option_UnitCode_None:
    default:
        return (refusals_Result_unit_Refusal){.tag = refusals_Result_unit_Refusal_Err,
                .as.Err = {.field0 = (refusals_Refusal){.tag = refusals_Refusal_Code}}};
    }
    if (!units_readings_is_started(unit, unit_len)) {
        return (refusals_Result_unit_Refusal){.tag = refusals_Result_unit_Refusal_Err,
                .as.Err = {.field0 = (refusals_Refusal){.tag = refusals_Refusal_NoStart}}};
    }
    if (!units_readings_is_shaped(unit_code, unit, unit_len)) {
        return (refusals_Result_unit_Refusal){.tag = refusals_Result_unit_Refusal_Err,
                .as.Err = {.field0 = (refusals_Refusal){.tag = refusals_Refusal_NoTail}}};
    }
    return (refusals_Result_unit_Refusal){.tag = refusals_Result_unit_Refusal_Ok};
}

/* Correct's numbers where there was no run. */
static inline flipping_endings_Corrected units_readings_numbered(refusals_Result_unit_Refusal done)
{
    return flipping_endings_refused_correct(refusals_number(done));
}

/* A reader over a unit: its number is that of `kept`. */
static inline units_readings_Reading units_readings_reader(uint8_t code, const uint8_t *unit, uint64_t unit_len,
        uint16_t limit)
{
    flipping_endings_Corrected kept = units_readings_numbered(units_readings_readable(code, unit, unit_len));
    return (units_readings_Reading){.kept = kept, .code = code, .limit = limit, .place = 0};
}

/* An answer that leaves the reading as it is. */
static inline units_readings_Handed units_readings_handed_again(units_readings_Reading state,
        flipping_endings_Corrected answer, bool none)
{
    return (units_readings_Handed){.corrected = answer, .none = none, .next = state};
}

/* The whole codeblocks that they hold. */
static inline uint64_t units_readings_blocks_in(units_unitoffers_UnitCode code, uint64_t long_)
{
    return units_readings_between(code, long_) / units_unitoffers_UnitCode_word_octets(code);
}

static inline void units_readings_word_buffer(uint8_t *restrict result)
{
    memset(result, 0, 64);
}

/* Codeblock k of a unit, derandomised. */
static inline void units_readings_receive(units_unitoffers_UnitCode code, const uint8_t *unit, uint64_t k,
        uint8_t *restrict word, uint64_t word_len)
{
    (void)code;
    uint64_t size = word_len;
    uint64_t used = k * size;
    uint64_t at = 8 + used;
    core_copy_from_slice_u8(word, word_len, unit + at);
    randomiser_randomise(word, word_len, used);
}

/* The information of a word that is taken; of a refused one nothing. */
static inline void units_readings_hand_out(uint8_t number, const uint8_t *information, uint8_t *restrict out,
        uint64_t out_len)
{
    if (number == 0) {
        core_copy_from_slice_u8(out, out_len, information);
    }
}

/* A codeblock corrected, and its information handed out. */
static inline flipping_endings_Corrected units_readings_correct_part(units_unitoffers_UnitCode code,
        const uint8_t *word, uint64_t word_len, uint16_t limit, uint8_t *restrict out, uint64_t out_len)
{
    uint64_t size = word_len;
    uint8_t mended[64];
    units_readings_word_buffer(mended);
    flipping_endings_Corrected r = codes_correct(code.number, word, word_len, limit, mended, size);
    units_readings_hand_out(r.number, mended, out, out_len);
    return r;
}

/* Codeblock k of a unit. */
static inline flipping_endings_Corrected units_readings_read_block(units_unitoffers_UnitCode code, const uint8_t *unit,
        uint64_t k, uint16_t limit, uint8_t *restrict out, uint64_t out_len)
{
    uint64_t size = units_unitoffers_UnitCode_word_octets(code);
    uint8_t word[64];
    units_readings_word_buffer(word);
    units_readings_receive(code, unit, k, word, size);
    return units_readings_correct_part(code, word, size, limit, out, out_len);
}

/* A refused codeblock's, which ends it. */
static inline units_readings_Handed units_readings_handed_last(units_readings_Reading state,
        flipping_endings_Corrected answer)
{
    units_readings_Reading next = (units_readings_Reading){.kept = answer, .code = state.code, .limit = state.limit,
            .place = state.place};
    return (units_readings_Handed){.corrected = answer, .none = false, .next = next};
}

/* A codeblock's that is handed out: the reading moves on. */
static inline units_readings_Handed units_readings_handed_on(units_readings_Reading state,
        flipping_endings_Corrected answer)
{
    units_readings_Reading next = (units_readings_Reading){.kept = state.kept, .code = state.code,
            .limit = state.limit, .place = (size_t)((uint64_t)state.place + 1)};
    return (units_readings_Handed){.corrected = answer, .none = false, .next = next};
}

/* Asks a reading of a unit for the next codeblock's information octets: the answer that ended the reading, that
 * there is none, or the codeblock's. */
static inline units_readings_Handed units_readings_read(units_readings_Reading state, const uint8_t *unit,
        uint64_t unit_len, uint8_t *restrict out, uint64_t out_len)
{
    units_Option_UnitCode t = units_unitoffers_UnitCode_of(state.code);
    units_unitoffers_UnitCode code;
    switch (t.tag) {
    case units_Option_UnitCode_Some:
        code = t.as.Some.field0;
        break;
    case units_Option_UnitCode_None:
    default:
        return units_readings_handed_again(state,
                units_readings_numbered((refusals_Result_unit_Refusal){.tag = refusals_Result_unit_Refusal_Err,
                .as.Err = {.field0 = (refusals_Refusal){.tag = refusals_Refusal_Code}}}), false);
    }
    if (out_len != units_unitoffers_UnitCode_information_octets(code)) {
        return units_readings_handed_again(state,
                units_readings_numbered((refusals_Result_unit_Refusal){.tag = refusals_Result_unit_Refusal_Err,
                .as.Err = {.field0 = (refusals_Refusal){.tag = refusals_Refusal_OutputLength}}}), false);
    }
    flipping_endings_Corrected kept = state.kept;
    if (kept.number != 0) {
        return units_readings_handed_again(state, kept, false);
    }
    uint64_t blocks = units_readings_blocks_in(code, unit_len);
    if (blocks <= (uint64_t)state.place) {
        return units_readings_handed_again(state,
                units_readings_numbered((refusals_Result_unit_Refusal){.tag = refusals_Result_unit_Refusal_Ok}), true);
    }
    flipping_endings_Corrected r = units_readings_read_block(code, unit, state.place, state.limit, out, out_len);
    if (r.number != 0) {
        return units_readings_handed_last(state, r);
    }
    return units_readings_handed_on(state, r);
}

/* ---- capi ------------------------------------------------------------------------------------------- */

/* The calls for C and Rust. A slice is handed over as a pointer and its length; the records are those of the calls. */

/* What open gives, with the number of leading octets for the part: a returned reference has no form in C. A record
 * of C's: its number says whether the rest counts. */
typedef pandoricchia_opened capi_Opened;

/* The version that the header names: 65536 times its major number, 256 times its minor number, and its patch number.
 * The major number moves with the records and with what the calls take. */
uint32_t pandoricchia_version(void)
{
    return UINT32_C(0x10000) * 0 + UINT32_C(256) * 10 + 0;
}

/* The octets of a word; 0 for a code that is not offered. */
size_t pandoricchia_word_octets(uint8_t code)
{
    if (!catalogue_offer_is_offered(code)) {
        return 0;
    }
    return narrowed(catalogue_offer_word_octets(code));
}

/* The octets of a word's information; 0 for a code that is not offered. */
size_t pandoricchia_information_octets(uint8_t code)
{
    if (!catalogue_offer_is_offered(code)) {
        return 0;
    }
    return narrowed(catalogue_offer_information_octets(code));
}

uint8_t pandoricchia_encode(uint8_t code, const uint8_t *information, size_t information_len, uint8_t *restrict word,
        size_t word_len)
{
    if (information_len == 0) {
        information = no_uint8_t;
    }
    uint8_t nothing[1] = {0};
    if (word_len == 0) {
        word = nothing;
    }
    return codes_encode(code, information, information_len, word, word_len);
}

pandoricchia_checked pandoricchia_check(uint8_t code, const uint8_t *word, size_t word_len)
{
    if (word_len == 0) {
        word = no_uint8_t;
    }
    return codes_check(code, word, word_len);
}

pandoricchia_answered pandoricchia_quick(uint8_t code, const uint8_t *word, size_t word_len)
{
    if (word_len == 0) {
        word = no_uint8_t;
    }
    return quick_quick(code, word, word_len);
}

pandoricchia_opened pandoricchia_open(uint8_t code, const uint8_t *word, size_t word_len)
{
    if (word_len == 0) {
        word = no_uint8_t;
    }
    codes_Opened opened = codes_open(code, word, word_len);
    lent_uint8_t part = opened.part;
    return (capi_Opened){.number = opened.number, .lowest = opened.lowest, .octets = (size_t)part.len};
}

pandoricchia_corrected pandoricchia_correct(uint8_t code, const uint8_t *word, size_t word_len, uint16_t limit,
        uint8_t *restrict out, size_t out_len)
{
    if (word_len == 0) {
        word = no_uint8_t;
    }
    uint8_t nothing[1] = {0};
    if (out_len == 0) {
        out = nothing;
    }
    return codes_correct(code, word, word_len, limit, out, out_len);
}

/* The same on samples, one for each bit, whose sizes decide between bits of equal excess. C and Rust hand over
 * floats, and their bit patterns are read. */
pandoricchia_corrected pandoricchia_correct_samples(uint8_t code, const float *samples, size_t samples_len,
        uint16_t limit, uint8_t *restrict out, size_t out_len)
{
    if (samples_len == 0) {
        samples = no_float;
    }
    uint8_t nothing[1] = {0};
    if (out_len == 0) {
        out = nothing;
    }
    return samples_correct_patterns(code, samples, samples_len, limit, out, out_len);
}

/* The run's list, a record for each flip, into the caller's table. */
pandoricchia_listed pandoricchia_list(uint8_t code, const uint8_t *word, size_t word_len, uint16_t limit,
        pandoricchia_fliprecord *restrict table, size_t table_len)
{
    if (word_len == 0) {
        word = no_uint8_t;
    }
    lists_listing_FlipRecord nothing[1] = {{0}};
    if (table_len == 0) {
        table = nothing;
    }
    return lists_list(code, word, word_len, limit, table, table_len);
}

pandoricchia_stepped pandoricchia_step(uint8_t code, const uint8_t *word, size_t word_len, uint8_t *restrict out,
        size_t out_len)
{
    if (word_len == 0) {
        word = no_uint8_t;
    }
    uint8_t nothing[1] = {0};
    if (out_len == 0) {
        out = nothing;
    }
    return codes_step(code, word, word_len, out, out_len);
}

pandoricchia_reached pandoricchia_nearest(const uint8_t *word, size_t word_len, uint8_t reach, uint8_t *restrict out,
        size_t out_len)
{
    if (word_len == 0) {
        word = no_uint8_t;
    }
    uint8_t nothing[1] = {0};
    if (out_len == 0) {
        out = nothing;
    }
    return nearest_nearest(word, word_len, reach, out, out_len);
}

size_t pandoricchia_unit_octets(uint8_t code, size_t information_len)
{
    return narrowed(units_unit_octets(code, information_len));
}

uint8_t pandoricchia_write_unit(uint8_t code, const uint8_t *information, size_t information_len,
        uint8_t *restrict out, size_t out_len)
{
    if (information_len == 0) {
        information = no_uint8_t;
    }
    uint8_t nothing[1] = {0};
    if (out_len == 0) {
        out = nothing;
    }
    return units_write_unit(code, information, information_len, out, out_len);
}

/* The reader's state is the caller's, by value: a struct that holds the unit's slice has no form in C. */
pandoricchia_reading pandoricchia_reader(uint8_t code, const uint8_t *unit, size_t unit_len, uint16_t limit)
{
    if (unit_len == 0) {
        unit = no_uint8_t;
    }
    return units_readings_reader(code, unit, unit_len, limit);
}

pandoricchia_handed pandoricchia_read(pandoricchia_reading state, const uint8_t *unit, size_t unit_len,
        uint8_t *restrict out, size_t out_len)
{
    if (unit_len == 0) {
        unit = no_uint8_t;
    }
    uint8_t nothing[1] = {0};
    if (out_len == 0) {
        out = nothing;
    }
    return units_readings_read(state, unit, unit_len, out, out_len);
}

pandoricchia_taking pandoricchia_taker(uint16_t limit)
{
    telemetry_taker_Taker result;
    telemetry_taker_Taker_new(limit, &result);
    return result;
}

pandoricchia_made pandoricchia_taker_for(uint8_t edition, uint16_t limit)
{
    telemetry_taker_Made result;
    telemetry_taker_Taker_told(edition, limit, &result);
    return result;
}

pandoricchia_taken pandoricchia_take(pandoricchia_taking state, const uint8_t *part, size_t part_len)
{
    if (part_len == 0) {
        part = no_uint8_t;
    }
    telemetry_taker_Taken result;
    telemetry_taker_Taker_take(&state, part, part_len, &result);
    return result;
}

uint8_t pandoricchia_bch_encode(const uint8_t *information, size_t information_len, uint8_t *restrict word,
        size_t word_len)
{
    if (information_len == 0) {
        information = no_uint8_t;
    }
    uint8_t nothing[1] = {0};
    if (word_len == 0) {
        word = nothing;
    }
    return bch_bch_encode(information, information_len, word, word_len);
}

pandoricchia_mended pandoricchia_bch_check(bool detect_only, const uint8_t *word, size_t word_len,
        uint8_t *restrict out, size_t out_len)
{
    if (word_len == 0) {
        word = no_uint8_t;
    }
    uint8_t nothing[1] = {0};
    if (out_len == 0) {
        out = nothing;
    }
    return bch_bch_check(detect_only, word, word_len, out, out_len);
}

pandoricchia_imported pandoricchia_import_blocks(const uint8_t *blocks, size_t blocks_len, uint8_t *restrict out,
        size_t out_len)
{
    if (blocks_len == 0) {
        blocks = no_uint8_t;
    }
    uint8_t nothing[1] = {0};
    if (out_len == 0) {
        out = nothing;
    }
    return blocks_importing_import_blocks(blocks, blocks_len, out, out_len);
}

size_t pandoricchia_imported_octets(const uint8_t *blocks, size_t blocks_len)
{
    if (blocks_len == 0) {
        blocks = no_uint8_t;
    }
    return narrowed(blocks_importing_imported_octets(blocks, blocks_len));
}

uint8_t pandoricchia_export_blocks(const uint8_t *octets, size_t octets_len, uint8_t *restrict out, size_t out_len)
{
    if (octets_len == 0) {
        octets = no_uint8_t;
    }
    uint8_t nothing[1] = {0};
    if (out_len == 0) {
        out = nothing;
    }
    return blocks_exporting_export_blocks(octets, octets_len, out, out_len);
}

size_t pandoricchia_exported_octets(size_t octets_len)
{
    return narrowed(blocks_exporting_exported_octets(octets_len));
}
