/* Tunisaypa for C: the check and the run of a sheet, and the operations of its domains, on x86-64.
 *
 * `tools/staticlib` makes the library, target/staticlib/libexport.a; it needs nothing but the C library.
 *
 *     cc -Iinclude program.c target/staticlib/libexport.a
 *
 * Every call ends. It returns 0 and puts its numbers at the front of the lent room, or it returns the number of a refusal; what it leaves
 * then is said beside each function, and the rest of the room stays as it was. For all numbers and all bytes that is proved:
 * crates/export_c/src has the contracts. No call keeps anything for the next, so several threads may call at once.
 *
 * A lent slice is a pointer and how many elements lie there. Asked of the caller is what Rattle asks of lent slices: the pointer is aligned
 * and not NULL, even where there is no element, and what is lent to be written (room, place) overlaps nothing else lent to the same call.
 */
#ifndef TUNISAYPA_H
#define TUNISAYPA_H

#include <stddef.h>
#include <stdint.h>

#ifdef __cplusplus
extern "C" {
#endif

/* What a call returns: 0, or the number of a refusal. */
enum {
    TUNISAYPA_OK = 0,
    TUNISAYPA_NOT_IN_DOMAIN = 1,    /* a value that the domain doesn't have */
    TUNISAYPA_DOES_NOT_FIT = 2,     /* a number formed on the way doesn't fit 64 bits */
    TUNISAYPA_WOULD_ASSERT = 3,     /* the published Rust would assert: a constant not below its modulus */
    TUNISAYPA_ENDS_EARLY = 5,       /* the bytes end early */
    TUNISAYPA_NOT_SHORTEST = 6,     /* a number not in its shortest form, or 2^64 or more */
    TUNISAYPA_UNKNOWN_OPERATOR = 7, /* an operator that is unknown */
    TUNISAYPA_NOT_EARLIER = 8,      /* an operand that names no earlier step */
    TUNISAYPA_LOW_ABOVE_HIGH = 9,   /* an input whose low end is above its high end */
    TUNISAYPA_TOO_MANY_STEPS = 10,  /* more than 256 steps */
    TUNISAYPA_LEFT_OVER = 11,       /* bytes left over */
    TUNISAYPA_DIVISOR_ZERO = 12,    /* the divisor may be 0; in a run, it is */
    TUNISAYPA_TOO_WIDE = 13,        /* the result may not fit 64 bits; in a run, it doesn't */
    TUNISAYPA_NOT_LOGICAL = 14,     /* a condition, or an operand of and, or, not, may be neither 0 nor 1; in a run, it isn't */
    TUNISAYPA_INPUTS_WRONG = 15,    /* a run's inputs are too many, too few or out of their ranges */
    TUNISAYPA_NO_ROOM = 16          /* the lent room is too short */
};

/* ---- sheets */

enum {
    TUNISAYPA_STEPS = 256,         /* the most steps of a sheet */
    TUNISAYPA_SHEET_BYTES = 5378,  /* the most bytes of a sheet; reading one looks at no byte behind the next */
    TUNISAYPA_SHOWN = 5,           /* the numbers that a check puts for a step */
    TUNISAYPA_CHECK_ROOM = 1280,   /* room for the check of any sheet, and for its run */

    /* which is which of those five: the range is [low, high], and every number differs from the constant by a multiple of the modulus */
    TUNISAYPA_LOW = 0,
    TUNISAYPA_HIGH = 1,
    TUNISAYPA_CONSTANT = 2,
    TUNISAYPA_MODULUS = 3,         /* 0: the constant alone */
    TUNISAYPA_SIGN = 4,

    /* the fifth of them */
    TUNISAYPA_TOP = 0,             /* every number */
    TUNISAYPA_BOTTOM = 1,          /* none */
    TUNISAYPA_NEGATIVE = 2,
    TUNISAYPA_ZERO = 3,
    TUNISAYPA_POSITIVE = 4,
    TUNISAYPA_NON_NEG = 5,
    TUNISAYPA_NON_ZERO = 6,
    TUNISAYPA_NON_POS = 7
};

/* Checks the sheet in the bytes; docs/FORMAT.md tells what they are.
 *
 *  0        it passes: *place is how many steps it has, and room has five numbers a step
 *  12 to 14 step *place is refused: room has five numbers for each step before it
 *  5 to 11  the bytes are no sheet: *place is the byte at fault; room stays
 *  16       length is less than five numbers a step: room and *place stay
 */
uint8_t tunisaypa_check(const uint8_t *bytes, size_t count, int64_t *room, size_t length, size_t *place);

/* Runs the sheet in the bytes on these inputs, one for each input step, in the order of the steps.
 *
 *  0        it ends: *place is how many steps it has, and room has the number of each
 *  12 to 14 it stops at step *place: room has the number of each step before it
 *  5 to 11  the bytes are no sheet: *place is the byte at fault; room stays
 *  15, 16   the inputs are wrong, or length is less than a number a step (16 goes first): room and *place stay
 */
uint8_t tunisaypa_run(const uint8_t *bytes, size_t count, const int64_t *inputs, size_t many, int64_t *room, size_t length, size_t *place);

/* ---- single operations: the answer goes to the front of the room, 16 if it has no place there; on a refusal all of the room stays */

/* The greatest common divisor of the absolute values, one number; refused by 2 where it is 2^63. */
uint8_t tunisaypa_gcd(int64_t a, int64_t b, int64_t *room, size_t length);

/* Intervals [a, b] and [c, d]; the answer is two numbers, least and greatest; [INT64_MAX, INT64_MIN] is no numbers. These four are ported:
 * they answer as the published Rust does, and rem is refused by 2 where that overflows. */
uint8_t tunisaypa_interval_add(int64_t a, int64_t b, int64_t c, int64_t d, int64_t *room, size_t length);
uint8_t tunisaypa_interval_mul(int64_t a, int64_t b, int64_t c, int64_t d, int64_t *room, size_t length);
uint8_t tunisaypa_interval_rem(int64_t a, int64_t b, int64_t c, int64_t d, int64_t *room, size_t length);
uint8_t tunisaypa_interval_join(int64_t a, int64_t b, int64_t c, int64_t d, int64_t *room, size_t length);

/* These three are mended: the least range of all sums, that of all products, and a range of the remainders (by [0, 0]: no numbers). Refused
 * by 1 if a > b or c > d, unless that is no numbers, and by 2 where an end doesn't fit, or of INT64_MIN rem -1. */
uint8_t tunisaypa_mended_interval_add(int64_t a, int64_t b, int64_t c, int64_t d, int64_t *room, size_t length);
uint8_t tunisaypa_mended_interval_mul(int64_t a, int64_t b, int64_t c, int64_t d, int64_t *room, size_t length);
uint8_t tunisaypa_mended_interval_rem(int64_t a, int64_t b, int64_t c, int64_t d, int64_t *room, size_t length);

/* Congruences c mod m and e mod n; the answer is two numbers, constant and modulus. c mod 0 is c alone, 1 mod 1 is no numbers, and else c mod
 * m is every number that differs from c by a multiple of m. All six are refused by 1 outside the domain, which has 1 mod 1, m = 0, and m > 0
 * with c < m. These three are ported: they answer as the published Rust does, refused by 2 or 3 where that panics. */
uint8_t tunisaypa_congruence_join(int64_t c, int64_t m, int64_t e, int64_t n, int64_t *room, size_t length);
uint8_t tunisaypa_congruence_mul(int64_t c, int64_t m, int64_t e, int64_t n, int64_t *room, size_t length);
uint8_t tunisaypa_congruence_meet(int64_t c, int64_t m, int64_t e, int64_t n, int64_t *room, size_t length);

/* These three are mended, and never refused but by 1 and 16. join: the least that holds both, or every number (0 mod 1) if two single ones
 * are more than INT64_MAX apart. mul: holds every product that fits. meet: the common numbers; the left value if the least common multiple
 * doesn't fit and there are some. */
uint8_t tunisaypa_mended_congruence_join(int64_t c, int64_t m, int64_t e, int64_t n, int64_t *room, size_t length);
uint8_t tunisaypa_mended_congruence_mul(int64_t c, int64_t m, int64_t e, int64_t n, int64_t *room, size_t length);
uint8_t tunisaypa_mended_congruence_meet(int64_t c, int64_t m, int64_t e, int64_t n, int64_t *room, size_t length);

#ifdef __cplusplus
}
#endif

#endif
