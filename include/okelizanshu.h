/* The five calls of the static library libokelizanshu.a: check, run, normalise, element and body over ALPHA sheets.
 *
 * A sheet is bytes as document 01 has them, at most 65,536 of them; every call takes any bytes of any length and says what is wrong with
 * them. Nothing is allocated, nothing is kept between calls, and calls in several threads do not disturb each other. 1 MiB of stack is
 * enough.
 *
 * Assumes of each pair of pointer and length: the pointer is not null, also where the length is 0, is aligned for its type, and so many
 * entries can be read there; and of `codes`, `values` and `out` that they can be written and overlap no other argument of the call.
 *
 * Every answer is one number of 64 bits. Of all calls but okelizanshu_body its upper half is the number of the refusal, OKELIZANSHU_ACCEPTED
 * where there is none, and its lower half the answer, or the refusal's place. */
#ifndef OKELIZANSHU_H
#define OKELIZANSHU_H

#include <stddef.h>
#include <stdint.h>

#ifdef __cplusplus
extern "C" {
#endif

/* The halves of an answer: the refusal's number or the body's start, and the answer, the place or the body's length. */
#define OKELIZANSHU_UPPER(answer) ((uint32_t)((uint64_t)(answer) >> 32))
#define OKELIZANSHU_LOWER(answer) ((uint32_t)((uint64_t)(answer) & UINT64_C(0xFFFFFFFF)))

/* The refusals by number, with what the place is. */
enum okelizanshu_refusal {
    OKELIZANSHU_ACCEPTED = 0,
    OKELIZANSHU_LONG = 1,    /* over 65,536 bytes; place 0 */
    OKELIZANSHU_CUT = 2,     /* fewer than 8 bytes remain for a field; its offset */
    OKELIZANSHU_COUNT = 3,   /* a count is off its limits, at its offset; or the boxes hold over 4,096 points, at the record's offset */
    OKELIZANSHU_NAME = 4,    /* a name is ill formed or taken; its offset */
    OKELIZANSHU_NUMBER = 5,  /* any other number is off its values; its offset */
    OKELIZANSHU_TAIL = 6,    /* bytes follow the last section; their offset */
    OKELIZANSHU_SHAPE = 7,   /* a body is no tree of its dimension, or over 32 deep; the variable's number. Or nodes are left over; the number of variables */
    OKELIZANSHU_TYPE = 8,    /* a type rule is broken; the variable's number */
    OKELIZANSHU_REACH = 9,   /* a bound passes 2^40; the variable's number */
    OKELIZANSHU_GAP = 10,    /* a body does not hold at an element; the element's number */
    OKELIZANSHU_CLASH = 11,  /* two branches of a case hold at an element; the element's number */
    OKELIZANSHU_INPUT = 12,  /* the input list has the wrong length; the right one. Or a boolean entry is not 0 or 1; its index */
    OKELIZANSHU_WIDE = 13,   /* the normal form passes a limit; the number of the variable where it does */
    OKELIZANSHU_ROOM = 14,   /* a lent output is too short; the length needed */
    OKELIZANSHU_ASK = 15     /* no such variable or no such point; place 0 */
};

/* The codes that okelizanshu_run writes. The value is 0 but at OKELIZANSHU_VALUE; a boolean's is 0 or 1. */
enum okelizanshu_code {
    OKELIZANSHU_OUTSIDE = 0,  /* the element is outside its declared domain */
    OKELIZANSHU_VALUE = 1,
    OKELIZANSHU_DIVZERO = 2,  /* divided by zero */
    OKELIZANSHU_OVERFLOW = 3, /* left 32 bits */
    OKELIZANSHU_LOOP = 4      /* needs itself */
};

/* Checks a sheet. Answers its element total, at most 4,096; or refusal 1 to 11. */
uint64_t okelizanshu_check(const uint8_t *sheet, size_t sheet_length);

/* Runs a sheet over an input list: one entry for each point of each input's box. Answers the element total n, with the first n entries
 * of both tables written and the rest as they were; or refusal 1 to 11, INPUT or ROOM, with both tables as they were. */
uint64_t okelizanshu_run(const uint8_t *sheet, size_t sheet_length, const int32_t *inputs, size_t inputs_length, uint8_t *codes,
                         size_t codes_length, int32_t *values, size_t values_length);

/* Writes a sheet's normal form, itself a sheet, at most 65,536 bytes. Answers its length, with so many bytes of `out` written and the rest
 * as they were; or refusal 1 to 11, WIDE or ROOM, with `out` as it was. */
uint64_t okelizanshu_normalise(const uint8_t *sheet, size_t sheet_length, uint8_t *out, size_t out_length);

/* The number of a variable's element at a point, its index in the tables of a run; or refusal 1 to 11 or ASK. */
uint64_t okelizanshu_element(const uint8_t *sheet, size_t sheet_length, uint64_t variable, const int64_t *point, size_t point_length);

/* Where the body of a variable starts in the sheet (upper half), and how many bytes it has (lower half). Both are 0 for an input, an unknown
 * variable or a sheet that is refused. */
uint64_t okelizanshu_body(const uint8_t *sheet, size_t sheet_length, uint64_t variable);

#ifdef __cplusplus
}
#endif

#endif
