/*
 * From the fuzzer's bytes to the inputs of a call.
 *
 * Random bytes would be refused for the key's form, nearly always. So the first byte names a case to start from, an
 * honest one of a shape of tests/shapes, but for FF, where all strings are empty. Edits follow, each of four bytes and
 * the bytes that it takes:
 *
 *     what    low three bits: the edit; the others: the string (enum input, then the output, then the degree)
 *     where   two bytes, lowest first: a place in the string; FFFF is its last byte, FFFE the one before; in one of
 *             65,536 bytes or more, 4000 to BFFF are its middle, in steps
 *     value   what to put there, or how much
 *
 * The degree beside the key is the case's. EDIT_SET and EDIT_FLIP take it as four bytes, lowest first, EDIT_OTHER puts
 * the other of the two that are served, and all other edits put the value.
 *
 * So few bytes reach the last question, and a string can still be any bytes at all (EDIT_ALL).
 */
#ifndef EDITS_H
#define EDITS_H

#include "call.h"

enum edit {
    EDIT_SET,   /* the byte there becomes the value */
    EDIT_FLIP,  /* one bit of the byte there, by the value */
    EDIT_CUT,   /* the string ends there */
    EDIT_GROW,  /* so many bytes of 0 more */
    EDIT_PUT,   /* so many bytes, which follow, from there on */
    EDIT_ALL,   /* the string becomes so many bytes, which follow */
    EDIT_OTHER, /* the string becomes that of another name, by the value */
    EDIT_OPEN   /* the challenge of a repetition, by the place, becomes the value, and the leaves are opened there */
};

/* Makes the cases to start from. Their proofs are the rendering's. */
void make_cases(void);

struct edited {
    struct lent in[INPUTS];
    uint32_t degree, made_for; /* what is lent, and that of the case */
    size_t out_len; /* the output's length */
};

/* What the bytes mean. The strings are valid until the next such call. */
struct edited edited(const uint8_t *bytes, size_t len);

#endif
