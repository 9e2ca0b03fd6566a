/*
 * Memory to lend from.
 *
 * The archive is built without sanitizers, so that AddressSanitizer does not see what it reads and writes. Therefore
 * each string that it is lent lies against a page that is closed: one byte too many is a fault. A string can lie
 * against the page after it or against the page before it, and each case is put to the library both ways. Inputs are
 * lent where they cannot be written. What the archive does on its own stack is not watched.
 */
#ifndef LEND_H
#define LEND_H

#include "case.h"

/* The same pages twice: where we write them, and where they are lent, between two closed pages. */
struct arena {
    uint8_t *written, *lent;
};

enum { ROOM = 1 << 21 /* of an arena; no string is longer */ };

/* Pages to lend an input from, or an output. */
struct arena open_input(void);
struct arena open_output(void);

/* Where a string of so many bytes starts that lies against the page after it, or before it. */
size_t place_in(size_t len, int upper);

/* Lends a copy of the string. Where its length is 0 the pointer is to a closed page, or none at all. */
struct lent lend_from(struct arena arena, struct lent string, int upper);

#endif
