/*
 * A case for benchmark and tests: a key with a known solution, leaves, challenges and the leaves opened there, all
 * from a small generator that is no good for secrets. There is room for a proof, which the library makes. Order and
 * generator are those of vectors/README.md: the digests of the test vectors hold for them.
 */
#ifndef CASE_H
#define CASE_H

#include <stdint.h>
#include <stdlib.h>
#include <string.h>

#include "solfadrus.h"

struct lent {
    uint8_t *at;
    size_t len;
};

struct sizes {
    size_t n, m, tau, t;
    uint32_t degree;
};

static inline size_t hash_row_bits(struct sizes s)
{
    return MQ_HASH_ROW_BITS(s.n, s.m, s.tau, s.t, s.degree);
}

static inline size_t leaf_bits(struct sizes s)
{
    return MQ_LEAF_BITS(s.n, s.m, s.tau, s.t, s.degree);
}

static inline size_t tree_leaves(struct sizes s)
{
    return MQ_FIELD_SIZE(s.degree);
}

struct made {
    struct sizes sizes;
    struct lent key, witness, leaves, hash_matrix, batching, delta, opened, proof;
};

/* splitmix64 */
static uint64_t draw(uint64_t *state)
{
    uint64_t z = *state += UINT64_C(0x9E3779B97F4A7C15);
    z = (z ^ z >> 30) * UINT64_C(0xBF58476D1CE4E5B9);
    z = (z ^ z >> 27) * UINT64_C(0x94D049BB133111EB);
    return z ^ z >> 31;
}

static struct lent lend(size_t len)
{
    struct lent lent = { calloc(len ? len : 1, 1), len }; /* batching has no bytes where m is 0 */
    if (!lent.at)
        abort();
    return lent;
}

/* So many random strings of so many bits, spare bits 0. Eight bytes at a time, lowest first (vectors/README.md): a key
 * has up to four megabytes. */
static void draw_strings(uint64_t *state, uint8_t *at, size_t count, size_t bits)
{
    const size_t len = MQ_STRING_SIZE(bits);
    for (size_t i = 0; i < count; i++, at += len) {
        uint64_t eight = 0;
        for (size_t b = 0; b < len; b++, eight >>= 8) {
            if (b % 8 == 0)
                eight = draw(state);
            at[b] = (uint8_t)eight;
        }
        if (bits % 8)
            at[len - 1] &= (uint8_t)((1 << bits % 8) - 1);
    }
}

static uint8_t *put(uint8_t *at, size_t number, int bytes)
{
    for (int i = 0; i < bytes; i++)
        *at++ = (uint8_t)(number >> 8 * i);
    return at;
}

static int bit(const uint8_t *string, size_t c)
{
    return string[c / 8] >> c % 8 & 1;
}

/* The left side of an equation at x: a byte is gathered whose bits sum up to it. */
static int left_side(const uint8_t *a, const uint8_t *b, const uint8_t *x, size_t n)
{
    const size_t row = MQ_STRING_SIZE(n);
    unsigned sum = 0;
    int parity = 0;
    for (size_t r = 0; r < n; r++)
        for (size_t c = 0; bit(x, r) && c < row; c++)
            sum ^= (unsigned)(a[r * row + c] & x[c]);
    for (size_t c = 0; c < row; c++)
        sum ^= (unsigned)(b[c] & x[c]);
    for (; sum; sum >>= 1)
        parity ^= (int)(sum & 1);
    return parity;
}

/* A and b at random, and y so that the witness solves. */
static void make_key(uint64_t *state, struct made *made)
{
    const size_t n = made->sizes.n, m = made->sizes.m, row = MQ_STRING_SIZE(n);
    uint8_t *at = made->key.at, *a, *b, *y;
    at = put(put(at, n, 2), m, 2);
    at = put(put(at, made->sizes.tau, 2), made->sizes.t, 2);
    a = put(at, m * n * row, 4);
    b = put(a + m * n * row, m * row, 4);
    y = put(b + m * row, MQ_STRING_SIZE(m), 4);
    draw_strings(state, a, m * n, n);
    draw_strings(state, b, m, n);
    for (size_t i = 0; i < m; i++)
        y[i / 8] |= (uint8_t)(left_side(a + i * n * row, b + i * row, made->witness.at, n) << i % 8);
}

/* Room for the strings of a case. */
static struct made lend_case(struct sizes sizes)
{
    const size_t n = sizes.n, m = sizes.m, tau = sizes.tau, t = sizes.t;
    const uint32_t degree = sizes.degree;
    const struct made made = {
        sizes,
        lend(MQ_KEY_SIZE(n, m, tau, t, degree)),
        lend(MQ_WITNESS_SIZE(n, m, tau, t, degree)),
        lend(MQ_LEAVES_SIZE(n, m, tau, t, degree)),
        lend(MQ_HASH_MATRIX_SIZE(n, m, tau, t, degree)),
        lend(MQ_BATCHING_SIZE(n, m, tau, t, degree)),
        lend(MQ_DELTA_SIZE(n, m, tau, t, degree)),
        lend(MQ_OPENED_SIZE(n, m, tau, t, degree)),
        lend(MQ_PROOF_SIZE(n, m, tau, t, degree)),
    };
    return made;
}

/* All leaves but the one at delta, in each repetition. */
static void open_leaves(struct made *made)
{
    const size_t w = MQ_STRING_SIZE(leaf_bits(made->sizes));
    const uint8_t *leaf = made->leaves.at;
    uint8_t *at = made->opened.at;
    for (size_t e = 0; e < made->sizes.tau; e++)
        for (size_t j = 0; j < tree_leaves(made->sizes); j++, leaf += w)
            if (j != made->delta.at[e]) {
                memcpy(at, leaf, w);
                at += w;
            }
}

static struct made make_case(uint64_t seed, struct sizes sizes)
{
    struct made made = lend_case(sizes);
    draw_strings(&seed, made.witness.at, 1, sizes.n);
    make_key(&seed, &made);
    draw_strings(&seed, made.leaves.at, tree_leaves(sizes) * sizes.tau, leaf_bits(sizes));
    draw_strings(&seed, made.hash_matrix.at, sizes.t, hash_row_bits(sizes));
    draw_strings(&seed, made.batching.at, sizes.tau * sizes.m, sizes.degree);
    draw_strings(&seed, made.delta.at, sizes.tau, sizes.degree);
    open_leaves(&made);
    return made;
}

static void drop_case(struct made *made)
{
    free(made->key.at);
    free(made->witness.at);
    free(made->leaves.at);
    free(made->hash_matrix.at);
    free(made->batching.at);
    free(made->delta.at);
    free(made->opened.at);
    free(made->proof.at);
}

#endif
