/*
 * Helpers for callers of Solfadrus. Include it beside solfadrus.h; there is nothing more to link.
 *
 * UNPROVED. These are plain functions of C, no part of libsolfadrus.a, and no proof speaks of them. They
 * are tested against the archive (tests/util.c, tests/burn.c).
 *
 *     mq_key_sizes     n, m, tau, t from a key
 *     MQ_OFFSET_...    where the sections of a key and of a proof stand
 *     mq_clear_spare   clears the spare bits of rows that were drawn by bytes
 *     mq_make_y        the section y of a key, for a chosen witness
 *     mq_open_leaves   opened leaves from full ones
 *     mq_message       a word in English
 *     mq_burn_stack    overwrites what a call left on the stack
 *
 * Formats, names and duties are those of solfadrus.h. A helper that answers an int answers 1 where it has
 * done its job, and 0 where a size, a length or the degree does not fit; then it has written nothing. (The
 * library's calls answer words, of which 0 is the good one.)
 */

#ifndef SOLFADRUS_UTIL_H
#define SOLFADRUS_UTIL_H

#include <string.h>

#include "solfadrus.h"

struct mq_sizes {
    size_t n, m, tau, t;
};

/*
 * The sizes that stand at the head of a key. Answers 0 where the key is shorter than its header, or a
 * size is out of range; m may be 0. Nothing else of the key is looked at.
 */
static inline int mq_key_sizes(const uint8_t *key, size_t key_len, struct mq_sizes *sizes)
{
    size_t n, m, tau, t;
    if (key_len < MQ_HEADER_SIZE)
        return 0;
    n = key[0] | (size_t)key[1] << 8;
    m = key[2] | (size_t)key[3] << 8;
    tau = key[4] | (size_t)key[5] << 8;
    t = key[6] | (size_t)key[7] << 8;
    if (n < 1 || n > MQ_MAX_VARIABLES || m > MQ_MAX_EQUATIONS || tau < 1
        || tau > MQ_MAX_REPETITIONS || t < 1 || t > MQ_MAX_HASH_ROWS)
        return 0;
    sizes->n = n;
    sizes->m = m;
    sizes->tau = tau;
    sizes->t = t;
    return 1;
}

/*
 * Where the contents of each section begin; its count stands MQ_COUNT_SIZE bytes before. They take the four
 * sizes and the degree as the macros of lengths do, are right in range, and test nothing. Those of a key are
 * the same at both degrees.
 */
#define MQ_OFFSET_A(n, m, tau, t, degree) (MQ_HEADER_SIZE + MQ_COUNT_SIZE)
#define MQ_OFFSET_B(n, m, tau, t, degree) \
    (MQ_HEADER_SIZE + 2 * MQ_COUNT_SIZE + (m) * (n) * MQ_STRING_SIZE(n))
#define MQ_OFFSET_Y(n, m, tau, t, degree) (MQ_KEY_SIZE(n, m, tau, t, degree) - MQ_STRING_SIZE(m))

#define MQ_OFFSET_C(n, m, tau, t, degree) (MQ_COUNT_SIZE)
#define MQ_OFFSET_D(n, m, tau, t, degree) (MQ_COMMIT_SIZE(n, m, tau, t, degree) - MQ_STRING_SIZE(n))
#define MQ_OFFSET_U(n, m, tau, t, degree) (MQ_COMMIT_SIZE(n, m, tau, t, degree) + MQ_COUNT_SIZE)
#define MQ_OFFSET_V(n, m, tau, t, degree) \
    (MQ_COMMIT_SIZE(n, m, tau, t, degree) + MQ_HASH_SIZE(n, m, tau, t, degree) - (tau) * (t))
#define MQ_OFFSET_QS0(n, m, tau, t, degree) \
    (MQ_COMMIT_SIZE(n, m, tau, t, degree) + MQ_HASH_SIZE(n, m, tau, t, degree) + MQ_COUNT_SIZE)
#define MQ_OFFSET_QS1(n, m, tau, t, degree) (MQ_PROOF_SIZE(n, m, tau, t, degree) - (tau))

/*
 * Clears the spare bits of so many rows of so many bits, which stand one after the other. For a key's A it
 * is m * n rows of n bits, for b it is m of n, for y 1 of m, for a witness 1 of n, for hash_matrix t of
 * MQ_HASH_ROW_BITS, for leaves MQ_FIELD_SIZE * tau of MQ_LEAF_BITS. An element is a row too: for batching it is
 * tau * m rows of as many bits as the degree says, for delta tau. No branch and no address goes by what the rows
 * hold.
 */
static inline void mq_clear_spare(uint8_t *rows, size_t count, size_t bits)
{
    const size_t len = MQ_STRING_SIZE(bits);
    size_t i;
    if (len == 0)
        return;
    for (i = 0; i < count; i++)
        rows[i * len + len - 1] &= (uint8_t)(0xFF >> (8 * len - bits));
}

/* For mq_make_y: a byte of which the parity is the product of two rows over GF(2). */
static inline unsigned mq_util_shared(const uint8_t *row, const uint8_t *x, size_t len)
{
    unsigned sum = 0;
    size_t i;
    for (i = 0; i < len; i++)
        sum ^= (unsigned)(row[i] & x[i]);
    return sum;
}

/* For mq_make_y: the parity of a byte. */
static inline unsigned mq_util_parity(unsigned byte)
{
    byte ^= byte >> 4;
    byte ^= byte >> 2;
    byte ^= byte >> 1;
    return byte & 1;
}

/*
 * Writes the section y of a key so that the witness solves every equation: y_i = x^T A_i x + b_i x. Header,
 * A and b stand in the key already, and the witness has no spare bit. Counts are neither read nor written. It
 * takes no degree: a key serves at both. With no equations there is no y, and it writes nothing.
 *
 * The witness is secret: no branch and no address goes by it, a bit of it selects by a mask. (tests/util.sh
 * tests that of what gcc makes of it.)
 */
static inline int mq_make_y(uint8_t *key, size_t key_len, const uint8_t *witness, size_t witness_len)
{
    struct mq_sizes s;
    const uint8_t *a, *b;
    uint8_t *y;
    size_t i, r;
    if (!mq_key_sizes(key, key_len, &s) || key_len != MQ_KEY_SIZE(s.n, s.m, s.tau, s.t, 8)
        || witness_len != MQ_WITNESS_SIZE(s.n, s.m, s.tau, s.t, 8))
        return 0;
    a = key + MQ_OFFSET_A(s.n, s.m, s.tau, s.t, 8);
    b = key + MQ_OFFSET_B(s.n, s.m, s.tau, s.t, 8);
    y = key + MQ_OFFSET_Y(s.n, s.m, s.tau, s.t, 8);
    memset(y, 0, MQ_STRING_SIZE(s.m));
    for (i = 0; i < s.m; i++, b += witness_len) {
        unsigned sum = mq_util_shared(b, witness, witness_len);
        for (r = 0; r < s.n; r++, a += witness_len) {
            const unsigned mask = 0u - (witness[r / 8] >> r % 8 & 1u);
            sum ^= mq_util_shared(a, witness, witness_len) & mask;
        }
        y[i / 8] = (uint8_t)(y[i / 8] | mq_util_parity(sum) << i % 8);
    }
    return 1;
}

/*
 * The prover's answer to delta: in each repetition all leaves but the one at delta. `out` has
 * MQ_OPENED_SIZE bytes and overlaps no input. Of the key the sizes are read. Answers 0 also where a byte of
 * delta is no element, above 15 at degree 4.
 *
 * Leaves are opened at one delta, once (solfadrus.h, section 4).
 */
static inline int mq_open_leaves(const uint8_t *key, size_t key_len, uint32_t degree,
                                 const uint8_t *delta, size_t delta_len,
                                 const uint8_t *leaves, size_t leaves_len,
                                 uint8_t *out, size_t out_len)
{
    struct mq_sizes s;
    size_t leaf, each, e;
    if (degree != 8 && degree != 4)
        return 0;
    if (!mq_key_sizes(key, key_len, &s) || delta_len != MQ_DELTA_SIZE(s.n, s.m, s.tau, s.t, degree)
        || leaves_len != MQ_LEAVES_SIZE(s.n, s.m, s.tau, s.t, degree)
        || out_len != MQ_OPENED_SIZE(s.n, s.m, s.tau, s.t, degree))
        return 0;
    leaf = MQ_LEAF_SIZE(s.n, s.m, s.tau, s.t, degree);
    each = MQ_FIELD_SIZE(degree);
    for (e = 0; e < s.tau; e++)
        if (delta[e] >= each)
            return 0;
    for (e = 0; e < s.tau; e++) {
        const size_t before = delta[e] * leaf, after = (each - 1 - delta[e]) * leaf;
        memcpy(out, leaves, before);
        memcpy(out + before, leaves + before + leaf, after);
        leaves += each * leaf;
        out += before + after;
    }
    return 1;
}

/*
 * What a word says, without its place; MQ_PLACE has that. The string is constant. A word that no call can
 * answer is said to be so: it comes from an archive of another version, or from no archive.
 */
static inline const char *mq_message(uint32_t word)
{
    static const char *const messages[] = {
        "accepted",
        "the key has not the 8 bytes of its header",
        "a size of the key is out of range",
        "a count of the key, or its length, is not exact",
        "a spare bit of the key is not 0",
        "a challenge has not its exact length",
        "a spare bit of the hash matrix is not 0",
        "the leaves have not their exact length",
        "a spare bit of a leaf is not 0",
        "the witness has not its length, or a spare bit is not 0",
        "the output has not exactly the length to be written",
        "the witness does not solve the system",
        "a count of the proof, or its length, is not exact",
        "a spare bit of the proof is not 0",
        "consistency does not hold",
        "the product check does not hold",
        "the degree is neither 8 nor 4",
        "a byte of a challenge is no element of the field",
        "a byte of the proof is no element of the field"
    };
    const uint32_t number = MQ_NUMBER(word);
    uint32_t places = 1;
    if (number == MQ_REFUSED_EQUATION_FAILS)
        places = MQ_MAX_EQUATIONS;
    if (number == MQ_REFUSED_INCONSISTENT || number == MQ_REFUSED_PRODUCT_DIFFERS)
        places = MQ_MAX_REPETITIONS;
    if (number >= sizeof messages / sizeof messages[0] || MQ_PLACE(word) >= places)
        return "a word that is not published";
    return messages[number];
}

/*
 * Overwrites the MQ_STACK_BYTES of stack below its own frame, where the calls made from the same function
 * have worked: there is u after a call that takes leaves, which with the section d of the proof gives the
 * witness (solfadrus.h, section 4, Wiping).
 *
 *     word = mq_prove(...);
 *     mq_burn_stack();
 *
 * Call it from the function that made the call, or from one that is no deeper. It takes MQ_STACK_BYTES of
 * stack, and less than 1024 bytes more. It does not clear registers, nor copies that the system has made.
 *
 * It must have a frame of its own, and must not be left out as a store that nobody reads: for that it needs
 * a compiler that knows GNU C, and is not there for others.
 */
#if defined(__GNUC__)
__attribute__((noinline, unused)) static void mq_burn_stack(void)
{
    uint8_t below[MQ_STACK_BYTES];
    memset(below, 0, sizeof below);
    __asm__ __volatile__("" : : "r"(below) : "memory");
}
#endif

#endif
