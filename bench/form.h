/*
 * The questions on form, as the programs of this folder put them: all but 11, 14 and 15, and 16, which is
 * dispatch.c's. Each function answers 0, or the number of the question that gets a no.
 *
 * Each program is compiled for one degree, 8 or 4, which is a constant in it.
 *
 * The key is public. Leaves and witness are secret: their spare bits are gathered with no branch,
 * and only the answer is looked at.
 */
#ifndef FORM_H
#define FORM_H

#include <stdint.h>
#include <string.h>

#include "solfadrus.h"

#ifndef DEGREE
#error "the degree: -DDEGREE=8 or -DDEGREE=4"
#endif
enum { FIELD_SIZE = MQ_FIELD_SIZE(DEGREE), FIELD_MODULUS = MQ_FIELD_MODULUS(DEGREE) };

/* A value that depends on secrets, but that the answer tells anyway. A test that marks secrets needs to know. */
#ifdef MARK_SECRETS
#include <valgrind/memcheck.h>
#define PUBLISH(value) VALGRIND_MAKE_MEM_DEFINED(&(value), sizeof(value))
#else
#define PUBLISH(value) ((void)(value))
#endif

struct text {
    const uint8_t *at;
    size_t len;
};

/* The sizes, what follows from them, and the key's sections without their counts. */
struct key {
    size_t n, m, tau, t;
    size_t row;      /* bytes of a row of A or b */
    size_t k, L, w;  /* coordinates with the masks, bits of a leaf, bytes of a leaf */
    size_t hash_row; /* bytes of a row of hash_matrix */
    const uint8_t *a, *b, *y;
};

static inline size_t two_bytes(const uint8_t *at)
{
    return at[0] | (size_t)at[1] << 8;
}

static inline uint32_t four_bytes(const uint8_t *at)
{
    return at[0] | (uint32_t)at[1] << 8 | (uint32_t)at[2] << 16 | (uint32_t)at[3] << 24;
}

static inline uint8_t *put_count(uint8_t *at, size_t count)
{
    for (int i = 0; i < MQ_COUNT_SIZE; i++)
        *at++ = (uint8_t)(count >> 8 * i);
    return at;
}

/* The spare bits of the last byte of a string of so many bits. */
static inline uint8_t spare_mask(size_t bits)
{
    return bits % 8 ? (uint8_t)(0xFF << bits % 8) : 0;
}

/* The spare bits that are set in any of so many strings, gathered from their last bytes. */
static uint8_t spare_bits(const uint8_t *strings, size_t count, size_t bits)
{
    const size_t len = MQ_STRING_SIZE(bits);
    const uint8_t mask = spare_mask(bits);
    uint8_t sum[4] = { 0 };
    if (mask == 0)
        return 0;
    for (; count >= 4; count -= 4, strings += 4 * len)
        for (size_t i = 0; i < 4; i++)
            sum[i] |= strings[i * len + len - 1];
    for (; count > 0; count--, strings += len)
        sum[0] |= strings[len - 1];
    return (sum[0] | sum[1] | sum[2] | sum[3]) & mask;
}

static inline int in_range(size_t size, size_t limit)
{
    return size >= 1 && size <= limit;
}

/* Takes one section, which must have so many bytes; NULL where it is not there whole. */
static const uint8_t *take_section(struct text *rest, size_t expected)
{
    if (rest->len < MQ_COUNT_SIZE + expected || four_bytes(rest->at) != expected)
        return NULL;
    rest->at += MQ_COUNT_SIZE + expected;
    rest->len -= MQ_COUNT_SIZE + expected;
    return rest->at - expected;
}

/* Questions 1 to 4. */
static uint32_t ask_key(struct text lent, struct key *key)
{
    struct text rest;
    if (lent.len < MQ_HEADER_SIZE)
        return MQ_REFUSED_SHORT_HEADER;
    key->n = two_bytes(lent.at);
    key->m = two_bytes(lent.at + 2);
    key->tau = two_bytes(lent.at + 4);
    key->t = two_bytes(lent.at + 6);
    if (!in_range(key->n, MQ_MAX_VARIABLES) || !in_range(key->m, MQ_MAX_EQUATIONS)
        || !in_range(key->tau, MQ_MAX_REPETITIONS) || !in_range(key->t, MQ_MAX_HASH_ROWS))
        return MQ_REFUSED_SIZE_OUT_OF_RANGE;
    key->row = MQ_STRING_SIZE(key->n);
    key->k = MQ_HASH_ROW_BITS(key->n, key->m, key->tau, key->t, DEGREE);
    key->L = key->k + key->t;
    key->w = MQ_STRING_SIZE(key->L);
    key->hash_row = MQ_STRING_SIZE(key->k);
    rest.at = lent.at + MQ_HEADER_SIZE;
    rest.len = lent.len - MQ_HEADER_SIZE;
    key->a = take_section(&rest, key->m * key->n * key->row);
    key->b = key->a ? take_section(&rest, key->m * key->row) : NULL;
    key->y = key->b ? take_section(&rest, MQ_STRING_SIZE(key->m)) : NULL;
    if (!key->y || rest.len != 0)
        return MQ_REFUSED_KEY_LENGTH;
    if (spare_bits(key->a, key->m * key->n, key->n) | spare_bits(key->b, key->m, key->n)
        | spare_bits(key->y, 1, key->m))
        return MQ_REFUSED_KEY_SPARE_BIT;
    return MQ_ACCEPTED;
}

/* Whether some byte is no element. Nothing here is secret. */
static int no_elements(const uint8_t *at, size_t len)
{
    uint8_t all = 0;
    if (DEGREE == 8)
        return 0;
    for (size_t i = 0; i < len; i++)
        all |= at[i];
    return all >> DEGREE != 0;
}

/* Questions 5, 6 and 17, of the challenges that are not NULL. */
static uint32_t ask_challenges(const struct key *key, const struct text *hash_matrix, const struct text *batching,
                               const struct text *delta)
{
    if ((hash_matrix && hash_matrix->len != key->t * key->hash_row)
        || (batching && batching->len != key->tau * key->m) || (delta && delta->len != key->tau))
        return MQ_REFUSED_CHALLENGE_LENGTH;
    if (hash_matrix && spare_bits(hash_matrix->at, key->t, key->k))
        return MQ_REFUSED_HASH_SPARE_BIT;
    if ((batching && no_elements(batching->at, batching->len)) || (delta && no_elements(delta->at, delta->len)))
        return MQ_REFUSED_CHALLENGE_ELEMENT;
    return MQ_ACCEPTED;
}

/* Questions 7 and 8, of so many leaves for each repetition. */
static uint32_t ask_leaves(const struct key *key, struct text leaves, size_t each)
{
    if (leaves.len != key->tau * each * key->w)
        return MQ_REFUSED_LEAF_LENGTH;
    if (spare_bits(leaves.at, key->tau * each, key->L))
        return MQ_REFUSED_LEAF_SPARE_BIT;
    return MQ_ACCEPTED;
}

/* Question 9. */
static uint32_t ask_witness(const struct key *key, struct text witness)
{
    if (witness.len != key->row || (witness.at[key->row - 1] & spare_mask(key->n)) != 0)
        return MQ_REFUSED_WITNESS_FORM;
    return MQ_ACCEPTED;
}

/* All inputs of a call. Those that it does not take are NULL. */
struct inputs {
    struct text key, leaves, *witness, *hash_matrix, *batching;
    size_t out_len;
};

/* Questions 1 to 10 and 17, for a call that writes so many bytes, which may depend on the key. */
static uint32_t ask_form(const struct inputs *in, struct key *key, size_t (*to_be_written)(const struct key *))
{
    uint32_t number = ask_key(in->key, key);
    if (!number)
        number = ask_challenges(key, in->hash_matrix, in->batching, NULL);
    if (!number)
        number = ask_leaves(key, in->leaves, FIELD_SIZE);
    if (!number && in->witness)
        number = ask_witness(key, *in->witness);
    if (!number && in->out_len != to_be_written(key))
        number = MQ_REFUSED_OUTPUT_LENGTH;
    return number;
}

static size_t commit_size(const struct key *key)
{
    return MQ_COMMIT_SIZE(key->n, key->m, key->tau, key->t, DEGREE);
}

static size_t hash_size(const struct key *key)
{
    return MQ_HASH_SIZE(key->n, key->m, key->tau, key->t, DEGREE);
}

static size_t batch_size(const struct key *key)
{
    return MQ_BATCH_SIZE(key->n, key->m, key->tau, key->t, DEGREE);
}

static size_t proof_size(const struct key *key)
{
    return MQ_PROOF_SIZE(key->n, key->m, key->tau, key->t, DEGREE);
}

/* The sections of a proof, without their counts. The first correction of C is that of repetition 1. */
struct proof {
    const uint8_t *c, *d, *u, *v, *qs0, *qs1;
};

/* Questions 12, 13 and 18. */
static uint32_t ask_proof(const struct key *key, struct text rest, struct proof *proof)
{
    const size_t lengths[6] = {
        (key->tau - 1) * key->w, key->row, MQ_STRING_SIZE(key->t), key->tau * key->t, key->tau, key->tau
    };
    const uint8_t **const sections[6] = { &proof->c, &proof->d, &proof->u, &proof->v, &proof->qs0, &proof->qs1 };
    for (int i = 0; i < 6; i++)
        if (!(*sections[i] = take_section(&rest, lengths[i])))
            return MQ_REFUSED_PROOF_LENGTH;
    if (rest.len != 0)
        return MQ_REFUSED_PROOF_LENGTH;
    if (spare_bits(proof->c, key->tau - 1, key->L) | spare_bits(proof->d, 1, key->n) | spare_bits(proof->u, 1, key->t))
        return MQ_REFUSED_PROOF_SPARE_BIT;
    if (no_elements(proof->v, key->tau * key->t) || no_elements(proof->qs0, key->tau)
        || no_elements(proof->qs1, key->tau))
        return MQ_REFUSED_PROOF_ELEMENT;
    return MQ_ACCEPTED;
}

/* All inputs of the verifier, none of them secret. */
struct claim {
    struct text key, delta, hash_matrix, batching, opened, proof;
};

/* Questions 1 to 8, 12, 13, 17 and 18. */
static uint32_t ask_claim(const struct claim *in, struct key *key, struct proof *proof)
{
    uint32_t number = ask_key(in->key, key);
    if (!number)
        number = ask_challenges(key, &in->hash_matrix, &in->batching, &in->delta);
    if (!number)
        number = ask_leaves(key, in->opened, FIELD_SIZE - 1);
    if (!number)
        number = ask_proof(key, in->proof, proof);
    return number;
}

/* The product of two elements of K that are not secret. */
static inline uint8_t multiply(uint8_t a, uint8_t b)
{
    unsigned product = 0;
    for (int s = DEGREE - 1; s >= 0; s--) {
        product <<= 1;
        if (product & FIELD_SIZE)
            product ^= FIELD_MODULUS;
        if (b >> s & 1)
            product ^= a;
    }
    return (uint8_t)product;
}

/* The parity of the ones of a byte. */
static inline uint8_t parity(uint8_t x)
{
    x ^= x >> 4;
    x ^= x >> 2;
    return (x ^ x >> 1) & 1;
}

/* The bits n + re .. n + re + r - 1 of u, which are repetition e's, r being the degree: as an element, the sum of
 * alpha^s u[n + re + s]. */
static inline uint8_t mask_of_u(const struct key *key, const uint8_t *u, size_t e)
{
    const size_t first = key->n + DEGREE * e;
    const uint8_t *at = u + first / 8;
    const unsigned next = first % 8 + DEGREE > 8 ? at[1] : 0, two = at[0] | next << 8;
    return (uint8_t)(two >> first % 8 & (FIELD_SIZE - 1));
}

/* What the third step writes. */
struct batched {
    uint8_t qs0[MQ_MAX_REPETITIONS], qs1[MQ_MAX_REPETITIONS];
};

static inline uint8_t *write_batch(const struct key *key, const struct batched *made, uint8_t *out)
{
    out = put_count(out, key->tau);
    memcpy(out, made->qs0, key->tau);
    out = put_count(out + key->tau, key->tau);
    memcpy(out, made->qs1, key->tau);
    return out + key->tau;
}

#endif
