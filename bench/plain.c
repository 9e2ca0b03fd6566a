/*
 * Prover and verifier in C, in plain loops, equation by equation: the algorithm that the library had before
 * it summed the matrices first. (baseline.c has a faster one.) In the prover no branch and no address depends
 * on leaves or witness, but for what the answer tells.
 *
 * Leaf sums: three exclusive ors for a leaf, into bit planes. Forms: all repetitions side by side, a
 * byte each, with a stride of 48; a row's sum is looked up, four coordinates at a time, in a table of
 * the sixteen sums of these, indexed by the row, which is public. H v by the same tables. With
 * g = A x + A^T x + b, a1 is a masked sum. In the verifier W stands for v, with 0 for the leaf that is not
 * opened, and then K.
 */
#include "form.h"

enum {
    LANES = MQ_MAX_REPETITIONS,
    VECTORS = LANES / 16,
    MAX_ROW = MQ_STRING_SIZE(MQ_MAX_VARIABLES),
    MAX_HASH_ROW = MQ_HASH_ROW_SIZE(MQ_MAX_VARIABLES, MQ_MAX_EQUATIONS, MQ_MAX_REPETITIONS, MQ_MAX_HASH_ROWS,
                                    DEGREE),
    MAX_W = MQ_LEAF_SIZE(MQ_MAX_VARIABLES, MQ_MAX_EQUATIONS, MQ_MAX_REPETITIONS, MQ_MAX_HASH_ROWS, DEGREE)
};

/* Sixteen bytes, in the vectors that gcc and clang share. */
typedef uint8_t vector __attribute__((vector_size(16)));
typedef int8_t signed_vector __attribute__((vector_size(16)));

/* An element of K for each repetition. */
union lanes {
    vector part[VECTORS];
    uint8_t byte[LANES];
};

/* What the steps work on: u of each repetition, v by coordinate, and the sums of each four coordinates. */
struct work {
    union lanes v[8 * MAX_W], table[2 * MAX_HASH_ROW * 16];
    uint8_t u[MQ_MAX_REPETITIONS][MAX_W];
};

static inline void add(uint8_t *restrict to, const uint8_t *restrict from, size_t len)
{
    for (size_t i = 0; i < len; i++)
        to[i] ^= from[i];
}

/* Bytes of ones where the highest bit is set. */
static inline vector top(vector x)
{
    return (vector)((signed_vector)x < 0);
}

/* to += a b in K, in every lane, by Horner from the highest bit of a. Elements stand at the top of their bytes. */
enum { SHIFT = 8 - DEGREE };

static inline void add_products(union lanes *to, const union lanes *a, const union lanes *b)
{
    const vector modulus = (vector){ 0 } + (uint8_t)(FIELD_MODULUS << SHIFT);
    for (int i = 0; i < VECTORS; i++) {
        const vector factor = b->part[i] << SHIFT;
        vector rest = a->part[i] << SHIFT, product = { 0 };
        for (int bit = 0; bit < DEGREE; bit++) {
            product = (product + product) ^ (top(product) & modulus) ^ (top(rest) & factor);
            rest += rest;
        }
        to->part[i] ^= product >> SHIFT;
    }
}

/* ---- Leaf sums and tables ----------------------------------------------------------------- */

enum { NONE = FIELD_SIZE };

/* Where a leaf is missing, those after it stand one place earlier, and the sums have 0 for it. */
static void sum_leaves(const uint8_t *leaves, size_t w, size_t missing, uint8_t *u, uint8_t *planes)
{
    memset(u, 0, w);
    memset(planes, 0, DEGREE * w);
    for (size_t j = 0; j < FIELD_SIZE; j++) {
        if (j != missing) {
            add(u, leaves, w);
            leaves += w;
        }
        for (size_t p = 0; p < DEGREE; p++)
            if ((j ^ (j + 1)) >> p & 1)
                add(planes + p * w, u, w);
    }
}

/* Puts the bit planes of one repetition into its lane: byte b of the planes gives eight coordinates. */
static void put_lane(const uint8_t *planes, size_t w, union lanes *v, size_t e)
{
    for (size_t b = 0; b < w; b++)
        for (size_t s = 0; s < 8; s++) {
            uint8_t element = 0;
            for (size_t p = 0; p < DEGREE; p++)
                element |= (uint8_t)((planes[p * w + b] >> s & 1) << p);
            v[8 * b + s].byte[e] = element;
        }
}

static void sum_all(const struct key *key, const uint8_t *leaves, struct work *work)
{
    uint8_t planes[DEGREE * MAX_W];
    memset(work->v, 0, sizeof work->v);
    for (size_t e = 0; e < key->tau; e++) {
        sum_leaves(leaves + e * FIELD_SIZE * key->w, key->w, NONE, work->u[e], planes);
        put_lane(planes, key->w, work->v, e);
    }
}

/* For the coordinates of so many bytes. */
static void make_table(size_t bytes, struct work *work)
{
    for (size_t q = 0; q < 2 * bytes; q++) {
        union lanes *sum = work->table + 16 * q;
        memset(sum, 0, sizeof *sum);
        for (size_t s = 0; s < 4; s++)
            for (size_t i = 0; i < (size_t)1 << s; i++)
                for (int k = 0; k < VECTORS; k++)
                    sum[i + ((size_t)1 << s)].part[k] = sum[i].part[k] ^ work->v[4 * q + s].part[k];
    }
}

static void make_all(const struct key *key, const uint8_t *leaves, size_t bytes, struct work *work)
{
    sum_all(key, leaves, work);
    make_table(bytes, work);
}

/* The sum over the coordinates that are set in a public row. */
static inline union lanes look_up(const struct work *work, const uint8_t *row, size_t bytes)
{
    const union lanes *at = work->table;
    union lanes sum = { { { 0 } } };
    for (size_t b = 0; b < bytes; b++, at += 32) {
        const union lanes *low = at + (row[b] & 15), *high = at + 16 + (row[b] >> 4);
        for (int k = 0; k < VECTORS; k++)
            sum.part[k] ^= low->part[k] ^ high->part[k];
    }
    return sum;
}

/* ---- Equations ---------------------------------------------------------------------------- */

/* A row, as words. */
enum { WORDS = (MAX_ROW + 7) / 8 };
struct row {
    uint64_t word[WORDS];
};

static inline struct row take_row(const uint8_t *at, size_t len)
{
    struct row row = { { 0 } };
    memcpy(&row, at, len);
    return row;
}

static inline uint8_t parity_of_word(uint64_t x)
{
    x ^= x >> 32;
    x ^= x >> 16;
    return parity((uint8_t)(x ^ x >> 8));
}

/* g = A x + A^T x + b. Answers the equation's error. Rows are read as whole words from a copy, with what lies
 * behind them: x has zeros there, and g is not used there. */
static uint8_t try_witness(const struct key *key, size_t i, const uint8_t *x, uint8_t *g)
{
    const struct row b = take_row(key->b + i * key->row, key->row), all = take_row(x, key->row);
    struct row sum = b;
    uint64_t ax[WORDS] = { 0 }, error = 0;
    uint8_t copy[MQ_MAX_VARIABLES * MAX_ROW + sizeof(struct row)];
    memcpy(copy, key->a + i * key->n * key->row, key->n * key->row);
    memset(copy + key->n * key->row, 0, sizeof(struct row));
    for (size_t r = 0; r < key->n; r++) {
        const uint64_t mask = -(all.word[r / 64] >> r % 64 & 1);
        uint64_t shared = 0, own[WORDS];
        memcpy(own, copy + r * key->row, sizeof own);
        for (size_t k = 0; k < WORDS; k++) {
            shared ^= own[k] & all.word[k];
            sum.word[k] ^= own[k] & mask;
        }
        ax[r / 64] |= (uint64_t)parity_of_word(shared) << r % 64;
    }
    for (size_t k = 0; k < WORDS; k++) {
        error ^= (ax[k] ^ b.word[k]) & all.word[k];
        sum.word[k] ^= ax[k];
    }
    memcpy(g, &sum, key->row);
    return parity_of_word(error) ^ (key->y[i / 8] >> i % 8 & 1);
}

static uint32_t ask_solves(const struct key *key, const uint8_t *x)
{
    for (size_t i = 0; i < key->m; i++) {
        uint8_t g[MAX_ROW], error = try_witness(key, i, x, g);
        PUBLISH(error);
        if (error)
            return MQ_REFUSED_EQUATION_FAILS * 65536 + (uint32_t)i;
    }
    return MQ_ACCEPTED;
}

/* a0 and a1 of one equation, in all repetitions. */
static void forms(const struct key *key, const struct work *work, const uint8_t *a, const uint8_t *g, union lanes *a0,
                  union lanes *a1)
{
    memset(a0, 0, sizeof *a0);
    memset(a1, 0, sizeof *a1);
    for (size_t r = 0; r < key->n; r++) {
        const vector mask = (vector){ 0 } - (uint8_t)(g[r / 8] >> r % 8 & 1);
        const union lanes sum = look_up(work, a + r * key->row, key->row);
        add_products(a0, &work->v[r], &sum);
        for (int k = 0; k < VECTORS; k++)
            a1->part[k] ^= work->v[r].part[k] & mask;
    }
}

/* The lanes of the batching bytes of one equation. */
static union lanes batching_lanes(const struct key *key, const uint8_t *batching, size_t i)
{
    union lanes chi = { { { 0 } } };
    for (size_t e = 0; e < key->tau; e++)
        chi.byte[e] = batching[e * key->m + i];
    return chi;
}

/* Adds the sum of alpha^s v[n + re + s], r being the degree: each lane has its own coordinates. */
static void add_masks(const struct key *key, const struct work *work, union lanes *to)
{
    for (size_t s = 0; s < DEGREE; s++) {
        union lanes alpha, own = { { { 0 } } };
        memset(&alpha, 1 << s, sizeof alpha);
        for (size_t e = 0; e < key->tau; e++)
            own.byte[e] = work->v[key->n + DEGREE * e + s].byte[e];
        add_products(to, &alpha, &own);
    }
}

static uint32_t make_batch(const struct key *key, const struct work *work, const uint8_t *x, const uint8_t *batching,
                           struct batched *made)
{
    union lanes qs0 = { { { 0 } } }, qs1 = { { { 0 } } };
    for (size_t e = 0; e < key->tau; e++)
        qs1.byte[e] = mask_of_u(key, work->u[0], e);
    add_masks(key, work, &qs0);
    for (size_t i = 0; i < key->m; i++) {
        const union lanes chi = batching_lanes(key, batching, i);
        union lanes a0, a1;
        uint8_t g[MAX_ROW], error = try_witness(key, i, x, g);
        PUBLISH(error);
        if (error)
            return MQ_REFUSED_EQUATION_FAILS * 65536 + (uint32_t)i;
        forms(key, work, key->a + i * key->n * key->row, g, &a0, &a1);
        add_products(&qs0, &chi, &a0);
        add_products(&qs1, &chi, &a1);
    }
    memcpy(made->qs0, qs0.byte, LANES);
    memcpy(made->qs1, qs1.byte, LANES);
    return MQ_ACCEPTED;
}

/* ---- What is written ---------------------------------------------------------------------- */

static uint8_t *write_commit(const struct key *key, const struct work *work, const uint8_t *x, uint8_t *out)
{
    out = put_count(out, (key->tau - 1) * key->w);
    for (size_t e = 1; e < key->tau; e++)
        for (size_t b = 0; b < key->w; b++)
            *out++ = work->u[e][b] ^ work->u[0][b];
    out = put_count(out, key->row);
    for (size_t b = 0; b < key->row; b++)
        out[b] = x[b] ^ work->u[0][b];
    out[key->row - 1] &= (uint8_t)~spare_mask(key->n);
    return out + key->row;
}

static uint8_t *write_hash(const struct key *key, const struct work *work, const uint8_t *h, uint8_t *out)
{
    const uint8_t *u = work->u[0];
    uint8_t *packed = put_count(out, MQ_STRING_SIZE(key->t));
    out = put_count(packed + MQ_STRING_SIZE(key->t), key->tau * key->t);
    memset(packed, 0, MQ_STRING_SIZE(key->t));
    for (size_t r = 0; r < key->t; r++, h += key->hash_row) {
        const size_t own = key->k + r;
        const union lanes sum = look_up(work, h, key->hash_row);
        uint8_t shared = 0;
        for (size_t b = 0; b < key->hash_row; b++)
            shared ^= h[b] & u[b];
        packed[r / 8] |= (uint8_t)((parity(shared) ^ (u[own / 8] >> own % 8 & 1)) << r % 8);
        for (size_t e = 0; e < key->tau; e++)
            out[e * key->t + r] = sum.byte[e] ^ work->v[own].byte[e];
    }
    return out + key->tau * key->t;
}

/* ---- The verifier, once the form is known ------------------------------------------------- */

/* W = v + delta (u + C), with the leaf at delta taken for 0. */
static void sum_opened(const struct key *key, const struct claim *in, const struct proof *proof, struct work *work)
{
    uint8_t planes[DEGREE * MAX_W];
    memset(work->v, 0, sizeof work->v);
    for (size_t e = 0; e < key->tau; e++) {
        const uint8_t delta = in->delta.at[e];
        sum_leaves(in->opened.at + e * (FIELD_SIZE - 1) * key->w, key->w, delta, work->u[e], planes);
        if (e > 0)
            add(work->u[e], proof->c + (e - 1) * key->w, key->w);
        for (size_t p = 0; p < DEGREE; p++)
            if (delta >> p & 1)
                add(planes + p * key->w, work->u[e], key->w);
        put_lane(planes, key->w, work->v, e);
    }
}

/* Question 14. */
static uint32_t check_hashes(const struct key *key, const struct claim *in, const struct proof *proof,
                             const struct work *work)
{
    uint8_t differs[MQ_MAX_REPETITIONS] = { 0 };
    const uint8_t *h = in->hash_matrix.at;
    for (size_t r = 0; r < key->t; r++, h += key->hash_row) {
        const union lanes sum = look_up(work, h, key->hash_row);
        const uint8_t u = (uint8_t)-(proof->u[r / 8] >> r % 8 & 1);
        for (size_t e = 0; e < key->tau; e++)
            differs[e] |= sum.byte[e] ^ work->v[key->k + r].byte[e] ^ proof->v[e * key->t + r] ^ (in->delta.at[e] & u);
    }
    for (size_t e = 0; e < key->tau; e++)
        if (differs[e])
            return MQ_REFUSED_INCONSISTENT * 65536 + (uint32_t)e;
    return MQ_ACCEPTED;
}

/* K = W + delta d, in the first n coordinates. */
static void add_correction(const struct key *key, const struct proof *proof, const union lanes *delta,
                           struct work *work)
{
    for (size_t c = 0; c < key->n; c++)
        if (proof->d[c / 8] >> c % 8 & 1)
            for (int k = 0; k < VECTORS; k++)
                work->v[c].part[k] ^= delta->part[k];
}

/* K^T A K + delta b K + delta^2 y of one equation. */
static union lanes form(const struct key *key, const struct work *work, size_t i, const union lanes *delta,
                        const union lanes *square)
{
    const union lanes line = look_up(work, key->b + i * key->row, key->row);
    union lanes sum = { { { 0 } } };
    for (size_t r = 0; r < key->n; r++) {
        const union lanes row = look_up(work, key->a + (i * key->n + r) * key->row, key->row);
        add_products(&sum, &work->v[r], &row);
    }
    add_products(&sum, delta, &line);
    if (key->y[i / 8] >> i % 8 & 1)
        for (int k = 0; k < VECTORS; k++)
            sum.part[k] ^= square->part[k];
    return sum;
}

/* Question 15. */
static uint32_t check_products(const struct key *key, const struct claim *in, const struct proof *proof,
                               const struct work *work, const union lanes *delta)
{
    union lanes left = { { { 0 } } }, square = { { { 0 } } };
    add_products(&square, delta, delta);
    add_masks(key, work, &left);
    for (size_t i = 0; i < key->m; i++) {
        const union lanes chi = batching_lanes(key, in->batching.at, i);
        const union lanes one = form(key, work, i, delta, &square);
        add_products(&left, &chi, &one);
    }
    for (size_t e = 0; e < key->tau; e++)
        if (left.byte[e] != (proof->qs0[e] ^ multiply(proof->qs1[e], in->delta.at[e])))
            return MQ_REFUSED_PRODUCT_DIFFERS * 65536 + (uint32_t)e;
    return MQ_ACCEPTED;
}

static uint32_t check_proof(const struct key *key, const struct claim *in, const struct proof *proof,
                            struct work *work)
{
    union lanes delta = { { { 0 } } };
    uint32_t word;
    memcpy(delta.byte, in->delta.at, key->tau);
    sum_opened(key, in, proof, work);
    make_table(key->hash_row, work);
    word = check_hashes(key, in, proof, work);
    if (word)
        return word;
    add_correction(key, proof, &delta, work);
    make_table(key->row, work);
    return check_products(key, in, proof, work, &delta);
}

#include "calls.h"
