/*
 * Prover and verifier in C, written for speed on any x86-64 (SSE2, no other instructions), as the yardstick
 * of the benchmark. The same job as the library: the same questions, the same bytes, and in the prover no
 * branch and no address that depends on leaves or witness, but for what the answer tells. Nothing here is
 * proved.
 *
 * Leaf sums. With U_j the sum of the leaves up to j, bit plane p of v is the sum of the U_j where 2^p
 * divides j + 1. Each U_j is added at its highest such p alone, and the planes are added up at the end:
 * two exclusive ors for a leaf. The elements of v, a byte for each coordinate, are the planes turned. Planes are
 * as many as the degree says, 8 or 4; below, numbers are those of degree 8.
 *
 * Hash. A row of hash_matrix is public: four coordinates at a time are looked up in a table of their sixteen
 * sums, the bytes of all repetitions side by side. The table is made for a block of the row at a time.
 *
 * Forms. The matrices are summed first: sum_i chi(e, i) v^T A_i v = v^T B v with B = sum_i chi(e, i) A_i. Each bit
 * plane of B is a sum of matrices that bits of chi choose, which are public: five equations at a time are
 * looked up in a table of their 32 sums. v^T A v depends on A only through A + A^T and the diagonal, so each
 * matrix is folded, by squares of sixteen: square (q, J), q < J, gets the transpose of square (J, q). A
 * square is two registers, each a byte column of sixteen rows. The eight planes of a square of B, masked by the bits
 * of v at its rows, are added to a stack of 15 planes for each repetition. When a panel of sixteen columns is done,
 * the rows of the stack are added up, and it is reduced: then v^T B is eight planes of bits, as v is. So are the
 * sums of chi(e, i) times g_i = A_i x + A_i^T x + b_i, which one more table gives. Both are multiplied with v by
 * Karatsuba on the planes. g_i and the witness test are made of the squares as these are folded.
 *
 * Equations go through this in blocks of at most 160, so that table and squares stay near; the sums are added up.
 *
 * What a look-up costs is its two loads, and the machine has time for little else beside them. So there are two
 * tables, each for half of the equations, and one is filled while the other is in use.
 *
 * Verifier. With 0 for the leaf that is not opened, W = v + delta (u + C), so K = v + delta (u + C + d), made
 * on the bit planes; then all is as in the prover, with K for v and b_i for g_i. y_i is one more coordinate of b_i,
 * at which K has delta. The hash of W is that of K plus delta H' d, which goes over to u~. Nothing is secret there.
 */
#include <emmintrin.h>

#include "form.h"

#define INLINE static inline __attribute__((always_inline))
#define NOINLINE __attribute__((noinline)) /* what it has on the stack goes with it */

enum {
    STRIDE = 128, /* a leaf has at most 124 bytes: eight registers */
    LANES = MQ_MAX_REPETITIONS,
    MAX_ROW = MQ_STRING_SIZE(MQ_MAX_VARIABLES),
    MAX_HASH_ROW = MQ_HASH_ROW_SIZE(MQ_MAX_VARIABLES, MQ_MAX_EQUATIONS, MQ_MAX_REPETITIONS, MQ_MAX_HASH_ROWS,
                                    DEGREE),
    PANELS = MQ_MAX_VARIABLES / 16,
    BLOCK_EQUATIONS = 160, /* as many go through the tables together */
    FIVES = BLOCK_EQUATIONS / 5,
    PRODUCTS = DEGREE == 8 ? 27 : 9,
    STACK = 2 * DEGREE - 1
};

typedef __m128i reg;

INLINE reg xor(reg a, reg b) { return _mm_xor_si128(a, b); }
INLINE reg and(reg a, reg b) { return _mm_and_si128(a, b); }
INLINE reg load(const void *at) { return _mm_loadu_si128((const reg *)at); }
INLINE void store(void *at, reg a) { _mm_storeu_si128((reg *)at, a); }

/* ---- Leaf sums ---------------------------------------------------------------------------- */

/* For one repetition: the sum u of its leaves, and the bit planes of v. Zero past w bytes. */
struct sums {
    uint8_t u[STRIDE], plane[DEGREE][STRIDE];
};

/* Sixteen leaves, one of them not there: with zeros in its place. */
struct patch {
    int number; /* which sixteen of the leaves; -1 where all are there */
    uint8_t leaves[16 * STRIDE];
};

static void make_patch(const uint8_t *opened, size_t w, size_t missing, struct patch *patch)
{
    const uint8_t *from = opened + missing / 16 * 16 * w;
    const size_t before = missing % 16 * w;
    patch->number = (int)(missing / 16);
    memcpy(patch->leaves, from, before);
    memset(patch->leaves + before, 0, w);
    memcpy(patch->leaves + before + w, from + before, 15 * w - before);
}

/* Sixteen bytes of the sums, from leaves that lie w bytes apart. */
static void sum_sixteen(const uint8_t *leaf, size_t w, const struct patch *patch, struct sums *sums, size_t at)
{
    reg u = _mm_setzero_si128(), p[DEGREE + 1];
    leaf += at;
    for (int i = 0; i <= DEGREE; i++)
        p[i] = u;
    for (int b = 0; b < FIELD_SIZE / 16; b++) {
        const uint8_t *next = leaf + 16 * w;
        if (b == patch->number) {
            leaf = patch->leaves + at;
            next -= w;
        }
#define LEAF(plane) u = xor(u, load(leaf)), leaf += w, p[plane] = xor(p[plane], u)
        LEAF(0), LEAF(1), LEAF(0), LEAF(2), LEAF(0), LEAF(1), LEAF(0), LEAF(3);
        LEAF(0), LEAF(1), LEAF(0), LEAF(2), LEAF(0), LEAF(1), LEAF(0);
        LEAF(4 + __builtin_ctz(b + 1));
#undef LEAF
        leaf = next;
    }
    store(sums->u + at, u);
    for (int i = DEGREE - 1; i >= 0; i--) {
        p[i] = xor(p[i], p[i + 1]);
        store(sums->plane[i] + at, p[i]);
    }
}

enum { NONE = FIELD_SIZE };

/* Where a leaf is missing, those after it stand one place earlier, and the sums have 0 for it. */
static void sum_leaves(const uint8_t *leaves, size_t w, size_t missing, struct sums *sums)
{
    struct patch patch;
    patch.number = -1;
    memset(sums, 0, sizeof *sums);
    if (w < 16) {
        uint8_t tree[FIELD_SIZE * 16] = { 0 };
        for (size_t j = 0; j < FIELD_SIZE; j++)
            if (j != missing) {
                memcpy(tree + 16 * j, leaves, w);
                leaves += w;
            }
        sum_sixteen(tree, 16, &patch, sums, 0);
        return;
    }
    if (missing != NONE)
        make_patch(leaves, w, missing, &patch);
    for (size_t at = 0; at + 16 < w; at += 16)
        sum_sixteen(leaves, w, &patch, sums, at);
    sum_sixteen(leaves, w, &patch, sums, w - 16);
}

/* ---- Turns -------------------------------------------------------------------------------- */

/* Byte i of row j becomes byte j of row i. */
INLINE void transpose_bytes(reg r[16])
{
    reg s[16];
    for (int stage = 0; stage < 2; stage++) {
        for (int i = 0; i < 8; i++) {
            s[2 * i] = _mm_unpacklo_epi8(r[i], r[i + 8]);
            s[2 * i + 1] = _mm_unpackhi_epi8(r[i], r[i + 8]);
        }
        for (int i = 0; i < 8; i++) {
            r[2 * i] = _mm_unpacklo_epi8(s[i], s[i + 8]);
            r[2 * i + 1] = _mm_unpackhi_epi8(s[i], s[i + 8]);
        }
    }
}

/* Rows i and i + 4, element by element, become rows 2i and 2i + 1. */
#define INTERLEAVE(from, to, bits) \
    for (int i = 0; i < 4; i++) { \
        to[2 * i] = _mm_unpacklo_epi##bits(from[i], from[i + 4]); \
        to[2 * i + 1] = _mm_unpackhi_epi##bits(from[i], from[i + 4]); \
    }

/* Word i of row j becomes word j of row i. */
INLINE void transpose_words(const reg in[8], reg out[8])
{
    reg a[8], b[8];
    INTERLEAVE(in, a, 16)
    INTERLEAVE(a, b, 16)
    INTERLEAVE(b, out, 16)
}

/* Exchanges the bits of a under the mask, moved up, with those of b under the mask. */
#define EXCHANGE(a, b, shift, mask) \
    do { \
        const reg t = and(xor(_mm_srli_epi16(a, shift), b), _mm_set1_epi8(mask)); \
        b = xor(b, t); \
        a = xor(a, shift == 1 ? _mm_add_epi8(t, t) : _mm_slli_epi16(t, shift)); \
    } while (0)

/* Eight rows of 128 bits: column c becomes byte c, with bit i from row i. */
INLINE void turn(reg r[8])
{
    reg s[8];
    for (int i = 0; i < 4; i++)
        EXCHANGE(r[i], r[i + 4], 4, 0x0F);
    for (int i = 0; i < 8; i += 4)
        for (int j = i; j < i + 2; j++)
            EXCHANGE(r[j], r[j + 2], 2, 0x33);
    for (int i = 0; i < 8; i += 2)
        EXCHANGE(r[i], r[i + 1], 1, 0x55);
    for (int i = 0; i < 4; i++) {
        s[2 * i] = _mm_unpacklo_epi8(r[i], r[i + 4]);
        s[2 * i + 1] = _mm_unpackhi_epi8(r[i], r[i + 4]);
    }
    for (int i = 0; i < 4; i++) {
        r[2 * i] = _mm_unpacklo_epi8(s[i], s[i + 4]);
        r[2 * i + 1] = _mm_unpackhi_epi8(s[i], s[i + 4]);
    }
    for (int i = 0; i < 4; i++) {
        s[2 * i] = _mm_unpacklo_epi8(r[i], r[i + 4]);
        s[2 * i + 1] = _mm_unpackhi_epi8(r[i], r[i + 4]);
    }
    for (int i = 0; i < 8; i++)
        r[i] = s[i];
}

/* Byte i of the answer is the sum of the bytes of row i. */
INLINE reg add_up(const reg r[16])
{
    reg a[8], b[4], c[2];
    for (int i = 0; i < 8; i++)
        a[i] = xor(_mm_unpacklo_epi8(r[2 * i], r[2 * i + 1]), _mm_unpackhi_epi8(r[2 * i], r[2 * i + 1]));
    for (int i = 0; i < 4; i++)
        b[i] = xor(_mm_unpacklo_epi16(a[2 * i], a[2 * i + 1]), _mm_unpackhi_epi16(a[2 * i], a[2 * i + 1]));
    for (int i = 0; i < 2; i++)
        c[i] = xor(_mm_unpacklo_epi32(b[2 * i], b[2 * i + 1]), _mm_unpackhi_epi32(b[2 * i], b[2 * i + 1]));
    return xor(_mm_unpacklo_epi64(c[0], c[1]), _mm_unpackhi_epi64(c[0], c[1]));
}

/* The parity of each byte, as a bit. */
INLINE unsigned parities(reg x)
{
    x = xor(x, _mm_slli_epi16(x, 4));
    x = xor(x, _mm_slli_epi16(x, 2));
    x = xor(x, _mm_slli_epi16(x, 1));
    return (unsigned)_mm_movemask_epi8(x);
}

/* ---- Products ----------------------------------------------------------------------------- */

/* The sums of planes that Karatsuba multiplies: 3 x 3 x 3, each digit the low half, the high half or
 * their sum. Of four planes they are 3 x 3. */
INLINE void karatsuba_sums(const reg plane[DEGREE], reg out[PRODUCTS])
{
    for (int i = 0; i < PRODUCTS / 9; i++) {
        reg four[4];
        for (int s = 0; s < 4; s++)
            four[s] = i == 0 ? plane[s] : i == 1 ? plane[s + 4] : xor(plane[s], plane[s + 4]);
        for (int j = 0; j < 3; j++) {
            reg *three = out + 9 * i + 3 * j;
            for (int s = 0; s < 2; s++)
                three[s] = j == 0 ? four[s] : j == 1 ? four[s + 2] : xor(four[s], four[s + 2]);
            three[2] = xor(three[0], three[1]);
        }
    }
}

/* Adds the products of planes with others, whose sums are given. */
INLINE void add_products(reg acc[PRODUCTS], const reg factor[PRODUCTS], const reg plane[DEGREE])
{
    reg sum[PRODUCTS];
    karatsuba_sums(plane, sum);
    for (int i = 0; i < PRODUCTS; i++)
        acc[i] = xor(acc[i], and(sum[i], factor[i]));
}

/* Joins three products of polynomials in `len` planes, low, high and of the sums, to one of twice the length. */
INLINE void join(const reg *low, const reg *high, const reg *sums, int len, reg *out)
{
    for (int i = 0; i < 4 * len - 1; i++)
        out[i] = _mm_setzero_si128();
    for (int i = 0; i < 2 * len - 1; i++) {
        out[i] = xor(out[i], low[i]);
        out[i + 2 * len] = xor(out[i + 2 * len], high[i]);
        out[i + len] = xor(out[i + len], xor(sums[i], xor(low[i], high[i])));
    }
}

/* The planes of the added products. */
INLINE void finish(const reg acc[PRODUCTS], reg plane[DEGREE])
{
#if DEGREE == 8
    reg two[9][3], four[3][7], all[STACK];
    for (int i = 0; i < 9; i++)
        join(acc + 3 * i, acc + 3 * i + 1, acc + 3 * i + 2, 1, two[i]);
    for (int i = 0; i < 3; i++)
        join(two[3 * i], two[3 * i + 1], two[3 * i + 2], 2, four[i]);
    join(four[0], four[1], four[2], 4, all);
    for (int i = 14; i >= 8; i--) { /* X^8 = X^4 + X^3 + X + 1 */
        all[i - 8] = xor(all[i - 8], all[i]);
        all[i - 7] = xor(all[i - 7], all[i]);
        all[i - 5] = xor(all[i - 5], all[i]);
        all[i - 4] = xor(all[i - 4], all[i]);
    }
#else
    reg two[3][3], all[STACK];
    for (int i = 0; i < 3; i++)
        join(acc + 3 * i, acc + 3 * i + 1, acc + 3 * i + 2, 1, two[i]);
    join(two[0], two[1], two[2], 2, all);
    for (int i = 6; i >= 4; i--) { /* X^4 = X + 1 */
        all[i - 4] = xor(all[i - 4], all[i]);
        all[i - 3] = xor(all[i - 3], all[i]);
    }
#endif
    for (int i = 0; i < DEGREE; i++)
        plane[i] = all[i];
}

#if DEGREE == 8
/* Adds X^8 times seven words, each a plane, to eight, and reduces. */
INLINE reg reduce_words(reg low, reg high)
{
    const reg over = xor(_mm_srli_si128(high, 8), _mm_srli_si128(high, 10));
    high = xor(high, over);
    low = xor(low, xor(high, _mm_slli_si128(high, 2)));
    return xor(low, xor(_mm_slli_si128(high, 6), _mm_slli_si128(high, 8)));
}
#else
/* Reduces seven words, each a plane, to the lowest four. */
INLINE reg reduce_words(reg all)
{
    const reg high = _mm_srli_si128(all, 8);
    return xor(all, xor(high, _mm_slli_si128(high, 2)));
}
#endif

/* ---- What the steps work on --------------------------------------------------------------- */

struct work {
    struct sums sums[MQ_MAX_REPETITIONS];
};

static void sum_all(const struct key *key, const uint8_t *leaves, struct work *work)
{
    for (size_t e = 0; e < key->tau; e++)
        sum_leaves(leaves + e * FIELD_SIZE * key->w, key->w, NONE, &work->sums[e]);
}

/* All else is made from the sums where it is used. */
static void make_all(const struct key *key, const uint8_t *leaves, size_t bytes, struct work *work)
{
    (void)bytes;
    sum_all(key, leaves, work);
}

/* The elements of v, a byte for each coordinate: those of sixteen bytes of the planes. */
INLINE void turn_planes(const struct sums *sums, size_t at, reg r[8])
{
    for (int p = 0; p < 8; p++)
        r[p] = p < DEGREE ? load(sums->plane[p % DEGREE] + at) : _mm_setzero_si128();
    turn(r);
}

/* ---- Commit and hash ---------------------------------------------------------------------- */

static uint8_t *write_commit(const struct key *key, const struct work *work, const uint8_t *x, uint8_t *out)
{
    const struct sums *sums = work->sums;
    uint8_t one[STRIDE];
    out = put_count(out, (key->tau - 1) * key->w);
    for (size_t e = 1; e < key->tau; e++, out += key->w) {
        for (size_t b = 0; b < key->w; b += 16)
            store(one + b, xor(load(sums[e].u + b), load(sums[0].u + b)));
        memcpy(out, one, key->w);
    }
    out = put_count(out, key->row);
    for (size_t b = 0; b < key->row; b++)
        out[b] = x[b] ^ sums[0].u[b];
    out[key->row - 1] &= (uint8_t)~spare_mask(key->n);
    return out + key->row;
}

/* The sums of 48 bytes of a row for sixteen repetitions, of 24 for 32, of 16 for 48: 24 KiB, so that they stay in the
 * first cache. */
enum { BLOCK = 48 };

/* The vectors, their coordinates side by side for all repetitions, for each four coordinates of a block their sixteen
 * sums, and the hashes so far. */
struct table {
    uint8_t vector[LANES][8 * STRIDE];
    uint8_t coordinate[8 * STRIDE][LANES];
    reg sum[2 * BLOCK * 16];
    reg hash[MQ_MAX_HASH_ROWS][LANES / 16];
};

INLINE void make_coordinates(const struct key *key, const struct work *work, size_t groups, struct table *table)
{
    for (size_t e = 0; e < key->tau; e++)
        for (size_t at = 0; at < key->w; at += 16) {
            reg r[8];
            turn_planes(&work->sums[e], at, r);
            for (size_t i = 0; i < 8; i++)
                store(table->vector[e] + 8 * at + 16 * i, r[i]);
        }
    for (size_t g = 0; g < groups; g++)
        for (size_t c = 0; c < key->L; c += 16) {
            reg r[16];
            for (size_t e = 0; e < 16; e++)
                r[e] = 16 * g + e < key->tau ? load(table->vector[16 * g + e] + c) : _mm_setzero_si128();
            transpose_bytes(r);
            for (size_t i = 0; i < 16; i++)
                store(table->coordinate[c + i] + 16 * g, r[i]);
        }
}

/* The sums for so many bytes of a row, from the first one on. */
INLINE void make_block(size_t first, size_t bytes, size_t groups, struct table *table)
{
    for (size_t q = 0; q < 2 * bytes; q++)
        for (size_t g = 0; g < groups; g++) {
            reg *sum = table->sum + 16 * q * groups + g;
            sum[0] = _mm_setzero_si128();
            for (size_t s = 0; s < 4; s++)
                for (size_t v = 0; v < (size_t)1 << s; v++)
                    sum[(v + ((size_t)1 << s)) * groups] =
                        xor(sum[v * groups], load(table->coordinate[8 * first + 4 * q + s] + 16 * g));
        }
}

/* Adds to the hashes what the block has of each row. */
INLINE void add_block(const struct key *key, const uint8_t *h, size_t bytes, size_t groups, struct table *table)
{
    for (size_t r = 0; r < key->t; r++, h += key->hash_row) {
        const uint8_t *at = (const uint8_t *)table->sum;
        reg sum[LANES / 16];
        for (size_t g = 0; g < groups; g++)
            sum[g] = table->hash[r][g];
        for (size_t b = 0; b < bytes; b++, at += 32 * 16 * groups) {
            const size_t x = h[b];
            const reg *low = (const reg *)(at + (x & 15) * 16 * groups);
            const reg *high = (const reg *)(at + 16 * 16 * groups + (x & 0xF0) * groups);
            for (size_t g = 0; g < groups; g++)
                sum[g] = xor(sum[g], xor(low[g], high[g]));
        }
        for (size_t g = 0; g < groups; g++)
            table->hash[r][g] = sum[g];
    }
}

INLINE void hash_rows(const struct key *key, const struct work *work, const uint8_t *h, uint8_t *out, size_t groups)
{
    struct table table;
    const size_t block = BLOCK / groups;
    make_coordinates(key, work, groups, &table);
    for (size_t r = 0; r < key->t; r++)
        for (size_t g = 0; g < groups; g++)
            table.hash[r][g] = load(table.coordinate[key->k + r] + 16 * g);
    for (size_t first = 0; first < key->hash_row; first += block) {
        const size_t left = key->hash_row - first, bytes = left < block ? left : block;
        make_block(first, bytes, groups, &table);
        add_block(key, h + first, bytes, groups, &table);
    }
    for (size_t r = 0; r < key->t; r += 16) {
        const size_t rows = key->t - r < 16 ? key->t - r : 16;
        for (size_t g = 0; g < groups; g++) {
            reg hashed[16];
            for (size_t i = 0; i < 16; i++)
                hashed[i] = i < rows ? table.hash[r + i][g] : _mm_setzero_si128();
            transpose_bytes(hashed);
            for (size_t e = 0; e < 16 && 16 * g + e < key->tau; e++)
                if (rows == 16)
                    store(out + (16 * g + e) * key->t + r, hashed[e]);
                else
                    memcpy(out + (16 * g + e) * key->t + r, &hashed[e], rows);
        }
    }
}

/* H v of all repetitions, as the proof has it. */
static NOINLINE void hash_all(const struct key *key, const struct work *work, const uint8_t *h, uint8_t *out)
{
    switch ((key->tau + 15) / 16) {
    case 1: hash_rows(key, work, h, out, 1); break;
    case 2: hash_rows(key, work, h, out, 2); break;
    default: hash_rows(key, work, h, out, 3);
    }
}

/* The product of a row of hash_matrix with as much of a string as it has. */
static uint8_t hash_bit(const uint8_t *row, const uint8_t *string, size_t len)
{
    uint8_t sum = 0;
    for (size_t b = 0; b < len; b++)
        sum ^= row[b] & string[b];
    return parity(sum);
}

static uint8_t *write_hash(const struct key *key, const struct work *work, const uint8_t *h, uint8_t *out)
{
    const uint8_t *u = work->sums[0].u;
    out = put_count(out, MQ_STRING_SIZE(key->t));
    memset(out, 0, MQ_STRING_SIZE(key->t));
    for (size_t r = 0; r < key->t; r++) {
        const size_t own = key->k + r;
        const uint8_t sum = hash_bit(h + r * key->hash_row, u, key->hash_row);
        out[r / 8] |= (uint8_t)((sum ^ (u[own / 8] >> own % 8 & 1)) << r % 8);
    }
    out = put_count(out + MQ_STRING_SIZE(key->t), key->tau * key->t);
    hash_all(key, work, h, out);
    return out + key->tau * key->t;
}

/* ---- The witness -------------------------------------------------------------------------- */

/* As masks: for each row all of a byte, and for each eight columns their byte, sixteen times. */
struct witness {
    reg row[PANELS], column[MAX_ROW];
};

static void make_witness(const uint8_t *x, size_t row, struct witness *witness)
{
    uint8_t bytes[MAX_ROW] = { 0 };
    memcpy(bytes, x, row);
    for (size_t i = 0; i < MAX_ROW; i++)
        witness->column[i] = _mm_set1_epi8((char)bytes[i]);
    for (size_t q = 0; q < PANELS; q++) {
        const reg bits = _mm_set1_epi64x((long long)0x8040201008040201);
        const reg both = _mm_unpacklo_epi64(witness->column[2 * q], witness->column[2 * q + 1]);
        witness->row[q] = _mm_cmpeq_epi8(and(both, bits), bits);
    }
}

/* A matrix, with so many bytes that can be read: in the key, or where that ends before, in a copy. */
enum { MAX_ROOM = MQ_MAX_VARIABLES * MAX_ROW + 48 };

INLINE const uint8_t *matrix_at(const struct key *key, size_t i, size_t room, uint8_t *copy)
{
    const uint8_t *at = key->a + i * key->n * key->row, *end = key->y + MQ_STRING_SIZE(key->m);
    if ((size_t)(end - at) >= room)
        return at;
    memcpy(copy, at, key->n * key->row);
    return copy;
}

/* Question 11, where nothing else is made of the matrices: by x^T A, the rows masked by the bits of x, added, and
 * taken with x. Four rows at a time, which have at most so many registers; masks and x are 0 past them. */
enum { MOST_REGS = 4 * MAX_ROW / 16, FEW_REGS = 5 /* of rows of at most 20 bytes */ };

INLINE uint32_t ask_solves_by(const struct key *key, const uint8_t *x, const int REGS)
{
    enum { FOURS = MQ_MAX_VARIABLES / 4 };
    const size_t four = 4 * key->row, fours = (key->n + 3) / 4, room = fours * four + 16 * (size_t)REGS;
    uint8_t copy[MAX_ROOM + 16 * MOST_REGS];
    reg mask[FOURS][MOST_REGS], each[MOST_REGS];
    memset(copy, 0, room);
    memset(mask, 0, fours * sizeof mask[0]);
    memset(each, 0, sizeof each);
    for (size_t r = 0; r < key->n; r++)
        memset((uint8_t *)mask[r / 4] + r % 4 * key->row, -(x[r / 8] >> r % 8 & 1), key->row);
    for (size_t f = 0; f < 4; f++)
        memcpy((uint8_t *)each + f * key->row, x, key->row);
    for (size_t i = 0; i < key->m; i++) {
        const uint8_t *at = matrix_at(key, i, room, copy);
        reg sum[MOST_REGS], all = _mm_setzero_si128();
        for (int j = 0; j < REGS; j++)
            sum[j] = _mm_setzero_si128();
        for (size_t k = 0; k < fours; k++, at += four)
            for (int j = 0; j < REGS; j++)
                sum[j] = xor(sum[j], and(load(at + 16 * j), mask[k][j]));
        for (int j = 0; j < REGS; j++)
            all = xor(all, and(sum[j], each[j]));
        const unsigned bits = parities(all);
        const uint8_t form = parity((uint8_t)(bits ^ bits >> 8));
        uint8_t error = form ^ hash_bit(key->b + i * key->row, x, key->row) ^ (key->y[i / 8] >> i % 8 & 1);
        PUBLISH(error);
        if (error)
            return MQ_REFUSED_EQUATION_FAILS * 65536 + (uint32_t)i;
    }
    return MQ_ACCEPTED;
}

static uint32_t ask_solves(const struct key *key, const uint8_t *x)
{
    return 4 * key->row <= 16 * FEW_REGS ? ask_solves_by(key, x, FEW_REGS) : ask_solves_by(key, x, MOST_REGS);
}

/* ---- Folded matrices ---------------------------------------------------------------------- */

/* The panels are folded in sets of four, so that the stack is not too long. The squares of a set stand panel by panel,
 * each for all equations of a block; what is past those is 0. */
enum {
    MAX_SQUARES = 17 + 18 + 19 + 20,
    SQUARE = 2 * BLOCK_EQUATIONS /* registers */
};

/* Equations that go through the tables together. */
struct block {
    size_t from, count;
};

/* With F the squares of an equation that are folded so far: the bits of F x + F^T x, and a register whose parity is
 * x^T F x. */
struct tried {
    uint16_t line[MQ_MAX_EQUATIONS][PANELS];
    reg error[MQ_MAX_EQUATIONS];
};

/* Eight bytes, and eight others above them. */
INLINE reg load_two(const uint8_t *low, const uint8_t *high)
{
    const __m128 first = _mm_castsi128_ps(_mm_loadl_epi64((const reg *)low));
    return _mm_castps_si128(_mm_loadh_pi(first, (const __m64 *)high));
}

/* The squares of panel J that are below the diagonal, turned: up to eight at a time, so that there is room for more
 * than there are. */
enum { TURNED = (PANELS + 7) / 8 * 8 };

INLINE void turn_panel(const uint8_t *matrix, size_t row, size_t J, reg turned[TURNED][2])
{
    reg r[8];
    for (size_t first = 0; first < J; first += 8) {
        const uint8_t *at = matrix + 16 * J * row + 2 * first;
        if (J - first > 4) {
            for (size_t q = 0; q < 8; q++)
                turned[first + q][1] = _mm_setzero_si128();
            for (size_t h = 0; h < 2 && 2 * J + h < row; h++) { /* from `row` on there is no column */
                for (size_t i = 0; i < 8; i++)
                    r[i] = load(at + (8 * h + i) * row);
                turn(r);
                for (size_t q = 0; q < 8; q++)
                    turned[first + q][h] = r[q];
            }
        } else {
            for (size_t i = 0; i < 8; i++)
                r[i] = load_two(at + i * row, at + (8 + i) * row);
            turn(r);
            for (size_t q = 0; q < 4; q++) {
                turned[first + q][0] = r[q];
                turned[first + q][1] = r[q + 4];
            }
        }
    }
}

/* Eight byte columns of sixteen rows. */
INLINE void gather(const uint8_t *at, size_t row, reg out[8])
{
    reg r[8], s[8];
    for (size_t i = 0; i < 8; i++)
        r[i] = _mm_unpacklo_epi8(_mm_loadl_epi64((const reg *)(at + i * row)),
                                 _mm_loadl_epi64((const reg *)(at + (i + 8) * row)));
    INTERLEAVE(r, s, 8)
    INTERLEAVE(s, r, 8)
    INTERLEAVE(r, out, 8)
}

/* Where the squares of panel J begin in a set whose first panel is `first`. */
INLINE size_t squares_before(size_t first, size_t J)
{
    return J * (J + 1) / 2 - first * (first + 1) / 2;
}

/* Panels first .. first + count - 1 of the matrix of equation i, as the one of number `place` in its block. */
INLINE void fold_matrix(const uint8_t *matrix, size_t row, size_t first, size_t count, size_t panels, size_t i,
                        size_t place, reg *cells, const struct witness *witness, struct tried *tried)
{
    const size_t end = first + count < panels ? first + count : panels;
    reg turned[4][TURNED][2], down[16];
    for (size_t J = first; J < end; J++)
        turn_panel(matrix, row, J, turned[J - first]);
    if (tried)
        for (int k = 0; k < 16; k++)
            down[k] = _mm_setzero_si128();
    for (size_t q = 0; q < end; q++) {
        reg column[8], across = _mm_setzero_si128();
        gather(matrix + 16 * q * row + 2 * first, row, column);
        for (size_t k = 0; k < count; k++) {
            const size_t J = first + k;
            if (J < q || J >= end)
                continue;
            reg *cell = cells + (squares_before(first, J) + q) * SQUARE + 2 * place;
            reg low = column[2 * k], high = column[2 * k + 1];
            if (q < J) {
                low = xor(low, turned[k][q][0]);
                high = xor(high, turned[k][q][1]);
            }
            cell[0] = low;
            cell[1] = high;
            if (tried) {
                down[2 * k] = xor(down[2 * k], and(low, witness->row[q]));
                down[2 * k + 1] = xor(down[2 * k + 1], and(high, witness->row[q]));
                across = xor(across, xor(and(low, witness->column[2 * J]), and(high, witness->column[2 * J + 1])));
            }
        }
        if (tried)
            tried->line[i][q] ^= (uint16_t)parities(across);
    }
    if (tried) {
        const reg sums = add_up(down);
        uint16_t words[8];
        store(words, sums);
        for (size_t J = first; J < end; J++) {
            const size_t k = J - first;
            tried->line[i][J] ^= words[k];
            tried->error[i] = xor(tried->error[i], xor(and(down[2 * k], witness->column[2 * J]),
                                                       and(down[2 * k + 1], witness->column[2 * J + 1])));
        }
    }
}

INLINE void fold_set(const struct key *key, struct block block, size_t first, size_t count, reg *cells,
                     uint8_t copy[MAX_ROOM], const struct witness *witness, struct tried *tried)
{
    const size_t panels = (key->n + 15) / 16, room = 16 * panels * key->row + 48;
    for (size_t place = 0; place < block.count; place++) {
        const size_t i = block.from + place;
        fold_matrix(matrix_at(key, i, room, copy), key->row, first, count, panels, i, place, cells, witness, tried);
    }
}

/* The sets, and with or without a witness: constants, so that the loops are unrolled. Where n is at most 160 the third
 * has two panels. */
#define FOLD(name, first, count) \
    static NOINLINE void name(const struct key *key, struct block block, reg *cells, uint8_t *copy, \
                              const struct witness *witness, struct tried *tried) \
    { \
        if (tried) \
            fold_set(key, block, first, count, cells, copy, witness, tried); \
        else \
            fold_set(key, block, first, count, cells, copy, NULL, NULL); \
    }
FOLD(fold_before_4, 0, 4)
FOLD(fold_before_8, 4, 4)
FOLD(fold_before_10, 8, 2)
FOLD(fold_before_12, 8, 4)
FOLD(fold_before_16, 12, 4)
FOLD(fold_before_20, 16, 4)

/* ---- Look-ups ----------------------------------------------------------------------------- */

/* For each half of the equations, and each plane of each repetition: the numbers that its bits of five equations
 * make, times 4, as bytes. */
struct picks {
    uint64_t eight[2][MQ_MAX_REPETITIONS][DEGREE][FIVES / 16];
};

/* Eight fives of bits, each in a byte, times 4. */
INLINE uint64_t spread_fives(uint64_t x)
{
    x = (x & 0xFFFFF) | (x & UINT64_C(0xFFFFF00000)) << 12;
    x = (x & UINT64_C(0x000003FF000003FF)) | (x & UINT64_C(0x000FFC00000FFC00)) << 6;
    x = (x & UINT64_C(0x001F001F001F001F)) | (x & UINT64_C(0x03E003E003E003E0)) << 3;
    return x << 2;
}

/* Elements, each moved to the top of its byte. */
INLINE reg to_the_top(reg elements)
{
    return DEGREE == 8 ? elements : _mm_slli_epi16(elements, 8 - DEGREE);
}

/* Bits of equations past the block may be set: there is nothing there to choose. */
static void make_picks(const struct key *key, struct block block, const uint8_t *batching, struct picks *picks)
{
    const uint8_t *end = batching + key->tau * key->m;
    batching += block.from;
    for (size_t e = 0; e < key->tau; e++, batching += key->m) {
        uint8_t bits[DEGREE][24] = { { 0 } };
        for (size_t i = 0; i < block.count; i += 16) {
            uint8_t copy[16] = { 0 };
            reg r;
            if ((size_t)(end - batching) < i + 16) {
                memcpy(copy, batching + i, (size_t)(end - batching) - i);
                r = load(copy);
            } else
                r = load(batching + i);
            r = to_the_top(r);
            for (int p = DEGREE - 1; p >= 0; p--) {
                const uint16_t word = (uint16_t)_mm_movemask_epi8(r);
                memcpy(bits[p] + i / 8, &word, 2);
                r = _mm_add_epi8(r, r);
            }
        }
        for (int p = 0; p < DEGREE; p++)
            for (size_t k = 0; k < FIVES / 8; k++) {
                uint64_t word;
                memcpy(&word, bits[p] + 5 * k, 8);
                picks->eight[k / 2][e][p][k % 2] = spread_fives(word);
            }
    }
}

/* The 32 sums of five equations, of two registers each. */
INLINE void fill_five(const reg *cell, reg *sums)
{
    for (int h = 0; h < 2; h++) {
        const reg a = cell[h], b = cell[2 + h], ab = xor(a, b);
        reg high[8];
        high[0] = _mm_setzero_si128();
        for (int s = 0; s < 3; s++)
            for (int v = 0; v < 1 << s; v++)
                high[v + (1 << s)] = xor(high[v], cell[4 + 2 * s + h]);
        for (int v = 0; v < 8; v++) {
            sums[8 * v + h] = high[v];
            sums[8 * v + 2 + h] = xor(high[v], a);
            sums[8 * v + 4 + h] = xor(high[v], b);
            sums[8 * v + 6 + h] = xor(high[v], ab);
        }
    }
}

/* A table that is filled on the way: so many fives, spread over so many turns. */
struct filling {
    const reg *cell;
    reg *sums;
    size_t fives, turns, due;
};

INLINE void fill_some(struct filling *f)
{
    for (f->due += f->fives; f->due >= f->turns; f->due -= f->turns) {
        fill_five(f->cell, f->sums);
        f->cell += 10;
        f->sums += 64;
    }
}

/* The compiler is to take these values as they are here: not to work them out another way, nor to add in another
 * order. No instruction comes of it. */
#define KEEP(x) __asm__("" : "+r"(x))
#define KEEP_SUMS(a, b) __asm__("" : "+x"(a), "+x"(b))

/* Adds to two planes of a batched square what is picked. */
INLINE void look_up_two(const reg *sums, const uint64_t *one, const uint64_t *other, size_t fives, reg s[4])
{
    const uint8_t *at = (const uint8_t *)sums;
    uint64_t w, z;
#define ADD(j, k, byte) \
    do { \
        const reg *x = (const reg *)(at + 1024 * (j) + 8 * (size_t)(uint8_t)(byte)); \
        s[k] = xor(s[k], x[0]); \
        s[k + 1] = xor(s[k + 1], x[1]); \
        KEEP_SUMS(s[k], s[k + 1]); \
    } while (0)
#define PICK_TWO(j) \
    do { \
        ADD(j, 0, w); \
        ADD(j, 2, z); \
        ADD(j + 1, 0, w >> 8); \
        ADD(j + 1, 2, z >> 8); \
        w >>= 16; \
        z >>= 16; \
        KEEP(w); \
        KEEP(z); \
    } while (0)
    for (; fives >= 8; fives -= 8, at += 8192) {
        w = *one++;
        z = *other++;
        PICK_TWO(0);
        PICK_TWO(2);
        PICK_TWO(4);
        PICK_TWO(6);
        KEEP(at);
    }
    if (fives) {
        w = *one;
        z = *other;
        for (; fives >= 2; fives -= 2, at += 2048)
            PICK_TWO(0);
        if (fives) {
            ADD(0, 0, w);
            ADD(0, 2, z);
        }
    }
#undef PICK_TWO
#undef ADD
}

/* ---- Batched forms ------------------------------------------------------------------------ */

/* A line has n bits, and a last bit past all panels, in two registers, or where these have no room for it in three. Two
 * go through the tables together. */
enum { LINE_REGS = 4 };

INLINE size_t line_regs(const struct key *key)
{
    return key->n <= 240 ? 2 : 3;
}

struct batch {
    _Alignas(64) reg cells[MAX_SQUARES * SQUARE];
    reg sums[2][FIVES / 2 * 32 * 2];         /* the two tables */
    reg planes[MQ_MAX_REPETITIONS][2 * DEGREE]; /* of a square: two planes after the other, as they are looked up */
    reg stacks[MQ_MAX_REPETITIONS][STACK][2];
    reg columns[MQ_MAX_REPETITIONS][PANELS]; /* of v^T B: a word for each plane */
    reg vectors[MQ_MAX_REPETITIONS][PANELS]; /* v, 0 from n on */
    reg lines[MQ_MAX_REPETITIONS][LINE_REGS][DEGREE]; /* the batched lines, so far */
    struct picks picks;
};

/* The fives of equations for the first table, and for the second: as many as there are up to 80, and the rest. */
INLINE size_t first_half(struct block block)
{
    return (block.count + 4) / 5 < FIVES / 2 ? (block.count + 4) / 5 : FIVES / 2;
}

INLINE size_t second_half(struct block block)
{
    return (block.count + 4) / 5 - first_half(block);
}

/* The planes of a square of the batched matrix, so far as the first half of the equations makes them. */
static void sum_first(size_t tau, size_t fives, struct filling filling, struct batch *batch)
{
    for (size_t e = 0; e < tau; e++) {
        for (int p = 0; p < DEGREE; p += 2) {
            reg s[4];
            for (int i = 0; i < 4; i++)
                s[i] = _mm_setzero_si128();
            look_up_two(batch->sums[0], batch->picks.eight[0][e][p], batch->picks.eight[0][e][p + 1], fives, s);
            for (int i = 0; i < 4; i++)
                batch->planes[e][2 * p + i] = s[i];
        }
        fill_some(&filling);
    }
}

/* Adds a square of the batched matrix, times v at its rows, to the stacks. */
static void absorb_square(size_t tau, size_t fives, size_t q, struct filling filling, struct batch *batch)
{
    for (size_t e = 0; e < tau; e++) {
        reg mask[DEGREE], v = to_the_top(batch->vectors[e][q]);
        for (int b = DEGREE - 1; b >= 0; b--) {
            mask[b] = _mm_cmpgt_epi8(_mm_setzero_si128(), v);
            v = _mm_add_epi8(v, v);
        }
        for (int p = 0; p < DEGREE; p += 2) {
            reg s[4], (*stack)[2] = batch->stacks[e] + p;
            for (int i = 0; i < 4; i++)
                s[i] = batch->planes[e][2 * p + i];
            look_up_two(batch->sums[1], batch->picks.eight[1][e][p], batch->picks.eight[1][e][p + 1], fives, s);
            for (int h = 0; h < 2; h++) {
                stack[0][h] = xor(stack[0][h], and(s[h], mask[0]));
                for (int b = 1; b < DEGREE; b++)
                    stack[b][h] = xor(stack[b][h], xor(and(s[h], mask[b]), and(s[h + 2], mask[b - 1])));
                stack[DEGREE][h] = xor(stack[DEGREE][h], and(s[h + 2], mask[DEGREE - 1]));
            }
        }
        fill_some(&filling);
    }
}

/* The rows of the stacks added up, and reduced: panel J of v^T B. The stacks are 0 then. */
static void finish_panel(size_t tau, size_t J, struct batch *batch)
{
    for (size_t e = 0; e < tau; e++) {
        const reg *stack = (const reg *)batch->stacks[e];
        reg rest[16], reduced;
        for (int i = 0; i < 14; i++)
            rest[i] = stack[2 * STACK - 14 + i];
        rest[14] = rest[15] = _mm_setzero_si128();
#if DEGREE == 8
        reduced = reduce_words(add_up(stack), add_up(rest));
#else
        reduced = reduce_words(add_up(rest));
#endif
        batch->columns[e][J] = xor(batch->columns[e][J], reduced);
    }
    memset(batch->stacks, 0, tau * sizeof batch->stacks[0]);
}

static void add_panels(const struct key *key, struct block block, size_t first, size_t end, struct batch *batch)
{
    const size_t half = first_half(block), tau = key->tau;
    const reg *cell = batch->cells;
    for (size_t g = 0; g < half; g++)
        fill_five(cell + 10 * g, batch->sums[0] + 64 * g);
    for (size_t J = first; J < end && 16 * J < key->n; J++) {
        for (size_t q = 0; q <= J; q++, cell += SQUARE) {
            const size_t more = q < J || (J + 1 < end && 16 * (J + 1) < key->n) ? half : 0;
            const struct filling second = { cell + 10 * half, batch->sums[1], second_half(block), tau, 0 };
            const struct filling next = { cell + SQUARE, batch->sums[0], more, tau, 0 };
            sum_first(tau, half, second, batch);
            absorb_square(tau, second_half(block), q, next, batch);
        }
        finish_panel(tau, J, batch);
    }
}

/* Two registers of the lines of a block, from the one of number `from` on, where the squares stood: b, what was tried
 * added to it, and `last`, a bit for each. */
static void put_lines(const struct key *key, struct block block, size_t from, const struct tried *tried,
                      const uint8_t *last, reg *cells)
{
    for (size_t place = 0; place < block.count; place++) {
        const size_t i = block.from + place;
        uint8_t bytes[16 * LINE_REGS] = { 0 };
        memcpy(bytes, key->b + i * key->row, key->row);
        if (last)
            bytes[16 * line_regs(key) - 1] = (uint8_t)((last[i / 8] >> i % 8 & 1) << 7);
        cells[2 * place] = load(bytes + 16 * from);
        cells[2 * place + 1] = load(bytes + 16 * from + 16);
        if (tried) {
            memset(bytes, 0, sizeof bytes);
            memcpy(bytes, tried->line[i], sizeof tried->line[i]);
            cells[2 * place] = xor(cells[2 * place], load(bytes + 16 * from));
            cells[2 * place + 1] = xor(cells[2 * place + 1], load(bytes + 16 * from + 16));
        }
    }
}

/* Adds two registers of the lines of a block, batched. */
static void add_lines(const struct key *key, struct block block, size_t from, struct batch *batch)
{
    const size_t half = first_half(block), rest = second_half(block);
    const struct filling second = { batch->cells + 10 * half, batch->sums[1], rest, key->tau, 0 };
    for (size_t g = 0; g < half; g++)
        fill_five(batch->cells + 10 * g, batch->sums[0] + 64 * g);
    sum_first(key->tau, half, second, batch);
    for (size_t e = 0; e < key->tau; e++)
        for (int p = 0; p < DEGREE; p += 2) {
            reg s[4], (*line)[DEGREE] = batch->lines[e] + from;
            for (int i = 0; i < 4; i++)
                s[i] = batch->planes[e][2 * p + i];
            look_up_two(batch->sums[1], batch->picks.eight[1][e][p], batch->picks.eight[1][e][p + 1], rest, s);
            for (int h = 0; h < 2; h++) {
                line[h][p] = xor(line[h][p], s[h]);
                line[h][p + 1] = xor(line[h][p + 1], s[h + 2]);
            }
        }
}

/* The products with v: of v^T B, and of the batched lines, whose last bit is taken times last[e]. */
static void finish_forms(const struct key *key, const struct work *work, const uint8_t *last, struct batch *batch,
                         uint8_t *square, uint8_t *line)
{
    const size_t regs = line_regs(key);
    uint8_t valid[16 * LINE_REGS] = { 0 };
    for (size_t c = 0; c < key->n; c++)
        valid[c / 8] |= (uint8_t)(1 << c % 8);
    for (size_t e = 0; e < key->tau; e++) {
        reg v[DEGREE], w[8], factor[PRODUCTS], acc0[PRODUCTS], acc1[PRODUCTS], both[16];
        for (int i = 0; i < 16; i++)
            both[i] = _mm_setzero_si128();
        for (int i = 0; i < PRODUCTS; i++)
            acc0[i] = acc1[i] = _mm_setzero_si128();
        for (size_t h = 0; h < regs; h++) {
            reg words[8];
            for (int p = 0; p < DEGREE; p++) {
                const reg one = _mm_cvtsi32_si128(h + 1 == regs ? (last[e] >> p & 1) << 15 : 0);
                v[p] = and(load(work->sums[e].plane[p] + 16 * h), load(valid + 16 * h));
                v[p] = xor(v[p], _mm_slli_si128(one, 14));
            }
            for (size_t J = 0; J < 8; J++)
                words[J] = 8 * h + J < PANELS ? batch->columns[e][8 * h + J] : _mm_setzero_si128();
            transpose_words(words, w);
            karatsuba_sums(v, factor);
            add_products(acc0, factor, w);
            add_products(acc1, factor, batch->lines[e][h]);
        }
        finish(acc0, both);
        finish(acc1, both + 8);
        const unsigned bits = parities(add_up(both));
        square[e] = (uint8_t)bits;
        line[e] = (uint8_t)(bits >> 8);
    }
}

/* The sum of alpha^s v[n + re + s], r being the degree: bits n + re .. n + re + r - 1 of plane p are an element, taken
 * times alpha^p. */
static uint8_t mask_of_v(const struct key *key, const struct sums *sums, size_t e)
{
    unsigned sum = 0;
    for (int p = DEGREE - 1; p >= 0; p--)
        sum = (sum << 1) ^ (-(sum >> (DEGREE - 1)) & FIELD_MODULUS) ^ mask_of_u(key, sums->plane[p], e);
    return (uint8_t)sum;
}

/* What is past n is 0: so it does not matter what the squares have there. */
static void make_vectors(const struct key *key, const struct work *work, struct batch *batch)
{
    reg valid[TURNED];
    for (size_t r = 0; r < sizeof valid; r++)
        ((uint8_t *)valid)[r] = r < key->n ? 0xFF : 0;
    for (size_t e = 0; e < key->tau; e++)
        for (size_t h = 0; 128 * h < key->n; h++) {
            reg r[8];
            turn_planes(&work->sums[e], 16 * h, r);
            for (size_t i = 0; i < 8 && 8 * h + i < PANELS; i++)
                batch->vectors[e][8 * h + i] = and(r[i], valid[8 * h + i]);
        }
}

/* Adds what a block of equations has of v^T B and of the batched lines. */
static void add_block_forms(const struct key *key, struct block block, const uint8_t *batching,
                            const struct witness *witness, struct tried *tried, struct batch *batch)
{
    /* Between two sets the tables are free. What is past a copied matrix meets vectors and a witness that are 0. */
    uint8_t *copy = (uint8_t *)batch->sums;
    const size_t panels = (key->n + 15) / 16, last = (panels - 1) / 4 * 4;
    const size_t squares = squares_before(last, panels), before = last ? squares_before(last - 4, last) : 0;
    memset(copy, 0, MAX_ROOM);
    for (size_t k = 0; k < (squares < before ? before : squares); k++) /* up to four equations past the block */
        for (size_t i = 2 * block.count; i < 2 * block.count + 8 && i < SQUARE; i++)
            batch->cells[k * SQUARE + i] = _mm_setzero_si128();
    make_picks(key, block, batching, &batch->picks);
    fold_before_4(key, block, batch->cells, copy, witness, tried);
    add_panels(key, block, 0, 4, batch);
    if (key->n > 64) {
        fold_before_8(key, block, batch->cells, copy, witness, tried);
        add_panels(key, block, 4, 8, batch);
    }
    if (key->n > 128) {
        (key->n > 160 ? fold_before_12 : fold_before_10)(key, block, batch->cells, copy, witness, tried);
        add_panels(key, block, 8, 12, batch);
    }
    if (key->n > 192) {
        fold_before_16(key, block, batch->cells, copy, witness, tried);
        add_panels(key, block, 12, 16, batch);
    }
    if (key->n > 256) {
        fold_before_20(key, block, batch->cells, copy, witness, tried);
        add_panels(key, block, 16, 20, batch);
    }
    for (size_t from = 0; from < line_regs(key); from += 2) {
        put_lines(key, block, from, tried, tried ? NULL : key->y, batch->cells);
        add_lines(key, block, from, batch);
    }
}

/* For each repetition the batched v^T A v with the mask, and the batched lines times v; last[e] is what y is taken
 * times. With a witness, which is then tried too, the lines are those of the polar form. */
static NOINLINE void batch_forms(const struct key *key, const struct work *work, const uint8_t *batching,
                                 const struct witness *witness, const uint8_t *last, struct tried *tried,
                                 uint8_t *square, uint8_t *line)
{
    struct batch batch;
    memset(batch.stacks, 0, sizeof batch.stacks);
    memset(batch.columns, 0, sizeof batch.columns);
    memset(batch.lines, 0, sizeof batch.lines);
    make_vectors(key, work, &batch);
    for (size_t from = 0; from < key->m; from += BLOCK_EQUATIONS) {
        const size_t left = key->m - from;
        const struct block block = { from, left < BLOCK_EQUATIONS ? left : BLOCK_EQUATIONS };
        add_block_forms(key, block, batching, witness, tried, &batch);
    }
    finish_forms(key, work, last, &batch, square, line);
    for (size_t e = 0; e < key->tau; e++)
        square[e] ^= mask_of_v(key, &work->sums[e], e);
}

/* QS0 and QS1 of all repetitions, and question 11. */
static uint32_t make_batch(const struct key *key, const struct work *work, const uint8_t *x, const uint8_t *batching,
                           struct batched *made)
{
    const uint8_t none[MQ_MAX_REPETITIONS] = { 0 };
    struct witness witness;
    struct tried tried;
    memset(&tried, 0, sizeof tried);
    make_witness(x, key->row, &witness);
    batch_forms(key, work, batching, &witness, none, &tried, made->qs0, made->qs1);
    for (size_t i = 0; i < key->m; i++) {
        const unsigned bits = parities(tried.error[i]);
        const uint8_t form = parity((uint8_t)(bits ^ bits >> 8));
        uint8_t error = form ^ hash_bit(key->b + i * key->row, x, key->row) ^ (key->y[i / 8] >> i % 8 & 1);
        PUBLISH(error);
        if (error)
            return MQ_REFUSED_EQUATION_FAILS * 65536 + (uint32_t)i;
    }
    for (size_t e = 0; e < key->tau; e++)
        made->qs1[e] ^= mask_of_u(key, work->sums[0].u, e);
    return MQ_ACCEPTED;
}

/* ---- The verifier, once the form is known ------------------------------------------------- */

/* K = v + delta (u + C + d), with the leaf at delta taken for 0; past the first n coordinates it is W. */
static void sum_opened(const struct key *key, const struct claim *in, const struct proof *proof, size_t e,
                       struct sums *sums)
{
    const uint8_t delta = in->delta.at[e];
    uint8_t c[STRIDE] = { 0 };
    sum_leaves(in->opened.at + e * (FIELD_SIZE - 1) * key->w, key->w, delta, sums);
    if (e > 0)
        memcpy(c, proof->c + (e - 1) * key->w, key->w);
    for (size_t b = 0; b < key->row; b++)
        c[b] ^= proof->d[b];
    for (size_t b = 0; b < key->w; b += 16) {
        const reg u = xor(load(sums->u + b), load(c + b));
        for (int p = 0; p < DEGREE; p++)
            store(sums->plane[p] + b, xor(load(sums->plane[p] + b), and(u, _mm_set1_epi8((char)-(delta >> p & 1)))));
    }
}

/* Question 14. H K is compared with V~ + delta (u~ + H' d). */
static NOINLINE uint32_t check_hashes(const struct key *key, const struct claim *in, const struct proof *proof,
                                      const struct work *work)
{
    uint8_t hashed[MQ_MAX_REPETITIONS * MQ_MAX_HASH_ROWS], u[MQ_MAX_HASH_ROWS];
    const uint8_t *h = in->hash_matrix.at;
    for (size_t r = 0; r < key->t; r++, h += key->hash_row)
        u[r] = (uint8_t)-((proof->u[r / 8] >> r % 8 & 1) ^ hash_bit(h, proof->d, key->row));
    hash_all(key, work, in->hash_matrix.at, hashed);
    for (size_t e = 0; e < key->tau; e++) {
        const uint8_t *seen = hashed + e * key->t, *sent = proof->v + e * key->t, delta = in->delta.at[e];
        uint8_t differs = 0;
        for (size_t r = 0; r < key->t; r++)
            differs |= seen[r] ^ sent[r] ^ (delta & u[r]);
        if (differs)
            return MQ_REFUSED_INCONSISTENT * 65536 + (uint32_t)e;
    }
    return MQ_ACCEPTED;
}

/* Question 15. */
static uint32_t check_products(const struct key *key, const struct claim *in, const struct proof *proof,
                               const struct work *work)
{
    uint8_t square[MQ_MAX_REPETITIONS], line[MQ_MAX_REPETITIONS];
    batch_forms(key, work, in->batching.at, NULL, in->delta.at, NULL, square, line);
    for (size_t e = 0; e < key->tau; e++)
        if ((square[e] ^ multiply(in->delta.at[e], line[e] ^ proof->qs1[e])) != proof->qs0[e])
            return MQ_REFUSED_PRODUCT_DIFFERS * 65536 + (uint32_t)e;
    return MQ_ACCEPTED;
}

static NOINLINE uint32_t check_proof(const struct key *key, const struct claim *in, const struct proof *proof,
                                     struct work *work)
{
    uint32_t word;
    for (size_t e = 0; e < key->tau; e++)
        sum_opened(key, in, proof, e, &work->sums[e]);
    word = check_hashes(key, in, proof, work);
    return word ? word : check_products(key, in, proof, work);
}

#include "calls.h"
