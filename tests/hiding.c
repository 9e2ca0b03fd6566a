/*
 * Request 8 by counting: at tiny sizes every choice of hidden leaves with spare bits 0 is tried, with every solution,
 * and exactly one must yield the view of the first solution's proof. The theorem is in crates/hiding; this program
 * knows nothing of its proof.
 *
 *     hiding              each repetition has its own mask, as the protocol says
 *     hiding shared       one mask for all repetitions, as before request 4: no choice is left for other solutions
 *     hiding exchanged    the two masks exchanged, but the view as the protocol says: no choice is left
 *     hiding library      the proofs are mq_prove's, at degree 4, with one variable
 *
 * It exits with 0 where exactly one choice was left each time. tests/hiding.sh says which of these must fail.
 * The key has two variables and one equation, x_0 x_1 = 0, with the solutions 10, 00 and 01. There are two repetitions
 * and one hash row. Over GF(4) every challenge is taken, over GF(16) those of `challenges`.
 */
#include <stdint.h>
#include <stdio.h>
#include <string.h>

#ifdef LIBRARY
#include "solfadrus.h"
#endif

enum { N = 2, TAU = 2, MOST_L = 16, MOST_LEAVES = 16 };
enum masks { OWN, SHARED, EXCHANGED };
enum { SECTIONS = 1 + 1 + 1 + TAU + TAU + TAU };

static const unsigned solutions[] = { 0x1, 0x0, 0x2 };
enum { SOLUTIONS = sizeof solutions / sizeof solutions[0] };
static const unsigned challenges[][TAU] = { { 5, 11 }, { 0, 0 }, { 0, 7 } };
enum { CHALLENGES = sizeof challenges / sizeof challenges[0] };

struct field {
    unsigned degree, modulus;
};

/* What is lent beside the witness; a leaf and the row of H' are numbers whose bit c is coordinate c. */
struct lent {
    struct field field;
    enum masks masks;
    unsigned leaves[TAU][MOST_LEAVES], hash_row, batching[TAU];
};

/* The sums over the leaves, the hidden ones left out. */
struct sums {
    unsigned u[TAU], v[TAU][MOST_L];
};

static unsigned product(struct field f, unsigned a, unsigned b)
{
    unsigned sum = 0;
    for (; b; b >>= 1) {
        if (b & 1)
            sum ^= a;
        a <<= 1;
        if (a >> f.degree)
            a ^= f.modulus;
    }
    return sum;
}

static unsigned size_of(struct field f)
{
    return 1u << f.degree;
}

/* k, the coordinates before those of the identity. */
static unsigned hashed(const struct lent *lent)
{
    return N + lent->field.degree * (lent->masks == SHARED ? 1 : TAU);
}

static unsigned leaf_length(const struct lent *lent)
{
    return hashed(lent) + 1;
}

static unsigned mask_start(const struct lent *lent, unsigned e)
{
    unsigned place = lent->masks == SHARED ? 0 : lent->masks == EXCHANGED ? TAU - 1 - e : e;
    return N + lent->field.degree * place;
}

static unsigned coordinate(unsigned string, unsigned c)
{
    return string >> c & 1;
}

static struct sums sums_without(const struct lent *lent, const unsigned *delta)
{
    struct sums sums;
    memset(&sums, 0, sizeof sums);
    for (unsigned e = 0; e < TAU; e++)
        for (unsigned j = 0; j < size_of(lent->field); j++) {
            if (j == delta[e])
                continue;
            sums.u[e] ^= lent->leaves[e][j];
            for (unsigned c = 0; c < leaf_length(lent); c++)
                sums.v[e][c] ^= coordinate(lent->leaves[e][j], c) ? j : 0;
        }
    return sums;
}

/* Whether the proof with these hidden leaves and x is `proof`; where that is NULL, it is written to `out`. Section by
 * section, so that most choices differ early. */
static int proves(const struct lent *lent, const struct sums *sums, const unsigned *delta, const unsigned *hidden,
                  unsigned x, const unsigned *proof, unsigned *out)
{
    unsigned k = hashed(lent), u = sums->u[0] ^ hidden[0], v[TAU][MOST_L], at = 0;
#define GIVES(value) \
    do { \
        unsigned gives = (value); \
        if (out) \
            out[at] = gives; \
        else if (proof[at] != gives) \
            return 0; \
        at++; \
    } while (0)
    GIVES(sums->u[1] ^ hidden[1] ^ u);
    GIVES((x ^ u) & ((1u << N) - 1));
    unsigned sum = coordinate(u, k);
    for (unsigned c = 0; c < k; c++)
        sum ^= coordinate(lent->hash_row, c) & coordinate(u, c);
    GIVES(sum);
    for (unsigned e = 0; e < TAU; e++) {
        for (unsigned c = 0; c <= k; c++)
            v[e][c] = sums->v[e][c] ^ (coordinate(hidden[e], c) ? delta[e] : 0);
        sum = v[e][k];
        for (unsigned c = 0; c < k; c++)
            sum ^= coordinate(lent->hash_row, c) ? v[e][c] : 0;
        GIVES(sum);
    }
    for (unsigned e = 0; e < TAU; e++) {
        sum = product(lent->field, lent->batching[e], product(lent->field, v[e][0], v[e][1]));
        for (unsigned s = 0; s < lent->field.degree; s++)
            sum ^= product(lent->field, 1u << s, v[e][mask_start(lent, e) + s]);
        GIVES(sum);
    }
    for (unsigned e = 0; e < TAU; e++) {
        unsigned middle = (coordinate(x, 1) ? v[e][0] : 0) ^ (coordinate(x, 0) ? v[e][1] : 0);
        sum = product(lent->field, lent->batching[e], middle);
        for (unsigned s = 0; s < lent->field.degree; s++)
            sum ^= coordinate(u, mask_start(lent, e) + s) ? 1u << s : 0;
        GIVES(sum);
    }
#undef GIVES
    return 1;
}

/* splitmix64 */
static uint64_t draw(uint64_t *state)
{
    uint64_t z = *state += UINT64_C(0x9E3779B97F4A7C15);
    z = (z ^ z >> 30) * UINT64_C(0xBF58476D1CE4E5B9);
    z = (z ^ z >> 27) * UINT64_C(0x94D049BB133111EB);
    return z ^ z >> 31;
}

static struct lent draw_lent(struct field field, enum masks masks, uint64_t seed)
{
    struct lent lent;
    memset(&lent, 0, sizeof lent);
    lent.field = field;
    lent.masks = masks;
    for (unsigned e = 0; e < TAU; e++) {
        for (unsigned j = 0; j < size_of(field); j++)
            lent.leaves[e][j] = (unsigned)draw(&seed) & ((1u << leaf_length(&lent)) - 1);
        lent.batching[e] = 1 + (unsigned)(draw(&seed) % (size_of(field) - 1));
    }
    lent.hash_row = (unsigned)draw(&seed) & ((1u << hashed(&lent)) - 1);
    return lent;
}

/* How many choices of hidden leaves yield with x the proof of the first solution. */
static unsigned long choices(const struct lent *lent, const unsigned *delta, unsigned x)
{
    struct lent honest = *lent;
    if (honest.masks == EXCHANGED)
        honest.masks = OWN;
    struct sums sums = sums_without(lent, delta);
    unsigned own[TAU] = { lent->leaves[0][delta[0]], lent->leaves[1][delta[1]] }, proof[SECTIONS], hidden[TAU];
    proves(&honest, &sums, delta, own, solutions[0], NULL, proof);
    unsigned long found = 0;
    for (hidden[0] = 0; hidden[0] < 1u << leaf_length(lent); hidden[0]++)
        for (hidden[1] = 0; hidden[1] < 1u << leaf_length(lent); hidden[1]++)
            found += proves(lent, &sums, delta, hidden, x, proof, NULL);
    return found;
}

/* Counts for every solution at one challenge; whether each count is 1. */
static int one_each(const struct lent *lent, const unsigned *delta, int say)
{
    int one = 1;
    if (say)
        printf("GF(%u), challenge %u %u:", size_of(lent->field), delta[0], delta[1]);
    for (unsigned i = 0; i < SOLUTIONS; i++) {
        unsigned long found = choices(lent, delta, solutions[i]);
        one &= found == 1;
        if (say)
            printf(" %lu", found);
    }
    if (say)
        puts(one ? "" : ", which is not one for each");
    return one;
}

static const struct field gf4 = { 2, 0x7 }, gf16 = { 4, 0x13 };

static int counted(enum masks masks)
{
    int one = 1;
    struct lent small = draw_lent(gf4, masks, 1), large = draw_lent(gf16, masks, 1);
    for (unsigned a = 0; a < size_of(gf4); a++)
        for (unsigned b = 0; b < size_of(gf4); b++)
            one &= one_each(&small, (const unsigned[]){ a, b }, a == 0 && b <= 1);
    for (unsigned i = 0; i < CHALLENGES; i++)
        one &= one_each(&large, challenges[i], 1);
    return one;
}

#ifdef LIBRARY
/* One variable, so that the choices are a million, and the equation x_0 x_0 + x_0 = 0, which both witnesses solve. */
enum { DEGREE = 4, LEAVES = 16, VARIABLES = 1 };
enum { LEAF_BITS = MQ_LEAF_BITS(VARIABLES, 1, TAU, 1, DEGREE) };
enum { ROW_BITS = MQ_HASH_ROW_BITS(VARIABLES, 1, TAU, 1, DEGREE) };

static void put(uint8_t *at, unsigned string, unsigned bits)
{
    string &= (1u << bits) - 1;
    at[0] = (uint8_t)string;
    at[1] = (uint8_t)(string >> 8);
}

/* The same of mq_prove: the proof with the witness 0, the choices with 1. */
static int counted_by_library(void)
{
    static const uint8_t key[] = { VARIABLES, 0, 1, 0, TAU, 0, 1, 0, 1, 0, 0, 0, 1, 1, 0, 0, 0, 1, 1, 0, 0, 0, 0 };
    static const uint8_t zero = 0, one = 1;
    struct lent lent = draw_lent(gf16, OWN, 1);
    uint8_t leaves[MQ_LEAVES_SIZE(VARIABLES, 1, TAU, 1, DEGREE)];
    uint8_t row[MQ_HASH_MATRIX_SIZE(VARIABLES, 1, TAU, 1, DEGREE)];
    uint8_t proof[MQ_PROOF_SIZE(VARIABLES, 1, TAU, 1, DEGREE)], out[sizeof proof];
    uint8_t batching[] = { (uint8_t)lent.batching[0], (uint8_t)lent.batching[1] };
    int ones = 1;
    for (unsigned e = 0; e < TAU; e++)
        for (unsigned j = 0; j < LEAVES; j++)
            put(leaves + (e * LEAVES + j) * 2, lent.leaves[e][j], LEAF_BITS);
    put(row, lent.hash_row, ROW_BITS);
    if (mq_prove(key, sizeof key, DEGREE, leaves, sizeof leaves, &zero, 1, row, sizeof row, batching, sizeof batching,
                 proof, sizeof proof))
        return 0;
    for (unsigned i = 0; i < 2; i++) {
        const unsigned *delta = challenges[i];
        uint8_t *hidden[] = { leaves + delta[0] * 2, leaves + (LEAVES + delta[1]) * 2 };
        unsigned long found = 0;
        for (unsigned a = 0; a < 1u << LEAF_BITS; a++) {
            put(hidden[0], a, LEAF_BITS);
            for (unsigned b = 0; b < 1u << LEAF_BITS; b++) {
                put(hidden[1], b, LEAF_BITS);
                if (mq_prove(key, sizeof key, DEGREE, leaves, sizeof leaves, &one, 1, row, sizeof row, batching,
                             sizeof batching, out, sizeof out))
                    return 0;
                found += !memcmp(out, proof, sizeof out);
            }
        }
        printf("mq_prove, GF(16), challenge %u %u: %lu\n", delta[0], delta[1], found);
        ones &= found == 1;
        for (unsigned e = 0; e < TAU; e++)
            put(hidden[e], lent.leaves[e][delta[e]], LEAF_BITS);
    }
    return ones;
}
#endif

int main(int argc, char **argv)
{
    const char *word = argc > 1 ? argv[1] : "";
#ifdef LIBRARY
    if (!strcmp(word, "library"))
        return !counted_by_library();
#endif
    return !counted(!strcmp(word, "shared") ? SHARED : !strcmp(word, "exchanged") ? EXCHANGED : OWN);
}
