/*
 * The size macros of the header equal the size functions of the library, on a grid of sizes that
 * has each limit and each multiple of 8 with its neighbours, at both degrees; out of range, and at
 * another degree, the functions answer 0, and at that every call answers 16 first of all.
 * Also: the macros are constant expressions, the words come apart, and the versions agree.
 * With a word, says how long the longest strings are, as the header does (tests/sizes.sh).
 */
#include <stdint.h>
#include <stdio.h>

#include "solfadrus.h"

typedef size_t (*size_function)(size_t, size_t, size_t, size_t, uint32_t);

/* One length: its name, the library's function, and the macro, made a function. */
struct length {
    const char *name;
    size_function function, macro;
};

#define MACRO(name) \
    static size_t macro_##name(size_t n, size_t m, size_t tau, size_t t, uint32_t degree) \
    { \
        (void)n, (void)m, (void)tau, (void)t, (void)degree; \
        return MQ_##name##_SIZE(n, m, tau, t, degree); \
    }
MACRO(KEY)
MACRO(WITNESS)
MACRO(LEAVES)
MACRO(OPENED)
MACRO(HASH_MATRIX)
MACRO(BATCHING)
MACRO(DELTA)
MACRO(COMMIT)
MACRO(HASH)
MACRO(BATCH)
MACRO(PROOF)

static const struct length lengths[] = {
    { "key", mq_key_size, macro_KEY },
    { "witness", mq_witness_size, macro_WITNESS },
    { "leaves", mq_leaves_size, macro_LEAVES },
    { "opened", mq_opened_size, macro_OPENED },
    { "hash_matrix", mq_hash_matrix_size, macro_HASH_MATRIX },
    { "batching", mq_batching_size, macro_BATCHING },
    { "delta", mq_delta_size, macro_DELTA },
    { "commit", mq_commit_size, macro_COMMIT },
    { "hash", mq_hash_size, macro_HASH },
    { "batch", mq_batch_size, macro_BATCH },
    { "proof", mq_proof_size, macro_PROOF },
};
enum { LENGTHS = sizeof lengths / sizeof lengths[0] };

/* The toy of the scope paper: its key has 24 bytes and its proof 29. These lines compile only
 * where the macros are constant expressions, for the compiler and for the preprocessor. */
typedef char toy_key_has_24_bytes[MQ_KEY_SIZE(2, 1, 1, 1, 8) == 24 ? 1 : -1];
/* With no equations, m = 0, the key has its header and three counts, and batching no bytes. */
typedef char no_equations_20_bytes[MQ_KEY_SIZE(2, 0, 1, 1, 8) == 20 && MQ_BATCHING_SIZE(2, 0, 1, 1, 8) == 0 ? 1 : -1];
typedef char toy_proof_has_29_bytes[MQ_PROOF_SIZE(2, 1, 1, 1, 8) == 29 ? 1 : -1];
/* Each repetition has as many mask coordinates of its own as the degree says. */
typedef char row_has_704_bits[MQ_HASH_ROW_BITS(320, 320, 48, 288, 8) == 704 ? 1 : -1];
typedef char row_has_512_bits[MQ_HASH_ROW_BITS(320, 320, 48, 288, 4) == 512 ? 1 : -1];
typedef char leaf_has_124_bytes[MQ_LEAF_SIZE(320, 320, 48, 288, 8) == 124 ? 1 : -1];
typedef char leaf_has_100_bytes[MQ_LEAF_SIZE(320, 320, 48, 288, 4) == 100 ? 1 : -1];
#if MQ_LEAVES_SIZE(2, 1, 1, 1, 8) != 512 || MQ_OPENED_SIZE(2, 1, 1, 1, 8) != 510
#error "the leaves of the toy have 256 strings of 2 bytes"
#endif
#if MQ_LEAVES_SIZE(2, 1, 1, 1, 4) != 16 || MQ_OPENED_SIZE(2, 1, 1, 1, 4) != 15
#error "at degree 4 the leaves of the toy have 16 strings of 1 byte"
#endif
#if MQ_FIELD_SIZE(8) != 256 || MQ_FIELD_SIZE(4) != 16 || MQ_FIELD_MODULUS(8) != 0x11B || MQ_FIELD_MODULUS(4) != 0x13
#error "the two fields"
#endif

static unsigned long failures, compared;

static void compare(const struct length *l, size_t n, size_t m, size_t tau, size_t t, uint32_t degree,
                    size_t expected)
{
    size_t answered = l->function(n, m, tau, t, degree);
    compared++;
    if (answered == expected)
        return;
    failures++;
    if (failures <= 20)
        printf("%s at n=%zu m=%zu tau=%zu t=%zu degree=%lu: %zu, expected %zu\n",
               l->name, n, m, tau, t, (unsigned long)degree, answered, expected);
}

static void expect(int yes, const char *what)
{
    compared++;
    if (!yes) {
        failures++;
        printf("%s\n", what);
    }
}

/* The next value of a grid that has those to 3, and each multiple of 8 with its neighbours. */
static size_t next(size_t value)
{
    return value < 3 || value % 8 == 7 || value % 8 == 0 ? value + 1 : value / 8 * 8 + 7;
}

/* No length is 0 but that of batching with no equations. */
static void in_range(uint32_t degree)
{
    size_t n, m, tau, t;
    int l;
    for (n = 1; n <= MQ_MAX_VARIABLES; n = next(n))
        for (m = 0; m <= MQ_MAX_EQUATIONS; m = next(m))
            for (tau = 1; tau <= MQ_MAX_REPETITIONS; tau = next(tau))
                for (t = 1; t <= MQ_MAX_HASH_ROWS; t = next(t))
                    for (l = 0; l < LENGTHS; l++) {
                        const size_t length = lengths[l].macro(n, m, tau, t, degree);
                        compare(&lengths[l], n, m, tau, t, degree, length);
                        if (length == 0)
                            expect(m == 0 && lengths[l].function == mq_batching_size, "a length in range is 0");
                    }
}

/* Values that no size may have: 0, but for m, past the limit, and numbers whose low 8, 16 or 32 bits would do. */
static void out_of_range(uint32_t degree)
{
    static const size_t limits[4] = {
        MQ_MAX_VARIABLES, MQ_MAX_EQUATIONS, MQ_MAX_REPETITIONS, MQ_MAX_HASH_ROWS
    };
    int which, bad, l;
    for (which = 0; which < 4; which++) {
        const size_t values[] = {
            which == 1 ? SIZE_MAX - 1 : 0, limits[which] + 1, 512 + 1, 65535, 65536 + 1, SIZE_MAX / 65536 + 2,
            SIZE_MAX / 2 + 2, SIZE_MAX
        };
        for (bad = 0; bad < (int)(sizeof values / sizeof values[0]); bad++) {
            size_t least[4] = { 1, 1, 1, 1 }, most[4];
            for (l = 0; l < 4; l++)
                most[l] = limits[l];
            least[which] = most[which] = values[bad];
            for (l = 0; l < LENGTHS; l++) {
                compare(&lengths[l], least[0], least[1], least[2], least[3], degree, 0);
                compare(&lengths[l], most[0], most[1], most[2], most[3], degree, 0);
            }
        }
    }
}

/* Degrees that are not served: neighbours of those that are, and numbers whose low bits would do. */
static const uint32_t unserved[] = {
    0, 1, 2, 3, 5, 6, 7, 9, 12, 16, 255, 256, 260, 264, 65540, UINT32_C(0x80000008), UINT32_C(0xFFFFFFFF)
};
enum { UNSERVED = sizeof unserved / sizeof unserved[0] };

static void out_of_degree(void)
{
    int i, l;
    for (i = 0; i < UNSERVED; i++)
        for (l = 0; l < LENGTHS; l++) {
            compare(&lengths[l], 1, 1, 1, 1, unserved[i], 0);
            compare(&lengths[l], MQ_MAX_VARIABLES, MQ_MAX_EQUATIONS, MQ_MAX_REPETITIONS, MQ_MAX_HASH_ROWS, unserved[i],
                    0);
        }
}

/* Each call of nothing: lengths 0 are taken with any pointer. It must be refused with this number. */
static void of_nothing(uint32_t degree, uint32_t number)
{
    const uint32_t word = number * 65536;
    expect(mq_test(NULL, 0, degree, NULL, 0) == word, "mq_test of nothing");
    expect(mq_commit(NULL, 0, degree, NULL, 0, NULL, 0, NULL, 0) == word, "mq_commit of nothing");
    expect(mq_hash(NULL, 0, degree, NULL, 0, NULL, 0, NULL, 0) == word, "mq_hash of nothing");
    expect(mq_batch(NULL, 0, degree, NULL, 0, NULL, 0, NULL, 0, NULL, 0) == word, "mq_batch of nothing");
    expect(mq_prove(NULL, 0, degree, NULL, 0, NULL, 0, NULL, 0, NULL, 0, NULL, 0) == word, "mq_prove of nothing");
    expect(mq_verify(NULL, 0, degree, NULL, 0, NULL, 0, NULL, 0, NULL, 0, NULL, 0) == word, "mq_verify of nothing");
}

int main(int argc, char **words)
{
    const uint32_t word = UINT32_C(11) * 65536 + 319;

    int i;

    (void)words;
    if (argc > 1) {
        const size_t n = MQ_MAX_VARIABLES, m = MQ_MAX_EQUATIONS, tau = MQ_MAX_REPETITIONS, t = MQ_MAX_HASH_ROWS;
        printf("With the largest sizes the key has %zu bytes;", mq_key_size(n, m, tau, t, 8));
        for (i = 8; i >= 4; i -= 4)
            printf(" at degree %d the leaves have %zu, the opened leaves %zu and the proof %zu%c", i,
                   mq_leaves_size(n, m, tau, t, (uint32_t)i), mq_opened_size(n, m, tau, t, (uint32_t)i),
                   mq_proof_size(n, m, tau, t, (uint32_t)i), i == 8 ? ';' : '.');
        printf("\n");
        return 0;
    }
    in_range(8);
    in_range(4);
    out_of_range(8);
    out_of_range(4);
    out_of_degree();
    expect(mq_version() == MQ_VERSION, "mq_version() is not MQ_VERSION");
    expect(MQ_NUMBER(word) == MQ_REFUSED_EQUATION_FAILS, "MQ_NUMBER");
    expect(MQ_PLACE(word) == 319, "MQ_PLACE");
    /* An empty key is refused 1, but 16 comes first. */
    of_nothing(8, MQ_REFUSED_SHORT_HEADER);
    of_nothing(4, MQ_REFUSED_SHORT_HEADER);
    for (i = 0; i < UNSERVED; i++)
        of_nothing(unserved[i], MQ_REFUSED_DEGREE_UNSERVED);
    printf("sizes: %lu compared, %lu differ\n", compared, failures);
    return failures != 0;
}
