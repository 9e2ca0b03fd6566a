/*
 * Tests the helpers of solfadrus_util.h against the archive: cases are made by them, and the library judges.
 *
 *     util            all of them; says what is wrong, and fails
 *     util small      the same without the largest shapes, which are slow where nothing is optimised
 *     util messages   prints number and message, one line each, for tests/util.sh
 *     util mark       the helpers that touch secrets, these marked undefined, for valgrind
 *     util mark-leak  a control: a branch on the witness
 */
#include <stdio.h>
#include <valgrind/memcheck.h>

#include "case.h"
#include "solfadrus_util.h"

static const struct sizes shapes[] = {
    { 1, 1, 1, 1, 8 },      { 1, 1, 1, 1, 4 },      { 2, 1, 1, 1, 8 },      { 2, 1, 1, 1, 4 },
    { 7, 9, 3, 8, 8 },      { 7, 9, 3, 8, 4 },      { 8, 8, 2, 8, 8 },      { 8, 8, 2, 8, 4 },
    { 9, 7, 5, 17, 8 },     { 9, 7, 5, 17, 4 },     { 33, 20, 4, 12, 8 },   { 33, 20, 4, 12, 4 },
    { 64, 3, 2, 65, 8 },    { 64, 3, 2, 65, 4 },    { 24, 5, 48, 3, 8 },    { 24, 5, 48, 3, 4 },
    { 150, 150, 19, 144, 8 }, { 150, 150, 43, 144, 4 }, { 160, 160, 48, 160, 8 },
    { 320, 2, 1, 3, 8 },    { 320, 2, 1, 3, 4 },    { 2, 320, 1, 3, 8 },    { 2, 320, 1, 3, 4 },
    { 9, 0, 3, 8, 8 },      { 9, 0, 3, 8, 4 },      { 8, 0, 1, 1, 8 },      { 8, 0, 1, 1, 4 },
    { 320, 320, 48, 288, 4 }, { 320, 320, 48, 288, 8 },
};
enum { SHAPES = sizeof shapes / sizeof shapes[0] };

static int failures;

static void check(int yes, const char *what, struct sizes s)
{
    if (yes)
        return;
    printf("n = %zu, m = %zu, tau = %zu, t = %zu, degree %u: %s\n", s.n, s.m, s.tau, s.t, (unsigned)s.degree, what);
    failures++;
}

/* Of the shape s. */
#define AT(NAME) MQ_OFFSET_##NAME(s.n, s.m, s.tau, s.t, s.degree)
#define SIZE(NAME) MQ_##NAME##_SIZE(s.n, s.m, s.tau, s.t, s.degree)

/* ---- A case made by the helpers ----------------------------------------------------------- */

static void draw_bytes(uint64_t *state, struct lent lent)
{
    for (size_t i = 0; i < lent.len; i++)
        lent.at[i] = (uint8_t)draw(state);
}

/* Whether rows differ from what they were in spare bits alone, and those are 0. */
static int only_cleared(const uint8_t *rows, const uint8_t *before, size_t count, size_t bits)
{
    const size_t len = MQ_STRING_SIZE(bits);
    for (size_t i = 0; i < count; i++)
        for (size_t c = 0; c < 8 * len; c++)
            if (bit(rows + i * len, c) != (c < bits ? bit(before + i * len, c) : 0))
                return 0;
    return 1;
}

/* Rows of random bytes, with spare bits; then without. */
static void draw_rows(uint64_t *state, uint8_t *at, size_t count, size_t bits, struct sizes s)
{
    const struct lent rows = { at, count * MQ_STRING_SIZE(bits) };
    struct lent before = lend(rows.len);
    draw_bytes(state, rows);
    memcpy(before.at, at, rows.len);
    mq_clear_spare(at, count, bits);
    check(only_cleared(at, before.at, count, bits), "mq_clear_spare", s);
    free(before.at);
}

static struct made draw_case(uint64_t seed, struct sizes s)
{
    const size_t row = MQ_STRING_SIZE(s.n);
    struct made made = lend_case(s);
    uint8_t *const key = made.key.at;
    put(put(put(put(key, s.n, 2), s.m, 2), s.tau, 2), s.t, 2);
    put(key + AT(A) - MQ_COUNT_SIZE, s.m * s.n * row, MQ_COUNT_SIZE);
    put(key + AT(B) - MQ_COUNT_SIZE, s.m * row, MQ_COUNT_SIZE);
    put(key + AT(Y) - MQ_COUNT_SIZE, MQ_STRING_SIZE(s.m), MQ_COUNT_SIZE);
    draw_rows(&seed, key + AT(A), s.m * s.n, s.n, s);
    draw_rows(&seed, key + AT(B), s.m, s.n, s);
    draw_rows(&seed, key + AT(Y), 1, s.m, s); /* to be written over */
    draw_rows(&seed, made.witness.at, 1, s.n, s);
    draw_rows(&seed, made.leaves.at, tree_leaves(s) * s.tau, leaf_bits(s), s);
    draw_rows(&seed, made.hash_matrix.at, s.t, hash_row_bits(s), s);
    draw_rows(&seed, made.batching.at, s.tau * s.m, s.degree, s); /* an element is a row */
    draw_rows(&seed, made.delta.at, s.tau, s.degree, s);
    made.delta.at[0] = (uint8_t)(tree_leaves(s) - 1); /* the edges, where there is a second repetition both */
    if (s.tau > 1)
        made.delta.at[1] = 0;
    if (s.m == 0) { /* then batching is lent as NULL */
        free(made.batching.at);
        made.batching.at = NULL;
    }
    return made;
}

/* ---- Sizes and y -------------------------------------------------------------------------- */

/* The header with m = 0 is taken, and then the key has 20 bytes. */
static void test_no_equations(const struct made *made)
{
    const struct sizes s = made->sizes;
    uint8_t key[MQ_HEADER_SIZE + 3 * MQ_COUNT_SIZE + 1] = { 0 };
    struct mq_sizes got = { 7, 7, 7, 7 };
    memcpy(key, made->key.at, MQ_HEADER_SIZE);
    put(key + 2, 0, 2);
    check(mq_key_sizes(key, MQ_HEADER_SIZE, &got) && got.n == s.n && got.m == 0, "mq_key_sizes does not take m = 0", s);
    for (size_t len = MQ_HEADER_SIZE; len <= sizeof key; len++) {
        const int whole = len + 1 == sizeof key;
        check(mq_test(key, len, s.degree, made->witness.at, made->witness.len)
                  == (whole ? MQ_ACCEPTED : MQ_REFUSED_KEY_LENGTH * 65536), "mq_test of a key with no equations", s);
        check(mq_make_y(key, len, made->witness.at, made->witness.len) == whole, "mq_make_y with no equations", s);
    }
}

static void test_sizes(struct made *made)
{
    const struct sizes s = made->sizes;
    const size_t most[4] = { MQ_MAX_VARIABLES, MQ_MAX_EQUATIONS, MQ_MAX_REPETITIONS, MQ_MAX_HASH_ROWS };
    struct mq_sizes got = { 7, 7, 7, 7 };
    for (size_t len = 0; len < MQ_HEADER_SIZE; len++)
        check(!mq_key_sizes(made->key.at, len, &got), "mq_key_sizes takes a key that has no header", s);
    for (size_t i = 0; i < 4; i++) {
        uint8_t header[MQ_HEADER_SIZE];
        const size_t wrong[3] = { i == 1 ? 65535 : 0, most[i] + 1, 513 }; /* m may be 0 */
        memcpy(header, made->key.at, sizeof header);
        for (size_t k = 0; k < 3; k++) {
            put(header + 2 * i, wrong[k], 2);
            check(!mq_key_sizes(header, sizeof header, &got), "mq_key_sizes takes a size out of range", s);
            check(mq_test(header, sizeof header, s.degree, NULL, 0) == MQ_REFUSED_SIZE_OUT_OF_RANGE * 65536,
                  "mq_test takes a size out of range", s);
        }
    }
    check(got.n == 7 && got.m == 7 && got.tau == 7 && got.t == 7, "mq_key_sizes writes where it answers 0", s);
    check(mq_key_sizes(made->key.at, MQ_HEADER_SIZE, &got), "mq_key_sizes does not take a header", s);
    check(got.n == s.n && got.m == s.m && got.tau == s.tau && got.t == s.t, "mq_key_sizes", s);
    test_no_equations(made);
}

static uint32_t test_witness(const struct made *made)
{
    return mq_test(made->key.at, made->key.len, made->sizes.degree, made->witness.at, made->witness.len);
}

/* Each bit of y decides its equation: with it flipped that one fails, and no other. */
static void test_each_y(struct made *made)
{
    const struct sizes s = made->sizes;
    uint8_t *const y = made->key.at + AT(Y);
    for (size_t i = 0; i < s.m; i++) {
        y[i / 8] ^= (uint8_t)(1 << i % 8);
        check(test_witness(made) == MQ_REFUSED_EQUATION_FAILS * 65536 + i, "a flipped bit of y is not refused", s);
        y[i / 8] ^= (uint8_t)(1 << i % 8);
    }
}

/* Of another witness: it solves the old key exactly where it has the same y, and else fails where these differ. */
static void test_other_witness(struct made *made, size_t flipped)
{
    const struct sizes s = made->sizes;
    struct lent other = lend(made->key.len);
    const uint8_t *const y = made->key.at + AT(Y), *const other_y = other.at + AT(Y);
    uint32_t word;
    memcpy(other.at, made->key.at, other.len);
    made->witness.at[flipped / 8] ^= (uint8_t)(1 << flipped % 8);
    check(mq_make_y(other.at, other.len, made->witness.at, made->witness.len), "mq_make_y does not take its case", s);
    word = test_witness(made);
    if (memcmp(y, other_y, MQ_STRING_SIZE(s.m)) == 0)
        check(word == MQ_ACCEPTED, "a witness with the same y is refused", s);
    else
        check(MQ_NUMBER(word) == MQ_REFUSED_EQUATION_FAILS && MQ_PLACE(word) < s.m
                  && bit(y, MQ_PLACE(word)) != bit(other_y, MQ_PLACE(word)),
              "a witness with another y", s);
    made->witness.at[flipped / 8] ^= (uint8_t)(1 << flipped % 8);
    free(other.at);
}

static void test_y(struct made *made)
{
    const struct sizes s = made->sizes;
    struct lent before = lend(made->key.len);
    memcpy(before.at, made->key.at, before.len);
    check(!mq_make_y(made->key.at, made->key.len - 1, made->witness.at, made->witness.len)
              && !mq_make_y(made->key.at, made->key.len, made->witness.at, made->witness.len + 1)
              && !mq_make_y(made->key.at, 7, made->witness.at, made->witness.len),
          "mq_make_y takes a wrong length", s);
    check(memcmp(before.at, made->key.at, before.len) == 0, "mq_make_y writes where it answers 0", s);
    check(mq_make_y(made->key.at, made->key.len, made->witness.at, made->witness.len),
          "mq_make_y does not take its case", s);
    check(memcmp(before.at, made->key.at, AT(Y)) == 0, "mq_make_y writes more than y", s);
    check(test_witness(made) == MQ_ACCEPTED, "the witness does not solve the key that was made for it", s);
    test_each_y(made);
    for (size_t c = 0; c < s.n; c += 1 + s.n / 8)
        test_other_witness(made, c);
    free(before.at);
}

/* The left side of an equation, bit by bit. */
static int by_bits(const uint8_t *a, const uint8_t *b, const uint8_t *x, size_t n)
{
    int sum = 0;
    for (size_t r = 0; r < n; r++) {
        if (!bit(x, r))
            continue;
        for (size_t c = 0; c < n; c++)
            sum ^= bit(a + r * MQ_STRING_SIZE(n), c) & bit(x, c);
        sum ^= bit(b, r);
    }
    return sum;
}

/* The same y as that of case.h, and bit by bit. */
static void test_same_y(uint64_t seed, struct sizes s)
{
    struct made made = make_case(seed, s);
    struct lent key = lend(made.key.len);
    const size_t row = MQ_STRING_SIZE(s.n);
    int same = 1;
    memcpy(key.at, made.key.at, AT(Y));
    check(mq_make_y(key.at, key.len, made.witness.at, made.witness.len), "mq_make_y does not take its case", s);
    check(memcmp(key.at, made.key.at, key.len) == 0, "mq_make_y", s);
    for (size_t i = 0; i < s.m; i++)
        same &= bit(key.at + AT(Y), i)
            == by_bits(key.at + AT(A) + i * s.n * row, key.at + AT(B) + i * row, made.witness.at, s.n);
    check(same, "mq_make_y, bit by bit", s);
    free(key.at);
    drop_case(&made);
}

/* ---- Proofs ------------------------------------------------------------------------------- */

#define LENT(NAME) made->NAME.at, made->NAME.len
#define LENT_KEY LENT(key), made->sizes.degree

static uint32_t verify(const struct made *made)
{
    return mq_verify(LENT_KEY, LENT(delta), LENT(hash_matrix), LENT(batching), LENT(opened), LENT(proof));
}

/* With a bit of the proof flipped. */
static uint32_t verify_flipped(const struct made *made, size_t at)
{
    uint32_t word;
    made->proof.at[at] ^= 1;
    word = verify(made);
    made->proof.at[at] ^= 1;
    return word;
}

/* The three steps, one after the other, and all at once: the same bytes. */
static void prove(struct made *made)
{
    const struct sizes s = made->sizes;
    const size_t commit = SIZE(COMMIT), hash = SIZE(HASH), batch = SIZE(BATCH);
    struct lent steps = lend(made->proof.len);
    check(mq_commit(LENT_KEY, LENT(leaves), LENT(witness), steps.at, commit) == MQ_ACCEPTED, "mq_commit", s);
    check(mq_hash(LENT_KEY, LENT(leaves), LENT(hash_matrix), steps.at + commit, hash) == MQ_ACCEPTED, "mq_hash", s);
    check(mq_batch(LENT_KEY, LENT(leaves), LENT(witness), LENT(batching), steps.at + commit + hash, batch)
              == MQ_ACCEPTED, "mq_batch", s);
    check(mq_prove(LENT_KEY, LENT(leaves), LENT(witness), LENT(hash_matrix), LENT(batching), LENT(proof))
              == MQ_ACCEPTED, "mq_prove", s);
    check(memcmp(steps.at, made->proof.at, steps.len) == 0, "the steps write other bytes", s);
    free(steps.at);
}

/* Another degree, and at degree 4 a byte of delta that is no element. */
static void test_open_refused(const struct made *made)
{
    const struct sizes s = made->sizes;
    const uint32_t degrees[] = { 0, 5, 12, 260, UINT32_MAX, 12 - s.degree };
    uint8_t *const last = made->delta.at + s.tau - 1;
    const uint8_t kept = *last;
    for (size_t i = 0; i < sizeof degrees / sizeof degrees[0]; i++)
        check(!mq_open_leaves(LENT(key), degrees[i], LENT(delta), LENT(leaves), LENT(opened)),
              "mq_open_leaves takes another degree", s);
    for (unsigned byte = 16; s.degree == 4 && byte < 256; byte++) {
        *last = (uint8_t)byte;
        check(!mq_open_leaves(LENT_KEY, LENT(delta), LENT(leaves), LENT(opened)),
              "mq_open_leaves takes a byte that is no element", s);
    }
    *last = kept;
}

static void test_opened(struct made *made)
{
    const struct sizes s = made->sizes;
    struct lent expected = made->opened, zero = lend(expected.len);
    open_leaves(made); /* by the test's own loop, leaf by leaf */
    made->opened = lend(expected.len);
    check(!mq_open_leaves(made->key.at, 7, s.degree, LENT(delta), LENT(leaves), LENT(opened))
              && !mq_open_leaves(LENT_KEY, made->delta.at, s.tau + 1, LENT(leaves), LENT(opened))
              && !mq_open_leaves(LENT_KEY, LENT(delta), made->leaves.at, made->leaves.len - 1, LENT(opened))
              && !mq_open_leaves(LENT_KEY, LENT(delta), LENT(leaves), made->opened.at, made->opened.len - 1),
          "mq_open_leaves takes a wrong length", s);
    test_open_refused(made);
    check(memcmp(made->opened.at, zero.at, zero.len) == 0, "mq_open_leaves writes where it answers 0", s);
    check(mq_open_leaves(LENT_KEY, LENT(delta), LENT(leaves), LENT(opened)), "mq_open_leaves refuses its case", s);
    check(memcmp(made->opened.at, expected.at, expected.len) == 0, "mq_open_leaves", s);
    check(verify(made) == MQ_ACCEPTED, "mq_verify refuses leaves that were opened", s);
    free(expected.at);
    free(zero.at);
}

/* Each section has its count before it, and ends where the next one's count begins. */
static void test_counts(const struct made *made)
{
    const struct sizes s = made->sizes;
    const size_t at[7] = { AT(C), AT(D), AT(U), AT(V), AT(QS0), AT(QS1), made->proof.len + MQ_COUNT_SIZE };
    for (size_t i = 0; i < 6; i++) {
        uint8_t count[MQ_COUNT_SIZE];
        put(count, at[i + 1] - MQ_COUNT_SIZE - at[i], MQ_COUNT_SIZE);
        check(memcmp(made->proof.at + at[i] - MQ_COUNT_SIZE, count, MQ_COUNT_SIZE) == 0, "a count of the proof", s);
    }
}

/* C and d by their definition: u_e + u, and x + the first n bits of u. */
static void test_corrections(const struct made *made)
{
    const struct sizes s = made->sizes;
    const size_t w = SIZE(LEAF);
    struct lent u = lend(s.tau * w);
    int right = 1;
    for (size_t e = 0; e < s.tau; e++)
        for (size_t i = 0; i < tree_leaves(s) * w; i++)
            u.at[e * w + i % w] ^= made->leaves.at[e * tree_leaves(s) * w + i];
    for (size_t i = w; i < u.len; i++)
        right &= made->proof.at[AT(C) + i - w] == (u.at[i] ^ u.at[i % w]);
    check(right, "MQ_OFFSET_C", s);
    right = 1;
    for (size_t c = 0; c < s.n; c++)
        right &= bit(made->proof.at + AT(D), c) == (bit(made->witness.at, c) ^ bit(u.at, c));
    check(right, "MQ_OFFSET_D", s);
    free(u.at);
}

/* The other four by what the verifier says where a byte of them is changed: the check, and the repetition. */
static void test_checks(const struct made *made)
{
    const struct sizes s = made->sizes;
    int v = 1, qs0 = 1, qs1 = 1;
    for (size_t e = 0; e < s.tau; e++) {
        const uint32_t differs = MQ_REFUSED_PRODUCT_DIFFERS * 65536 + (uint32_t)e;
        v &= verify_flipped(made, AT(V) + e * s.t) == MQ_REFUSED_INCONSISTENT * 65536 + e;
        qs0 &= verify_flipped(made, AT(QS0) + e) == differs;
        /* At delta 0 QS1 does not count. */
        qs1 &= verify_flipped(made, AT(QS1) + e) == (made->delta.at[e] ? differs : MQ_ACCEPTED);
    }
    check(v, "MQ_OFFSET_V", s);
    check(qs0, "MQ_OFFSET_QS0", s);
    check(qs1, "MQ_OFFSET_QS1", s);
    /* u~ counts in every repetition where delta is not 0: the first has the last element. */
    check(verify_flipped(made, AT(U)) == MQ_REFUSED_INCONSISTENT * 65536, "MQ_OFFSET_U", s);
}

/* A spare bit is refused where it stands, and cleared it is taken. */
static void test_spare(struct made *made)
{
    const struct sizes s = made->sizes;
    const struct {
        uint8_t *rows;
        size_t count, bits;
        uint32_t number;
    } all[] = {
        { made->key.at + AT(A), s.m * s.n, s.n, MQ_REFUSED_KEY_SPARE_BIT },
        { made->key.at + AT(B), s.m, s.n, MQ_REFUSED_KEY_SPARE_BIT },
        { made->key.at + AT(Y), 1, s.m, MQ_REFUSED_KEY_SPARE_BIT },
        { made->hash_matrix.at, s.t, hash_row_bits(s), MQ_REFUSED_HASH_SPARE_BIT },
        { made->leaves.at, tree_leaves(s) * s.tau, leaf_bits(s), MQ_REFUSED_LEAF_SPARE_BIT },
        { made->witness.at, 1, s.n, MQ_REFUSED_WITNESS_FORM },
        { made->batching.at, s.tau * s.m, s.degree, MQ_REFUSED_CHALLENGE_ELEMENT },
    };
    for (size_t i = 0; i < sizeof all / sizeof all[0]; i++) {
        const size_t len = MQ_STRING_SIZE(all[i].bits);
        for (size_t c = all[i].bits; all[i].count > 0 && c < 8 * len; c++) {
            const size_t row = all[i].count - 1;
            all[i].rows[row * len + len - 1] |= (uint8_t)(1 << c % 8);
            check(mq_prove(LENT_KEY, LENT(leaves), LENT(witness), LENT(hash_matrix), LENT(batching), LENT(proof))
                      == all[i].number * 65536, "a spare bit is not refused", s);
            mq_clear_spare(all[i].rows, all[i].count, all[i].bits);
        }
    }
    prove(made);
}

/* ---- Messages ----------------------------------------------------------------------------- */

enum { NUMBERS = 18 };

static size_t places_of(uint32_t number)
{
    if (number == MQ_REFUSED_EQUATION_FAILS)
        return MQ_MAX_EQUATIONS;
    return number == MQ_REFUSED_INCONSISTENT || number == MQ_REFUSED_PRODUCT_DIFFERS ? MQ_MAX_REPETITIONS : 1;
}

/* Every word: those that are published say what their number says, all others that they are none of these. */
static void test_messages(void)
{
    const char *const unknown = mq_message(UINT32_MAX);
    const struct sizes s = { 0, 0, 0, 0, 0 };
    check(strcmp(mq_message(MQ_ACCEPTED), "accepted") == 0, "mq_message of 0", s);
    for (uint32_t number = 0; number < 65536; number++)
        for (uint32_t place = 0; place < 65536; place += place < 256 || number <= NUMBERS ? 1 : 997) {
            const int published = number <= NUMBERS && place < places_of(number);
            const char *const said = mq_message(number * 65536 + place);
            if (said != (published ? mq_message(number * 65536) : unknown)
                || (published && strcmp(said, unknown) == 0)) {
                check(0, "mq_message", s);
                return;
            }
        }
}

/* ---- Secrets ------------------------------------------------------------------------------ */

/* Every bit of so many rows, but the spare ones, which the form of a string fixes. */
static void mark(uint8_t *rows, size_t count, size_t bits)
{
    const size_t len = MQ_STRING_SIZE(bits);
    for (size_t i = 0; i < count * len; i++) {
        const uint8_t secret = (uint8_t)(i % len == len - 1 ? 0xFF >> (8 * len - bits) : 0xFF);
        VALGRIND_SET_VBITS(rows + i, &secret, 1);
    }
}

static int marked(const uint8_t *at, size_t len)
{
    return VALGRIND_CHECK_MEM_IS_DEFINED(at, len) != 0;
}

/* What was marked reaches what is written: else a helper that does nothing would pass. */
static int run_marked(void)
{
    int right = RUNNING_ON_VALGRIND != 0;
    for (size_t i = 0; i < SHAPES; i++) {
        const struct sizes s = shapes[i];
        struct made made = draw_case(i, s);
        mark(made.witness.at, 1, s.n);
        mark(made.leaves.at, tree_leaves(s) * s.tau, leaf_bits(s));
        mq_clear_spare(made.witness.at, 1, s.n);
        mq_clear_spare(made.leaves.at, tree_leaves(s) * s.tau, leaf_bits(s));
        right &= mq_make_y(made.key.at, made.key.len, made.witness.at, made.witness.len);
        right &= mq_open_leaves(made.key.at, made.key.len, s.degree, made.delta.at, made.delta.len, made.leaves.at,
                                made.leaves.len, made.opened.at, made.opened.len);
        VALGRIND_DISABLE_ERROR_REPORTING;
        right &= s.m == 0 || marked(made.key.at + AT(Y), MQ_STRING_SIZE(s.m));
        right &= marked(made.opened.at, made.opened.len);
        VALGRIND_ENABLE_ERROR_REPORTING;
        drop_case(&made);
    }
    return right && !failures;
}

static int run_leak(void)
{
    struct made made = draw_case(1, shapes[2]);
    volatile int seen = 0;
    mark(made.witness.at, 1, made.sizes.n);
    if (made.witness.at[0] & 1)
        seen = 1;
    drop_case(&made);
    return seen >= 0;
}

int main(int argc, char **argv)
{
    if (argc > 1 && strcmp(argv[1], "messages") == 0) {
        for (uint32_t number = 1; number <= NUMBERS; number++)
            printf("%u %s\n", (unsigned)number, mq_message(number * 65536));
        return 0;
    }
    const int small = argc > 1 && strcmp(argv[1], "small") == 0;
    if (argc > 1 && !small)
        return strcmp(argv[1], "mark") == 0 ? !run_marked() : !run_leak();
    for (size_t i = 0; i < (small ? SHAPES - 2 : SHAPES); i++) {
        struct made made = draw_case(i, shapes[i]);
        test_sizes(&made);
        test_y(&made);
        prove(&made);
        test_opened(&made);
        test_counts(&made);
        test_corrections(&made);
        test_checks(&made);
        test_spare(&made);
        drop_case(&made);
        test_same_y(i, shapes[i]);
    }
    test_messages();
    if (!failures)
        printf("%d shapes at both degrees: keys, proofs and opened leaves made by the helpers are accepted\n", SHAPES);
    return failures != 0;
}
