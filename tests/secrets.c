/*
 * Do branches or addresses depend on leaves or witness? To be run under valgrind, by tests/secrets.sh.
 *
 * mq_verify is not called: nothing that it takes is secret.
 *
 *   secrets mark WORDS...   Makes the calls, at every shape, with strings marked undefined: memcheck reports each
 *                           branch and each address that depends on one. Where the leaves are marked, every bit that
 *                           an accepted call writes must be undefined, but for the counts: so the call was made, and
 *                           the leaves of every repetition were marked. The words:
 *                               leaves    marks every bit of every leaf, but the spare ones, which answer 8 tells
 *                               witness   marks every bit of the witness, but the spare ones, which answer 9 tells
 *                               y         marks every bit of the key's section y, but the spare ones
 *                               fails     once more, with an equation that fails at the witness
 *                               test, commit, hash, batch, prove     makes this call alone
 *                               branch    a control: a branch on a secret
 *                               index     a control: an address by a secret
 *   secrets make 0|1 FILE   Writes one of two cases: they have the same key and challenges, and each has its own
 *                           witness, which solves, and its own leaves.
 *   secrets trace FILE      Makes all calls on that case. The traces of the two cases, all instructions and all
 *                           addresses, must be the same.
 *   secrets trace-leak FILE A control, on the small shapes: an address by the witness. It must be seen.
 */
#include <stdio.h>
#include <valgrind/memcheck.h>

#include "case.h"

static const struct sizes shapes[] = {
    { 1, 1, 1, 1, 8 },    { 9, 3, 2, 5, 8 },   { 16, 9, 3, 8, 8 },       { 33, 4, 17, 12, 8 },
    { 150, 2, 4, 20, 8 }, { 24, 5, 48, 3, 8 }, { 150, 150, 19, 144, 8 }, { 161, 161, 1, 161, 8 },
    { 256, 1, 2, 5, 8 },  { 257, 3, 1, 9, 8 }, { 319, 1, 1, 161, 8 },    { 320, 1, 2, 288, 8 },
    { 1, 256, 1, 1, 8 },  { 3, 257, 1, 2, 8 }, { 1, 319, 1, 161, 8 },    { 1, 320, 2, 288, 8 },
    { 224, 224, 28, 208, 8 }, { 320, 320, 48, 288, 8 },
    { 1, 1, 1, 1, 4 },    { 9, 3, 2, 5, 4 },   { 16, 9, 3, 8, 4 },       { 33, 4, 17, 12, 4 },
    { 24, 5, 48, 3, 4 },  { 257, 3, 1, 9, 4 }, { 320, 1, 2, 288, 4 },    { 3, 257, 1, 2, 4 },
    { 1, 320, 2, 288, 4 }, { 150, 150, 43, 144, 4 }, { 320, 320, 48, 288, 4 },
    { 9, 0, 2, 5, 8 },    { 257, 0, 1, 9, 8 }, { 9, 0, 2, 5, 4 },        { 257, 0, 1, 9, 4 },
};

/* The shapes of the traces, which are long: small ones, and four at which every kernel has more than one round, the
 * first and the third of them at degree 4 too; and one with no equations at each degree.
 * The first has leaves of a chunk of sixteen bytes and a part of one, a second set of four panels of sixteen columns,
 * rows of more than one word of eight bytes, and equations in more than one word of ten fives. The second has three
 * chunks, a third set, and columns past the first sixteen bytes of a row. The third has matrices in more than one piece
 * of ten sixteens of rows, lines of more than a chunk, and rows of H' in more than a block of 21 bytes; the fourth
 * equations in more than a block. */
enum { KERNEL_N = 65, KERNEL_M = 53, KERNEL_TAU = 2, KERNEL_T = 57 };
enum { WIDE_N = 145, WIDE_M = 6, WIDE_TAU = 1, WIDE_T = 104 };
enum { PIECES_N = 257, PIECES_M = 1, PIECES_TAU = 1, PIECES_T = 3 };
enum { BLOCKS_N = 2, BLOCKS_M = 161, BLOCKS_TAU = 1, BLOCKS_T = 1 };
_Static_assert(MQ_LEAF_SIZE(KERNEL_N, KERNEL_M, KERNEL_TAU, KERNEL_T, 4) > 16, "more than a chunk of a leaf");
_Static_assert(KERNEL_N > 4 * 16, "more than a set of panels");
_Static_assert(KERNEL_M > 51, "more than a word of fives");
_Static_assert(MQ_LEAF_SIZE(WIDE_N, WIDE_M, WIDE_TAU, WIDE_T, 8) > 2 * 16, "more than two chunks of a leaf");
_Static_assert(WIDE_N > 144, "a panel whose rows lie past the first sixteen bytes");
_Static_assert(PIECES_N > 256, "more than a piece, and lines of more than a chunk");
_Static_assert(MQ_HASH_ROW_SIZE(PIECES_N, PIECES_M, PIECES_TAU, PIECES_T, 4) > 21, "more than a block of a row of H'");
_Static_assert(BLOCKS_M > 160, "more than a block of equations");
static const struct sizes traced[] = {
    { 1, 1, 1, 1, 8 },
    { 9, 3, 2, 5, 8 },
    { 16, 9, 3, 8, 4 },
    { KERNEL_N, KERNEL_M, KERNEL_TAU, KERNEL_T, 8 },
    { WIDE_N, WIDE_M, WIDE_TAU, WIDE_T, 8 },
    { PIECES_N, PIECES_M, PIECES_TAU, PIECES_T, 8 },
    { BLOCKS_N, BLOCKS_M, BLOCKS_TAU, BLOCKS_T, 8 },
    { 9, 3, 2, 5, 4 },
    { KERNEL_N, KERNEL_M, KERNEL_TAU, KERNEL_T, 4 },
    { PIECES_N, PIECES_M, PIECES_TAU, PIECES_T, 4 },
    { 9, 0, 2, 5, 8 },
    { 9, 0, 2, 5, 4 },
};
enum { SHAPES = sizeof shapes / sizeof shapes[0], TRACED = sizeof traced / sizeof traced[0], SMALL = 3 };

/* ---- Two witnesses ------------------------------------------------------------------------ */

static uint8_t *section_b(const struct made *c)
{
    const size_t row = MQ_STRING_SIZE(c->sizes.n);
    return c->key.at + MQ_HEADER_SIZE + 2 * MQ_COUNT_SIZE + c->sizes.m * c->sizes.n * row;
}

static uint8_t *section_y(const struct made *c)
{
    return section_b(c) + c->sizes.m * MQ_STRING_SIZE(c->sizes.n) + MQ_COUNT_SIZE;
}

/* Changes b and y so that both witnesses solve every equation. They differ at some coordinate: a bit of b there
 * changes the left side at one of them alone. */
static void let_both_solve(const struct made *c, const uint8_t *one, const uint8_t *other)
{
    const size_t n = c->sizes.n, m = c->sizes.m, row = MQ_STRING_SIZE(n);
    uint8_t *a = c->key.at + MQ_HEADER_SIZE + MQ_COUNT_SIZE, *b = section_b(c), *y = section_y(c);
    size_t at = 0;
    while (bit(one, at) == bit(other, at))
        at++;
    for (size_t i = 0; i < m; i++) {
        const uint8_t *matrix = a + i * n * row;
        uint8_t *line = b + i * row;
        if (left_side(matrix, line, one, n) != left_side(matrix, line, other, n))
            line[at / 8] ^= (uint8_t)(1 << at % 8);
        y[i / 8] &= (uint8_t)~(1 << i % 8);
        y[i / 8] |= (uint8_t)(left_side(matrix, line, one, n) << i % 8);
    }
}

/* The case of a variant, 0 or 1. */
static struct made make_variant(struct sizes sizes, unsigned variant)
{
    struct made c = make_case(1, sizes);
    uint64_t state = 2;
    struct lent other = lend(c.witness.len);
    draw_strings(&state, other.at, 1, sizes.n);
    other.at[0] ^= (uint8_t)((other.at[0] ^ c.witness.at[0] ^ 1) & 1); /* so that they differ */
    let_both_solve(&c, c.witness.at, other.at);
    if (variant)
        memcpy(c.witness.at, other.at, other.len);
    state = 3 + variant;
    draw_strings(&state, c.leaves.at, tree_leaves(sizes) * sizes.tau, leaf_bits(sizes));
    free(other.at);
    return c;
}

/* ---- Marks -------------------------------------------------------------------------------- */

/* The bits of a string's last byte that are not spare. */
static uint8_t last_bits(size_t bits)
{
    return (uint8_t)(bits % 8 ? (1 << bits % 8) - 1 : 0xFF);
}

/* Marks the bits of each string, but not its spare bits. */
static void mark(uint8_t *at, size_t count, size_t bits)
{
    const size_t len = MQ_STRING_SIZE(bits);
    uint8_t last = last_bits(bits);
    for (size_t i = 0; len && i < count; i++, at += len) {
        VALGRIND_MAKE_MEM_UNDEFINED(at, len);
        (void)VALGRIND_SET_VBITS(at + len - 1, &last, 1);
    }
}

/* The bits of a byte that depend on what was marked. */
static uint8_t marks_of(const uint8_t *at)
{
    uint8_t marks = 0;
    if (VALGRIND_GET_VBITS(at, &marks, 1) != 1)
        exit(2); /* not under memcheck */
    return marks;
}

/* A section of a proof: so many strings of so many bits, after their count. */
struct section {
    size_t count, bits;
};

static struct section section_of(struct sizes s, int which)
{
    const struct section sections[] = {
        { s.tau - 1, leaf_bits(s) }, /* C */
        { 1, s.n },                  /* d */
        { 1, s.t },                  /* u~ */
        { s.tau * s.t, s.degree },   /* V~, an element to a byte */
        { s.tau, s.degree },         /* QS0 */
        { s.tau, s.degree },         /* QS1 */
    };
    return sections[which];
}

static size_t section_length(struct section section)
{
    return MQ_COUNT_SIZE + section.count * MQ_STRING_SIZE(section.bits);
}

/* Whether the count is unmarked, and every bit of the strings marked, but for the spare ones. */
static int section_marked(const uint8_t *at, struct section section)
{
    const size_t len = MQ_STRING_SIZE(section.bits);
    int all = 1;
    for (size_t i = 0; i < MQ_COUNT_SIZE; i++)
        all &= marks_of(at++) == 0;
    for (size_t i = 0; i < section.count; i++, at += len)
        for (size_t b = 0; b < len; b++) {
            const uint8_t data = b + 1 < len ? 0xFF : last_bits(section.bits);
            all &= (marks_of(at + b) & data) == data;
        }
    return all;
}

/* ---- Calls -------------------------------------------------------------------------------- */

#define LENT(which) c->which.at, c->which.len
#define LENT_KEY LENT(key), c->sizes.degree

static uint32_t call_test(const struct made *c, uint8_t *out, size_t len)
{
    (void)out, (void)len;
    return mq_test(LENT_KEY, LENT(witness));
}

static uint32_t call_commit(const struct made *c, uint8_t *out, size_t len)
{
    return mq_commit(LENT_KEY, LENT(leaves), LENT(witness), out, len);
}

static uint32_t call_hash(const struct made *c, uint8_t *out, size_t len)
{
    return mq_hash(LENT_KEY, LENT(leaves), LENT(hash_matrix), out, len);
}

static uint32_t call_batch(const struct made *c, uint8_t *out, size_t len)
{
    return mq_batch(LENT_KEY, LENT(leaves), LENT(witness), LENT(batching), out, len);
}

static uint32_t call_prove(const struct made *c, uint8_t *out, size_t len)
{
    return mq_prove(LENT_KEY, LENT(leaves), LENT(witness), LENT(hash_matrix), LENT(batching), out, len);
}

/* Each call, and the sections of a proof that it writes. */
static const struct call {
    const char *name;
    uint32_t (*make)(const struct made *c, uint8_t *out, size_t len);
    int first, end;
} calls[] = {
    { "test", call_test, 0, 0 },   { "commit", call_commit, 0, 2 }, { "hash", call_hash, 2, 4 },
    { "batch", call_batch, 4, 6 }, { "prove", call_prove, 0, 6 },
};
enum { CALLS = sizeof calls / sizeof calls[0] };

/* The call to be made alone, where one is named. */
static const struct call *only;

/* A word that is misspelt must not make a test of nothing. */
static const struct call *call_named(const char *word)
{
    for (size_t i = 0; i < CALLS; i++)
        if (strcmp(word, calls[i].name) == 0)
            return &calls[i];
    fprintf(stderr, "%s: no such word\n", word);
    exit(2);
}

/* A word is told to the caller: whatever it was made from, it may be looked at from here on. */
static uint32_t told(uint32_t word)
{
    (void)VALGRIND_MAKE_MEM_DEFINED(&word, sizeof word);
    return word;
}

static size_t output_length(struct sizes s, const struct call *call)
{
    size_t len = 0;
    for (int i = call->first; i < call->end; i++)
        len += section_length(section_of(s, i));
    return len;
}

/* Whether each section of an output is marked. Of V~ and QS0 each string depends on the leaves of its own repetition
 * alone, so that those of every repetition must have been. */
static int output_marked(struct sizes s, const struct call *call, const uint8_t *at)
{
    int all = 1;
    for (int i = call->first; i < call->end; i++) {
        all &= section_marked(at, section_of(s, i));
        at += section_length(section_of(s, i));
    }
    return all;
}

/* Makes the calls. Answers the words together: 0 where all accepted, and, with marked leaves, wrote what is marked. */
static uint32_t call_all(const struct made *c, int leaves_marked)
{
    const struct sizes s = c->sizes;
    uint32_t words = 0;
    for (const struct call *call = calls; call < calls + CALLS; call++) {
        if (only && only != call)
            continue;
        struct lent out = lend(MQ_PROOF_SIZE(s.n, s.m, s.tau, s.t, s.degree));
        const uint32_t word = told(call->make(c, out.at, output_length(s, call)));
        words |= word;
        if (leaves_marked && !word && !output_marked(s, call, out.at)) {
            printf("mq_%s at n = %zu, tau = %zu, degree %u: the output is not marked throughout\n", call->name, s.n,
                   s.tau, (unsigned)s.degree);
            words = UINT32_MAX;
        }
        free(out.at);
    }
    return words;
}

/* ---- Controls ----------------------------------------------------------------------------- */

static volatile uint8_t table[256];

__attribute__((noinline)) static void leak_by_branch(const uint8_t *secret)
{
    if (secret[0] & 1)
        table[0]++;
}

__attribute__((noinline)) static void leak_by_address(const uint8_t *secret)
{
    (void)table[secret[0]];
}

/* ---- Modes -------------------------------------------------------------------------------- */

struct words {
    int leaves, witness, y, fails, branch, index;
};

static struct words read_words(char **words)
{
    struct words read = { 0, 0, 0, 0, 0, 0 };
    const struct {
        const char *word;
        int *flag;
    } flags[] = {
        { "leaves", &read.leaves }, { "witness", &read.witness }, { "y", &read.y },
        { "fails", &read.fails },   { "branch", &read.branch },   { "index", &read.index },
    };
    for (; *words; words++) {
        int *flag = NULL;
        for (size_t i = 0; i < sizeof flags / sizeof flags[0]; i++)
            if (strcmp(*words, flags[i].word) == 0)
                flag = flags[i].flag;
        if (flag)
            *flag = 1;
        else
            only = call_named(*words);
    }
    return read;
}

/* Marks, and makes the calls. Answers whether the words were right. The last equation is the one that fails, where one
 * is to fail: to name it, all of them are looked at. hash does not look at the witness. */
static int mark_and_call(struct sizes s, struct words words, int fails)
{
    struct made c = make_variant(s, 0);
    const uint8_t *secret = words.witness ? c.witness.at : c.leaves.at;
    const uint32_t refused = MQ_REFUSED_EQUATION_FAILS * 65536 + (uint32_t)s.m - 1;
    uint32_t answer;
    if (fails)
        section_y(&c)[(s.m - 1) / 8] ^= (uint8_t)(1 << (s.m - 1) % 8);
    if (words.leaves)
        mark(c.leaves.at, tree_leaves(s) * s.tau, leaf_bits(s));
    if (words.witness)
        mark(c.witness.at, 1, s.n);
    if (words.y)
        mark(section_y(&c), 1, s.m);
    if (words.branch)
        leak_by_branch(secret);
    if (words.index)
        leak_by_address(secret);
    answer = call_all(&c, words.leaves);
    drop_case(&c);
    return answer == (fails && !(only && only->make == call_hash) ? refused : 0);
}

/* With no equations none can fail. */
static int mark_all_shapes(struct words words)
{
    int right = 1;
    for (size_t i = 0; i < SHAPES; i++)
        for (int fails = 0; fails <= (words.fails && shapes[i].m > 0); fails++)
            right &= mark_and_call(shapes[i], words, fails);
    return !right;
}

/* Writes or reads the five strings of a case. */
static void pass(size_t (*through)(void *, size_t, size_t, FILE *), struct made *c, FILE *file)
{
    struct lent *const all[] = { &c->key, &c->witness, &c->leaves, &c->hash_matrix, &c->batching };
    for (size_t i = 0; i < sizeof all / sizeof all[0]; i++)
        if (through(all[i]->at, 1, all[i]->len, file) != all[i]->len)
            exit(2);
}

static size_t write_all(void *at, size_t size, size_t count, FILE *file)
{
    return fwrite(at, size, count, file);
}

static int make_file(unsigned variant, FILE *file)
{
    for (size_t i = 0; i < TRACED; i++) {
        struct made c = make_variant(traced[i], variant);
        pass(write_all, &c, file);
        drop_case(&c);
    }
    return fclose(file) != 0;
}

static int read_and_call(int leak, FILE *file)
{
    uint32_t answers = 0;
    for (size_t i = 0; i < (leak ? SMALL : TRACED); i++) {
        struct made c = lend_case(traced[i]);
        pass(fread, &c, file);
        if (leak)
            leak_by_address(c.witness.at);
        answers |= call_all(&c, 0);
        drop_case(&c);
    }
    return answers != 0;
}

int main(int count, char **words)
{
    if (count > 2 && strcmp(words[1], "mark") == 0)
        return mark_all_shapes(read_words(words + 2));
    FILE *file = count > 2 ? fopen(words[count - 1], count == 4 ? "wb" : "rb") : NULL;
    if (file && count == 4)
        return make_file(words[2][0] & 1u, file);
    if (file)
        return read_and_call(strcmp(words[1], "trace-leak") == 0, file);
    return 2;
}
