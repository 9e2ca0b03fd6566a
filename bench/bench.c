/*
 * Times the library beside the same job in C and in plain Rust, in one run, and measures the stack of each
 * call; then times the verifier at several shapes, and plots that. Usage:
 * bench PLOT.svg HISTORY.tsv STAMP [REPETITIONS]
 *
 * Every program first makes the same bytes and gives the same answers, or the run ends. Then each call of each
 * program is timed in turn, again and again, so that a change of the machine's pace meets all of them, and each
 * time after a call that is not timed, so that none pays for what the one before it left in the caches. Medians
 * are printed, and the least times, which a busy machine disturbs less. The time is the thread's processor time.
 * The rendering is slow, and is repeated less often: the table says how often. With one repetition it is not
 * asked past 160 variables.
 *
 * With BEFORE an earlier archive is timed too, at the sizes that it serves. With BEFORE_BARE it is one whose calls take
 * no degree, and is timed at degree 8. With BEFORE_SHARED it is one from before each repetition had a mask of its own,
 * and is lent leaves and a hash_matrix of its own lengths, and proves itself.
 */
#define _XOPEN_SOURCE 700
#include <math.h>
#include <stdio.h>
#include <time.h>

#include "case.h"
#include "depth.h"

enum { TEST, COMMIT, HASH, BATCH, PROVE, VERIFY, CALLS };
static const char *const call_names[CALLS] = { "test", "commit", "hash", "batch", "prove", "verify" };

/* ---- The programs ------------------------------------------------------------------------- */

typedef const uint8_t *in;
struct program {
    const char *name;
    uint32_t (*test)(in, size_t, uint32_t, in, size_t);
    uint32_t (*commit)(in, size_t, uint32_t, in, size_t, in, size_t, uint8_t *, size_t);
    uint32_t (*hash)(in, size_t, uint32_t, in, size_t, in, size_t, uint8_t *, size_t);
    uint32_t (*batch)(in, size_t, uint32_t, in, size_t, in, size_t, in, size_t, uint8_t *, size_t);
    uint32_t (*prove)(in, size_t, uint32_t, in, size_t, in, size_t, in, size_t, in, size_t, uint8_t *, size_t);
    uint32_t (*verify)(in, size_t, uint32_t, in, size_t, in, size_t, in, size_t, in, size_t, in, size_t);
};

/* What stands between the key and the rest: the degree, or nothing. */
#define DECLARE(prefix, ...) \
    uint32_t prefix##test(in, size_t __VA_ARGS__, in, size_t); \
    uint32_t prefix##commit(in, size_t __VA_ARGS__, in, size_t, in, size_t, uint8_t *, size_t); \
    uint32_t prefix##hash(in, size_t __VA_ARGS__, in, size_t, in, size_t, uint8_t *, size_t); \
    uint32_t prefix##batch(in, size_t __VA_ARGS__, in, size_t, in, size_t, in, size_t, uint8_t *, size_t); \
    uint32_t prefix##prove(in, size_t __VA_ARGS__, in, size_t, in, size_t, in, size_t, in, size_t, uint8_t *, size_t); \
    uint32_t prefix##verify(in, size_t __VA_ARGS__, in, size_t, in, size_t, in, size_t, in, size_t, in, size_t);
#define PROGRAM(name, prefix) \
    { name, prefix##test, prefix##commit, prefix##hash, prefix##batch, prefix##prove, prefix##verify }

DECLARE(baseline_gcc_, , uint32_t)
DECLARE(baseline_clang_, , uint32_t)
DECLARE(plain_gcc_, , uint32_t)
DECLARE(plain_clang_, , uint32_t)
DECLARE(rendering_, , uint32_t)

/* With BEFORE another archive of the library stands beside this one. */
#ifdef BEFORE
#ifdef BEFORE_BARE
DECLARE(before_, )

static uint32_t earlier_test(in k, size_t k_len, uint32_t degree, in x, size_t x_len)
{
    (void)degree;
    return before_test(k, k_len, x, x_len);
}

static uint32_t earlier_commit(in k, size_t k_len, uint32_t degree, in l, size_t l_len, in x, size_t x_len,
                               uint8_t *out, size_t len)
{
    (void)degree;
    return before_commit(k, k_len, l, l_len, x, x_len, out, len);
}

static uint32_t earlier_hash(in k, size_t k_len, uint32_t degree, in l, size_t l_len, in h, size_t h_len,
                             uint8_t *out, size_t len)
{
    (void)degree;
    return before_hash(k, k_len, l, l_len, h, h_len, out, len);
}

static uint32_t earlier_batch(in k, size_t k_len, uint32_t degree, in l, size_t l_len, in x, size_t x_len, in b,
                              size_t b_len, uint8_t *out, size_t len)
{
    (void)degree;
    return before_batch(k, k_len, l, l_len, x, x_len, b, b_len, out, len);
}

static uint32_t earlier_prove(in k, size_t k_len, uint32_t degree, in l, size_t l_len, in x, size_t x_len, in h,
                              size_t h_len, in b, size_t b_len, uint8_t *out, size_t len)
{
    (void)degree;
    return before_prove(k, k_len, l, l_len, x, x_len, h, h_len, b, b_len, out, len);
}

static uint32_t earlier_verify(in k, size_t k_len, uint32_t degree, in d, size_t d_len, in h, size_t h_len, in b,
                               size_t b_len, in o, size_t o_len, in p, size_t p_len)
{
    (void)degree;
    return before_verify(k, k_len, d, d_len, h, h_len, b, b_len, o, o_len, p, p_len);
}
enum { BEFORE_IS_BARE = 1 };
#define EARLIER_PROGRAM PROGRAM("before", earlier_)
#else
DECLARE(before_, , uint32_t)
enum { BEFORE_IS_BARE = 0 };
#define EARLIER_PROGRAM PROGRAM("before", before_)
#endif
enum { LIBRARY, BASELINE_GCC, BASELINE_CLANG, PLAIN_GCC, PLAIN_CLANG, EARLIER, RENDERING, PROGRAMS };
#else
enum { LIBRARY, BASELINE_GCC, BASELINE_CLANG, PLAIN_GCC, PLAIN_CLANG, RENDERING, PROGRAMS, EARLIER = -1 };
#endif
static const struct program programs[PROGRAMS] = {
    PROGRAM("library", mq_),
    PROGRAM("C, gcc", baseline_gcc_),
    PROGRAM("C, clang", baseline_clang_),
    PROGRAM("plain, gcc", plain_gcc_),
    PROGRAM("plain, clang", plain_clang_),
#ifdef BEFORE
    EARLIER_PROGRAM,
#endif
    PROGRAM("rendering", rendering_),
};

/* What the earlier archive is lent: the same case, or one of its own lengths. None where it is not asked. */
static struct made *before;

static int with_rendering = 1;

static int is_asked(int p)
{
    return (p != EARLIER || before) && (p != RENDERING || with_rendering);
}

/* The bytes of the proof by the length of its leaves, which the earlier archive may have otherwise. */
static size_t written(int call, const struct made *c)
{
    const struct sizes s = c->sizes;
    const size_t w = c->leaves.len / (tree_leaves(s) * s.tau);
    const size_t commit = 2 * MQ_COUNT_SIZE + (s.tau - 1) * w + MQ_STRING_SIZE(s.n);
    const size_t hash = MQ_HASH_SIZE(s.n, s.m, s.tau, s.t, s.degree);
    const size_t batch = MQ_BATCH_SIZE(s.n, s.m, s.tau, s.t, s.degree);
    switch (call) {
    case COMMIT: return commit;
    case HASH: return hash;
    case BATCH: return batch;
    case PROVE: return commit + hash + batch;
    default: return 0;
    }
}

static uint32_t make_call(const struct program *p, int call, const struct made *c, uint8_t *out)
{
#ifdef BEFORE
    if (p == &programs[EARLIER])
        c = before;
#endif
    const size_t len = written(call, c);
    const struct lent *k = &c->key, *l = &c->leaves, *x = &c->witness, *h = &c->hash_matrix, *b = &c->batching;
    const uint32_t d = c->sizes.degree;
    switch (call) {
    case TEST: return p->test(k->at, k->len, d, x->at, x->len);
    case COMMIT: return p->commit(k->at, k->len, d, l->at, l->len, x->at, x->len, out, len);
    case HASH: return p->hash(k->at, k->len, d, l->at, l->len, h->at, h->len, out, len);
    case BATCH: return p->batch(k->at, k->len, d, l->at, l->len, x->at, x->len, b->at, b->len, out, len);
    case VERIFY:
        return p->verify(k->at, k->len, d, c->delta.at, c->delta.len, h->at, h->len, b->at, b->len, c->opened.at,
                         c->opened.len, c->proof.at, c->proof.len);
    default:
        return p->prove(k->at, k->len, d, l->at, l->len, x->at, x->len, h->at, h->len, b->at, b->len, out, len);
    }
}

/* ---- Times -------------------------------------------------------------------------------- */

/* Milliseconds of this thread. */
static double now(void)
{
    struct timespec t;
    clock_gettime(CLOCK_THREAD_CPUTIME_ID, &t);
    return (double)t.tv_sec * 1e3 + (double)t.tv_nsec / 1e6;
}

struct times {
    double *taken;
    int count;
};

static double time_call(const struct program *p, int call, const struct made *c, uint8_t *out)
{
    const double start = now();
    const uint32_t word = make_call(p, call, c, out);
    const double taken = now() - start;
    if (word) {
        printf("%s %s: refused %u place %u\n", p->name, call_names[call], MQ_NUMBER(word), MQ_PLACE(word));
        exit(1);
    }
    return taken;
}

static int by_size(const void *a, const void *b)
{
    const double x = *(const double *)a, y = *(const double *)b;
    return (x > y) - (x < y);
}

/* Of times that are sorted. 0 where there are none. */
static double median(const struct times *t)
{
    if (t->count == 0)
        return 0;
    return t->count % 2 ? t->taken[t->count / 2] : (t->taken[t->count / 2 - 1] + t->taken[t->count / 2]) / 2;
}

static double least(const struct times *t)
{
    return t->count ? t->taken[0] : 0;
}

/* Every program writes the library's bytes. The rendering is slow: its whole proof stands for its steps. */
static void compare_bytes(const struct made *c, uint8_t *expected, uint8_t *out)
{
    for (int call = COMMIT; call <= PROVE; call++) {
        const size_t len = written(call, c);
        time_call(&programs[LIBRARY], call, c, expected);
        for (int p = LIBRARY + 1; p < PROGRAMS; p++) {
            if (!is_asked(p) || (p == RENDERING && call != PROVE) || (p == EARLIER && before != c))
                continue;
            memset(out, 0xEE, len);
            time_call(&programs[p], call, c, out);
            if (memcmp(out, expected, len)) {
                printf("%s %s: not the library's bytes\n", programs[p].name, call_names[call]);
                exit(1);
            }
        }
    }
}

/* Every program accepts the library's proof, and refuses it when a bit of the last repetition is changed. */
static void compare_answers(struct made *c)
{
    const size_t last = c->sizes.tau - 1;
    uint8_t *delta = c->delta.at + last;
    const uint32_t refused = MQ_REFUSED_PRODUCT_DIFFERS * 65536 + (uint32_t)last;
    *delta |= 1; /* so that QS1 counts */
    open_leaves(c);
    time_call(&programs[LIBRARY], PROVE, c, c->proof.at);
    for (int p = 0; p < PROGRAMS; p++) {
        if (!is_asked(p))
            continue;
        const struct made *lent = p == EARLIER ? before : c;
        uint8_t *qs1 = lent->proof.at + lent->proof.len - 1;
        time_call(&programs[p], VERIFY, c, NULL);
        *qs1 ^= 1;
        if (make_call(&programs[p], VERIFY, c, NULL) != refused) {
            printf("%s verify: a changed proof is not refused as it should be\n", programs[p].name);
            exit(1);
        }
        *qs1 ^= 1;
    }
}

/* Once each program but the rendering, each call from the first one on. */
static void measure_once(const struct made *c, int first, struct times times[PROGRAMS][CALLS], uint8_t *out)
{
    for (int call = first; call < CALLS; call++)
        for (int p = 0; p < RENDERING; p++) {
            struct times *t = &times[p][call];
            if (!is_asked(p))
                continue;
            time_call(&programs[p], call, c, out);
            t->taken[t->count++] = time_call(&programs[p], call, c, out);
        }
}

/* The rendering, for about so many milliseconds a call, at least once. */
static const double rendering_budget = 3000;

static void measure_rendering(const struct made *c, int first, int repetitions, struct times times[PROGRAMS][CALLS],
                              uint8_t *out)
{
    for (int call = first; call < CALLS && with_rendering; call++) {
        struct times *t = &times[RENDERING][call];
        const double start = now();
        do
            t->taken[t->count++] = time_call(&programs[RENDERING], call, c, out);
        while (t->count < repetitions && now() - start < rendering_budget);
    }
}

static void sort_times(struct times times[PROGRAMS][CALLS])
{
    for (int p = 0; p < PROGRAMS; p++)
        for (int call = 0; call < CALLS; call++)
            qsort(times[p][call].taken, (size_t)times[p][call].count, sizeof(double), by_size);
}

static double lesser(double a, double b)
{
    return a < b ? a : b;
}

/* A number that is 0 was not measured. */
static void print_number(double number, int width, int digits)
{
    if (number > 0)
        printf("%*.*f", width, digits, number);
    else
        printf("%*s", width, "-");
}

static void print_times(const char *what, double (*of)(const struct times *), struct times times[PROGRAMS][CALLS])
{
    double m[PROGRAMS];
    printf("%-10s", what);
    for (int p = 0; p < PROGRAMS; p++)
        printf("%13s", programs[p].name);
    printf("   library/C  library/plain  rendering/library");
#ifdef BEFORE
    printf("  library/before");
#endif
    printf("\n");
    for (int call = 0; call < CALLS; call++) {
        printf("%-10s", call_names[call]);
        for (int p = 0; p < PROGRAMS; p++) {
            m[p] = of(&times[p][call]);
            print_number(m[p], 13, 4);
        }
        print_number(m[LIBRARY] / lesser(m[BASELINE_GCC], m[BASELINE_CLANG]), 12, 2);
        print_number(m[LIBRARY] / lesser(m[PLAIN_GCC], m[PLAIN_CLANG]), 15, 2);
        print_number(m[RENDERING] / m[LIBRARY], 19, 1);
#ifdef BEFORE
        print_number(m[EARLIER] > 0 ? m[LIBRARY] / m[EARLIER] : 0, 16, 3);
#endif
        printf("\n");
    }
}

static void print_all_times(struct times times[PROGRAMS][CALLS])
{
    print_times("median, ms", median, times);
    print_times("least, ms", least, times);
    printf("of %d; of the rendering:", times[LIBRARY][TEST].count);
    for (int call = 0; call < CALLS; call++)
        printf(" %s %d", call_names[call], times[RENDERING][call].count);
    printf("\n");
}

/* ---- Reading, and the history ------------------------------------------------------------- */

/* All that the verifier is lent, read once, eight bytes at a time. */
static double time_reading(const struct made *c)
{
    static volatile uint64_t sink;
    const struct lent lent[] = { c->key, c->delta, c->hash_matrix, c->batching, c->opened, c->proof };
    uint64_t sum[4] = { 0 };
    const double start = now();
    for (size_t i = 0; i < sizeof lent / sizeof *lent; i++)
        for (size_t at = 0; at + 32 <= lent[i].len; at += 32) {
            uint64_t word[4];
            memcpy(word, lent[i].at + at, 32);
            for (int k = 0; k < 4; k++)
                sum[k] += word[k];
        }
    const double taken = now() - start;
    sink = sum[0] + sum[1] + sum[2] + sum[3];
    (void)sink;
    return taken;
}

static void print_reading(const struct made *c, int repetitions, struct times times[PROGRAMS][CALLS])
{
    struct times t = { calloc((size_t)repetitions, sizeof(double)), 0 };
    if (!t.taken)
        abort();
    time_reading(c);
    while (t.count < repetitions)
        t.taken[t.count++] = time_reading(c);
    qsort(t.taken, (size_t)t.count, sizeof(double), by_size);
    const double verify = median(&times[LIBRARY][VERIFY]), read = median(&t);
    printf("verify takes %.1f times as long as reading what it is lent once (%.4f ms)\n", verify / read, read);
    free(t.taken);
}

/* Date and commit, the shape, and for each call that takes a witness or a proof whole the median's ratio to C and the
   rendering's to it. */
static void keep(FILE *history, const char *stamp, struct sizes s, struct times times[PROGRAMS][CALLS])
{
    const int calls[] = { TEST, PROVE, VERIFY };
    for (int i = 0; i < 3; i++) {
        double m[PROGRAMS];
        for (int p = 0; p < PROGRAMS; p++)
            m[p] = median(&times[p][calls[i]]);
        fprintf(history, "%s\t%zu\t%zu\t%zu\t%zu\t%u\t%s\t%.2f\t%.0f\n", stamp, s.n, s.m, s.tau, s.t,
                (unsigned)s.degree, call_names[calls[i]], m[LIBRARY] / lesser(m[BASELINE_GCC], m[BASELINE_CLANG]),
                m[RENDERING] / m[LIBRARY]);
    }
}

/* ---- Stack -------------------------------------------------------------------------------- */

static struct {
    const struct program *program;
    int call;
    const struct made *made;
    uint8_t *out;
    uint32_t word;
} order;

static void on_stack(void)
{
    if (order.program)
        order.word = make_call(order.program, order.call, order.made, order.out);
}

static size_t depth(const struct program *p, int call, const struct made *c, uint8_t *out)
{
    order.program = p;
    order.call = call;
    order.made = c;
    order.out = out;
    order.word = 0;
    const size_t deepest = depth_of(on_stack);
    if (order.word) {
        printf("%s %s: refused on another stack\n", p->name, call_names[call]);
        exit(1);
    }
    return deepest;
}

static void print_stack(const struct made *c, uint8_t *out)
{
    const size_t bare = depth(NULL, 0, c, out);
    printf("%-10s", "stack");
    for (int p = 0; p < RENDERING; p++)
        printf("%13s", programs[p].name);
    printf("   bytes below the caller, at the deepest\n");
    for (int call = 0; call < CALLS; call++) {
        printf("%-10s", call_names[call]);
        for (int p = 0; p < RENDERING; p++)
            if (is_asked(p))
                printf("%13zu", depth(&programs[p], call, c, out) - bare);
            else
                printf("%13s", "-");
        printf("\n");
    }
}

/* ---- One shape, all calls ----------------------------------------------------------------- */

static void start_times(struct times times[PROGRAMS][CALLS], int repetitions)
{
    for (int p = 0; p < PROGRAMS; p++)
        for (int call = 0; call < CALLS; call++) {
            times[p][call].taken = calloc((size_t)repetitions, sizeof(double));
            times[p][call].count = 0;
            if (!times[p][call].taken)
                abort();
        }
}

static void drop_times(struct times times[PROGRAMS][CALLS])
{
    for (int p = 0; p < PROGRAMS; p++)
        for (int call = 0; call < CALLS; call++)
            free(times[p][call].taken);
}

#ifdef BEFORE
/* All lengths but those of leaves, hash_matrix and proof are the same, and at one repetition these are too. */
static struct made make_shared(struct made c)
{
    const struct sizes s = c.sizes;
    const size_t row = MQ_HASH_ROW_BITS(s.n, s.m, 1, s.t, 8), w = MQ_LEAF_SIZE(s.n, s.m, 1, s.t, 8);
    uint64_t seed = 1;
    c.delta = lend(c.delta.len);
    for (size_t e = 0; e < s.tau; e++)
        c.delta.at[e] = (uint8_t)(draw(&seed) | 1);
    c.leaves = lend(s.tau * MQ_LEAVES_SIZE(s.n, s.m, 1, s.t, 8));
    draw_strings(&seed, c.leaves.at, MQ_FIELD_SIZE(8) * s.tau, row + s.t);
    c.opened = lend(s.tau * MQ_OPENED_SIZE(s.n, s.m, 1, s.t, 8));
    for (size_t e = 0; e < s.tau; e++) {
        const size_t first = c.delta.at[e] * w, all = MQ_FIELD_SIZE(8) * w;
        uint8_t *const at = c.opened.at + e * (all - w);
        memcpy(at, c.leaves.at + e * all, first);
        memcpy(at + first, c.leaves.at + e * all + first + w, all - w - first);
    }
    c.hash_matrix = lend(MQ_HASH_MATRIX_SIZE(s.n, s.m, 1, s.t, 8));
    draw_strings(&seed, c.hash_matrix.at, s.t, row);
    c.proof = lend(written(PROVE, &c));
    return c;
}

/* What the earlier archive is lent beside a case, where it serves its sizes. */
static void start_before(struct made *c)
{
    static struct made shared;
    uint32_t number;
    before = NULL;
    if (BEFORE_IS_BARE && c->sizes.degree != 8)
        return;
    before = c;
#ifdef BEFORE_SHARED
    shared = make_shared(*c);
    before = &shared;
#else
    (void)shared;
    (void)make_shared;
#endif
    number = MQ_NUMBER(make_call(&programs[EARLIER], TEST, c, NULL));
    if (number == MQ_REFUSED_SIZE_OUT_OF_RANGE || number == MQ_REFUSED_DEGREE_UNSERVED)
        before = NULL;
    else if (before != c)
        time_call(&programs[EARLIER], PROVE, c, before->proof.at);
}

static void end_before(const struct made *c)
{
    if (before && before != c) {
        free(before->delta.at);
        free(before->leaves.at);
        free(before->opened.at);
        free(before->hash_matrix.at);
        free(before->proof.at);
    }
    before = NULL;
}
#else
static void start_before(struct made *c)
{
    (void)c;
}

static void end_before(const struct made *c)
{
    (void)c;
}
#endif

/* With one repetition, which is a test that all is in order, the rendering would take most of the time. */
static int is_slow(struct sizes sizes, int repetitions)
{
    return repetitions == 1 && sizes.n > 160;
}

static void bench(struct sizes sizes, int repetitions, FILE *history, const char *stamp)
{
    struct made c = make_case(1, sizes);
    const size_t len = written(PROVE, &c);
    uint8_t *expected = lend(len).at, *out = lend(len).at;
    struct times times[PROGRAMS][CALLS];
    with_rendering = !is_slow(sizes, repetitions);
    start_before(&c);
    start_times(times, repetitions);
    printf("n = %zu, m = %zu, tau = %zu, t = %zu, degree %u\n", sizes.n, sizes.m, sizes.tau, sizes.t,
           (unsigned)sizes.degree);
    fflush(stdout);
    compare_bytes(&c, expected, out);
    compare_answers(&c);
    for (int r = 0; r < repetitions; r++)
        measure_once(&c, TEST, times, out);
    measure_rendering(&c, TEST, repetitions, times, out);
    sort_times(times);
    print_all_times(times);
    print_reading(&c, repetitions, times);
    keep(history, stamp, sizes, times);
    print_stack(&c, out);
    printf("\n");
    end_before(&c);
    drop_times(times);
    free(expected);
    free(out);
    drop_case(&c);
}

/* ---- The verifier at several shapes ------------------------------------------------------- */

/* The second, and n, m and tau changed one at a time; then what the limits were, and what they are; then the fast set
 * at both degrees. */
enum { SHAPES = 11, BASE = 1, FORMER = 7, LARGEST = 8, FAST_AT_8 = 9, FAST = 10 };
static const struct sizes shapes[SHAPES] = {
    { 40, 160, 16, 80, 8 },   { 80, 160, 16, 80, 8 },   { 160, 160, 16, 80, 8 },  { 320, 160, 16, 80, 8 },
    { 80, 80, 16, 80, 8 },    { 80, 320, 16, 80, 8 },   { 80, 160, 48, 80, 8 },   { 160, 160, 48, 160, 8 },
    { 320, 320, 48, 288, 8 }, { 150, 150, 43, 144, 8 }, { 150, 150, 43, 144, 4 },
};

/* What is compared: each C program by the better of its two compilers. */
enum { BY_LIBRARY, BY_C, BY_PLAIN, BY_RENDERING, BY };
static const char *const by_names[BY] = { "library", "C", "plain", "rendering" };
enum { PLOTTED = BY_RENDERING }; /* the rendering is out of scale */

/* Median times of the verifier. The shapes are timed in turn, so that a change of pace meets all of them. */
static void time_shapes(int repetitions, double taken[SHAPES][BY])
{
    static struct times times[SHAPES][PROGRAMS][CALLS];
    struct made c[SHAPES];
    for (int i = 0; i < SHAPES; i++) {
        c[i] = make_case(1, shapes[i]);
        with_rendering = !is_slow(shapes[i], repetitions);
        compare_answers(&c[i]);
        start_times(times[i], repetitions);
    }
    for (int r = 0; r < repetitions; r++)
        for (int i = 0; i < SHAPES; i++)
            measure_once(&c[i], VERIFY, times[i], NULL);
    for (int i = 0; i < SHAPES; i++) {
        double m[PROGRAMS];
        with_rendering = !is_slow(shapes[i], repetitions);
        measure_rendering(&c[i], VERIFY, repetitions, times[i], NULL);
        sort_times(times[i]);
        for (int p = 0; p < PROGRAMS; p++)
            m[p] = median(&times[i][p][VERIFY]);
        taken[i][BY_LIBRARY] = m[LIBRARY];
        taken[i][BY_C] = lesser(m[BASELINE_GCC], m[BASELINE_CLANG]);
        taken[i][BY_PLAIN] = lesser(m[PLAIN_GCC], m[PLAIN_CLANG]);
        taken[i][BY_RENDERING] = m[RENDERING];
        drop_times(times[i]);
        drop_case(&c[i]);
    }
}

/* The terms that the forms of the equations have, as a multiple of those of the second shape. */
static double terms(struct sizes s)
{
    const struct sizes b = shapes[BASE];
    return (double)(s.n * s.n * s.m * s.tau) / (double)(b.n * b.n * b.m * b.tau);
}

static void print_shapes(double taken[SHAPES][BY])
{
    printf("verify: median, ms, and as a multiple of that at n = %zu, m = %zu, tau = %zu, t = %zu\n", shapes[BASE].n,
           shapes[BASE].m, shapes[BASE].tau, shapes[BASE].t);
    printf("%4s%5s%5s%5s%7s%14s", "n", "m", "tau", "t", "degree", "n^2 m tau");
    for (int b = 0; b < BY; b++)
        printf("%20s", by_names[b]);
    printf("   library/C  library/plain\n");
    for (int i = 0; i < SHAPES; i++) {
        const struct sizes s = shapes[i];
        printf("%4zu%5zu%5zu%5zu%7u%14.2f", s.n, s.m, s.tau, s.t, (unsigned)s.degree, terms(s));
        for (int b = 0; b < BY; b++) {
            print_number(taken[i][b], 12, 4);
            printf(" x");
            print_number(taken[i][b] / taken[BASE][b], 6, 2);
        }
        printf("%12.2f%15.2f\n", taken[i][BY_LIBRARY] / taken[i][BY_C], taken[i][BY_LIBRARY] / taken[i][BY_PLAIN]);
    }
    printf("what n adds from 80 to 160, over what it adds from 40 to 80 (4 for a constant and n^2, 2 for a constant and n):");
    for (int b = 0; b < BY; b++)
        printf(" %s %.2f", by_names[b], (taken[2][b] - taken[1][b]) / (taken[1][b] - taken[0][b]));
    printf("\nat the limits of today over those of before, n = m = t = 160 (n^2 m gives 8):");
    for (int b = 0; b < BY; b++)
        if (taken[LARGEST][b] > 0)
            printf(" %s %.2f", by_names[b], taken[LARGEST][b] / taken[FORMER][b]);
    printf("\nthe fast set, n = m = 150, tau = 43, t = 144: at degree 4 so many times as fast as at degree 8:");
    for (int b = 0; b < BY; b++)
        if (taken[FAST][b] > 0)
            printf(" %s %.2f", by_names[b], taken[FAST_AT_8][b] / taken[FAST][b]);
    printf("\nA part of each time does not grow: reading and hashing for all three, and for tau also what is made once for all\n"
           "repetitions (library and C fold the matrices and sum them by fives).\n");
}

/* ---- The plot ----------------------------------------------------------------------------- */

enum { LEFT = 70, TOP = 60, WIDE = 170, HIGH = 300, BAR = 34 };
static const char *const colours[PLOTTED] = { "#1b6ca8", "#c8553d", "#8a8a8a" };

/* Times go by their logarithm, from one power of ten to another: the largest shape takes a hundred times as long as the
 * least. */
struct scale {
    double bottom, top;
};

static double height(struct scale scale, double time)
{
    return log(time / scale.bottom) / log(scale.top / scale.bottom) * HIGH;
}

static struct scale scale_of(double taken[SHAPES][BY])
{
    struct scale scale = { taken[0][0], taken[0][0] };
    for (int i = 0; i < SHAPES; i++)
        for (int b = 0; b < PLOTTED; b++) {
            scale.bottom = lesser(scale.bottom, taken[i][b]);
            scale.top = -lesser(-scale.top, -taken[i][b]);
        }
    scale.bottom = pow(10, floor(log10(scale.bottom)));
    scale.top = pow(10, ceil(log10(scale.top)));
    return scale;
}

static void plot_frame(FILE *file, struct scale scale)
{
    const int right = LEFT + SHAPES * WIDE;
    fprintf(file, "<svg xmlns='http://www.w3.org/2000/svg' width='%d' height='%d' font-family='sans-serif' "
            "font-size='12'>\n<rect width='100%%' height='100%%' fill='white'/>\n", right + 20, TOP + HIGH + 70);
    fprintf(file, "<text x='%d' y='22' font-size='15'>mq_verify: median time, ms, by its logarithm; above each bar the "
            "multiple of the second shape</text>\n", LEFT);
    for (double time = scale.bottom; time < 1.01 * scale.top; time *= 10) {
        const double y = TOP + HIGH - height(scale, time);
        fprintf(file, "<line x1='%d' y1='%.1f' x2='%d' y2='%.1f' stroke='#dddddd'/>\n", LEFT, y, right, y);
        fprintf(file, "<text x='%d' y='%.1f' text-anchor='end'>%g</text>\n", LEFT - 8, y + 4, time);
    }
    for (int b = 0; b < PLOTTED; b++) {
        fprintf(file, "<rect x='%d' y='34' width='12' height='12' fill='%s'/>\n", LEFT + b * 110, colours[b]);
        fprintf(file, "<text x='%d' y='45'>%s</text>\n", LEFT + b * 110 + 17, by_names[b]);
    }
}

static void plot_shape(FILE *file, int i, double taken[SHAPES][BY], struct scale scale)
{
    const struct sizes s = shapes[i];
    const int x = LEFT + i * WIDE + (WIDE - PLOTTED * BAR) / 2, middle = LEFT + i * WIDE + WIDE / 2;
    for (int b = 0; b < PLOTTED; b++) {
        const double high = height(scale, taken[i][b]), y = TOP + HIGH - high;
        fprintf(file, "<rect x='%d' y='%.1f' width='%d' height='%.1f' fill='%s'/>\n", x + b * BAR, y, BAR - 4, high,
                colours[b]);
        fprintf(file, "<text x='%d' y='%.1f' text-anchor='middle' font-size='10'>%.2f</text>\n",
                x + b * BAR + (BAR - 4) / 2, y - 4, taken[i][b] / taken[BASE][b]);
    }
    fprintf(file, "<text x='%d' y='%d' text-anchor='middle'>n %zu, m %zu, tau %zu, t %zu</text>\n", middle,
            TOP + HIGH + 20, s.n, s.m, s.tau, s.t);
    fprintf(file, "<text x='%d' y='%d' text-anchor='middle' fill='#666666'>degree %u, n^2 m tau: %.2f</text>\n", middle,
            TOP + HIGH + 38, (unsigned)s.degree, terms(s));
}

static void plot(const char *name, double taken[SHAPES][BY])
{
    FILE *file = fopen(name, "w");
    const struct scale scale = scale_of(taken);
    if (!file) {
        perror(name);
        exit(1);
    }
    plot_frame(file, scale);
    for (int i = 0; i < SHAPES; i++)
        plot_shape(file, i, taken, scale);
    fprintf(file, "</svg>\n");
    if (fclose(file)) {
        perror(name);
        exit(1);
    }
    printf("plotted: %s\n", name);
}

/* ------------------------------------------------------------------------------------------- */

int main(int count, char **words)
{
    const int repetitions = count > 4 ? atoi(words[4]) : 301;
    const struct sizes usual = { 150, 150, 19, 144, 8 };
    double taken[SHAPES][BY];
    if (count < 4 || repetitions < 1) {
        printf("usage: bench PLOT.svg HISTORY.tsv STAMP [REPETITIONS]\n");
        return 2;
    }
    FILE *history = fopen(words[2], "a");
    if (!history) {
        perror(words[2]);
        return 1;
    }
    bench(usual, repetitions, history, words[3]);
    bench(shapes[FORMER], repetitions, history, words[3]);
    bench(shapes[LARGEST], repetitions, history, words[3]);
    bench(shapes[FAST_AT_8], repetitions, history, words[3]);
    bench(shapes[FAST], repetitions, history, words[3]);
    if (fclose(history)) {
        perror(words[2]);
        return 1;
    }
    time_shapes(repetitions, taken);
    print_shapes(taken);
    plot(words[1], taken);
    return 0;
}
