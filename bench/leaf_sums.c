/*
 * Times the leaf sums alone, at the largest key and both degrees, beside a plain walk of coordinates in C that divides
 * (walk.c), and, with BEFORE, beside an earlier archive of the same crate. Usage: leaf_sums [REPETITIONS]
 *
 * First all programs must make the same bytes, at each width of a leaf up to that of the largest key; the narrow ones
 * have code of their own. The library must refuse other lengths. Then they are timed in turn, again and again, so that
 * a change of the machine's pace meets all of them, each time after a millisecond of calls that are not timed: the walk
 * takes a hundred times as long, and leaves the caches as it likes. The time is the thread's processor time.
 */
#define _XOPEN_SOURCE 700
#include <stdio.h>
#include <time.h>

#include "case.h"

typedef uint32_t sums_call(uint8_t *, size_t, uint8_t *, size_t, const uint8_t *, size_t, size_t, size_t, size_t);
sums_call sum_leaves, walk_gcc_sum_leaves, walk_clang_sum_leaves, before_sum_leaves;

struct program {
    const char *name;
    sums_call *sum;
};
static const struct program programs[] = {
    { "library", sum_leaves },
#ifdef BEFORE
    { "before", before_sum_leaves },
#endif
    { "walk, gcc", walk_gcc_sum_leaves },
    { "walk, clang", walk_clang_sum_leaves },
};
enum { PROGRAMS = sizeof(programs) / sizeof(programs[0]) };

/* tau trees of 2^r leaves of w bytes, and what each program makes of them. The lanes of the table are as many as a key
 * may have repetitions. */
struct trees {
    size_t tau, w, r;
    struct lent leaves, table[PROGRAMS], sums[PROGRAMS];
};

static struct trees make_trees(size_t tau, size_t w, size_t r)
{
    struct trees t = { tau, w, r, lend((tau << r) * w), { { 0 } }, { { 0 } } };
    uint64_t seed = w;
    for (size_t i = 0; i < t.leaves.len; i++)
        t.leaves.at[i] = (uint8_t)draw(&seed);
    for (int p = 0; p < PROGRAMS; p++) {
        t.table[p] = lend(8 * w * MQ_MAX_REPETITIONS);
        t.sums[p] = lend(tau * w);
    }
    return t;
}

static void drop_trees(struct trees *t)
{
    free(t->leaves.at);
    for (int p = 0; p < PROGRAMS; p++) {
        free(t->table[p].at);
        free(t->sums[p].at);
    }
}

static uint32_t sum(const struct trees *t, int p)
{
    return programs[p].sum(t->table[p].at, t->table[p].len, t->sums[p].at, t->sums[p].len, t->leaves.at, t->leaves.len,
                           t->tau, t->w, t->r);
}

static void fail(const char *what, const struct trees *t)
{
    printf("%s, with %zu trees of 2^%zu leaves of %zu bytes\n", what, t->tau, t->r, t->w);
    exit(1);
}

static void compare(const struct trees *t)
{
    for (int p = 0; p < PROGRAMS; p++) {
        if (sum(t, p))
            fail("refused", t);
        if (memcmp(t->table[p].at, t->table[0].at, t->table[0].len)
            || memcmp(t->sums[p].at, t->sums[0].at, t->sums[0].len))
            fail("other bytes", t);
    }
}

/* A byte less of any of the three, and the library writes nothing. */
static void refuse(const struct trees *t)
{
    for (int i = 0; i < 3; i++) {
        const struct lent table = t->table[1], sums = t->sums[1];
        memset(table.at, 0x55, table.len);
        memset(sums.at, 0x55, sums.len);
        if (!sum_leaves(table.at, table.len - (i == 0), sums.at, sums.len - (i == 1), t->leaves.at,
                        t->leaves.len - (i == 2), t->tau, t->w, t->r))
            fail("not refused", t);
        for (size_t k = 0; k < table.len + sums.len; k++)
            if ((k < table.len ? table.at[k] : sums.at[k - table.len]) != 0x55)
                fail("written though refused", t);
    }
}

static double now(void)
{
    struct timespec t;
    clock_gettime(CLOCK_THREAD_CPUTIME_ID, &t);
    return (double)t.tv_sec * 1e3 + (double)t.tv_nsec / 1e6;
}

static int by_value(const void *a, const void *b)
{
    const double x = *(const double *)a, y = *(const double *)b;
    return (x > y) - (x < y);
}

static double median(const double *sorted, int count)
{
    return (sorted[count / 2] + sorted[(count - 1) / 2]) / 2;
}

/* Each time also as a multiple of the library's. */
static void bench(uint32_t degree, int repetitions)
{
    const size_t tau = MQ_MAX_REPETITIONS;
    const size_t w = MQ_LEAF_SIZE(MQ_MAX_VARIABLES, MQ_MAX_EQUATIONS, tau, MQ_MAX_HASH_ROWS, degree);
    struct trees t = make_trees(tau, w, degree);
    double *taken[PROGRAMS];
    compare(&t);
    for (int p = 0; p < PROGRAMS; p++)
        if (!(taken[p] = calloc((size_t)repetitions, sizeof(double))))
            abort();
    for (int k = 0; k < repetitions; k++)
        for (int p = 0; p < PROGRAMS; p++) {
            double start = now();
            while (sum(&t, p), now() - start < 1)
                ;
            start = now();
            sum(&t, p);
            taken[p][k] = now() - start;
        }
    compare(&t);
    printf("n = %d, m = %d, tau = %zu, t = %d, degree %u: leaves of %zu bytes, %zu to a tree\n", MQ_MAX_VARIABLES,
           MQ_MAX_EQUATIONS, tau, MQ_MAX_HASH_ROWS, (unsigned)degree, w, (size_t)1 << degree);
    for (int p = 0; p < PROGRAMS; p++)
        qsort(taken[p], (size_t)repetitions, sizeof(double), by_value);
    for (int p = 0; p < PROGRAMS; p++) {
        const double middle = median(taken[p], repetitions);
        printf("  %-12s median %8.4f ms, least %8.4f; of the library's %7.3f (%.3f)\n", programs[p].name, middle,
               taken[p][0], middle / median(taken[0], repetitions), taken[p][0] / taken[0][0]);
        if (p > 0)
            free(taken[p]);
    }
    free(taken[0]);
    drop_trees(&t);
}

int main(int count, char **words)
{
    const int repetitions = count > 1 ? atoi(words[1]) : 301;
    const size_t widest = MQ_LEAF_SIZE(MQ_MAX_VARIABLES, MQ_MAX_EQUATIONS, MQ_MAX_REPETITIONS, MQ_MAX_HASH_ROWS, 8);
    if (repetitions < 1) {
        printf("usage: leaf_sums [REPETITIONS]\n");
        return 2;
    }
    for (uint32_t degree = 4; degree <= 8; degree += 4)
        for (size_t w = 1; w <= widest; w++) {
            struct trees t = make_trees(2, w, degree);
            compare(&t);
            refuse(&t);
            drop_trees(&t);
        }
    printf("the same bytes by each program, at both degrees and each width of a leaf from 1 to %zu bytes\n\n", widest);
    bench(8, repetitions);
    bench(4, repetitions);
    return 0;
}
