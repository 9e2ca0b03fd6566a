/*
 * Tests what the header says of the stack: each call takes less than MQ_STACK_BYTES of it, at the largest sizes, the
 * usual ones and the least, at both degrees (buffers are those of the largest at all sizes). A control takes more, and
 * must be seen.
 */
#define _XOPEN_SOURCE 700
#include <stdio.h>

#include "case.h"
#include "depth.h"

static const struct sizes shapes[] = {
    { MQ_MAX_VARIABLES, MQ_MAX_EQUATIONS, MQ_MAX_REPETITIONS, MQ_MAX_HASH_ROWS, 8 },
    { MQ_MAX_VARIABLES, MQ_MAX_EQUATIONS, MQ_MAX_REPETITIONS, MQ_MAX_HASH_ROWS, 4 },
    { 150, 150, 19, 144, 8 },
    { 150, 150, 43, 144, 4 },
    { 1, 1, 1, 1, 8 },
    { 1, 1, 1, 1, 4 },
    { 1, 0, 1, 1, 8 },
    { 1, 0, 1, 1, 4 },
};

static struct made made;
static uint8_t *out;
static uint32_t word;

static size_t size_of(size_t (*size)(size_t, size_t, size_t, size_t, uint32_t))
{
    return size(made.sizes.n, made.sizes.m, made.sizes.tau, made.sizes.t, made.sizes.degree);
}

static void nothing(void)
{
}

/* As large a stack as is said, and a byte more. */
static void control(void)
{
    volatile uint8_t room[MQ_STACK_BYTES];
    room[0] = 1;
    word = (uint32_t)(room[0] - 1);
}

#define LENT(NAME) made.NAME.at, made.NAME.len
#define KEY LENT(key), made.sizes.degree

static void test(void)
{
    word = mq_test(KEY, LENT(witness));
}

static void commit(void)
{
    word = mq_commit(KEY, LENT(leaves), LENT(witness), out, size_of(mq_commit_size));
}

static void hash(void)
{
    word = mq_hash(KEY, LENT(leaves), LENT(hash_matrix), out, size_of(mq_hash_size));
}

static void batch(void)
{
    word = mq_batch(KEY, LENT(leaves), LENT(witness), LENT(batching), out, size_of(mq_batch_size));
}

static void prove(void)
{
    word = mq_prove(KEY, LENT(leaves), LENT(witness), LENT(hash_matrix), LENT(batching), LENT(proof));
}

static void verify(void)
{
    word = mq_verify(KEY, LENT(delta), LENT(hash_matrix), LENT(batching), LENT(opened), LENT(proof));
}

static const struct {
    const char *name;
    void (*run)(void);
} calls[] = {
    { "mq_test", test },   { "mq_commit", commit }, { "mq_hash", hash },
    { "mq_batch", batch }, { "mq_prove", prove },   { "mq_verify", verify }, /* what was proved */
};

/* Whether every call of a case accepts, and takes less than the header says. */
static int holds(struct sizes sizes, size_t bare)
{
    int right = 1;
    made = make_case(1, sizes);
    out = lend(made.proof.len).at;
    for (size_t i = 0; i < sizeof calls / sizeof calls[0]; i++) {
        const size_t depth = depth_of(calls[i].run) - bare;
        const char *fault = word ? ": refused" : depth >= MQ_STACK_BYTES ? ": more than the header says" : "";
        printf("n = %zu, m = %zu, degree %u, %s: %zu bytes of stack%s\n", sizes.n, sizes.m, (unsigned)sizes.degree,
               calls[i].name, depth, fault);
        right &= !*fault;
    }
    free(out);
    drop_case(&made);
    return right;
}

int main(void)
{
    const size_t bare = depth_of(nothing);
    int right = 1;
    for (size_t i = 0; i < sizeof shapes / sizeof shapes[0]; i++)
        right &= holds(shapes[i], bare);
    if (depth_of(control) - bare < MQ_STACK_BYTES) {
        printf("the control is not seen\n");
        right = 0;
    }
    return !right;
}
