/* The fuzz target of mq_batch. */
#include "call.h"

static size_t writes(struct sizes s)
{
    return MQ_BATCH_SIZE(s.n, s.m, s.tau, s.t, s.degree);
}

static uint32_t library(const struct lent *in, uint32_t degree, struct lent out)
{
    return mq_batch(LENT_KEY(in, degree), LENT(in[LEAVES]), LENT(in[WITNESS]), LENT(in[BATCHING]), LENT(out));
}

static uint32_t rendering(const struct lent *in, uint32_t degree, struct lent out)
{
    return rendering_batch(in[KEY], degree, in[LEAVES], in[WITNESS], in[BATCHING], out);
}

const struct call the_call = {
    .name = "mq_batch",
    .takes = { KEY, LEAVES, WITNESS, BATCHING },
    .count = 4,
    .writes = writes,
    .answers = { 0, 1, 2, 3, 4, 5, 7, 8, 9, 10, 11, 16, 17, -1 },
    .library = library,
    .rendering = rendering,
};
