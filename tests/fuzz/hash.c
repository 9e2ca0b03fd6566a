/* The fuzz target of mq_hash. */
#include "call.h"

static size_t writes(struct sizes s)
{
    return MQ_HASH_SIZE(s.n, s.m, s.tau, s.t, s.degree);
}

static uint32_t library(const struct lent *in, uint32_t degree, struct lent out)
{
    return mq_hash(LENT_KEY(in, degree), LENT(in[LEAVES]), LENT(in[HASH_MATRIX]), LENT(out));
}

static uint32_t rendering(const struct lent *in, uint32_t degree, struct lent out)
{
    return rendering_hash(in[KEY], degree, in[LEAVES], in[HASH_MATRIX], out);
}

const struct call the_call = {
    .name = "mq_hash",
    .takes = { KEY, LEAVES, HASH_MATRIX },
    .count = 3,
    .writes = writes,
    .answers = { 0, 1, 2, 3, 4, 5, 6, 7, 8, 10, 16, -1 },
    .library = library,
    .rendering = rendering,
};
