/* The fuzz target of mq_commit. */
#include "call.h"

static size_t writes(struct sizes s)
{
    return MQ_COMMIT_SIZE(s.n, s.m, s.tau, s.t, s.degree);
}

static uint32_t library(const struct lent *in, uint32_t degree, struct lent out)
{
    return mq_commit(LENT_KEY(in, degree), LENT(in[LEAVES]), LENT(in[WITNESS]), LENT(out));
}

static uint32_t rendering(const struct lent *in, uint32_t degree, struct lent out)
{
    return rendering_commit(in[KEY], degree, in[LEAVES], in[WITNESS], out);
}

const struct call the_call = {
    .name = "mq_commit",
    .takes = { KEY, LEAVES, WITNESS },
    .count = 3,
    .writes = writes,
    .answers = { 0, 1, 2, 3, 4, 7, 8, 9, 10, 11, 16, -1 },
    .library = library,
    .rendering = rendering,
};
