/* The fuzz target of mq_verify. */
#include "call.h"

static size_t writes(struct sizes s)
{
    (void)s;
    return 0;
}

static uint32_t library(const struct lent *in, uint32_t degree, struct lent out)
{
    (void)out;
    return mq_verify(LENT_KEY(in, degree), LENT(in[DELTA]), LENT(in[HASH_MATRIX]), LENT(in[BATCHING]), LENT(in[OPENED]),
                     LENT(in[PROOF]));
}

static uint32_t rendering(const struct lent *in, uint32_t degree, struct lent out)
{
    (void)out;
    return rendering_verify(in[KEY], degree, in[DELTA], in[HASH_MATRIX], in[BATCHING], in[OPENED], in[PROOF]);
}

const struct call the_call = {
    .name = "mq_verify",
    .takes = { KEY, DELTA, HASH_MATRIX, BATCHING, OPENED, PROOF },
    .count = 6,
    .writes = writes,
    .answers = { 0, 1, 2, 3, 4, 5, 6, 7, 8, 12, 13, 14, 15, 16, 17, 18, -1 },
    .library = library,
    .rendering = rendering,
};
