/* The fuzz target of mq_test. */
#include "call.h"

static size_t writes(struct sizes s)
{
    (void)s;
    return 0;
}

static uint32_t library(const struct lent *in, uint32_t degree, struct lent out)
{
    (void)out;
    return mq_test(LENT_KEY(in, degree), LENT(in[WITNESS]));
}

static uint32_t rendering(const struct lent *in, uint32_t degree, struct lent out)
{
    (void)out;
    return rendering_test(in[KEY], degree, in[WITNESS]);
}

const struct call the_call = {
    .name = "mq_test",
    .takes = { KEY, WITNESS },
    .count = 2,
    .writes = writes,
    .answers = { 0, 1, 2, 3, 4, 9, 11, 16, -1 },
    .library = library,
    .rendering = rendering,
};
