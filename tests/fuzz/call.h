/* What a fuzz target says of its call, and the rendering's side of the six calls, and the shapes (src/lib.rs). */
#ifndef CALL_H
#define CALL_H

#include "case.h"

enum input { KEY, LEAVES, WITNESS, HASH_MATRIX, BATCHING, DELTA, OPENED, PROOF, INPUTS };

/* Asks the library or the rendering. Inputs go by their names above, whether or not the call takes them. */
typedef uint32_t asked(const struct lent *in, uint32_t degree, struct lent out);

struct call {
    const char *name;
    enum input takes[6];
    size_t count; /* how many it takes */
    size_t (*writes)(struct sizes sizes);
    int answers[20]; /* the numbers that it can answer, 0 for accepted; -1 ends them */
    asked *library, *rendering;
};

/* Each target has one. */
extern const struct call the_call;

/* A string as two arguments of the library, and the key with the degree after it. */
#define LENT(string) (string).at, (string).len
#define LENT_KEY(in, degree) LENT((in)[KEY]), degree

uint32_t rendering_test(struct lent key, uint32_t degree, struct lent witness);
uint32_t rendering_commit(struct lent key, uint32_t degree, struct lent leaves, struct lent witness, struct lent out);
uint32_t rendering_hash(struct lent key, uint32_t degree, struct lent leaves, struct lent hash_matrix, struct lent out);
uint32_t rendering_batch(struct lent key, uint32_t degree, struct lent leaves, struct lent witness,
                         struct lent batching, struct lent out);
uint32_t rendering_prove(struct lent key, uint32_t degree, struct lent leaves, struct lent witness,
                         struct lent hash_matrix, struct lent batching, struct lent out);
uint32_t rendering_verify(struct lent key, uint32_t degree, struct lent delta, struct lent hash_matrix,
                          struct lent batching, struct lent opened, struct lent proof);

/* The shapes to start from: those of tests/shapes with a size at a kernel's threshold, at degree 8 and then at 4. */
size_t shape_count(void);
struct sizes shape_sizes(size_t which);

#endif
