/* The size functions and the version, so that a program of this folder makes a whole libsolfadrus.a, which
 * tests/compare can then hold against the rendering. */
#include "solfadrus.h"

#define SIZE(name, MACRO) \
    size_t mq_##name##_size(size_t n, size_t m, size_t tau, size_t t, uint32_t degree) \
    { \
        if (n < 1 || n > MQ_MAX_VARIABLES || m < 1 || m > MQ_MAX_EQUATIONS || tau < 1 \
            || tau > MQ_MAX_REPETITIONS || t < 1 || t > MQ_MAX_HASH_ROWS || (degree != 8 && degree != 4)) \
            return 0; \
        return MQ_##MACRO##_SIZE(n, m, tau, t, degree); \
    }
SIZE(key, KEY)
SIZE(witness, WITNESS)
SIZE(leaves, LEAVES)
SIZE(opened, OPENED)
SIZE(hash_matrix, HASH_MATRIX)
SIZE(batching, BATCHING)
SIZE(delta, DELTA)
SIZE(commit, COMMIT)
SIZE(hash, HASH)
SIZE(batch, BATCH)
SIZE(proof, PROOF)

uint32_t mq_version(void)
{
    return MQ_VERSION;
}
