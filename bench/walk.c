/*
 * The leaf sums as a plain walk of coordinates: for each leaf and each coordinate c, byte c / 8 is looked up and bit
 * c % 8 taken. It asks nothing, and its lengths are those of sum_leaves (crates/leaf_sums). One element in a byte, and
 * a coordinate of u likewise, until all leaves are summed; then both are written as the library has them.
 */
#include <string.h>

#include "names.h"
#include "solfadrus.h"

enum {
    MOST_COORDINATES =
        8 * MQ_LEAF_SIZE(MQ_MAX_VARIABLES, MQ_MAX_EQUATIONS, MQ_MAX_REPETITIONS, MQ_MAX_HASH_ROWS, 8)
};

static void walk_tree(uint8_t *table, uint8_t *sum, const uint8_t *tree, size_t e, size_t w, size_t r)
{
    uint8_t u[MOST_COORDINATES] = { 0 }, v[MOST_COORDINATES] = { 0 };
    for (size_t j = 0; j < (size_t)1 << r; j++) {
        const uint8_t *leaf = tree + j * w;
        for (size_t c = 0; c < 8 * w; c++) {
            const uint8_t bit = leaf[c / 8] >> c % 8 & 1;
            u[c] ^= bit;
            v[c] ^= (uint8_t)(bit * j);
        }
    }
    memset(sum, 0, w);
    for (size_t c = 0; c < 8 * w; c++) {
        sum[c / 8] |= (uint8_t)(u[c] << c % 8);
        table[c * MQ_MAX_REPETITIONS + e] = v[c];
    }
}

uint32_t CALL(sum_leaves)(uint8_t *table, size_t table_len, uint8_t *sums, size_t sums_len, const uint8_t *leaves,
                          size_t leaves_len, size_t tau, size_t w, size_t r)
{
    (void)table_len;
    (void)sums_len;
    (void)leaves_len;
    for (size_t e = 0; e < tau; e++)
        walk_tree(table, sums + e * w, leaves + (e << r) * w, e, w, r);
    return 0;
}
