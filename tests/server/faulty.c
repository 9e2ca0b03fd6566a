/*
 * mq_hash and mq_test with a fault, for the controls of tests/server.sh: each must be found. Of mq_hash it is the
 * 1000th call that is wrong, or every one; of mq_test the first call in which so many equations fail.
 */
#include <stdlib.h>
#include <string.h>

#include "solfadrus.h"

enum { WORD = 1, OUTPUT, GROWTH, LAST_EQUATION, SECOND_EQUATION };

uint32_t faulty_hash(const uint8_t *key, size_t key_len, uint32_t degree, const uint8_t *leaves, size_t leaves_len,
                     const uint8_t *hash_matrix, size_t hash_matrix_len, uint8_t *out, size_t out_len);
uint32_t faulty_test(const uint8_t *key, size_t key_len, uint32_t degree, const uint8_t *witness, size_t witness_len);

uint32_t faulty_hash(const uint8_t *key, size_t key_len, uint32_t degree, const uint8_t *leaves, size_t leaves_len,
                     const uint8_t *hash_matrix, size_t hash_matrix_len, uint8_t *out, size_t out_len)
{
    static int calls, accepted;
    uint32_t word = mq_hash(key, key_len, degree, leaves, leaves_len, hash_matrix, hash_matrix_len, out, out_len);
    if (FAULT == WORD && __sync_add_and_fetch(&calls, 1) == 1000)
        word ^= 1u << 16;
    if (FAULT == OUTPUT && word == MQ_ACCEPTED && __sync_add_and_fetch(&accepted, 1) == 1000)
        out[out_len - 1] ^= 1;
    if (FAULT == GROWTH) {
        volatile uint8_t *lost = malloc(64);
        if (lost)
            lost[0] = 1;
    }
    return word;
}

/* Names the last equation that fails, where there are two; or the second, where there are three. With y of each named
 * equation changed in a copy of the key, the next one is named. */
uint32_t faulty_test(const uint8_t *key, size_t key_len, uint32_t degree, const uint8_t *witness, size_t witness_len)
{
    static int done;
    const uint32_t first = mq_test(key, key_len, degree, witness, witness_len);
    uint32_t word = first, second = first, last = first;
    size_t failing = 0;
    uint8_t *copy, *y;
    if ((FAULT != LAST_EQUATION && FAULT != SECOND_EQUATION) || MQ_NUMBER(first) != MQ_REFUSED_EQUATION_FAILS)
        return first;
    copy = malloc(key_len);
    if (!copy)
        abort();
    memcpy(copy, key, key_len);
    y = copy + key_len - MQ_STRING_SIZE(copy[2] | (size_t)copy[3] << 8);
    for (; word != MQ_ACCEPTED; word = mq_test(copy, key_len, degree, witness, witness_len)) {
        y[MQ_PLACE(word) / 8] ^= (uint8_t)(1 << MQ_PLACE(word) % 8);
        last = word;
        if (++failing == 2)
            second = word;
    }
    free(copy);
    if (FAULT == LAST_EQUATION && failing >= 2 && __sync_add_and_fetch(&done, 1) == 1)
        return last;
    if (FAULT == SECOND_EQUATION && failing >= 3 && __sync_add_and_fetch(&done, 1) == 1)
        return second;
    return first;
}
