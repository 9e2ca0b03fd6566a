/* The six calls of a program of this folder: question 16, and then the program that was compiled for that degree. */
#include "names.h"
#include "solfadrus.h"

typedef const uint8_t *in;

#define DECLARE(degree) \
    uint32_t AT(degree, test)(in, size_t, in, size_t); \
    uint32_t AT(degree, commit)(in, size_t, in, size_t, in, size_t, uint8_t *, size_t); \
    uint32_t AT(degree, hash)(in, size_t, in, size_t, in, size_t, uint8_t *, size_t); \
    uint32_t AT(degree, batch)(in, size_t, in, size_t, in, size_t, in, size_t, uint8_t *, size_t); \
    uint32_t AT(degree, prove)(in, size_t, in, size_t, in, size_t, in, size_t, in, size_t, uint8_t *, size_t); \
    uint32_t AT(degree, verify)(in, size_t, in, size_t, in, size_t, in, size_t, in, size_t, in, size_t);
DECLARE(8)
DECLARE(4)

#define HAND_ON(call, ...) \
    switch (degree) { \
    case 8: return AT(8, call)(__VA_ARGS__); \
    case 4: return AT(4, call)(__VA_ARGS__); \
    default: return MQ_REFUSED_DEGREE_UNSERVED * 65536; \
    }

uint32_t CALL(test)(in key, size_t key_len, uint32_t degree, in x, size_t x_len)
{
    HAND_ON(test, key, key_len, x, x_len)
}

uint32_t CALL(commit)(in key, size_t key_len, uint32_t degree, in leaves, size_t leaves_len, in x, size_t x_len,
                      uint8_t *out, size_t out_len)
{
    HAND_ON(commit, key, key_len, leaves, leaves_len, x, x_len, out, out_len)
}

uint32_t CALL(hash)(in key, size_t key_len, uint32_t degree, in leaves, size_t leaves_len, in h, size_t h_len,
                    uint8_t *out, size_t out_len)
{
    HAND_ON(hash, key, key_len, leaves, leaves_len, h, h_len, out, out_len)
}

uint32_t CALL(batch)(in key, size_t key_len, uint32_t degree, in leaves, size_t leaves_len, in x, size_t x_len,
                     in chi, size_t chi_len, uint8_t *out, size_t out_len)
{
    HAND_ON(batch, key, key_len, leaves, leaves_len, x, x_len, chi, chi_len, out, out_len)
}

uint32_t CALL(prove)(in key, size_t key_len, uint32_t degree, in leaves, size_t leaves_len, in x, size_t x_len, in h,
                     size_t h_len, in chi, size_t chi_len, uint8_t *out, size_t out_len)
{
    HAND_ON(prove, key, key_len, leaves, leaves_len, x, x_len, h, h_len, chi, chi_len, out, out_len)
}

uint32_t CALL(verify)(in key, size_t key_len, uint32_t degree, in delta, size_t delta_len, in h, size_t h_len, in chi,
                      size_t chi_len, in opened, size_t opened_len, in proof, size_t proof_len)
{
    HAND_ON(verify, key, key_len, delta, delta_len, h, h_len, chi, chi_len, opened, opened_len, proof, proof_len)
}
