/*
 * The six calls, over what the program that includes this has defined: `struct work`, and
 *
 *     ask_solves    question 11
 *     sum_all       the leaf sums
 *     make_all      the leaf sums, and all else that hash and batch look up
 *     make_batch    QS0 and QS1, and question 11
 *     write_commit, write_hash, write_batch   sections with their counts; they answer where these end
 *     check_proof   questions 14 and 15
 *
 * They are those of one degree, and take none (names.h, dispatch.c).
 */
#include "names.h"

uint32_t AT(DEGREE, test)(const uint8_t *key_at, size_t key_len, const uint8_t *x, size_t x_len)
{
    const struct text lent = { key_at, key_len }, witness = { x, x_len };
    struct key key;
    uint32_t number = ask_key(lent, &key);
    if (!number)
        number = ask_witness(&key, witness);
    return number ? number * 65536 : ask_solves(&key, x);
}

uint32_t AT(DEGREE, commit)(const uint8_t *key_at, size_t key_len, const uint8_t *leaves, size_t leaves_len,
                            const uint8_t *x, size_t x_len, uint8_t *out, size_t out_len)
{
    struct text witness = { x, x_len };
    const struct inputs in = { { key_at, key_len }, { leaves, leaves_len }, &witness, NULL, NULL, out_len };
    struct key key;
    struct work work;
    uint32_t word = ask_form(&in, &key, commit_size) * 65536;
    if (!word)
        word = ask_solves(&key, x);
    if (word)
        return word;
    sum_all(&key, leaves, &work);
    write_commit(&key, &work, x, out);
    return MQ_ACCEPTED;
}

uint32_t AT(DEGREE, hash)(const uint8_t *key_at, size_t key_len, const uint8_t *leaves, size_t leaves_len,
                          const uint8_t *h, size_t h_len, uint8_t *out, size_t out_len)
{
    struct text hash_matrix = { h, h_len };
    const struct inputs in = { { key_at, key_len }, { leaves, leaves_len }, NULL, &hash_matrix, NULL, out_len };
    struct key key;
    struct work work;
    const uint32_t number = ask_form(&in, &key, hash_size);
    if (number)
        return number * 65536;
    make_all(&key, leaves, key.hash_row, &work);
    write_hash(&key, &work, h, out);
    return MQ_ACCEPTED;
}

uint32_t AT(DEGREE, batch)(const uint8_t *key_at, size_t key_len, const uint8_t *leaves, size_t leaves_len,
                           const uint8_t *x, size_t x_len, const uint8_t *chi, size_t chi_len,
                           uint8_t *out, size_t out_len)
{
    struct text witness = { x, x_len }, batching = { chi, chi_len };
    const struct inputs in = { { key_at, key_len }, { leaves, leaves_len }, &witness, NULL, &batching, out_len };
    struct key key;
    struct work work;
    struct batched made;
    uint32_t word = ask_form(&in, &key, batch_size) * 65536;
    if (word)
        return word;
    make_all(&key, leaves, key.row, &work);
    word = make_batch(&key, &work, x, chi, &made);
    if (!word)
        write_batch(&key, &made, out);
    return word;
}

uint32_t AT(DEGREE, prove)(const uint8_t *key_at, size_t key_len, const uint8_t *leaves, size_t leaves_len,
                           const uint8_t *x, size_t x_len, const uint8_t *h, size_t h_len,
                           const uint8_t *chi, size_t chi_len, uint8_t *out, size_t out_len)
{
    struct text witness = { x, x_len }, hash_matrix = { h, h_len }, batching = { chi, chi_len };
    const struct inputs in = {
        { key_at, key_len }, { leaves, leaves_len }, &witness, &hash_matrix, &batching, out_len
    };
    struct key key;
    struct work work;
    struct batched made;
    uint32_t word = ask_form(&in, &key, proof_size) * 65536;
    if (word)
        return word;
    make_all(&key, leaves, key.hash_row, &work);
    word = make_batch(&key, &work, x, chi, &made);
    if (word)
        return word;
    out = write_commit(&key, &work, x, out);
    out = write_hash(&key, &work, h, out);
    write_batch(&key, &made, out);
    return MQ_ACCEPTED;
}

uint32_t AT(DEGREE, verify)(const uint8_t *key_at, size_t key_len, const uint8_t *delta, size_t delta_len,
                            const uint8_t *h, size_t h_len, const uint8_t *chi, size_t chi_len,
                            const uint8_t *opened, size_t opened_len, const uint8_t *proof_at, size_t proof_len)
{
    const struct claim in = {
        { key_at, key_len }, { delta, delta_len }, { h, h_len }, { chi, chi_len }, { opened, opened_len },
        { proof_at, proof_len }
    };
    struct key key;
    struct proof proof;
    struct work work;
    const uint32_t number = ask_claim(&in, &key, &proof);
    return number ? number * 65536 : check_proof(&key, &in, &proof, &work);
}
