/*
 * Solfadrus: a prover and a verifier for knowledge of a solution of a quadratic system over GF(2).
 *
 * The library is libsolfadrus.a. It is written in Rattle, and every function below is proved to
 * meet its contract; this header says the same in words, for callers in C and C++. The order of
 * the questions, their numbers and their places are those of docs/REFUSALS.md. Helpers for callers,
 * which are not proved, are in solfadrus_util.h.
 *
 *
 * CONTENTS
 *
 *   1. Conventions        how a call is made, and what it answers
 *   2. Sizes and formats  the bytes of a key, witness, leaves, challenges and proof
 *   3. Answers            the numbers 1 to 18, and what each asks
 *   4. The caller's duty  what the library cannot see, and relies on
 *   5. Size functions and macros
 *   6. The calls          mq_test, mq_commit, mq_hash, mq_batch, mq_prove, mq_verify
 *
 *
 * 1. CONVENTIONS
 *
 * Every byte string is lent as a pointer and a length, and stays the caller's. The library
 * allocates nothing, keeps nothing between two calls, and has no global state: any number of
 * calls may run at the same time.
 *
 * Every call ends, whatever bytes it is lent, and answers one word:
 *
 *     0                        accepted
 *     number * 65536 + place   refused; MQ_NUMBER(word) and MQ_PLACE(word) take it apart
 *
 * An accepted call has written every byte of its output. A refused call has written none: `out`
 * is as it was. So read the word before you use the output. mq_test and mq_verify have no output,
 * and never write.
 *
 *
 * 2. SIZES AND FORMATS
 *
 * Four sizes, which stand at the head of the key, fix every length:
 *
 *     n     variables      1 .. MQ_MAX_VARIABLES
 *     m     equations      0 .. MQ_MAX_EQUATIONS
 *     tau   repetitions    1 .. MQ_MAX_REPETITIONS
 *     t     hash rows      1 .. MQ_MAX_HASH_ROWS
 *
 * with the degree r of the field, which is no part of the key: it stands beside the key in every call.
 *
 *     degree 8   K = GF(256), products modulo X^8 + X^4 + X^3 + X + 1, as in FIPS 197
 *     degree 4   K = GF(16), products modulo X^4 + X + 1
 *
 * A tree has as many leaves as K has elements, 2^r: 256 or 16. A key and its witness serve at both
 * degrees; leaves, challenges and proof are those of one. For the same assurance degree 4 takes more
 * repetitions: SECURITY.md.
 *
 * A key with no equations, m = 0, is for practice: A, b, y and batching are empty, the key has 20 bytes,
 * any witness fits, QS0 and QS1 are the masks alone, and 11 is never answered. A proof for it shows
 * nothing: a verifier who takes keys from others looks at m first.
 *
 * From these  k = n + r tau  (r mask coordinates for each repetition: those of repetition e are
 * n + re .. n + re + r - 1),  L = k + t  (bits of a leaf),  w = ceil(L / 8)  (bytes of a leaf).
 *
 * A string of c bits takes ceil(c / 8) bytes; coordinate i is bit i mod 8 (bit 0 the lowest) of
 * byte floor(i / 8). The bits past the last coordinate are spare, and must be 0. A count is four
 * bytes, lowest first. A section is its count, and then as many bytes.
 *
 * An element of K is a byte, bit s for X^s. At degree 4 it is the low half, and the high half must be
 * 0: no two elements share a byte. A sum is the exclusive or.
 *
 *   key          n, m, tau, t, two bytes each, lowest first; then the sections A, b, y:
 *                A   m matrices of n rows of n bits, matrix 0 row 0 first
 *                b   m rows of n bits
 *                y   m bits
 *                Equation i is  x^T A_i x + b_i x = y_i . A_i need not be symmetric.
 *   witness      x, n bits. SECRET.
 *   leaves       for each repetition e, rising, 2^r leaves of L bits, j rising from 0. SECRET.
 *   hash_matrix  H', t rows of k bits.
 *   batching     chi, for each repetition, rising, m elements of K, one for each equation, rising. No bytes
 *                where m = 0: it is lent with length 0, and any pointer, NULL too.
 *   delta        for each repetition one element of K.
 *   opened       for each repetition e, rising, the 2^r - 1 leaves with j other than delta[e],
 *                rising: leaf j stands at place j below delta[e], and at place j - 1 above it.
 *   proof        the sections  C, d, u~, V~, QS0, QS1 :
 *                C     for each repetition but the first, rising, L bits   (count 0 at tau = 1)
 *                d     n bits
 *                u~    t bits
 *                V~    for each repetition, rising, t elements of K, by hash row
 *                QS0   for each repetition one element of K
 *                QS1   for each repetition one element of K
 *
 * mq_commit writes the sections C and d, mq_hash u~ and V~, mq_batch QS0 and QS1, each with their
 * counts. One after the other these are the bytes that mq_prove writes.
 *
 *
 * 3. ANSWERS
 *
 * Each call puts the questions that concern its inputs, in this order. The first no is the answer.
 *
 *   16  Is the degree 8 or 4?
 *    1  Has the key at least the 8 bytes of its header?
 *    2  Are n, m, tau, t in range?
 *    3  Are all counts and the key's length exact?
 *    4  Are the key's spare bits 0 (in each row of A, each row of b, and y)?
 *    5  Have the challenges that this call uses exact lengths?
 *    6  Are the spare bits of hash_matrix 0?
 *   17  Are the bytes of delta and batching elements (at degree 4, at most 15)?
 *    7  Have the leaves their exact length?
 *    8  Are the spare bits of each leaf 0?
 *    9  Has the witness ceil(n / 8) bytes, spare bits 0?
 *   10  Has the output exactly the length to be written?
 *   11  Does the witness solve the system?     place: the lowest-numbered equation that fails
 *   12  Are the proof's counts and length exact?
 *   13  Are the spare bits of C, d, u~ 0?
 *   18  Are the bytes of V~, QS0, QS1 elements (at degree 4, at most 15)?
 *   14  Does consistency hold in every repetition?         place: the first one where not
 *   15  Does the product check hold in every repetition?   place: the first one where not
 *
 * The place is 0 for all numbers but 11, 14 and 15; equations and repetitions count from 0. 12 to 15
 * and 18 are questions of mq_verify alone. 14 is put of every repetition before 15 of any. At degree 8
 * every byte is an element, so 17 and 18 are answers at degree 4 alone.
 *
 *
 * 4. THE CALLER'S DUTY
 *
 * No input, however made, can make a call fail to return, write outside `out`, or read outside
 * what it was lent. That rests on the following, which a callee cannot test.
 *
 *   Pointers   Each pointer is valid for the length that stands beside it: an input for reading,
 *              `out` for writing. Where the length is 0, any pointer will do, NULL too. No
 *              alignment is asked for.
 *   Overlap    `out` overlaps no input. Inputs may overlap each other, and the same inputs may be
 *              lent to several calls at once.
 *   Stillness  Nobody else writes an input, or reads or writes `out`, until the call returns.
 *   Stack      The calling thread has MQ_STACK_BYTES, which is 256 KiB, of stack left, whatever the
 *              key's sizes. With less, a call can end the process. That a call takes less is
 *              measured (tests/stack.c), and is not proved.
 *
 * What the proof is worth rests on these.
 *
 *   Secrets    Leaves and witness are secret. Answers 8, 9 and 11 of the prover's calls tell
 *              something about them, and the place of 11 does too: keep them from strangers. That
 *              nothing else does, no branch and no address, is tested on the built library
 *              (tests/secrets.sh), and is not proved. Nothing lent to mq_verify is secret, and its
 *              time depends on what it is lent.
 *   Leaves     All bits of all leaves (but the spare ones) are drawn uniformly and independently,
 *              from a generator fit for keys, anew for each proof. A set of leaves serves ONE
 *              proof: one degree, one witness, one hash_matrix, one batching, one delta.
 *   Opening    Never open the same leaves at two delta. Two openings of a repetition show all of
 *              its leaves, and they and d give the witness away.
 *   Challenges hash_matrix is drawn after the output of mq_commit is fixed, batching after that
 *              of mq_hash, and delta after that of mq_batch; each so that the prover can neither
 *              foresee nor choose it. mq_verify is lent them, and cannot see who drew them, or
 *              when.
 *   Degree     It is agreed on before the first challenge is drawn, with the repetitions that it
 *              needs: the one who is to be convinced does not take it from the prover.
 *   Binding    The prover fixes all leaves before the first challenge is drawn. mq_verify takes
 *              opened leaves as they are lent: that they are those is for the caller to see to.
 *   Wiping     Wipe leaves and witness when they have served. The calls work on the stack, and do
 *              not wipe it. After mq_commit, mq_hash, mq_batch and mq_prove it holds u, the sum of
 *              the leaves of the first repetition, and u and d give the witness. It can hold the
 *              witness itself too, and after mq_test a part of it. So burn the stack after each of
 *              these: mq_burn_stack of solfadrus_util.h does it (tests/burn.c). It clears no
 *              registers.
 *
 * Under these duties a proof and its opened leaves favour no solution of the system: for each,
 * exactly one choice of the hidden leaves makes the same proof and opens to the same leaves, at
 * either degree and at every delta. That is proved. SECURITY.md says what it shows, and what not:
 * where there is one solution, that they tell nothing of it is the argument of the papers. It rests
 * on each repetition having mask coordinates of its own. The attack that one mask for all would
 * allow is mounted against the built library too (tests/attack).
 */

#ifndef SOLFADRUS_H
#define SOLFADRUS_H

#include <stddef.h>
#include <stdint.h>

#ifdef __cplusplus
extern "C" {
#endif

/* An answer that is not looked at is an error of the caller: compilers that can, say so. */
#if defined(__GNUC__)
#define MQ_LOOK_AT_ANSWER __attribute__((warn_unused_result))
#else
#define MQ_LOOK_AT_ANSWER
#endif

/* The version of this header: major * 65536 + minor * 256 + patch. */
#define MQ_VERSION_MAJOR 0
#define MQ_VERSION_MINOR 2
#define MQ_VERSION_PATCH 0
#define MQ_VERSION (MQ_VERSION_MAJOR * 65536 + MQ_VERSION_MINOR * 256 + MQ_VERSION_PATCH)

/* Limits. The least value of each size is 1, and of m it is 0. */
#define MQ_MAX_VARIABLES 320
#define MQ_MAX_EQUATIONS 320
#define MQ_MAX_REPETITIONS 48
#define MQ_MAX_HASH_ROWS 288

/* The stack that a call must find left. */
#define MQ_STACK_BYTES 262144

/* The field K of a degree, which is 8 or 4: its size, and the modulus, bit s for X^s. */
#define MQ_FIELD_SIZE(degree) ((degree) == 4 ? 16 : 256)
#define MQ_FIELD_MODULUS(degree) ((degree) == 4 ? 0x13 : 0x11B)

/* The word of an accepted call, and the two halves of any word. */
#define MQ_ACCEPTED 0
#define MQ_NUMBER(word) ((word) / 65536)
#define MQ_PLACE(word) ((word) % 65536)

/* The numbers. Their questions stand above. */
#define MQ_REFUSED_SHORT_HEADER 1
#define MQ_REFUSED_SIZE_OUT_OF_RANGE 2
#define MQ_REFUSED_KEY_LENGTH 3
#define MQ_REFUSED_KEY_SPARE_BIT 4
#define MQ_REFUSED_CHALLENGE_LENGTH 5
#define MQ_REFUSED_HASH_SPARE_BIT 6
#define MQ_REFUSED_LEAF_LENGTH 7
#define MQ_REFUSED_LEAF_SPARE_BIT 8
#define MQ_REFUSED_WITNESS_FORM 9
#define MQ_REFUSED_OUTPUT_LENGTH 10
#define MQ_REFUSED_EQUATION_FAILS 11  /* place: the lowest-numbered equation that fails */
#define MQ_REFUSED_PROOF_LENGTH 12
#define MQ_REFUSED_PROOF_SPARE_BIT 13
#define MQ_REFUSED_INCONSISTENT 14    /* place: the first repetition where not */
#define MQ_REFUSED_PRODUCT_DIFFERS 15 /* place: the first repetition where not */
#define MQ_REFUSED_DEGREE_UNSERVED 16
#define MQ_REFUSED_CHALLENGE_ELEMENT 17
#define MQ_REFUSED_PROOF_ELEMENT 18

/*
 * 5. SIZE FUNCTIONS AND MACROS
 *
 * For each length a macro, which is a constant expression where its arguments are, and a function
 * of the same value. All take the four sizes, in the key's order, and then the degree, whether or
 * not the length depends on each.
 *
 * The macros are right for sizes in range and degree 8 or 4, and test nothing. The functions answer
 * 0 where a size is out of range or the degree is another. In range no length is 0, but that of
 * batching with no equations: to learn whether sizes are in range, ask mq_key_size, which then is not 0.
 *
 *     macro                   function              bytes
 *     MQ_KEY_SIZE             mq_key_size           a key
 *     MQ_WITNESS_SIZE         mq_witness_size       a witness
 *     MQ_LEAVES_SIZE          mq_leaves_size        full leaves, which the prover takes
 *     MQ_OPENED_SIZE          mq_opened_size        opened leaves
 *     MQ_HASH_MATRIX_SIZE     mq_hash_matrix_size   hash_matrix
 *     MQ_BATCHING_SIZE        mq_batching_size      batching
 *     MQ_DELTA_SIZE           mq_delta_size         delta
 *     MQ_COMMIT_SIZE          mq_commit_size        what mq_commit writes, counts included
 *     MQ_HASH_SIZE            mq_hash_size          what mq_hash writes, counts included
 *     MQ_BATCH_SIZE           mq_batch_size         what mq_batch writes, counts included
 *     MQ_PROOF_SIZE           mq_proof_size         what mq_prove writes, counts included
 *
 * With the largest sizes the key has 4108860 bytes; at degree 8 the leaves have 1523712, the opened
 * leaves 1517760 and the proof 19848; at degree 4 the leaves have 76800, the opened leaves 72000 and
 * the proof 18720. So every length is far below 2^32, and fits an int of 32 bits: in range no macro
 * can wrap.
 */
#define MQ_COUNT_SIZE 4
#define MQ_HEADER_SIZE 8

/* Bytes of a string of so many bits. */
#define MQ_STRING_SIZE(bits) (((bits) + 7) / 8)

/* Bits of one row of hash_matrix (k), and of one leaf (L). */
#define MQ_HASH_ROW_BITS(n, m, tau, t, degree) ((n) + (degree) * (tau))
#define MQ_LEAF_BITS(n, m, tau, t, degree) (MQ_HASH_ROW_BITS(n, m, tau, t, degree) + (t))

/* Bytes of one row of hash_matrix, and of one leaf (w). */
#define MQ_HASH_ROW_SIZE(n, m, tau, t, degree) MQ_STRING_SIZE(MQ_HASH_ROW_BITS(n, m, tau, t, degree))
#define MQ_LEAF_SIZE(n, m, tau, t, degree) MQ_STRING_SIZE(MQ_LEAF_BITS(n, m, tau, t, degree))

#define MQ_KEY_SIZE(n, m, tau, t, degree) \
    (MQ_HEADER_SIZE + 3 * MQ_COUNT_SIZE + (m) * (n) * MQ_STRING_SIZE(n) \
     + (m) * MQ_STRING_SIZE(n) + MQ_STRING_SIZE(m))
#define MQ_WITNESS_SIZE(n, m, tau, t, degree) MQ_STRING_SIZE(n)
#define MQ_LEAVES_SIZE(n, m, tau, t, degree) \
    ((tau) * MQ_FIELD_SIZE(degree) * MQ_LEAF_SIZE(n, m, tau, t, degree))
#define MQ_OPENED_SIZE(n, m, tau, t, degree) \
    ((tau) * ((degree) == 4 ? 15 : 255) * MQ_LEAF_SIZE(n, m, tau, t, degree))
#define MQ_HASH_MATRIX_SIZE(n, m, tau, t, degree) ((t) * MQ_HASH_ROW_SIZE(n, m, tau, t, degree))
#define MQ_BATCHING_SIZE(n, m, tau, t, degree) ((tau) * (m))
#define MQ_DELTA_SIZE(n, m, tau, t, degree) (tau)
#define MQ_COMMIT_SIZE(n, m, tau, t, degree) \
    (2 * MQ_COUNT_SIZE + ((tau) - 1) * MQ_LEAF_SIZE(n, m, tau, t, degree) + MQ_STRING_SIZE(n))
#define MQ_HASH_SIZE(n, m, tau, t, degree) (2 * MQ_COUNT_SIZE + MQ_STRING_SIZE(t) + (tau) * (t))
#define MQ_BATCH_SIZE(n, m, tau, t, degree) (2 * MQ_COUNT_SIZE + 2 * (tau))
#define MQ_PROOF_SIZE(n, m, tau, t, degree) \
    (MQ_COMMIT_SIZE(n, m, tau, t, degree) + MQ_HASH_SIZE(n, m, tau, t, degree) \
     + MQ_BATCH_SIZE(n, m, tau, t, degree))

size_t mq_key_size(size_t n, size_t m, size_t tau, size_t t, uint32_t degree);
size_t mq_witness_size(size_t n, size_t m, size_t tau, size_t t, uint32_t degree);
size_t mq_leaves_size(size_t n, size_t m, size_t tau, size_t t, uint32_t degree);
size_t mq_opened_size(size_t n, size_t m, size_t tau, size_t t, uint32_t degree);
size_t mq_hash_matrix_size(size_t n, size_t m, size_t tau, size_t t, uint32_t degree);
size_t mq_batching_size(size_t n, size_t m, size_t tau, size_t t, uint32_t degree);
size_t mq_delta_size(size_t n, size_t m, size_t tau, size_t t, uint32_t degree);
size_t mq_commit_size(size_t n, size_t m, size_t tau, size_t t, uint32_t degree);
size_t mq_hash_size(size_t n, size_t m, size_t tau, size_t t, uint32_t degree);
size_t mq_batch_size(size_t n, size_t m, size_t tau, size_t t, uint32_t degree);
size_t mq_proof_size(size_t n, size_t m, size_t tau, size_t t, uint32_t degree);

/*
 * The version of the library. Where it is not MQ_VERSION, header and archive do not belong
 * together.
 */
uint32_t mq_version(void);

/*
 * 6. THE CALLS
 *
 * Each says what it takes, what it puts into `out`, and which questions it puts, in order.
 * In all of them `x_len` is the length in bytes of `x`, and `degree` the degree of the field.
 */

/*
 * Tests a key and a witness: is the key of the right form, and does the witness solve it?
 *
 *     questions   16, 1 2 3 4, 9, 11
 *     writes      nothing
 */
MQ_LOOK_AT_ANSWER
uint32_t mq_test(const uint8_t *key, size_t key_len, uint32_t degree,
                 const uint8_t *witness, size_t witness_len);

/*
 * The first step: the corrections.
 *
 * With u_e the sum of the leaves of repetition e, and u = u_0, it writes the section C, which has
 * C_e = u_e + u for e = 1 .. tau - 1, and the section d, which is the witness plus the first n
 * bits of u.
 *
 *     questions   16, 1 2 3 4, 7 8, 9, 10, 11
 *     writes      MQ_COMMIT_SIZE bytes
 */
MQ_LOOK_AT_ANSWER
uint32_t mq_commit(const uint8_t *key, size_t key_len, uint32_t degree,
                   const uint8_t *leaves, size_t leaves_len,
                   const uint8_t *witness, size_t witness_len,
                   uint8_t *out, size_t out_len);

/*
 * The second step: the hashes, under the challenge hash_matrix.
 *
 * With H = [H' | identity of size t] and v_e the sum of the leaves of repetition e, each times its
 * number j as an element of K, it writes the section u~ = H u and the section V~, which has H v_e
 * for each repetition.
 *
 * It takes no witness, so it puts neither 9 nor 11.
 *
 *     questions   16, 1 2 3 4, 5 (hash_matrix), 6, 7 8, 10
 *     writes      MQ_HASH_SIZE bytes
 */
MQ_LOOK_AT_ANSWER
uint32_t mq_hash(const uint8_t *key, size_t key_len, uint32_t degree,
                 const uint8_t *leaves, size_t leaves_len,
                 const uint8_t *hash_matrix, size_t hash_matrix_len,
                 uint8_t *out, size_t out_len);

/*
 * The third step: the batched equations, under the challenge batching.
 *
 * With a0 = v^T A_i v and a1 = v^T A_i x + x^T A_i v + b_i v, where v is the first n coordinates
 * of v_e, it writes for each repetition
 *
 *     QS0 = sum over i of chi(e, i) a0   + sum over s of alpha^s v_e[n + re + s]
 *     QS1 = sum over i of chi(e, i) a1   + sum over s of alpha^s u[n + re + s]
 *
 * with s = 0 .. r - 1 and alpha the element 02.
 *
 *     questions   16, 1 2 3 4, 5 (batching), 17 (batching), 7 8, 9, 10, 11
 *     writes      MQ_BATCH_SIZE bytes
 */
MQ_LOOK_AT_ANSWER
uint32_t mq_batch(const uint8_t *key, size_t key_len, uint32_t degree,
                  const uint8_t *leaves, size_t leaves_len,
                  const uint8_t *witness, size_t witness_len,
                  const uint8_t *batching, size_t batching_len,
                  uint8_t *out, size_t out_len);

/*
 * The whole prover: the bytes of mq_commit, mq_hash and mq_batch, one after the other.
 *
 * It is for callers who hold both challenges already. Where a prover meets them one by one, the
 * three steps are the calls to make.
 *
 *     questions   16, 1 2 3 4, 5 (hash_matrix and batching), 6, 17 (batching), 7 8, 9, 10, 11
 *     writes      MQ_PROOF_SIZE bytes
 */
MQ_LOOK_AT_ANSWER
uint32_t mq_prove(const uint8_t *key, size_t key_len, uint32_t degree,
                  const uint8_t *leaves, size_t leaves_len,
                  const uint8_t *witness, size_t witness_len,
                  const uint8_t *hash_matrix, size_t hash_matrix_len,
                  const uint8_t *batching, size_t batching_len,
                  uint8_t *out, size_t out_len);

/*
 * The verifier: does the proof hold for this key, under these challenges, with these leaves opened?
 *
 * With W_e the sum over j other than delta[e] of (j + delta[e]) times leaf j, plus delta[e] C_e
 * (C_0 is 0, and the first correction sent is C_1), and K_e the first n coordinates of W_e plus
 * delta[e] d, it accepts exactly when in every repetition e
 *
 *     14   H W_e = V~_e + delta[e] u~
 *     15   sum over i of chi(e, i) (K_e^T A_i K_e + delta[e] b_i K_e + delta[e]^2 y_i)
 *          + sum over s of alpha^s W_e[n + re + s]  =  QS0_e + delta[e] QS1_e
 *
 * with s = 0 .. r - 1 and alpha the element 02. The place is the first repetition where 14 fails; where
 * it fails in none, the first where 15 fails.
 *
 * What mq_prove writes is accepted at every delta. A proof that was changed can be accepted too, at
 * few delta: where delta[e] is 0, for one, neither C_e nor d enters.
 *
 *     questions   16, 1 2 3 4, 5 (delta, hash_matrix and batching), 6, 17 (delta and batching), 7 8, 12, 13, 18, 14, 15
 *     writes      nothing
 */
MQ_LOOK_AT_ANSWER
uint32_t mq_verify(const uint8_t *key, size_t key_len, uint32_t degree,
                   const uint8_t *delta, size_t delta_len,
                   const uint8_t *hash_matrix, size_t hash_matrix_len,
                   const uint8_t *batching, size_t batching_len,
                   const uint8_t *opened, size_t opened_len,
                   const uint8_t *proof, size_t proof_len);

#ifdef __cplusplus
}
#endif

#endif
