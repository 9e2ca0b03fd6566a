/*
 * The calls of Solfadrus, in the order in which a prover and a verifier make them.
 *
 * Makes a key with a known solution, leaves and challenges, tests the witness, makes a proof in three
 * steps and at once, verifies it, and shows what is refused: forged proofs, a wrong witness, an output
 * that is too short. Everything random comes from a small seeded generator, so that each run shows the
 * same: real provers and verifiers draw from the system's generator, and a prover keeps it secret.
 * After calls that took secrets the stack is burnt, and at the end leaves and witness are wiped.
 */
#include <stdio.h>
#include <string.h>
#include <time.h>

#include "solfadrus.h"
#include "solfadrus_util.h"

/* The degree of the field: 8, or 4 with -DDEGREE=4. */
#ifndef DEGREE
#define DEGREE 8
#endif

/* The sizes of the key: variables, equations, repetitions, hash rows. With 16 leaves in place of 256 a
 * proof needs more repetitions. */
enum { N = 150, M = 150, TAU = DEGREE == 4 ? 43 : 19, T = 144, ROW = MQ_STRING_SIZE(N) };

static uint8_t key[MQ_KEY_SIZE(N, M, TAU, T, DEGREE)];
static uint8_t witness[MQ_WITNESS_SIZE(N, M, TAU, T, DEGREE)];
static uint8_t leaves[MQ_LEAVES_SIZE(N, M, TAU, T, DEGREE)];
static uint8_t hash_matrix[MQ_HASH_MATRIX_SIZE(N, M, TAU, T, DEGREE)];
static uint8_t batching[MQ_BATCHING_SIZE(N, M, TAU, T, DEGREE)];
static uint8_t delta[MQ_DELTA_SIZE(N, M, TAU, T, DEGREE)];
static uint8_t opened[MQ_OPENED_SIZE(N, M, TAU, T, DEGREE)];
static uint8_t steps[MQ_PROOF_SIZE(N, M, TAU, T, DEGREE)];
static uint8_t whole[MQ_PROOF_SIZE(N, M, TAU, T, DEGREE)];

/* ---- The demo generator: splitmix64 ------------------------------------------------------- */

static uint64_t state = 2026;

static uint8_t draw(void)
{
    uint64_t z = state += UINT64_C(0x9E3779B97F4A7C15);
    z = (z ^ z >> 30) * UINT64_C(0xBF58476D1CE4E5B9);
    z = (z ^ z >> 27) * UINT64_C(0x94D049BB133111EB);
    return (uint8_t)(z >> 56);
}

/* So many strings of so many bits, one after another, spare bits 0. */
static void draw_strings(uint8_t *at, size_t count, size_t bits)
{
    size_t i;
    for (i = 0; i < count * MQ_STRING_SIZE(bits); i++)
        at[i] = draw();
    mq_clear_spare(at, count, bits);
}

/* ---- What is shown ------------------------------------------------------------------------ */

static int failures;
static clock_t started, stopped;

/* The processor time between the two is shown as the call's. */
static void start(void)
{
    started = clock();
}

static void stop(void)
{
    stopped = clock();
}

/* Says what a call answered, what it did, and its time. */
static void show(const char *call, uint32_t word, size_t bytes, const char *what)
{
    const double ms = (double)(stopped - started) * 1e3 / CLOCKS_PER_SEC;
    if (word == MQ_ACCEPTED)
        printf("%-10s accepted           ", call);
    else
        printf("%-10s refused %2u place %-3u", call, (unsigned)MQ_NUMBER(word), (unsigned)MQ_PLACE(word));
    printf(" %8.3f ms %5lu bytes written  %s\n", ms, (unsigned long)(word == MQ_ACCEPTED ? bytes : 0), what);
    if (word != MQ_ACCEPTED)
        printf("           %s\n", mq_message(word));
}

static void expect(int yes, const char *what)
{
    printf("           %s: %s\n", what, yes ? "yes" : "NO");
    failures += !yes;
}

static int unchanged(const uint8_t *bytes, size_t len)
{
    size_t i;
    for (i = 0; i < len; i++)
        if (bytes[i] != 0xEE)
            return 0;
    return 1;
}

/* Through a volatile pointer, so that the compiler does not leave it out. */
static void wipe(volatile uint8_t *secret, size_t len)
{
    while (len > 0)
        secret[--len] = 0;
}

/* ---- The key ------------------------------------------------------------------------------ */

/* Where the sections of the key stand, without their counts. */
static uint8_t *const A = key + MQ_OFFSET_A(N, M, TAU, T, DEGREE);
static uint8_t *const b = key + MQ_OFFSET_B(N, M, TAU, T, DEGREE);
static uint8_t *const y = key + MQ_OFFSET_Y(N, M, TAU, T, DEGREE);

static void put_number(uint8_t *at, size_t number, int bytes)
{
    for (; bytes > 0; bytes--, number >>= 8)
        *at++ = (uint8_t)number;
}

/* A, b and x at random; y so that x solves every equation. */
static void make_key(void)
{
    put_number(key, N, 2);
    put_number(key + 2, M, 2);
    put_number(key + 4, TAU, 2);
    put_number(key + 6, T, 2);
    put_number(A - MQ_COUNT_SIZE, M * N * ROW, MQ_COUNT_SIZE);
    put_number(b - MQ_COUNT_SIZE, M * ROW, MQ_COUNT_SIZE);
    put_number(y - MQ_COUNT_SIZE, MQ_STRING_SIZE(M), MQ_COUNT_SIZE);
    draw_strings(A, M * N, N);
    draw_strings(b, M, N);
    draw_strings(witness, 1, N);
    expect(mq_make_y(key, sizeof key, witness, sizeof witness), "y made for the witness");
}

/* ---- The calls ---------------------------------------------------------------------------- */

static void prove_in_steps(void)
{
    uint8_t *out = steps;
    const size_t commit = mq_commit_size(N, M, TAU, T, DEGREE), hash = mq_hash_size(N, M, TAU, T, DEGREE);
    const size_t batch = mq_batch_size(N, M, TAU, T, DEGREE);
    uint32_t word;

    start();
    word = mq_commit(key, sizeof key, DEGREE, leaves, sizeof leaves, witness, sizeof witness, out, commit);
    stop();
    show("mq_commit", word, commit, "corrections C and d");
    failures += word != MQ_ACCEPTED;

    draw_strings(hash_matrix, T, MQ_HASH_ROW_BITS(N, M, TAU, T, DEGREE)); /* the verifier's, once it has C and d */
    out += commit;
    start();
    word = mq_hash(key, sizeof key, DEGREE, leaves, sizeof leaves, hash_matrix, sizeof hash_matrix, out, hash);
    stop();
    show("mq_hash", word, hash, "hashes of u and of each v");
    failures += word != MQ_ACCEPTED;

    draw_strings(batching, TAU * M, DEGREE); /* the verifier's, once it has the hashes */
    out += hash;
    start();
    word = mq_batch(key, sizeof key, DEGREE, leaves, sizeof leaves, witness, sizeof witness, batching, sizeof batching,
                    out, batch);
    stop();
    mq_burn_stack(); /* the three have left u there, which with d gives the witness */
    show("mq_batch", word, batch, "QS0 and QS1");
    failures += word != MQ_ACCEPTED;
}

static uint32_t prove(const uint8_t *x, size_t len)
{
    uint32_t word;
    start();
    word = mq_prove(key, sizeof key, DEGREE, leaves, sizeof leaves, x, sizeof witness, hash_matrix, sizeof hash_matrix,
                    batching, sizeof batching, whole, len);
    stop();
    mq_burn_stack();
    return word;
}

static void prove_at_once(void)
{
    const uint32_t word = prove(witness, sizeof whole);
    show("mq_prove", word, sizeof whole, "all six sections");
    failures += word != MQ_ACCEPTED;
    expect(memcmp(steps, whole, sizeof whole) == 0, "the steps' bytes, one after the other, are the same");
}

static uint32_t verify(const uint8_t *proof)
{
    uint32_t word;
    start();
    word = mq_verify(key, sizeof key, DEGREE, delta, sizeof delta, hash_matrix, sizeof hash_matrix, batching,
                     sizeof batching, opened, sizeof opened, proof, sizeof whole);
    stop();
    return word;
}

static void verify_proofs(void)
{
    uint8_t forged[sizeof whole];
    uint32_t word;
    size_t e = TAU / 2;

    draw_strings(delta, TAU, DEGREE); /* the verifier's, once it has the whole proof */
    delta[e] |= 1;                    /* at 0 the byte of QS1 would not count */
    expect(mq_open_leaves(key, sizeof key, DEGREE, delta, sizeof delta, leaves, sizeof leaves, opened, sizeof opened),
           "the prover opens all leaves but the one at delta, in each repetition");
    word = verify(whole);
    show("mq_verify", word, 0, "the proof");
    expect(word == MQ_ACCEPTED, "accepted");

    memcpy(forged, whole, sizeof whole);
    forged[MQ_OFFSET_QS1(N, M, TAU, T, DEGREE) + e] ^= 1;
    word = verify(forged);
    show("mq_verify", word, 0, "the proof with one bit of QS1 changed");
    expect(word == MQ_REFUSED_PRODUCT_DIFFERS * 65536 + e, "refused for that, in that repetition");

    forged[MQ_OFFSET_V(N, M, TAU, T, DEGREE) + e * T] ^= 1;
    word = verify(forged);
    show("mq_verify", word, 0, "and one bit of V~ too");
    expect(word == MQ_REFUSED_INCONSISTENT * 65536 + e, "refused for that, which is asked first");
}

/* Whether an equation fails at x: then a key for x has another bit of y there. */
static int fails(size_t i, const uint8_t *x)
{
    static uint8_t other[sizeof key];
    memcpy(other, key, sizeof key);
    return i < M && mq_make_y(other, sizeof other, x, sizeof witness)
        && ((other[y - key + i / 8] ^ y[i / 8]) >> i % 8 & 1);
}

/* The lowest-numbered equation that fails at x. */
static size_t first_failing(const uint8_t *x)
{
    size_t i = 0;
    while (i < M && !fails(i, x))
        i++;
    return i;
}

static void show_refusals(void)
{
    uint8_t wrong[sizeof witness];
    uint32_t word;

    memcpy(wrong, witness, sizeof witness);
    wrong[0] ^= 1;
    memset(whole, 0xEE, sizeof whole);
    word = prove(wrong, sizeof whole);
    show("mq_prove", word, 0, "one bit of the witness changed");
    expect(MQ_NUMBER(word) == MQ_REFUSED_EQUATION_FAILS, "refused for that");
    expect(MQ_PLACE(word) == first_failing(wrong), "it names the lowest-numbered equation that fails");
    expect(unchanged(whole, sizeof whole), "the output is as it was");

    word = prove(witness, sizeof whole - 1);
    show("mq_prove", word, 0, "an output of one byte too few");
    expect(MQ_NUMBER(word) == MQ_REFUSED_OUTPUT_LENGTH, "refused for that");
    expect(unchanged(whole, sizeof whole), "the output is as it was");
    wipe(wrong, sizeof wrong); /* all but one bit of it is secret */
}

int main(void)
{
    uint32_t word;

    if (mq_version() != MQ_VERSION) {
        printf("header and library are of different versions\n");
        return 1;
    }
    printf("Solfadrus: a proof of knowing x that solves %d quadratic equations in %d variables over GF(2),\n", M, N);
    printf("in %d repetitions with %d hash rows, over GF(%d).\n", TAU, T, MQ_FIELD_SIZE(DEGREE));
    printf("DEMO GENERATOR: leaves, challenges and key come from a small seeded generator, fit for show only.\n");
    printf("A proof favours no solution where leaves are uniform and secret (SECURITY.md). Here they are neither.\n\n");

    printf("a key of %lu bytes, leaves of %lu bytes, of which %lu are opened, a witness of %lu bytes\n",
           (unsigned long)sizeof key, (unsigned long)sizeof leaves, (unsigned long)sizeof opened,
           (unsigned long)sizeof witness);
    make_key();
    draw_strings(leaves, MQ_FIELD_SIZE(DEGREE) * TAU, MQ_LEAF_BITS(N, M, TAU, T, DEGREE));

    start();
    word = mq_test(key, sizeof key, DEGREE, witness, sizeof witness);
    stop();
    mq_burn_stack();
    show("mq_test", word, 0, "the witness solves the key");
    failures += word != MQ_ACCEPTED;

    prove_in_steps();
    prove_at_once();
    verify_proofs();
    show_refusals();

    wipe(witness, sizeof witness); /* secrets are wiped when they have served */
    wipe(leaves, sizeof leaves);
    printf("\n%s\n", failures ? "FAILED" : "all as it should be");
    return failures != 0;
}
