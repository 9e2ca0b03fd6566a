/*
 * What the calls leave on the stack, and that mq_burn_stack overwrites it.
 *
 * A call that takes secrets runs on a stack that the test owns. Afterwards the test looks there for u, the sum of the
 * leaves of the first repetition, and for the witness, as it is lent and with a byte for each bit. After mq_prove
 * without the burn u must be found, and with the section d of the proof it gives the witness: so the test can see.
 * After the burn no piece of these may be found, and where calls work nothing but zeros and paint. Half a burn must be
 * found out.
 */
#define _XOPEN_SOURCE 700
#include <stdio.h>
#include <ucontext.h>

#include "case.h"
#include "solfadrus_util.h"

enum {
    STACK = 1 << 20,
    PAINT = 0xA5,
    FRAMES = 1024 /* at the top: the caller's frame, and that of the burn */
};

static const struct sizes sets[] = { { 150, 150, 19, 144, 8 }, { 150, 150, 43, 144, 4 } };
static struct sizes usual;
static struct made made;
static uint8_t *stack, *out;
static uint32_t word;

/* A secret is cut into pieces of so many bytes, the last of which ends with it. */
enum secret { U, WITNESS, BITS, SECRETS };
static struct {
    const char *name;
    size_t piece;
    struct lent lent;
} secrets[SECRETS] = { { "u", 8, { 0 } }, { "witness", 8, { 0 } }, { "witness by bits", 32, { 0 } } };

/* ---- Calls on the stack ------------------------------------------------------------------- */

static size_t size_of(size_t (*size)(size_t, size_t, size_t, size_t, uint32_t))
{
    return size(usual.n, usual.m, usual.tau, usual.t, usual.degree);
}

#define LENT(NAME) made.NAME.at, made.NAME.len
#define KEY LENT(key), made.sizes.degree

static void test(void)
{
    word = mq_test(KEY, LENT(witness));
}

static void commit(void)
{
    word = mq_commit(KEY, LENT(leaves), LENT(witness), out, size_of(mq_commit_size));
}

static void hash(void)
{
    word = mq_hash(KEY, LENT(leaves), LENT(hash_matrix), out, size_of(mq_hash_size));
}

static void batch(void)
{
    word = mq_batch(KEY, LENT(leaves), LENT(witness), LENT(batching), out, size_of(mq_batch_size));
}

static void prove(void)
{
    word = mq_prove(KEY, LENT(leaves), LENT(witness), LENT(hash_matrix), LENT(batching), out,
                    size_of(mq_proof_size));
}

static const struct {
    const char *name;
    void (*run)(void);
} calls[] = { { "mq_test", test }, { "mq_commit", commit }, { "mq_hash", hash }, { "mq_batch", batch },
              { "mq_prove", prove } };
enum { CALLS = sizeof calls / sizeof calls[0], PROVE = CALLS - 1 };

/* A control. */
__attribute__((noinline)) static void burn_half(void)
{
    uint8_t below[MQ_STACK_BYTES / 2];
    memset(below, 0, sizeof below);
    __asm__ __volatile__("" : : "r"(below) : "memory");
}

/* Call and burn from one function, as a caller writes it. */
static void (*call)(void);

static void bare(void)
{
    call();
}

static void burnt(void)
{
    call();
    mq_burn_stack();
}

static void half_burnt(void)
{
    call();
    burn_half();
}

/* Runs one of these, with a call, on the stack, which is painted before. */
static void run(size_t which, void (*caller)(void))
{
    static ucontext_t inside, outside;
    call = calls[which].run;
    memset(stack, PAINT, STACK);
    getcontext(&inside);
    inside.uc_stack.ss_sp = stack;
    inside.uc_stack.ss_size = STACK;
    inside.uc_link = &outside;
    makecontext(&inside, caller, 0);
    swapcontext(&outside, &inside);
    if (word != MQ_ACCEPTED) {
        printf("%s: refused: %s\n", calls[which].name, mq_message(word));
        exit(1);
    }
}

/* ---- What is left ------------------------------------------------------------------------- */

/* Where these bytes stand, at any depth, or NULL. */
static const uint8_t *find(const uint8_t *bytes, size_t len)
{
    for (const uint8_t *at = stack; at + len <= stack + STACK; at++)
        if (at[0] == bytes[0] && memcmp(at, bytes, len) == 0)
            return at;
    return NULL;
}

static size_t pieces(enum secret which)
{
    return (secrets[which].lent.len + secrets[which].piece - 1) / secrets[which].piece;
}

/* How many of them are found. */
static size_t found(enum secret which)
{
    const size_t piece = secrets[which].piece, last = secrets[which].lent.len - piece;
    size_t count = 0;
    for (size_t i = 0; i < pieces(which); i++) {
        const size_t at = i * piece < last ? i * piece : last;
        count += find(secrets[which].lent.at + at, piece) != NULL;
    }
    return count;
}

/* How many bytes of those that a call may take, but for the frames, are neither zero nor paint. */
static size_t written(void)
{
    size_t count = 0;
    for (size_t at = STACK - MQ_STACK_BYTES; at < STACK - FRAMES; at++)
        count += stack[at] != 0 && stack[at] != PAINT;
    return count;
}

/* How far down the stack was touched. */
static size_t depth(void)
{
    size_t at = 0;
    while (at < STACK && stack[at] == PAINT)
        at++;
    return STACK - at;
}

/* The witness from u, as it was found, and the section d of the proof. */
static int gives_witness(const uint8_t *u)
{
    const uint8_t *const d = out + MQ_OFFSET_D(usual.n, usual.m, usual.tau, usual.t, usual.degree);
    for (size_t c = 0; u && c < usual.n; c++)
        if ((bit(d, c) ^ bit(u, c)) != bit(made.witness.at, c))
            return 0;
    return u != NULL;
}

/* ---- The test ----------------------------------------------------------------------------- */

static int right = 1;

static void wrong(const char *name, const char *what, size_t count)
{
    printf("%s: %s (%zu)\n", name, what, count);
    right = 0;
}

static void make_secrets(void)
{
    const size_t leaf = MQ_LEAF_SIZE(usual.n, usual.m, usual.tau, usual.t, usual.degree);
    made = make_case(1, usual);
    secrets[U].lent = lend(leaf);
    secrets[WITNESS].lent = made.witness;
    secrets[BITS].lent = lend(usual.n);
    for (size_t i = 0; i < tree_leaves(usual) * leaf; i++)
        secrets[U].lent.at[i % leaf] ^= made.leaves.at[i];
    for (size_t c = 0; c < usual.n; c++)
        secrets[BITS].lent.at[c] = (uint8_t)bit(made.witness.at, c);
}

static void test_bare(size_t i)
{
    run(i, bare);
    printf("%-10s leaves %6zu bytes; pieces of", calls[i].name, written());
    for (enum secret which = 0; which < SECRETS; which++)
        printf("%s %s %zu of %zu", which ? "," : "", secrets[which].name, found(which), pieces(which));
    printf("\n");
    if (depth() >= MQ_STACK_BYTES)
        wrong(calls[i].name, "goes deeper than the burn", depth());
    if (i == PROVE && !gives_witness(find(secrets[U].lent.at, secrets[U].lent.len)))
        wrong(calls[i].name, "u is not found, so that the test cannot see", found(U));
}

static void test_burnt(size_t i)
{
    run(i, burnt);
    for (enum secret which = 0; which < SECRETS; which++)
        if (found(which))
            wrong(calls[i].name, "after the burn there are pieces of a secret", found(which));
    if (written())
        wrong(calls[i].name, "after the burn there are bytes", written());
    if (depth() < MQ_STACK_BYTES || depth() >= MQ_STACK_BYTES + FRAMES)
        wrong(calls[i].name, "the burn goes to another depth", depth());
}

/* At the sizes that are in use at each degree. */
static void test_set(struct sizes sizes)
{
    usual = sizes;
    make_secrets();
    printf("n = %zu, tau = %zu, degree %u\n", usual.n, usual.tau, (unsigned)usual.degree);
    out = lend(made.proof.len).at;
    for (size_t i = 0; i < CALLS; i++) {
        test_bare(i);
        test_burnt(i);
    }
    run(PROVE, half_burnt);
    if (!written())
        wrong("the control", "half a burn is not seen", 0);
    free(out);
    free(secrets[U].lent.at);
    free(secrets[BITS].lent.at);
    drop_case(&made);
}

int main(void)
{
    stack = lend(STACK).at;
    for (size_t i = 0; i < sizeof sets / sizeof sets[0]; i++)
        test_set(sets[i]);
    if (right)
        printf("after mq_burn_stack there is nothing of these\n");
    free(stack);
    return !right;
}
