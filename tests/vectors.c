/*
 * Runs the test vectors against the library: vectors [--selftest] FILE...
 *
 * The form of the files is that of vectors/README.md. Every word must be the file's; an accepted call must have
 * written exactly the file's bytes, or bytes of the file's digest, and a refused call none. Over all files together,
 * every number that a call can answer must have come up at each degree.
 *
 * With --selftest one thing is changed at a time after the library has returned, the word or a byte of the output,
 * and each change must be reported.
 */
#define _POSIX_C_SOURCE 200809L
#include <ctype.h>
#include <stdio.h>
#include <stdlib.h>
#include <string.h>

#include "case.h"
#include "sha256.h"

/* ---- A case ------------------------------------------------------------------------------- */

enum { KEY, WITNESS, LEAVES, HASH_MATRIX, BATCHING, DELTA, OPENED, COMMIT, HASH, BATCH, PROOF, OUT, STRINGS };
static const char *const string_names[STRINGS] = {
    "key", "witness", "leaves", "hash_matrix", "batching", "delta", "opened", "commit", "hash", "batch", "proof", "out",
};

enum { N, M, TAU, T, DEGREE, COUNT, OUT_LEN, NUMBER, PLACE, SEED, NUMBERS };
static const char *const number_names[NUMBERS] = {
    "n", "m", "tau", "t", "degree", "COUNT", "out_len", "number", "place", "seed",
};

struct string {
    uint8_t *at; /* NULL where the length is 0 */
    size_t len;
    int given;
    const uint8_t *digest; /* of an expected output, in place of its bytes */
};

struct one_case {
    struct string strings[STRINGS];
    size_t numbers[NUMBERS];
    int number_given[NUMBERS];
    char call[16]; /* empty in a case of a whole proof */
};

static const char *file_name;
static struct one_case now;

/* Ends the run: the files cannot be gone by. */
static void stop(const char *what, const char *name)
{
    printf("%s, COUNT %zu: %s%s\n", file_name, now.numbers[COUNT], what, name);
    exit(2);
}

static const struct string *string(int which)
{
    if (!now.strings[which].given)
        stop("there is no ", string_names[which]);
    return &now.strings[which];
}

static size_t number(int which)
{
    if (!now.number_given[which])
        stop("there is no ", number_names[which]);
    return now.numbers[which];
}

/* ---- The calls ---------------------------------------------------------------------------- */

#define LENT(which) string(which)->at, string(which)->len
#define KEY_AND_DEGREE LENT(KEY), (uint32_t)number(DEGREE)

static uint32_t call_test(uint8_t *out, size_t len)
{
    (void)out, (void)len;
    return mq_test(KEY_AND_DEGREE, LENT(WITNESS));
}

static uint32_t call_commit(uint8_t *out, size_t len)
{
    return mq_commit(KEY_AND_DEGREE, LENT(LEAVES), LENT(WITNESS), out, len);
}

static uint32_t call_hash(uint8_t *out, size_t len)
{
    return mq_hash(KEY_AND_DEGREE, LENT(LEAVES), LENT(HASH_MATRIX), out, len);
}

static uint32_t call_batch(uint8_t *out, size_t len)
{
    return mq_batch(KEY_AND_DEGREE, LENT(LEAVES), LENT(WITNESS), LENT(BATCHING), out, len);
}

static uint32_t call_prove(uint8_t *out, size_t len)
{
    return mq_prove(KEY_AND_DEGREE, LENT(LEAVES), LENT(WITNESS), LENT(HASH_MATRIX), LENT(BATCHING), out, len);
}

static uint32_t call_verify(uint8_t *out, size_t len)
{
    (void)out, (void)len;
    return mq_verify(KEY_AND_DEGREE, LENT(DELTA), LENT(HASH_MATRIX), LENT(BATCHING), LENT(OPENED), LENT(PROOF));
}

/* Each call, the string of a proof case that has its output, and the numbers that it can answer, bit by bit. */
#define BITS(from, to) ((1ul << ((to) + 1)) - (1ul << (from)))
static const struct call {
    const char *name;
    uint32_t (*make)(uint8_t *out, size_t len);
    int output;
    unsigned long answers;
} calls[] = {
    { "test", call_test, -1, BITS(0, 4) | BITS(9, 9) | BITS(11, 11) | BITS(16, 16) },
    { "commit", call_commit, COMMIT, BITS(0, 4) | BITS(7, 11) | BITS(16, 16) },
    { "hash", call_hash, HASH, BITS(0, 8) | BITS(10, 10) | BITS(16, 16) },
    { "batch", call_batch, BATCH, BITS(0, 5) | BITS(7, 11) | BITS(16, 17) },
    { "prove", call_prove, PROOF, BITS(0, 11) | BITS(16, 17) },
    { "verify", call_verify, -1, BITS(0, 8) | BITS(12, 18) },
};
enum { CALLS = sizeof calls / sizeof calls[0], LAST_NUMBER = 18 };

/* The numbers that have come up, at degree 8 and at degree 4. At 8 every byte is an element, so not 17 and 18. */
enum { EIGHT, FOUR, DEGREES };
static const unsigned long can_come[DEGREES] = { BITS(0, 16), BITS(0, 18) };
static unsigned long met[CALLS][DEGREES];

/* 16 comes up at neither degree, and is counted at both. */
static void meet(size_t call, uint32_t answer)
{
    const size_t degree = number(DEGREE);
    if (answer > LAST_NUMBER)
        return;
    if (degree != 4)
        met[call][EIGHT] |= 1ul << answer;
    if (degree != 8)
        met[call][FOUR] |= 1ul << answer;
}

/* ---- One call against what the file says -------------------------------------------------- */

/* What --selftest changes after the library has returned. */
enum { NOTHING, WORD, FIRST, LAST, BEFORE, AFTER, TAMPERS };
static int selftest;
static unsigned long made, changed, differing;

enum { GUARD = 32 };

/* A byte that differs from the one that is to be written, so that a byte left out is seen. */
static uint8_t filling(const struct string *expected, size_t i)
{
    return expected && expected->at && i < expected->len ? (uint8_t)~expected->at[i] : (uint8_t)(0xA5 + i);
}

static int has_digest(const uint8_t *at, size_t len, const uint8_t *expected)
{
    uint8_t digest[SHA256_BYTES];
    sha256(at, len, digest);
    return memcmp(digest, expected, sizeof digest) == 0;
}

static void tamper_with(int tamper, uint32_t *word, uint8_t *out, size_t len)
{
    if (tamper == WORD)
        *word ^= 1;
    else if (tamper == FIRST)
        out[0] ^= 1;
    else if (tamper == LAST)
        out[len - 1] ^= 1;
    else if (tamper == BEFORE)
        out[-1] ^= 1;
    else if (tamper == AFTER)
        out[len] ^= 1;
}

/*
 * Makes a call, which must answer this word, and write these bytes, or none where there are none. Answers what
 * differs, or NULL.
 */
static const char *judge(const struct call *call, uint32_t word, size_t len, const struct string *expected, int tamper)
{
    uint8_t *const room = malloc(GUARD + len + GUARD), *const out = room + GUARD;
    const char *wrong = NULL;
    uint32_t answer;
    size_t i;
    if (!room)
        stop("no memory", "");
    memset(room, 0xEE, GUARD + len + GUARD);
    for (i = 0; i < len; i++)
        out[i] = filling(expected, i);
    answer = call->make(out, len);
    tamper_with(tamper, &answer, out, len);
    for (i = 0; i < GUARD; i++)
        if (room[i] != 0xEE || out[len + i] != 0xEE)
            wrong = "a byte outside of out is written";
    if (expected && expected->digest && !has_digest(out, len, expected->digest))
        wrong = "the digest differs";
    for (i = 0; !(expected && expected->digest) && i < len; i++)
        if (out[i] != (expected ? expected->at[i] : filling(NULL, i)))
            wrong = expected ? "the bytes differ" : "refused, and a byte of out is written";
    if (answer != word)
        wrong = "the word differs";
    free(room);
    return wrong;
}

static void check(const struct call *call, uint32_t word, size_t len, const struct string *expected)
{
    const char *wrong;
    int tamper;
    if (expected && expected->len != len)
        stop("the length of the expected bytes is not that of the output", "");
    made++;
    meet((size_t)(call - calls), MQ_NUMBER(word));
    wrong = judge(call, word, len, expected, NOTHING);
    if (wrong) {
        differing++;
        printf("%s, COUNT %zu, mq_%s: %s\n", file_name, now.numbers[COUNT], call->name, wrong);
    }
    for (tamper = WORD; selftest && tamper < TAMPERS; tamper++) {
        if (len == 0 && tamper != WORD)
            continue;
        changed++;
        if (!judge(call, word, len, expected, tamper))
            stop("a change went unreported", "");
    }
}

/* ---- The three kinds of cases ------------------------------------------------------------- */

static void check_sizes(void)
{
    static const struct {
        int which;
        size_t (*function)(size_t, size_t, size_t, size_t, uint32_t);
    } sizes[] = {
        { KEY, mq_key_size }, { WITNESS, mq_witness_size }, { LEAVES, mq_leaves_size },
        { HASH_MATRIX, mq_hash_matrix_size }, { BATCHING, mq_batching_size }, { DELTA, mq_delta_size },
        { OPENED, mq_opened_size }, { COMMIT, mq_commit_size }, { HASH, mq_hash_size }, { BATCH, mq_batch_size },
        { PROOF, mq_proof_size },
    };
    size_t i;
    for (i = 0; i < sizeof sizes / sizeof sizes[0]; i++)
        if (sizes[i].function(number(N), number(M), number(TAU), number(T), (uint32_t)number(DEGREE))
            != string(sizes[i].which)->len) {
            differing++;
            printf("%s, COUNT %zu: the length of %s differs\n", file_name, now.numbers[COUNT],
                   string_names[sizes[i].which]);
        }
}

/* An honest case: every call accepts, and writes its bytes. */
static void run_proof(void)
{
    size_t i;
    check_sizes();
    for (i = 0; i < CALLS; i++) {
        const struct string *expected = calls[i].output < 0 ? NULL : string(calls[i].output);
        check(&calls[i], MQ_ACCEPTED, expected ? expected->len : 0, expected);
    }
}

static const uint8_t *digest_of(int which)
{
    if (string(which)->len != SHA256_BYTES)
        stop("not a digest: ", string_names[which]);
    return string(which)->at;
}

/* Bytes take the place of a digest. */
static void put_bytes(int which, struct lent bytes)
{
    struct string *const s = &now.strings[which];
    free(s->at);
    s->at = malloc(bytes.len);
    s->len = bytes.len;
    if (!s->at)
        stop("no memory", "");
    memcpy(s->at, bytes.at, bytes.len);
}

/* An input that was expanded must have the digest that is given. */
static void put_expanded(int which, struct lent bytes)
{
    if (!has_digest(bytes.at, bytes.len, digest_of(which))) {
        differing++;
        printf("%s, COUNT %zu: the digest of %s differs\n", file_name, now.numbers[COUNT], string_names[which]);
    }
    put_bytes(which, bytes);
}

/* An honest case of which digests are given: the inputs are expanded, and every call accepts, and writes bytes of the
 * digest that is given. The verifier is lent the library's own proof. */
static void run_digest(void)
{
    const struct sizes s = { number(N), number(M), number(TAU), number(T), (uint32_t)number(DEGREE) };
    struct made c = make_case(number(SEED), s);
    const struct lent inputs[] = { c.key, c.witness, c.leaves, c.hash_matrix, c.batching, c.delta, c.opened };
    const size_t lengths[] = {
        mq_commit_size(s.n, s.m, s.tau, s.t, s.degree), mq_hash_size(s.n, s.m, s.tau, s.t, s.degree),
        mq_batch_size(s.n, s.m, s.tau, s.t, s.degree), mq_proof_size(s.n, s.m, s.tau, s.t, s.degree),
    };
    size_t i;
    int which;
    for (which = KEY; which <= OPENED; which++)
        put_expanded(which, inputs[which]);
    for (i = 0; i < CALLS; i++) {
        const int output = calls[i].output;
        struct string expected = { NULL, 0, 1, NULL };
        if (output >= 0) {
            expected.len = lengths[output - COMMIT];
            expected.digest = digest_of(output);
        }
        check(&calls[i], MQ_ACCEPTED, expected.len, output < 0 ? NULL : &expected);
        if (output == PROOF) {
            if (calls[i].make(c.proof.at, c.proof.len) != MQ_ACCEPTED)
                stop("no proof", "");
            put_bytes(PROOF, c.proof);
        }
    }
    drop_case(&c);
}

/* One call and its answer. */
static void run_answer(void)
{
    const uint32_t word = (uint32_t)(number(NUMBER) * 65536 + number(PLACE));
    size_t i;
    for (i = 0; i < CALLS; i++)
        if (strcmp(calls[i].name, now.call) == 0) {
            const int writes = calls[i].output >= 0;
            check(&calls[i], word, writes ? number(OUT_LEN) : 0, writes && word == MQ_ACCEPTED ? string(OUT) : NULL);
            return;
        }
    stop("no such call", "");
}

/* ---- Reading ------------------------------------------------------------------------------ */

/* Forgets a case; the sizes stay, for the next one. */
static void forget(void)
{
    int i;
    for (i = 0; i < STRINGS; i++) {
        free(now.strings[i].at);
        memset(&now.strings[i], 0, sizeof now.strings[i]);
    }
    for (i = COUNT; i < NUMBERS; i++)
        now.number_given[i] = 0;
    now.call[0] = '\0';
}

static int digit(char c)
{
    const char *const digits = "0123456789abcdef", *const found = c ? strchr(digits, c) : NULL;
    if (!found)
        stop("not a hexadecimal digit", "");
    return (int)(found - digits);
}

static void read_string(int which, const char *value)
{
    struct string *const s = &now.strings[which];
    size_t i;
    if (s->given)
        stop("a name comes twice", "");
    if (strlen(value) % 2)
        stop("half a byte", "");
    s->given = 1;
    s->len = strlen(value) / 2;
    if (s->len == 0)
        return;
    s->at = malloc(s->len);
    if (!s->at)
        stop("no memory", "");
    for (i = 0; i < s->len; i++)
        s->at[i] = (uint8_t)(digit(value[2 * i]) * 16 + digit(value[2 * i + 1]));
}

static void read_number(int which, const char *value)
{
    char *end;
    now.numbers[which] = strtoul(value, &end, 10);
    now.number_given[which] = 1;
    if (!isdigit((unsigned char)*value) || *end)
        stop("not a number", "");
}

/* A line `name = value`. */
static void read_line(const char *name, const char *value)
{
    int i;
    for (i = 0; i < STRINGS; i++)
        if (strcmp(name, string_names[i]) == 0) {
            read_string(i, value);
            return;
        }
    for (i = 0; i < NUMBERS; i++)
        if (strcmp(name, number_names[i]) == 0) {
            read_number(i, value);
            return;
        }
    if (strcmp(name, "call") == 0 && strlen(value) < sizeof now.call)
        strcpy(now.call, value);
    else if (strcmp(name, "what") != 0)
        stop("no such name: ", name);
}

/* Takes a line apart, brackets left out. */
static void split_line(char *line)
{
    char *const equals = strstr(line, " =");
    const size_t len = strlen(line);
    if (!equals)
        stop("a line that is not name = value", "");
    if (*line == '[' && line[len - 1] == ']') {
        line[len - 1] = '\0';
        line++;
    }
    *equals = '\0';
    read_line(line, equals + (equals[2] == ' ' ? 3 : 2));
}

static unsigned long run_case(void)
{
    if (!now.number_given[COUNT])
        return 0;
    if (now.number_given[SEED])
        run_digest();
    else if (now.call[0])
        run_answer();
    else
        run_proof();
    forget();
    return 1;
}

static void run_file(void)
{
    FILE *const file = fopen(file_name, "r");
    char *line = NULL;
    size_t room = 0;
    ssize_t len;
    unsigned long cases = 0;
    if (!file)
        stop("cannot be read", "");
    while ((len = getline(&line, &room, file)) > 0) {
        if (line[len - 1] == '\n')
            line[--len] = '\0';
        if (len == 0)
            cases += run_case();
        else if (*line != '#')
            split_line(line);
    }
    cases += run_case();
    free(line);
    fclose(file);
    printf("%s: %lu cases\n", file_name, cases);
    if (cases == 0)
        stop("no case", "");
}

/* Every number that a call can answer must have come up at each degree. */
static int all_met(void)
{
    int all = 1, answer, degree;
    size_t i;
    for (i = 0; i < CALLS * DEGREES; i++) {
        const struct call *const call = &calls[i / DEGREES];
        degree = (int)(i % DEGREES);
        for (answer = 0; answer <= LAST_NUMBER; answer++)
            if (call->answers & can_come[degree] & ~met[i / DEGREES][degree] & 1ul << answer) {
                printf("no case in which mq_%s answers %d at degree %d\n", call->name, answer, degree == EIGHT ? 8 : 4);
                all = 0;
            }
    }
    return all;
}

int main(int count, char **words)
{
    int i = 1;
    if (i < count && strcmp(words[i], "--selftest") == 0) {
        selftest = 1;
        i++;
    }
    for (; i < count; i++) {
        file_name = words[i];
        run_file();
    }
    if (selftest)
        printf("selftest: %lu changes made, each reported\n", changed);
    printf("vectors: %lu calls, %lu differ\n", made, differing);
    return !all_met() || differing != 0;
}
