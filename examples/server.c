/*
 * A small server: makes the calls that it is sent, two at once.
 *
 * It reads requests from standard input until that ends, and writes one answer for each to standard
 * output, in the order of the requests. Numbers are four bytes, lowest first.
 *
 *     request   one byte that names the call: 0 mq_test, 1 mq_commit, 2 mq_hash, 3 mq_batch, 4 mq_prove,
 *               5 mq_verify; then its inputs, in the order of its parameters, each after its count, with
 *               the degree, a number, after the key; then, where the call writes, the length of its output
 *     answer    the call's word: 0 accepted, else number * 65536 + place; where an accepted call writes,
 *               its output follows
 *
 * Two threads take turns at reading and at answering; between the two each makes the call that it has
 * read, so that two are made at once. Whatever bytes are sent, every whole request is answered. Where
 * the input ends between two requests the server leaves with status 0. Where it ends in the middle of
 * one, or a byte names no call, those before it are answered, and the status is 1.
 *
 * Memory is fixed: each thread has room for one request of the largest sizes, some seven megabytes,
 * which are not on its stack. Of an input that is longer than any key allows, one byte more than the
 * longest is kept, and the rest is read and dropped; an output's length is taken likewise. That changes
 * no word: the questions on lengths get the same no.
 */
#define _POSIX_C_SOURCE 200809L
#include <pthread.h>
#include <stdio.h>
#include <stdlib.h>
#include <string.h>

#include "solfadrus.h"
#include "solfadrus_util.h"

/* ---- Requests ----------------------------------------------------------------------------- */

enum input { KEY, LEAVES, WITNESS, HASH_MATRIX, BATCHING, DELTA, OPENED, PROOF, INPUTS };
enum call { TEST, COMMIT, HASH, BATCH, PROVE, VERIFY, CALLS };

/* What each call takes, in the order of its parameters, and whether it writes. */
static const struct {
    int count;
    enum input takes[6];
    int writes;
} forms[CALLS] = {
    { 2, { KEY, WITNESS }, 0 },
    { 3, { KEY, LEAVES, WITNESS }, 1 },
    { 3, { KEY, LEAVES, HASH_MATRIX }, 1 },
    { 4, { KEY, LEAVES, WITNESS, BATCHING }, 1 },
    { 5, { KEY, LEAVES, WITNESS, HASH_MATRIX, BATCHING }, 1 },
    { 6, { KEY, DELTA, HASH_MATRIX, BATCHING, OPENED, PROOF }, 0 },
};

/* The longest of each input, which is that of degree 8, and one byte more. The longest output is a proof. */
#define ROOM(NAME) \
    (MQ_##NAME##_SIZE(MQ_MAX_VARIABLES, MQ_MAX_EQUATIONS, MQ_MAX_REPETITIONS, MQ_MAX_HASH_ROWS, 8) + 1)
static const size_t rooms[INPUTS] = { ROOM(KEY),      ROOM(LEAVES), ROOM(WITNESS), ROOM(HASH_MATRIX),
                                      ROOM(BATCHING), ROOM(DELTA),  ROOM(OPENED),  ROOM(PROOF) };
enum {
    ALL_ROOM = ROOM(KEY) + ROOM(LEAVES) + ROOM(WITNESS) + ROOM(HASH_MATRIX) + ROOM(BATCHING) + ROOM(DELTA)
        + ROOM(OPENED) + ROOM(PROOF)
};

struct request {
    enum call call;
    uint8_t bytes[ALL_ROOM];
    uint8_t *at[INPUTS];
    size_t len[INPUTS];
    uint32_t degree;
    uint8_t out[ROOM(PROOF)];
    size_t out_len;
};

/* Reads so many bytes, and keeps those for which there is room. Answers whether all were there. */
static int take(uint8_t *at, size_t room, size_t count)
{
    const size_t kept = count < room ? count : room;
    if (fread(at, 1, kept, stdin) != kept)
        return 0;
    for (count -= kept; count > 0; count--)
        if (getc(stdin) == EOF)
            return 0;
    return 1;
}

/* Reads a number. Answers whether it was there. */
static int take_number(size_t *number)
{
    uint8_t bytes[MQ_COUNT_SIZE];
    if (fread(bytes, 1, sizeof bytes, stdin) != sizeof bytes)
        return 0;
    *number = bytes[0] | (size_t)bytes[1] << 8 | (size_t)bytes[2] << 16 | (size_t)bytes[3] << 24;
    return 1;
}

static size_t least(size_t a, size_t b)
{
    return a < b ? a : b;
}

enum taken { WHOLE, NOTHING, CUT };

static enum taken take_request(struct request *request)
{
    uint8_t *at = request->bytes;
    const int call = getc(stdin);
    size_t number;
    int i;
    if (call == EOF)
        return NOTHING;
    if (call >= CALLS)
        return CUT;
    request->call = (enum call)call;
    for (i = 0; i < forms[call].count; i++) {
        const enum input input = forms[call].takes[i];
        if (!take_number(&number) || !take(at, rooms[input], number))
            return CUT;
        request->at[input] = at;
        request->len[input] = least(number, rooms[input]);
        at += rooms[input];
        if (input == KEY) {
            if (!take_number(&number))
                return CUT;
            request->degree = (uint32_t)number;
        }
    }
    if (forms[call].writes) {
        if (!take_number(&number))
            return CUT;
        request->out_len = least(number, sizeof request->out);
    }
    return WHOLE;
}

/* ---- Calls -------------------------------------------------------------------------------- */

#define LENT(NAME) r->at[NAME], r->len[NAME]
#define LENT_KEY LENT(KEY), r->degree

static uint32_t make_call(struct request *r)
{
    switch (r->call) {
    case TEST: return mq_test(LENT_KEY, LENT(WITNESS));
    case COMMIT: return mq_commit(LENT_KEY, LENT(LEAVES), LENT(WITNESS), r->out, r->out_len);
    case HASH: return mq_hash(LENT_KEY, LENT(LEAVES), LENT(HASH_MATRIX), r->out, r->out_len);
    case BATCH: return mq_batch(LENT_KEY, LENT(LEAVES), LENT(WITNESS), LENT(BATCHING), r->out, r->out_len);
    case PROVE:
        return mq_prove(LENT_KEY, LENT(LEAVES), LENT(WITNESS), LENT(HASH_MATRIX), LENT(BATCHING), r->out,
                        r->out_len);
    default:
        return mq_verify(LENT_KEY, LENT(DELTA), LENT(HASH_MATRIX), LENT(BATCHING), LENT(OPENED), LENT(PROOF));
    }
}

/* Leaves and witness do not stay. */
static void wipe(struct request *r)
{
    int i;
    for (i = 0; i < forms[r->call].count; i++) {
        const enum input input = forms[r->call].takes[i];
        if (input == LEAVES || input == WITNESS)
            memset(r->at[input], 0, r->len[input]);
    }
}

/* ---- Turns -------------------------------------------------------------------------------- */

/* What is done for one request after another, by whichever thread has it. */
struct turns {
    pthread_mutex_t lock;
    pthread_cond_t passed;
    unsigned long next;
};

static void take_turn(struct turns *turns, unsigned long number)
{
    pthread_mutex_lock(&turns->lock);
    while (turns->next != number)
        pthread_cond_wait(&turns->passed, &turns->lock);
    pthread_mutex_unlock(&turns->lock);
}

static void pass_turn(struct turns *turns)
{
    pthread_mutex_lock(&turns->lock);
    turns->next++;
    pthread_cond_broadcast(&turns->passed);
    pthread_mutex_unlock(&turns->lock);
}

/* ---- Threads ------------------------------------------------------------------------------ */

enum { THREADS = 2 };
static struct request requests[THREADS];
static struct turns reading = { PTHREAD_MUTEX_INITIALIZER, PTHREAD_COND_INITIALIZER, 0 };
static struct turns answering = { PTHREAD_MUTEX_INITIALIZER, PTHREAD_COND_INITIALIZER, 0 };
static enum taken end = WHOLE; /* how the input ended; looked at when it is one's turn to read */
static int failures;           /* of writing; likewise */

static void answer(const struct request *r, uint32_t word)
{
    const uint8_t bytes[4] = { (uint8_t)word, (uint8_t)(word >> 8), (uint8_t)(word >> 16), (uint8_t)(word >> 24) };
    const size_t written = word == MQ_ACCEPTED && forms[r->call].writes ? r->out_len : 0;
    if (fwrite(bytes, 1, sizeof bytes, stdout) != sizeof bytes || fwrite(r->out, 1, written, stdout) != written
        || fflush(stdout) != 0)
        failures = 1;
}

/* The requests of one thread: of two, every second one. */
static void *serve(void *room)
{
    struct request *const request = room;
    unsigned long number = (unsigned long)(request - requests);
    for (;; number += THREADS) {
        enum taken taken;
        uint32_t word;
        take_turn(&reading, number);
        if (end == WHOLE)
            end = take_request(request);
        taken = end;
        pass_turn(&reading);
        if (taken != WHOLE)
            return NULL;
        word = make_call(request);
        mq_burn_stack(); /* what the call left there tells of them too */
        wipe(request);
        take_turn(&answering, number);
        answer(request, word);
        pass_turn(&answering);
    }
}

int main(void)
{
    pthread_t threads[THREADS];
    int i;
    if (mq_version() != MQ_VERSION) {
        fprintf(stderr, "header and library are of different versions\n");
        return 1;
    }
    memset(requests, 0xFF, sizeof requests); /* so that all memory is there from the start */
    for (i = 0; i < THREADS; i++)
        if (pthread_create(&threads[i], NULL, serve, &requests[i])) {
            fprintf(stderr, "no thread\n");
            return 1;
        }
    for (i = 0; i < THREADS; i++)
        pthread_join(threads[i], NULL);
    return end == CUT || failures != 0;
}
