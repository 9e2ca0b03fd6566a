/*
 * A fuzz target: puts what the fuzzer's bytes mean (edits.h) to one call of the library, twice (lend.h), and holds word
 * and output against the Rust rendering's. Which call is said by the file that it is linked with.
 *
 * The rendering is compiled with the fuzzer's counters, and so leads it from question to question; a word that was not
 * met before counts as something new too (words_met).
 *
 * FUZZ_PLANT, for the self-test of tests/fuzz.sh, names a fault that is done in the library's place, once.
 */
#include <stdio.h>
#include <unistd.h>

#include "edits.h"
#include "lend.h"

enum { NUMBERS = 19, PLACES = MQ_MAX_EQUATIONS, WATCHED = 64 /* bytes beside the output, which must stay */ };
enum { EIGHT, FOUR, DEGREES };

/* libFuzzer looks at these as at its own counters. */
__attribute__((section("__libfuzzer_extra_counters"))) static uint8_t words_met[NUMBERS * PLACES];

static unsigned long cases_tried, with_number[DEGREES][NUMBERS], words[NUMBERS * PLACES];
static struct arena inputs[INPUTS], output;
static const char *planted;

/* ---- What is planted ---------------------------------------------------------------------- */

static int plant(const char *fault)
{
    if (!planted || strcmp(planted, fault) != 0)
        return 0;
    planted = NULL;
    return 1;
}

/* The equations of a well-formed key that fail at the witness: how many, and of these the second and the last. */
struct failing {
    size_t count, second, last;
};

static struct failing failing(const uint8_t *key, const uint8_t *witness)
{
    const size_t n = key[0] + 256u * key[1], m = key[2] + 256u * key[3], row = MQ_STRING_SIZE(n);
    const uint8_t *const a = key + 12, *const b = a + m * n * row + 4, *const y = b + m * row + 4;
    struct failing found = { 0, 0, 0 };
    for (size_t i = 0; i < m; i++)
        if (left_side(a + i * n * row, b + i * row, witness, n) != bit(y, i)) {
            found.count++;
            found.last = i;
            if (found.count == 2)
                found.second = i;
        }
    return found;
}

/* The place of refusal 11, from a library that does not take the first: no equation at all, the last that fails, or
 * one that is neither the first nor the last of them. */
static uint32_t planted_place(const struct lent *in, uint32_t word)
{
    const uint32_t number = word & 0xFFFF0000;
    const struct failing found = failing(in[KEY].at, in[WITNESS].at);
    if (plant("place"))
        return number | 0xFFFF;
    if (found.count > 1 && plant("last-equation"))
        return number | (uint32_t)found.last;
    if (found.count > 2 && plant("second-equation"))
        return number | (uint32_t)found.second;
    return word;
}

/* The library, or what a faulty one would do. */
static uint32_t ask_library(const struct lent *in, uint32_t degree, struct lent out, int upper)
{
    const struct lent key = in[KEY];
    uint32_t word;
    if (degree > 255 && (degree % 256 == 8 || degree % 256 == 4) && plant("degree"))
        degree %= 256;
    word = the_call.library(in, degree, out);
    if (upper && plant("read-after"))
        word += ((volatile uint8_t *)key.at)[key.len] & 1;
    if (!upper && key.len && plant("read-before"))
        word += ((volatile uint8_t *)key.at)[-1] & 1;
    if (key.len && plant("write-input"))
        ((volatile uint8_t *)key.at)[0] = key.at[0];
    if ((MQ_NUMBER(word) == MQ_REFUSED_CHALLENGE_ELEMENT || MQ_NUMBER(word) == MQ_REFUSED_PROOF_ELEMENT)
        && plant("element"))
        word = MQ_ACCEPTED;
    if (plant("word"))
        word ^= 1u << 16;
    if (planted && MQ_NUMBER(word) == MQ_REFUSED_EQUATION_FAILS)
        word = planted_place(in, word);
    if (word == 0 && out.len && plant("output"))
        out.at[out.len - 1] ^= 0x10;
    if (word != 0 && out.len && plant("refused-output"))
        out.at[0] ^= 0x10;
    if (upper && out.len && plant("beside-output"))
        out.at[-1] ^= 0x10;
    if (upper && plant("after-output"))
        ((volatile uint8_t *)out.at)[out.len] = 0;
    return word;
}

/* ---- Judging ------------------------------------------------------------------------------ */

static void differs(const char *what, uint32_t word, uint32_t expected)
{
    printf("DIFFERS: %s: %s; the library answers %u place %u, the rendering %u place %u\n", the_call.name, what,
           (unsigned)MQ_NUMBER(word), (unsigned)MQ_PLACE(word), (unsigned)MQ_NUMBER(expected),
           (unsigned)MQ_PLACE(expected));
    fflush(stdout);
    abort();
}

static uint8_t filling(size_t i)
{
    return (uint8_t)(i * 151 + (i >> 8) + 89);
}

/* Fills an output of so many bytes, and those beside it. */
static void fill(size_t len, int upper)
{
    const size_t place = place_in(len, upper), from = upper ? place - WATCHED : 0;
    for (size_t i = from; i < from + len + WATCHED; i++)
        output.written[i] = filling(i - place);
}

static void judge_output(size_t len, int upper, const uint8_t *expected, uint32_t word, uint32_t right)
{
    const size_t place = place_in(len, upper), from = upper ? place - WATCHED : 0;
    for (size_t i = from; i < from + len + WATCHED; i++)
        if (i < place || i >= place + len) {
            if (output.written[i] != filling(i - place))
                differs("bytes beside the output were written", word, right);
        } else if (word != 0 && output.written[i] != filling(i - place))
            differs("a refused call wrote", word, right);
        else if (output.written[i] != expected[i - place])
            differs("an output that is not the rendering's", word, right);
}

static void try_lent(const struct edited *now, int upper, const uint8_t *expected, uint32_t right)
{
    struct lent lent[INPUTS] = { { NULL, 0 } }, out = { NULL, now->out_len };
    uint32_t word;
    for (size_t i = 0; i < the_call.count; i++) {
        const enum input name = the_call.takes[i];
        lent[name] = lend_from(inputs[name], now->in[name], upper);
    }
    fill(out.len, upper);
    if (out.len || upper)
        out.at = output.lent + place_in(out.len, upper);
    word = ask_library(lent, now->degree, out, upper);
    if (word != right)
        differs("another word", word, right);
    judge_output(out.len, upper, expected, word, right);
}

static void count(uint32_t word, uint32_t made_for)
{
    const size_t at = MQ_NUMBER(word) % NUMBERS * PLACES + MQ_PLACE(word) % PLACES;
    cases_tried++;
    with_number[made_for == 4 ? FOUR : EIGHT][MQ_NUMBER(word) % NUMBERS]++;
    words[at]++;
    words_met[at] = 1;
}

/* ---- What libFuzzer calls ----------------------------------------------------------------- */

/* Cases, words, and how often each number came up from a case of degree 8, and from one of degree 4. A number that the
 * call can answer and did not is a failure: the fuzzer would have missed that question. (Not where it runs a few files
 * again.) A case of degree 8 need not come to 17 and 18. */
static void tell(void)
{
    size_t different = 0;
    int missed = 0;
    for (size_t i = 0; i < NUMBERS * PLACES; i++)
        different += words[i] > 0;
    printf("%s: %lu cases, each lent in two ways, %zu different words; by number, at degrees 8+4", the_call.name,
           cases_tried, different);
    for (const int *number = the_call.answers; *number >= 0; number++) {
        printf(" %d: %lu+%lu", *number, with_number[EIGHT][*number], with_number[FOUR][*number]);
        missed |= with_number[FOUR][*number] == 0;
        missed |= with_number[EIGHT][*number] == 0 && *number < MQ_REFUSED_CHALLENGE_ELEMENT;
    }
    printf("\n");
    if (missed && cases_tried >= 100)
        printf("FAILED: a number never came up\n");
    fflush(stdout);
    if (missed && cases_tried >= 100)
        _exit(1);
}

int LLVMFuzzerInitialize(int *argc, char ***argv);
int LLVMFuzzerTestOneInput(const uint8_t *bytes, size_t len);

int LLVMFuzzerInitialize(int *argc, char ***argv)
{
    (void)argc;
    (void)argv;
    planted = getenv("FUZZ_PLANT");
    make_cases();
    for (size_t i = 0; i < INPUTS; i++)
        inputs[i] = open_input();
    output = open_output();
    atexit(tell);
    return 0;
}

int LLVMFuzzerTestOneInput(const uint8_t *bytes, size_t len)
{
    static uint8_t expected[ROOM];
    const struct edited now = edited(bytes, len);
    const struct lent out = { expected, now.out_len };
    uint32_t right;
    for (size_t i = 0; i < out.len; i++)
        expected[i] = filling(i);
    right = the_call.rendering(now.in, now.degree, out);
    try_lent(&now, 1, expected, right);
    try_lent(&now, 0, expected, right);
    count(right, now.made_for);
    return 0;
}
