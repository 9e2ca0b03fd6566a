#include "edits.h"

#include <stdio.h>

enum { MOST_CASES = 255, NOTHING = 255 /* the first byte that names the case of empty strings */, LONGEST = 1 << 20 };

static struct made cases[MOST_CASES];
static int proved[MOST_CASES];
static size_t case_count;
static uint8_t space[INPUTS][LONGEST];

static struct lent string_of(struct made *made, enum input name)
{
    switch (name) {
    case KEY: return made->key;
    case LEAVES: return made->leaves;
    case WITNESS: return made->witness;
    case HASH_MATRIX: return made->hash_matrix;
    case BATCHING: return made->batching;
    case DELTA: return made->delta;
    case OPENED: return made->opened;
    default: return made->proof;
    }
}

void make_cases(void)
{
    case_count = shape_count();
    if (case_count == 0 || case_count > MOST_CASES) {
        fprintf(stderr, "%zu cases\n", case_count);
        exit(2);
    }
    for (size_t i = 0; i < case_count; i++) {
        struct made *const c = &cases[i];
        *c = make_case(i + 1, shape_sizes(i));
        for (size_t name = 0; name < INPUTS; name++)
            if (string_of(c, name).len > LONGEST) {
                fprintf(stderr, "case %zu: a string is longer than there is room for\n", i);
                exit(2);
            }
    }
}

/* The case of this number. Its proof is made when it is first asked for, since the rendering is slow. */
static struct made *case_of(size_t number)
{
    struct made *const c = &cases[number];
    if (!proved[number] && rendering_prove(c->key, c->sizes.degree, c->leaves, c->witness, c->hash_matrix,
                                             c->batching, c->proof) != 0) {
        fprintf(stderr, "the rendering refuses honest inputs\n");
        exit(2);
    }
    proved[number] = 1;
    return c;
}

/* ---- Edits -------------------------------------------------------------------------------- */

struct reader {
    const uint8_t *at;
    size_t left;
};

static void put_bytes(struct lent *string, size_t place, struct reader *from, size_t count)
{
    count = count < from->left ? count : from->left;
    count = count < LONGEST - place ? count : LONGEST - place;
    if (count == 0)
        return;
    memcpy(string->at + place, from->at, count);
    from->at += count;
    from->left -= count;
    if (string->len < place + count)
        string->len = place + count;
}

static void grow(struct lent *string, size_t count)
{
    count = count < LONGEST - string->len ? count : LONGEST - string->len;
    memset(string->at + string->len, 0, count);
    string->len += count;
}

/* From the start, or where the highest bit is set from the end; at most the length. Of a string that is too long for
 * that the middle is gone over in steps. */
static size_t place_of(unsigned where, size_t len)
{
    if (len >= 0x10000 && where >= 0x4000 && where < 0xC000)
        return 0x4000 + (where - 0x4000) * (len - 0x8000) / 0x8000;
    if (where < 0x8000)
        return where % (len + 1);
    return len - (0x10000 - where) % (len + 1);
}

static void open_anew(struct edited *now, struct made *start, size_t place, uint8_t value)
{
    struct made view = *start;
    if (start->delta.len == 0 || now->in[DELTA].len != start->delta.len)
        return;
    now->in[DELTA].at[place % start->delta.len] = (uint8_t)(value % tree_leaves(start->sizes));
    now->in[OPENED].len = start->opened.len;
    view.delta = now->in[DELTA];
    view.opened = now->in[OPENED];
    open_leaves(&view);
}

static void edit_string(struct edited *now, struct made *start, enum input name, const uint8_t *edit,
                        struct reader *rest)
{
    struct lent *const string = &now->in[name];
    const size_t place = place_of(edit[1] + 256u * edit[2], string->len);
    const uint8_t value = edit[3];
    struct lent other;
    switch ((enum edit)(edit[0] % 8)) {
    case EDIT_SET:
        if (place < string->len)
            string->at[place] = value;
        break;
    case EDIT_FLIP:
        if (place < string->len)
            string->at[place] ^= (uint8_t)(1 << value % 8);
        break;
    case EDIT_CUT: string->len = place; break;
    case EDIT_GROW: grow(string, value); break;
    case EDIT_PUT: put_bytes(string, place, rest, value); break;
    case EDIT_ALL:
        string->len = 0;
        put_bytes(string, 0, rest, value);
        break;
    case EDIT_OTHER:
        other = string_of(start, value % INPUTS);
        string->len = 0;
        put_bytes(string, 0, &(struct reader){ other.at, other.len }, other.len);
        break;
    case EDIT_OPEN: open_anew(now, start, place, value); break;
    }
}

/* The output's length: another, more or less. */
static void edit_output(struct edited *now, const uint8_t *edit)
{
    const size_t place = edit[1] + 256u * edit[2], by = edit[3];
    if (edit[0] % 8 == EDIT_CUT)
        now->out_len = place;
    else if (edit[0] % 8 == EDIT_GROW)
        now->out_len += by;
    else
        now->out_len -= by < now->out_len ? by : now->out_len;
    if (now->out_len > LONGEST)
        now->out_len = LONGEST;
}

static void edit_degree(struct edited *now, const uint8_t *edit)
{
    const unsigned shift = 8u * (edit[1] % 4);
    if (edit[0] % 8 == EDIT_SET)
        now->degree = (now->degree & ~(UINT32_C(0xFF) << shift)) | (uint32_t)edit[3] << shift;
    else if (edit[0] % 8 == EDIT_FLIP)
        now->degree ^= UINT32_C(1) << edit[3] % 32;
    else if (edit[0] % 8 == EDIT_OTHER)
        now->degree = 12 - now->made_for;
    else
        now->degree = edit[3];
}

/* The string that an edit names. One that the call does not take stands for one that it takes. */
static enum input named(unsigned number)
{
    for (size_t i = 0; i < the_call.count; i++)
        if (the_call.takes[i] == number)
            return number;
    return the_call.takes[number % the_call.count];
}

struct edited edited(const uint8_t *bytes, size_t len)
{
    static struct made nothing;
    struct reader rest = { bytes, len };
    struct edited now = { .out_len = 0 };
    const size_t first = len ? bytes[0] : NOTHING;
    struct made *const start = first == NOTHING ? &nothing : case_of(first % case_count);
    for (size_t i = 0; i < INPUTS; i++) {
        const struct lent string = string_of(start, i);
        now.in[i] = (struct lent){ space[i], string.len };
        if (string.len)
            memcpy(space[i], string.at, string.len);
    }
    now.out_len = first == NOTHING ? 0 : the_call.writes(start->sizes);
    now.degree = now.made_for = first == NOTHING ? 8 : start->sizes.degree;
    if (rest.left)
        rest.at++, rest.left--;
    while (rest.left >= 4) {
        const uint8_t *const edit = rest.at;
        const unsigned number = edit[0] / 8 % (INPUTS + 2);
        rest.at += 4;
        rest.left -= 4;
        if (number == INPUTS + 1)
            edit_degree(&now, edit);
        else if (number == INPUTS && the_call.writes(cases[0].sizes) > 0)
            edit_output(&now, edit);
        else
            edit_string(&now, start, named(number), edit, &rest);
    }
    return now;
}
