// The commands on tables. An index by hash finds equal rows; a filter by hash drops equal triples before they are sorted.
#include "tables.h"

#include <stdlib.h>

void tables_begin(state *s, unsigned parts, size_t pair_limit, size_t subset_limit, uint64_t assumed_true, uint64_t assumed_false, uint32_t *workspace)
{
    s->pair_limit = pair_limit;
    s->subset_limit = subset_limit;
    s->width = subset_limit + 2;
    s->assumed_true = assumed_true;
    s->assumed_false = assumed_false;
    s->atoms = s->depth = 0;
    s->parts = parts;
    for (size_t t = 0; t <= parts; t++) s->tables[t] = (table){workspace + t * pair_limit * s->width, s->first[t], 0, 0};
    memset(s->seen.slots, 0, sizeof s->seen.slots);
    s->seen.stamp = 0;
}

static void index_empty(row_index *x, size_t rows)
{
    size_t slots = 8;
    while (slots < 2 * rows && slots < 4 * LIMIT) slots *= 2;
    x->mask = (unsigned)slots - 1;
    memset(x->slots, 0, slots * sizeof x->slots[0]);
}

static uint64_t hash_row(const uint32_t *row)
{
    uint64_t h = row[0] * 0x9E3779B97F4A7C15u;
    for (uint32_t k = 0; k < row[1]; k++) {
        uint64_t x = (row[2 + k] + 1) * 0xD1B54A32D192ED03u;
        h += x ^ x >> 32;
    }
    h *= 0x9E3779B97F4A7C15u;
    return h >> 40;
}

static bool is_equal_row(const uint32_t *a, const uint32_t *b)
{
    return a[0] == b[0] && a[1] == b[1] && memcmp(a + 2, b + 2, a[1] * sizeof *a) == 0;
}

// The number of an equal row; count, and entered as that, where there is none.
static size_t find_row(row_index *x, const table *t, size_t width, const uint32_t *row)
{
    unsigned h = (unsigned)hash_row(row) & x->mask;
    for (; x->slots[h] != 0; h = (h + 1) & x->mask) {
        size_t k = x->slots[h] - 1u;
        if (is_equal_row(t->rows + k * width, row)) return k;
    }
    x->slots[h] = (uint16_t)(t->count + 1);
    return t->count;
}

// Counts a row, unless an equal one is there already: 0, or 16 where there is no room. With room it stands behind the last one.
static unsigned keep_row(state *s, table *t, const uint32_t *row, uint64_t first)
{
    size_t k = find_row(&s->index, t, s->width, row);
    if (k == s->pair_limit) return PLANS_FULL;
    if (k == t->count) t->first[t->count++] = first;
    else if (first < t->first[k]) t->first[k] = first;
    return 0;
}

// ---- the commands on pair tables

static void put_row(table *t, size_t width, uint32_t q, const uint32_t *subset, uint64_t first)
{
    uint32_t *row = t->rows + t->count * width;
    row[0] = q;
    row[1] = subset != NULL;
    if (subset) row[2] = *subset;
    t->first[t->count++] = first;
}

// A granted atom is not taken away: its pairs have no subsets.
static unsigned push_atom(state *s, unsigned label, bool is_granted)
{
    uint64_t atom = (uint64_t)1 << s->atoms;
    bool can_be_true = !(s->assumed_false & atom), can_be_false = !(s->assumed_true & atom);
    if ((size_t)can_be_true + can_be_false > s->pair_limit) return PLANS_FULL;
    table *t = &s->tables[s->depth++];
    uint32_t in = 1u << label, out = 1u << (LABELS + label);
    t->count = 0;
    t->marks = in | out;
    if (can_be_true) put_row(t, s->width, in, is_granted ? NULL : &out, (uint64_t)1 << (62 - s->atoms));
    if (can_be_false) put_row(t, s->width, out, NULL, 0);
    s->atoms++;
    return 0;
}

static unsigned push_rule(state *s, unsigned label)
{
    table *t = &s->tables[s->depth++];
    t->count = 0;
    t->marks = 1u << (2 * LABELS + label);
    put_row(t, s->width, t->marks, NULL, 0);
    return 0;
}

// The subsets of a pair united with one that has none.
static size_t unite_with_whole(uint32_t *made, const uint32_t *a, uint32_t whole)
{
    for (uint32_t k = 0; k < a[1]; k++) made[k] = a[2 + k] | whole;
    sort_triples(made, a[1]);
    return drop_equal(made, a[1]);
}

// Adds the unions of a triple with each of some others. The number then made; limit + 1 where there are more.
static size_t add_unions(filter *f, uint64_t stamp, uint32_t *made, size_t n, size_t limit, uint32_t q, const uint32_t *v, size_t m)
{
    for (size_t k = 0; k < m; k++) {
        if (!filter_add(f, stamp, q | v[k])) continue;
        if (n == limit) return limit + 1;
        made[n++] = q | v[k];
    }
    return n;
}

// The subsets of two united pairs: one stays whole and the other shrinks, or both shrink. limit + 1 where there are more.
static size_t unite_subsets(filter *f, uint32_t *made, size_t limit, const uint32_t *a, const uint32_t *b)
{
    if (b[1] == 0) return unite_with_whole(made, a, b[0]);
    if (a[1] == 0) return unite_with_whole(made, b, a[0]);
    uint64_t stamp = filter_empty(f);
    size_t n = add_unions(f, stamp, made, 0, limit, a[0], b + 2, b[1]);
    if (n <= limit) n = add_unions(f, stamp, made, n, limit, b[0], a + 2, a[1]);
    for (uint32_t k = 0; k < a[1] && n <= limit; k++) n = add_unions(f, stamp, made, n, limit, a[2 + k], b + 2, b[1]);
    if (n <= limit) sort_triples(made, n);
    return n;
}

// Unites a row of each of two tables: 0, 15, or 16. Once 16 is known, only 15 is looked for.
static unsigned unite_rows(state *s, table *t, const uint32_t *x, const uint32_t *y, uint64_t first, bool is_full)
{
    uint32_t spare[LIMIT + 2];
    uint32_t *row = t->count < s->pair_limit ? t->rows + t->count * s->width : spare;
    size_t n = unite_subsets(&s->seen, row + 2, s->subset_limit, x, y);
    if (n > s->subset_limit) return SUBSETS_FULL;
    if (is_full) return PLANS_FULL;
    row[0] = x[0] | y[0];
    row[1] = (uint32_t)n;
    return keep_row(s, t, row, first);
}

// Fills a table with all unions: 0, 15 or 16.
static unsigned unite_tables(state *s, table *t, const table *a, const table *b)
{
    unsigned fault = 0;
    size_t most = a->count * b->count;
    index_empty(&s->index, most < s->pair_limit ? most : s->pair_limit);
    t->count = 0;
    for (size_t k = 0; k < a->count; k++)
        for (size_t m = 0; m < b->count; m++) {
            uint64_t first = a->first[k] + b->first[m];
            fault = unite_rows(s, t, a->rows + k * s->width, b->rows + m * s->width, first, fault != 0);
            if (fault == SUBSETS_FULL) return fault;
        }
    return fault;
}

// The table made in the free one takes the place of the two newest.
static void replace_newest(state *s)
{
    table *a = &s->tables[s->depth - 2], *b = a + 1, *t = &s->tables[s->parts], made = *t;
    made.marks = a->marks | b->marks;
    *t = *a;
    *a = made;
    s->depth--;
}

static unsigned unite(state *s)
{
    table *a = &s->tables[s->depth - 2], *b = a + 1;
    unsigned fault = unite_tables(s, &s->tables[s->parts], a, b);
    if (fault) return fault;
    replace_newest(s);
    return 0;
}

// A relabel, or the connects that a link is (02, Item 11): atoms of label i with rules of label j, and atoms of j with rules of i.
typedef struct { command each[2]; size_t count; } maps;

static bool can_connect(const table *t, const command *c)
{
    uint32_t needed = 1u << c->i | 1u << (2 * LABELS + c->j);
    return (t->marks & needed) == needed;
}

// Those of a command that find something in the table; its marks are then those after the command.
static maps maps_of(table *t, const command *c)
{
    command back = {c->code, c->j, c->i, c->length};
    maps m = {{*c}, 0};
    if (c->code == RELABEL) m.count = relabel(&t->marks, 1, c->i, c->j);
    else {
        if (can_connect(t, c)) m.each[m.count++] = *c;
        if (can_connect(t, &back)) m.each[m.count++] = back;
    }
    return m;
}

// The marks that decide a connect: a triple with all of them loses that of the unmet rule. 0 where none of the pair does.
static uint32_t marks_of(const command *c, uint32_t q, uint32_t unmet)
{
    switch (c->code) {
    case HEAD: return unmet | 1u << c->i;
    case POSITIVE: return unmet | 1u << (LABELS + c->i);
    default: return q >> c->i & 1 ? unmet : 0; // the reduct is by the interpretation itself
    }
}

// What a relabel or one connect makes of the interpretation's own triple.
static uint32_t map_triple(const command *c, uint32_t q)
{
    uint32_t unmet = 1u << (2 * LABELS + c->j), marks = 0;
    if (c->code == RELABEL) relabel(&q, 1, c->i, c->j);
    else marks = marks_of(c, q, unmet);
    return marks != 0 && (q & marks) == marks ? q ^ unmet : q;
}

// The subsets of a pair after one connect: whether any changed.
static bool connect_subsets(const command *c, uint32_t q, uint32_t *row)
{
    uint32_t unmet = 1u << (2 * LABELS + c->j), marks = marks_of(c, q, unmet);
    if (marks == 0 || !has_marks(row + 2, row[1], marks)) return false;
    row[1] = (uint32_t)lose_mark(row + 2, row[1], marks, unmet);
    return true;
}

static bool relabel_subsets(const command *c, uint32_t *row)
{
    if (!relabel(row + 2, row[1], c->i, c->j)) return false;
    sort_triples(row + 2, row[1]);
    row[1] = (uint32_t)drop_equal(row + 2, row[1]);
    return true;
}

// Maps a row where it stands: whether anything changed.
static bool map_row(const command *c, uint32_t *row)
{
    uint32_t q = row[0];
    row[0] = map_triple(c, q);
    bool changed = c->code == RELABEL ? relabel_subsets(c, row) : connect_subsets(c, q, row);
    return changed || row[0] != q;
}

static void move_row(table *t, size_t width, size_t to, size_t from)
{
    const uint32_t *row = t->rows + from * width;
    if (to != from) memcpy(t->rows + to * width, row, (row[1] + 2) * sizeof *row);
}

static unsigned map_table(state *s, const command *c)
{
    table *t = &s->tables[s->depth - 1];
    maps m = maps_of(t, c);
    size_t count = t->count;
    bool changed = false;
    for (size_t k = 0; k < count; k++)
        for (size_t h = 0; h < m.count; h++) changed |= map_row(&m.each[h], t->rows + k * s->width);
    if (!changed) return 0;
    index_empty(&s->index, count);
    t->count = 0;
    for (size_t k = 0; k < count; k++) {
        move_row(t, s->width, t->count, k);
        keep_row(s, t, t->rows + t->count * s->width, t->first[k]);
    }
    return 0;
}

unsigned run_command(state *s, const command *c)
{
    switch (c->code) {
    case ATOM: case GRANTED: return push_atom(s, c->i, c->code == GRANTED);
    case RULE: return push_rule(s, c->i);
    case UNION: return unite(s);
    case NAME: return 0;
    default: return map_table(s, c);
    }
}

// ---- the commands on plain tables: a row is one triple

// A plain row has no subsets, as a granted atom's has none.
static unsigned push_plain_atom(state *s, unsigned label)
{
    unsigned fault = push_atom(s, label, true);
    if (fault) return fault;
    table *t = &s->tables[s->depth - 1];
    if (t->count == 2) t->rows[1] = t->rows[s->width];
    return 0;
}

static unsigned unite_plain(state *s)
{
    table *a = &s->tables[s->depth - 2], *b = a + 1, *t = &s->tables[s->parts];
    uint64_t stamp = filter_empty(&s->seen);
    t->count = 0;
    for (size_t k = 0; k < a->count; k++)
        for (size_t m = 0; m < b->count; m++) {
            uint32_t q = a->rows[k] | b->rows[m];
            if (!filter_add(&s->seen, stamp, q)) continue;
            if (t->count == s->pair_limit) return PLANS_FULL;
            t->rows[t->count++] = q;
        }
    replace_newest(s);
    return 0;
}

static unsigned map_plain(state *s, const command *c)
{
    table *t = &s->tables[s->depth - 1];
    maps m = maps_of(t, c);
    size_t count = t->count;
    uint64_t stamp = filter_empty(&s->seen);
    t->count = 0;
    for (size_t k = 0; k < count; k++) {
        uint32_t q = t->rows[k];
        for (size_t h = 0; h < m.count; h++) q = map_triple(&m.each[h], q);
        if (filter_add(&s->seen, stamp, q)) t->rows[t->count++] = q;
    }
    return 0;
}

unsigned run_plain_command(state *s, const command *c)
{
    switch (c->code) {
    case ATOM: case GRANTED: return push_plain_atom(s, c->i);
    case RULE: return push_rule(s, c->i);
    case UNION: return unite_plain(s);
    case NAME: return 0;
    default: return map_plain(s, c);
    }
}

// ---- reading a table

// Subsets rise, so the first one tells.
bool is_accepting(const uint32_t *row)
{
    return row[0] < NO_UNMET && (row[1] == 0 || row[2] >= NO_UNMET);
}

int compare_rows(const void *x, const void *y)
{
    const uint32_t *a = *(const uint32_t *const *)x, *b = *(const uint32_t *const *)y;
    if (a[0] != b[0]) return a[0] < b[0] ? -1 : 1;
    for (uint32_t k = 0; k < a[1] && k < b[1]; k++)
        if (a[2 + k] != b[2 + k]) return a[2 + k] < b[2 + k] ? -1 : 1;
    return a[1] < b[1] ? -1 : a[1] > b[1];
}

void order_rows(const table *t, size_t width, const uint32_t **rows)
{
    for (size_t k = 0; k < t->count; k++) rows[k] = t->rows + k * width;
    qsort(rows, t->count, sizeof *rows, compare_rows);
}
