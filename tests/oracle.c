// Document 01 by enumeration: tables from the rules' meaning, and by Definition 8 read literally (oracle_define).
#include "oracle.h"

#include <stdlib.h>
#include <string.h>

// ---- tables

typedef struct { uint32_t **rows; size_t count, room; } row_list;

static int compare_words(const void *x, const void *y)
{
    uint32_t a = *(const uint32_t *)x, b = *(const uint32_t *)y;
    return a < b ? -1 : a > b;
}

static size_t sort_and_drop_equal(uint32_t *v, size_t n)
{
    size_t m = 0;
    if (n > 0) qsort(v, n, sizeof *v, compare_words);
    for (size_t k = 0; k < n; k++)
        if (m == 0 || v[m - 1] != v[k]) v[m++] = v[k];
    return m;
}

// By rising Q, then by subset list: place by place, a list before its longer continuations.
static int compare_pairs(const uint32_t *a, const uint32_t *b)
{
    if (a[0] != b[0]) return a[0] < b[0] ? -1 : 1;
    for (uint32_t k = 0; k < a[1] && k < b[1]; k++)
        if (a[2 + k] != b[2 + k]) return a[2 + k] < b[2 + k] ? -1 : 1;
    return a[1] < b[1] ? -1 : a[1] > b[1];
}

static int compare_rows(const void *x, const void *y)
{
    return compare_pairs(*(uint32_t *const *)x, *(uint32_t *const *)y);
}

// Takes over a row: Q, n, and n subsets in any order.
static void add_row(row_list *list, uint32_t *row)
{
    row[1] = (uint32_t)sort_and_drop_equal(row + 2, row[1]);
    if (list->count == list->room) {
        list->room = list->room ? 2 * list->room : 64;
        list->rows = realloc(list->rows, list->room * sizeof *list->rows);
    }
    list->rows[list->count++] = row;
}

// The table of a list of rows, equal pairs counted once; frees the list.
static oracle_table table_of(row_list *list)
{
    oracle_table t = {NULL, 0, 0, 0};
    size_t words = 0;
    for (size_t k = 0; k < list->count; k++) words += list->rows[k][1] + 2u;
    t.words = malloc((words + 1) * sizeof *t.words);
    if (list->count > 0) qsort(list->rows, list->count, sizeof *list->rows, compare_rows);
    for (size_t k = 0; k < list->count; k++) {
        const uint32_t *row = list->rows[k];
        if (k > 0 && compare_pairs(list->rows[k - 1], row) == 0) continue;
        memcpy(t.words + t.length, row, (row[1] + 2u) * sizeof *row);
        t.length += row[1] + 2u;
        t.entries++;
        if (row[1] > t.most_subsets) t.most_subsets = row[1];
    }
    for (size_t k = 0; k < list->count; k++) free(list->rows[k]);
    free(list->rows);
    return t;
}

void oracle_free(oracle_table *t)
{
    free(t->words);
    *t = (oracle_table){NULL, 0, 0, 0};
}

static uint32_t *new_row(uint32_t q, size_t room)
{
    uint32_t *row = malloc((room + 2) * sizeof *row);
    row[0] = q;
    row[1] = 0;
    return row;
}

// ---- tables from the rules' meaning

static uint64_t atoms_of(const policy *p, unsigned part)
{
    uint64_t mask = 0;
    for (unsigned a = 0; a < p->atoms; a++)
        if (p->atom_part[a] == part) mask |= (uint64_t)1 << a;
    return mask;
}

// T and F by y, U by y in the reduct of x.
static uint32_t triple_of(const policy *p, unsigned part, uint64_t x, uint64_t y)
{
    uint32_t t = 0, f = 0, u = 0;
    for (unsigned a = 0; a < p->atoms; a++) {
        if (p->atom_part[a] != part) continue;
        if (y >> a & 1) t |= 1u << p->atom_label[a];
        else f |= 1u << p->atom_label[a];
    }
    for (unsigned r = 0; r < p->rules; r++) {
        if (p->rule_part[r] != part || (p->negative[r] & x) != 0) continue;
        if ((p->positive[r] & ~y) == 0 && (p->head[r] & y) == 0) u |= 1u << p->rule_label[r];
    }
    return t + 1024 * f + 1048576 * u;
}

static uint32_t *pair_of(const policy *p, unsigned part, uint64_t x)
{
    uint32_t *row = new_row(triple_of(p, part, x, x), (size_t)1 << __builtin_popcountll(x));
    for (uint64_t y = x; y != 0;) {
        y = (y - 1) & x;
        if (policy_is_smaller(p, x, y)) row[2 + row[1]++] = triple_of(p, part, x, y);
    }
    return row;
}

oracle_table oracle_pairs(const policy *p, unsigned part, uint64_t pins_in, uint64_t pins_out)
{
    uint64_t all = atoms_of(p, part), x = all;
    row_list list = {NULL, 0, 0};
    for (;; x = (x - 1) & all) {
        if (policy_obeys(x, pins_in & all, pins_out & all)) add_row(&list, pair_of(p, part, x));
        if (x == 0) return table_of(&list);
    }
}

oracle_table oracle_triples(const policy *p, unsigned part, uint64_t pins_in, uint64_t pins_out)
{
    uint64_t all = atoms_of(p, part), x = all;
    oracle_table t = {malloc(((size_t)1 << __builtin_popcountll(all)) * sizeof(uint32_t)), 0, 0, 0};
    for (;; x = (x - 1) & all) {
        if (policy_obeys(x, pins_in & all, pins_out & all)) t.words[t.length++] = triple_of(p, part, x, x);
        if (x == 0) break;
    }
    t.length = t.entries = sort_and_drop_equal(t.words, t.length);
    return t;
}

// ---- tables by Definition 8, with the leaf of 02, Item 9 and the links of 02, Item 11

enum { SETS = 1 << POLICY_GROUPS };

// Q with label i replaced by j in each of its sets.
static uint32_t relabelled(uint32_t q, unsigned i, unsigned j)
{
    for (unsigned set = 0; set < 3 * POLICY_GROUPS; set += POLICY_GROUPS)
        if (q >> (set + i) & 1) q = (q & ~(1u << (set + i))) | 1u << (set + j);
    return q;
}

// Q without label j in U where label i is in the set S.
static uint32_t connected(uint32_t q, uint32_t s, unsigned i, unsigned j)
{
    return s >> i & 1 ? q & ~(1u << (2 * POLICY_GROUPS + j)) : q;
}

// The triple r of a pair with triple q (r is q or one of its subsets) after a relabel or connect.
static uint32_t mapped(const policy_command *c, uint32_t q, uint32_t r)
{
    switch (c->code) {
    case 0x31: return relabelled(r, c->i, c->j);
    case 0x41: return connected(r, r % SETS, c->i, c->j);
    case 0x42: return connected(r, r / SETS % SETS, c->i, c->j);
    default: return connected(r, q % SETS, c->i, c->j);
    }
}

static uint32_t *mapped_row(const policy_command *c, const uint32_t *pair)
{
    uint32_t *row = new_row(mapped(c, pair[0], pair[0]), pair[1]);
    for (uint32_t k = 0; k < pair[1]; k++) row[2 + row[1]++] = mapped(c, pair[0], pair[2 + k]);
    return row;
}

static uint32_t *united_row(const uint32_t *a, const uint32_t *b)
{
    uint32_t *row = new_row(a[0] | b[0], ((size_t)a[1] + 1) * ((size_t)b[1] + 1));
    for (uint32_t k = 0; k < a[1]; k++)
        for (uint32_t m = 0; m < b[1]; m++) row[2 + row[1]++] = a[2 + k] | b[2 + m];
    for (uint32_t m = 0; m < b[1]; m++) row[2 + row[1]++] = a[0] | b[2 + m];
    for (uint32_t k = 0; k < a[1]; k++) row[2 + row[1]++] = a[2 + k] | b[0];
    return row;
}

static void add_leaf(row_list *list, const policy_command *c, unsigned atom, uint64_t pins_in, uint64_t pins_out)
{
    if (c->code == 0x12) {
        add_row(list, new_row(1u << (2 * POLICY_GROUPS + c->i), 0));
        return;
    }
    if (!(pins_out >> atom & 1)) {
        uint32_t *row = new_row(1u << c->i, 1);
        if (c->code == 0x11) row[2 + row[1]++] = 1u << (POLICY_GROUPS + c->i);
        add_row(list, row);
    }
    if (!(pins_in >> atom & 1)) add_row(list, new_row(1u << (POLICY_GROUPS + c->i), 0));
}

// By Definition 8 to the letter, which connects atoms of label i with rules of label j.
static oracle_table defined(const policy_command *c, unsigned atom, uint64_t pins_in, uint64_t pins_out, const oracle_table *below,
                            const oracle_table *newest)
{
    row_list list = {NULL, 0, 0};
    if (c->code < 0x21) {
        add_leaf(&list, c, atom, pins_in, pins_out);
        return table_of(&list);
    }
    for (const uint32_t *b = newest->words; b < newest->words + newest->length; b += b[1] + 2) {
        if (c->code != 0x21) {
            add_row(&list, mapped_row(c, b));
            continue;
        }
        for (const uint32_t *a = below->words; a < below->words + below->length; a += a[1] + 2) add_row(&list, united_row(a, b));
    }
    return table_of(&list);
}

// A link is that of i j, followed by the same of j i.
oracle_table oracle_define(const policy_command *c, unsigned atom, uint64_t pins_in, uint64_t pins_out,
                           const oracle_table *below, const oracle_table *newest)
{
    oracle_table made = defined(c, atom, pins_in, pins_out, below, newest);
    if (!policy_is_link(c->code)) return made;
    policy_command back = {c->code, c->j, c->i, c->offset, c->next};
    oracle_table both = defined(&back, atom, pins_in, pins_out, below, &made);
    oracle_free(&made);
    return both;
}

// ---- the tables after each command

static void note_depth(oracle_step *now, const oracle_step *before, size_t number, unsigned depth)
{
    if (before) memcpy(now->made, before->made, sizeof now->made);
    now->depth = depth;
    now->made[depth - 1] = (unsigned)number;
}

oracle_history oracle_walk(const uint8_t *sheet, size_t sheet_len, uint64_t pins_in, uint64_t pins_out)
{
    oracle_history h = {0, calloc(sheet_len + 1, sizeof(oracle_step)), {0}};
    for (size_t at = 0; at < sheet_len; at = h.step[h.steps++].command.next) {
        oracle_step *now = &h.step[h.steps];
        now->command = policy_command_at(sheet, at);
        now->atoms = h.policy.atoms;
        now->links_back = policy_links_back(&h.policy, &now->command);
        policy_apply(&h.policy, &now->command);
        note_depth(now, h.steps ? now - 1 : NULL, h.steps, h.policy.parts);
        now->pairs = oracle_pairs(&h.policy, h.policy.parts - 1, pins_in, pins_out);
        now->triples = oracle_triples(&h.policy, h.policy.parts - 1, pins_in, pins_out);
    }
    return h;
}

void oracle_forget(oracle_history *h)
{
    for (size_t k = 0; k < h->steps; k++) {
        oracle_free(&h->step[k].pairs);
        oracle_free(&h->step[k].triples);
    }
    free(h->step);
    h->step = NULL;
    h->steps = 0;
}

// ---- answers

static oracle_answer refused(unsigned number, size_t place)
{
    return (oracle_answer){2, number, place};
}

static const oracle_answer passed = {0, 0, 0};

static bool is_limit(uint64_t n)
{
    return n >= 1 && n <= 1024;
}

// 5 to 12, and what the commands before the first fault build.
static oracle_answer read_sheet(const oracle_request *r, policy *p)
{
    for (size_t at = 0; at < r->sheet_len;) {
        unsigned fault = policy_fault(r->sheet, r->sheet_len, at, p);
        if (fault != 0) return refused(fault, at);
        policy_command c = policy_command_at(r->sheet, at);
        policy_apply(p, &c);
        at = c.next;
    }
    return p->parts == 1 ? passed : refused(12, r->sheet_len);
}

unsigned oracle_parts(const oracle_request *r)
{
    policy p = {0};
    read_sheet(r, &p);
    return p.most_parts;
}

oracle_answer oracle_depth(const oracle_request *r)
{
    policy p = {0};
    if (r->sheet_len > 4096) return refused(1, 0);
    oracle_answer a = read_sheet(r, &p);
    return a.kind == 2 ? a : (oracle_answer){1, p.most_parts, 0};
}

oracle_answer oracle_name(const oracle_request *r, uint64_t copy)
{
    policy p = {0};
    if (r->sheet_len > 4096) return refused(1, 0);
    oracle_answer a = read_sheet(r, &p);
    if (a.kind == 2 || copy >= p.atoms || p.atom_name[copy] == 0) return a;
    return (oracle_answer){1, p.atom_name[copy], 0};
}

oracle_answer oracle_check(const oracle_request *r)
{
    policy p = {0};
    if (r->sheet_len > 4096) return refused(1, 0);
    if (!is_limit(r->plan_limit) || !is_limit(r->subset_limit)) return refused(2, 0);
    oracle_answer a = read_sheet(r, &p);
    if (a.kind == 2) return a;
    if (r->workspace_len < (p.most_parts + 1) * r->plan_limit * (r->subset_limit + 2)) return refused(3, 0);
    for (unsigned c = p.atoms; c < 64; c++)
        if ((r->pins_in >> c & 1) || (r->pins_out >> c & 1)) return refused(13, r->sheet_len);
    if ((r->pins_in & r->pins_out) != 0) return refused(4, 0);
    return passed;
}

void oracle_need(const oracle_history *h, uint64_t *plan_limit, uint64_t *subset_limit)
{
    *plan_limit = *subset_limit = 1;
    for (size_t k = 0; k < h->steps; k++) {
        const oracle_table *t = &h->step[k].pairs;
        if (t->entries > *plan_limit) *plan_limit = t->entries;
        if (t->most_subsets > *subset_limit) *subset_limit = t->most_subsets;
    }
}

oracle_answer oracle_fit(const oracle_history *h, size_t n, uint64_t plan_limit, uint64_t subset_limit)
{
    for (size_t k = 0; k < n; k++) {
        const oracle_step *s = &h->step[k];
        if (s->pairs.most_subsets > subset_limit) return refused(15, s->command.offset);
        if (s->pairs.entries > plan_limit) return refused(16, s->command.offset);
    }
    return passed;
}

static oracle_answer fit_plain(const oracle_history *h, size_t n, uint64_t plan_limit)
{
    for (size_t k = 0; k < n; k++)
        if (h->step[k].triples.entries > plan_limit) return refused(16, h->step[k].command.offset);
    return passed;
}

// Whether some plan that obeys the pins meets every rule.
static bool has_model(const oracle_request *r, const policy *p)
{
    for (uint64_t x = 0; x < (uint64_t)1 << p->atoms; x++)
        if (policy_obeys(x, r->pins_in, r->pins_out) && policy_is_model(p, x)) return true;
    return false;
}

// 02, Item 5: at the lowest copy where they differ x leaves it out.
static bool comes_before(uint64_t x, uint64_t y)
{
    uint64_t differ = x ^ y;
    return (y & differ & -differ) != 0;
}

// Of all grounded plans that obey the pins the one that comes before the others.
static oracle_answer first_plan(const oracle_request *r, const policy *p)
{
    bool is_found = false;
    uint64_t first = 0;
    for (uint64_t x = 0; x < (uint64_t)1 << p->atoms; x++) {
        if (is_found && !comes_before(x, first)) continue;
        if (!policy_obeys(x, r->pins_in, r->pins_out) || !policy_is_answer_set(p, x)) continue;
        is_found = true;
        first = x;
    }
    return (oracle_answer){is_found, first, 0};
}

oracle_answer oracle_grounded(const oracle_request *r, const oracle_history *h)
{
    oracle_answer a = oracle_check(r);
    if (a.kind == 2) return a;
    a = oracle_fit(h, h->steps, r->plan_limit, r->subset_limit);
    if (a.kind == 2) return a;
    return first_plan(r, &h->policy);
}

oracle_answer oracle_plain(const oracle_request *r, const oracle_history *h)
{
    oracle_answer a = oracle_check(r);
    if (a.kind == 2) return a;
    a = fit_plain(h, h->steps, r->plan_limit);
    if (a.kind == 2) return a;
    return (oracle_answer){has_model(r, &h->policy), 0, 0};
}

static size_t step_at(const oracle_history *h, size_t offset)
{
    size_t k = 0;
    while (k < h->steps && h->step[k].command.offset != offset) k++;
    return k;
}

oracle_answer oracle_report(const oracle_request *r, const oracle_history *h, const oracle_table **table)
{
    *table = NULL;
    oracle_answer a = oracle_check(r);
    if (a.kind == 2) return a;
    size_t k = step_at(h, r->asked);
    if (k == h->steps) return refused(14, r->asked);
    a = oracle_fit(h, k + 1, r->plan_limit, r->subset_limit);
    if (a.kind == 2) return a;
    if (r->report_len < h->step[k].pairs.length) return refused(17, r->asked);
    *table = &h->step[k].pairs;
    return (oracle_answer){1, (*table)->entries, (*table)->length};
}

oracle_answer oracle_plain_report(const oracle_request *r, const oracle_history *h, const oracle_table **table)
{
    *table = NULL;
    oracle_answer a = oracle_check(r);
    if (a.kind == 2) return a;
    size_t k = step_at(h, r->asked);
    if (k == h->steps) return refused(14, r->asked);
    a = fit_plain(h, k + 1, r->plan_limit);
    if (a.kind == 2) return a;
    if (r->report_len < h->step[k].triples.length) return refused(17, r->asked);
    *table = &h->step[k].triples;
    return (oracle_answer){1, (*table)->entries, (*table)->length};
}

// ---- records

bool oracle_locate(const oracle_request *r, uint64_t place, policy_command *command, unsigned *atoms, unsigned *depth)
{
    policy p = {0};
    for (size_t at = 0; at < r->sheet_len;) {
        *command = policy_command_at(r->sheet, at);
        *atoms = p.atoms;
        *depth = p.parts;
        if (at == place) return true;
        policy_apply(&p, command);
        at = command->next;
    }
    return false;
}

static bool is_zero(const uint32_t *words, size_t n)
{
    for (size_t k = 0; k < n; k++)
        if (words[k] != 0) return false;
    return true;
}

// Q, n, n subsets rising strictly, zeros.
static bool is_pair(const uint32_t *row, uint64_t subset_limit)
{
    if (row[0] >= 1u << 30 || row[1] > subset_limit) return false;
    for (uint32_t k = 0; k < row[1]; k++)
        if (row[2 + k] >= 1u << 30 || (k > 0 && row[1 + k] >= row[2 + k])) return false;
    return is_zero(row + 2 + row[1], subset_limit - row[1]);
}

static bool is_table(const oracle_request *r, const uint32_t *area, uint64_t count)
{
    size_t width = r->subset_limit + 2;
    if (count < 1 || count > r->plan_limit) return false;
    for (size_t k = 0; k < count; k++) {
        if (!is_pair(area + k * width, r->subset_limit)) return false;
        if (k > 0 && compare_pairs(area + (k - 1) * width, area + k * width) >= 0) return false;
    }
    return is_zero(area + count * width, (r->plan_limit - count) * width);
}

bool oracle_is_record(const oracle_request *r, const uint64_t record[10], const uint32_t *workspace)
{
    policy_command c;
    unsigned atoms, depth = 1; // a sheet that passes 12 ends with one part
    size_t area = r->plan_limit * (r->subset_limit + 2);
    if (record[0] != r->sheet_len && !oracle_locate(r, record[0], &c, &atoms, &depth)) return false;
    if (record[1] != depth) return false;
    for (unsigned t = 0; t < 8; t++) {
        if (t >= depth && record[2 + t] != 0) return false;
        if (t < depth && !is_table(r, workspace + t * area, record[2 + t])) return false;
    }
    return is_zero(workspace + depth * area, (oracle_parts(r) + 1 - depth) * area);
}

oracle_table oracle_found(const oracle_request *r, const uint64_t record[10], const uint32_t *workspace, unsigned t)
{
    size_t width = r->subset_limit + 2;
    const uint32_t *area = workspace + t * r->plan_limit * width;
    row_list list = {NULL, 0, 0};
    for (size_t k = 0; k < record[2 + t]; k++) {
        const uint32_t *row = area + k * width;
        uint32_t *copy = new_row(row[0], row[1]);
        copy[1] = row[1];
        memcpy(copy + 2, row + 2, row[1] * sizeof *row);
        add_row(&list, copy);
    }
    return table_of(&list);
}

void oracle_lay(const oracle_request *r, uint32_t *workspace, unsigned t, const oracle_table *table)
{
    size_t width = r->subset_limit + 2;
    uint32_t *row = workspace + t * r->plan_limit * width;
    for (const uint32_t *pair = table->words; pair < table->words + table->length; pair += pair[1] + 2) {
        memcpy(row, pair, (pair[1] + 2u) * sizeof *row);
        row += width;
    }
}
