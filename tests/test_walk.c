// The walk by the step against the oracle: its tables after each step, its end against the decision, links on listed tables, and damaged records and
// workspaces.
#include "calls.h"
#include "lent.h"
#include "nuntennis.h"
#include "random.h"

#include <inttypes.h>
#include <stdio.h>
#include <stdlib.h>
#include <string.h>

typedef enum { START, STEP, VERDICT } walk_call;

static const char *const names[] = {"nuntennis_start", "nuntennis_step", "nuntennis_verdict"};

static lent sheet_room, record_room, workspace_room, answer_room;

// What the archive holds, and what it should hold.
typedef struct {
    oracle_request r;
    uint64_t seed;
    nuntennis_record *record;
    uint32_t *workspace;
    const uint8_t *sheet;
    uint64_t record_due[10];
    uint32_t *workspace_due;
} walk;

typedef struct { uint64_t walks, steps, passed, granted, back, ended, full, damaged, others, records, refused, fulls, acted; } tally;

// ---- what a call should do, by the oracle

static const oracle_answer moved = {3, 0, 0}, ended = {4, 0, 0};

static oracle_answer refused(unsigned number, uint64_t place)
{
    return (oracle_answer){2, number, place};
}

static oracle_answer start_due(walk *w, const oracle_request *r)
{
    oracle_answer a = oracle_check(r);
    if (a.kind == 2) return a;
    memset(w->record_due, 0, sizeof w->record_due);
    memset(w->workspace_due, 0, 4 * need_of(r));
    return moved;
}

static void clear_area(const oracle_request *r, uint32_t *workspace, unsigned t)
{
    size_t area = r->plan_limit * (r->subset_limit + 2);
    memset(workspace + t * area, 0, 4 * area);
}

// Puts the new table over those that the command took.
static void take_step(walk *w, const oracle_request *r, const policy_command *c, const oracle_table *made)
{
    unsigned depth = (unsigned)w->record_due[1], t = depth;
    if (c->code == 0x21) {
        clear_area(r, w->workspace_due, depth - 1);
        w->record_due[2 + depth - 1] = 0;
        t = depth - 2;
    } else if (c->code > 0x21) t = depth - 1;
    clear_area(r, w->workspace_due, t);
    oracle_lay(r, w->workspace_due, t, made);
    w->record_due[2 + t] = made->entries;
    w->record_due[1] = t + 1;
    w->record_due[0] = c->next;
}

// 02, Item 1: a step over a name moves the place, and leaves tables, counts and every word as they were.
static oracle_answer pass_due(walk *w)
{
    w->record_due[0] += 1 + POLICY_NAME;
    return moved;
}

static oracle_answer act_due(walk *w, const oracle_request *r)
{
    policy_command c;
    unsigned atoms, depth;
    oracle_table below = {0}, newest = {0};
    oracle_locate(r, w->record_due[0], &c, &atoms, &depth);
    if (c.code == 0x51) return pass_due(w);
    if (depth > 0) newest = oracle_found(r, w->record_due, w->workspace_due, depth - 1);
    if (depth > 1) below = oracle_found(r, w->record_due, w->workspace_due, depth - 2);
    oracle_table made = oracle_define(&c, atoms, r->pins_in, r->pins_out, &below, &newest);
    oracle_answer a = moved;
    if (made.most_subsets > r->subset_limit) a = refused(15, c.offset);
    else if (made.entries > r->plan_limit) a = refused(16, c.offset);
    else take_step(w, r, &c, &made);
    oracle_free(&below);
    oracle_free(&newest);
    oracle_free(&made);
    return a;
}

static oracle_answer step_due(walk *w, const oracle_request *r)
{
    oracle_answer a = oracle_check(r);
    if (a.kind == 2) return a;
    if (!oracle_is_record(r, w->record_due, w->workspace_due)) return refused(18, w->record_due[0]);
    return w->record_due[0] == r->sheet_len ? ended : act_due(w, r);
}

// Some pair has all rules met, and none of its subsets has.
static bool is_yes(const oracle_table *t)
{
    for (const uint32_t *pair = t->words; pair < t->words + t->length; pair += pair[1] + 2) {
        bool is_accepting = pair[0] < 1u << 2 * POLICY_GROUPS;
        for (uint32_t k = 0; k < pair[1]; k++)
            if (pair[2 + k] < 1u << 2 * POLICY_GROUPS) is_accepting = false;
        if (is_accepting) return true;
    }
    return false;
}

static oracle_answer verdict_due(walk *w, const oracle_request *r)
{
    oracle_answer a = oracle_check(r);
    if (a.kind == 2) return a;
    bool is_end = w->record_due[0] == r->sheet_len;
    if (!is_end || !oracle_is_record(r, w->record_due, w->workspace_due)) return refused(18, w->record_due[0]);
    oracle_table last = oracle_found(r, w->record_due, w->workspace_due, 0);
    a.kind = is_yes(&last);
    oracle_free(&last);
    return a;
}

static oracle_answer call_due(walk *w, walk_call c, const oracle_request *r)
{
    return c == START ? start_due(w, r) : c == STEP ? step_due(w, r) : verdict_due(w, r);
}

// ---- what it does

static uint64_t make_call(const walk *w, walk_call c, const oracle_request *r, uint64_t *answer)
{
    switch (c) {
    case START:
        return nuntennis_start(w->record, w->workspace, r->workspace_len, w->sheet, r->sheet_len, r->plan_limit, r->subset_limit,
                               r->pins_in, r->pins_out, answer, r->answer_len);
    case STEP:
        return nuntennis_step(w->record, w->workspace, r->workspace_len, w->sheet, r->sheet_len, r->plan_limit, r->subset_limit,
                              r->pins_in, r->pins_out, answer, r->answer_len);
    default:
        return nuntennis_verdict(w->record, w->workspace, r->workspace_len, w->sheet, r->sheet_len, r->plan_limit, r->subset_limit,
                                 r->pins_in, r->pins_out, answer, r->answer_len);
    }
}

static void compare_state(const walk *w, const char *name)
{
    uint64_t found[10];
    memcpy(found, w->record, sizeof found);
    for (unsigned k = 0; k < 10; k++)
        if (found[k] != w->record_due[k])
            disagree(name, &w->r, "word %u of the record is %" PRIu64 ", expected %" PRIu64, k, found[k], w->record_due[k]);
    if (memcmp(w->workspace, w->workspace_due, 4 * w->r.workspace_len) == 0) return;
    for (size_t k = 0; k < w->r.workspace_len; k++)
        if (w->workspace[k] != w->workspace_due[k])
            disagree(name, &w->r, "word %zu of the workspace is %" PRIu32 ", expected %" PRIu32 "; the record's place is %" PRIu64, k,
                     w->workspace[k], w->workspace_due[k], w->record_due[0]);
}

// Makes a call with the request given and compares answer, record and workspace with what is due.
static oracle_answer call_and_compare(walk *w, walk_call c, const oracle_request *r)
{
    uint64_t before = w->record_due[0];
    uint64_t *answer = lend(&answer_room, 8 * r->answer_len, w->seed);
    watch(names[c], r);
    uint64_t returned = make_call(w, c, r, answer);
    watch(NULL, NULL);
    if (returned != (r->answer_len >= 3)) disagree(names[c], r, "it returned %" PRIu64, returned);
    if (r->answer_len < 3) {
        if (!is_untouched(&answer_room, 8 * r->answer_len, 0, w->seed)) disagree(names[c], r, "a short answer slice was changed");
        compare_state(w, names[c]);
        return (oracle_answer){0, 0, 0};
    }
    oracle_answer due = call_due(w, c, r);
    if (answer[0] != due.kind || answer[1] != due.value || answer[2] != due.place)
        disagree(names[c], r, "at place %" PRIu64 " answer %" PRIu64 " %" PRIu64 " %" PRIu64 ", expected %" PRIu64 " %" PRIu64 " %" PRIu64,
                 before, answer[0], answer[1], answer[2], due.kind, due.value, due.place);
    if (!is_untouched(&answer_room, 8 * r->answer_len, 24, w->seed)) disagree(names[c], r, "an answer word past the third was changed");
    compare_state(w, names[c]);
    return due;
}

// ---- a walk

static walk begin(const oracle_request *r, uint64_t seed)
{
    walk w = {*r, seed, lend(&record_room, 80, seed), lend(&workspace_room, 4 * r->workspace_len, seed), NULL, {0}, NULL};
    uint8_t *sheet = lend(&sheet_room, r->sheet_len, seed);
    memcpy(sheet, r->sheet, r->sheet_len);
    w.sheet = sheet;
    w.workspace_due = malloc(4 * r->workspace_len + 4);
    memcpy(w.workspace_due, w.workspace, 4 * r->workspace_len);
    memcpy(w.record_due, w.record, 80);
    return w;
}

static void end(walk *w)
{
    free(w->workspace_due);
    if (!is_untouched(&workspace_room, 4 * w->r.workspace_len, 4 * w->r.workspace_len, w->seed)
        || !is_untouched(&record_room, 80, 80, w->seed))
        disagree("a walk", &w->r, "words before a buffer were changed");
}

// The tables after a step are those of the rules' meaning, not only of Definition 8 on the tables before.
static void compare_meaning(const walk *w, const oracle_history *h, size_t steps)
{
    const oracle_step *s = &h->step[steps - 1];
    if (w->record_due[1] != s->depth || w->record_due[0] != s->command.next) disagree("the oracle", &w->r, "depth after step %zu", steps);
    for (unsigned t = 0; t < s->depth; t++) {
        const oracle_table *due = &h->step[s->made[t]].pairs;
        oracle_table found = oracle_found(&w->r, w->record_due, w->workspace_due, t);
        if (found.length != due->length || memcmp(found.words, due->words, 4 * due->length) != 0)
            disagree("the oracle", &w->r, "table %u after step %zu", t, steps);
        oracle_free(&found);
    }
}

static void decide(const walk *w, uint64_t *answer)
{
    uint32_t *workspace = malloc(4 * w->r.workspace_len + 4);
    nuntennis_grounded(w->r.sheet, w->r.sheet_len, w->r.plan_limit, w->r.subset_limit, w->r.pins_in, w->r.pins_out, workspace,
                       w->r.workspace_len, answer, 3);
    free(workspace);
}

// The walk ends as the decision does.
static void compare_decision(walk *w, oracle_answer last, tally *n)
{
    uint64_t answer[3];
    decide(w, answer);
    if (last.kind == 2) {
        n->full += last.value == 15 || last.value == 16;
        if (answer[0] != 2 || answer[1] != last.value || answer[2] != last.place) disagree("a walk", &w->r, "it stopped unlike the decision");
        return;
    }
    n->ended++;
    oracle_answer verdict = call_and_compare(w, VERDICT, &w->r);
    if (verdict.kind != answer[0]) disagree("nuntennis_verdict", &w->r, "unlike the decision");
}

// ---- links of groups 1 and 2 on tables written by hand (02, Item 11)

enum { LINKED_PAIRS = 2, LINKED_SUBSETS = 3, LINKED_WORDS = LINKED_PAIRS * (LINKED_SUBSETS + 2) };

typedef struct { uint64_t count; uint32_t words[LINKED_WORDS]; } linked_table;

typedef struct { const char *name; uint8_t code; linked_table found, due; } linking;

// Groups in the three sets of a triple.
enum { T1 = 1 << 1, T2 = 1 << 2, F1 = T1 << 10, F2 = T2 << 10, U1 = F1 << 10, U2 = F2 << 10, T = T1 | T2, F = F1 | F2, U = U1 | U2 };

// The smaller plans of one with a copy in each group, and rules of both unmet.
#define ALL_UNMET {1, {T | U, 3, T2 | F1 | U, T1 | F2 | U, F | U}}

static const linking linkings[] = {
    {"head", 0x41, ALL_UNMET, {1, {T, 3, T1 | F2 | U1, T2 | F1 | U2, F | U}}},
    {"needed", 0x42, ALL_UNMET, {1, {T | U, 3, F, T2 | F1 | U1, T1 | F2 | U2}}},
    {"barring", 0x43, ALL_UNMET, {1, {T, 3, T2 | F1, T1 | F2, F}}},
    {"barring by the T of Q, group 1", 0x43, {1, {T1 | U, 1, T2 | U}}, {1, {T1 | U1, 1, T2 | U1}}},
    {"barring by the T of Q, group 2", 0x43, {1, {T2 | U, 1, T1 | U}}, {1, {T2 | U2, 1, T1 | U2}}},
    {"no copy meets a rule of its own group", 0x41, {2, {T1 | U1, 0, 0, 0, 0, T2 | U2, 1, T1 | U1}}, {2, {T1 | U1, 0, 0, 0, 0, T2 | U2, 1, T1 | U1}}},
    {"pairs that become equal, one by each half", 0x41, {2, {T | U1, 0, 0, 0, 0, T | U2, 0}}, {1, {T, 0}}},
    {"subsets that become equal, one by each half", 0x42, {1, {0, 2, F | U1, F | U2}}, {1, {0, 1, F}}},
};

static void try_linking(const linking *l, uint8_t i, uint8_t j)
{
    const uint8_t sheet[] = {0x11, 0x00, l->code, i, j};
    const uint64_t record[10] = {2, 1, l->found.count};
    oracle_request r = {sheet, sizeof sheet, LINKED_PAIRS, LINKED_SUBSETS, 0, 0, 2 * LINKED_WORDS, 0, 0, 3};
    case_name = l->name;
    walk w = begin(&r, 1);
    memcpy(w.record_due, record, 80);
    memset(w.workspace_due, 0, 4 * r.workspace_len);
    memcpy(w.workspace_due, l->found.words, sizeof l->found.words);
    memcpy(w.record, w.record_due, 80);
    memcpy(w.workspace, w.workspace_due, 4 * r.workspace_len);
    oracle_answer a = call_and_compare(&w, STEP, &r);
    bool is_due = a.kind == 3 && w.record_due[2] == l->due.count && memcmp(w.workspace_due, l->due.words, sizeof l->due.words) == 0;
    if (!is_due) disagree("the oracle", &r, "another table than the one listed");
    end(&w);
}

static void try_linkings(void)
{
    size_t n = sizeof linkings / sizeof linkings[0];
    for (case_number = 0; case_number < n; case_number++) {
        try_linking(&linkings[case_number], 1, 2);
        try_linking(&linkings[case_number], 2, 1);
    }
    printf("links on tables written by hand: %zu agree, both ways round\n", n);
}

// ---- damage

static uint64_t random_word(random_source *s, uint64_t now)
{
    switch (random_below(s, 6)) {
    case 0: return now + 1;
    case 1: return now - 1;
    case 2: return 0;
    case 3: return random_below(s, 12);
    case 4: return now | (uint64_t)1 << random_below(s, 64);
    default: return random_next(s);
    }
}

// A table of the form that 18 asks for, perhaps one that no walk comes to.
static void random_table(random_source *s, const oracle_request *r, uint32_t *area, uint64_t *count)
{
    size_t width = r->subset_limit + 2;
    uint32_t groups = random_below(s, 2) ? 7 : (1u << POLICY_GROUPS) - 1, q = 0;
    uint32_t marks = groups * (1u + (1u << POLICY_GROUPS) + (1u << 2 * POLICY_GROUPS));
    *count = 1 + random_below(s, (unsigned)(r->plan_limit < 6 ? r->plan_limit : 6));
    memset(area, 0, 4 * width * r->plan_limit);
    for (uint64_t k = 0; k < *count; k++) {
        uint32_t *row = area + k * width, *last = row - width;
        uint32_t more = (uint32_t)random_next(s) & marks;
        more >>= random_below(s, 20);
        bool is_longer = k > 0 && last[1] < r->subset_limit && random_below(s, 2);
        if (is_longer) memcpy(row, last, 4 * width);
        else row[0] = q = k == 0 ? more : q + 1 + more;
        uint32_t top = row[1] ? row[1 + row[1]] + 1 : 0;
        unsigned extra = is_longer ? 1 : random_below(s, (unsigned)r->subset_limit + 1);
        for (; extra > 0; extra--, top++) row[2 + row[1]++] = top += random_below(s, 300);
    }
}

static size_t area_of(const oracle_request *r)
{
    return r->plan_limit * (r->subset_limit + 2);
}

static void swap_words(uint32_t *a, uint32_t *b, size_t n)
{
    for (size_t k = 0; k < n; k++) {
        uint32_t x = a[k];
        a[k] = b[k];
        b[k] = x;
    }
}

static void damage_record(random_source *s, walk *w)
{
    unsigned k = random_below(s, 10);
    if (random_below(s, 4) == 0) w->record_due[0] = random_below(s, (unsigned)w->r.sheet_len + 2);
    else w->record_due[k] = random_word(s, w->record_due[k]);
}

static void damage_row(random_source *s, walk *w)
{
    size_t width = w->r.subset_limit + 2;
    if (w->record_due[1] == 0) return;
    unsigned t = random_below(s, (unsigned)w->record_due[1]);
    uint32_t *area = w->workspace_due + t * area_of(&w->r), *row = area + width * random_below(s, (unsigned)w->record_due[2 + t]);
    size_t k = random_below(s, (unsigned)width);
    switch (random_below(s, 4)) {
    case 0: if (row > area) swap_words(row - width, row, width); break;
    case 1: if (row > area) memcpy(row, row - width, 4 * width); break;
    case 2: if (row[1] > 1) swap_words(row + 2, row + 3, 1); break;
    default: row[k] = (uint32_t)random_word(s, row[k]);
    }
}

static void damage_word(random_source *s, walk *w)
{
    size_t need = need_of(&w->r), area = area_of(&w->r);
    size_t scratch = oracle_parts(&w->r) * area;
    size_t k = random_below(s, 3) == 0 ? scratch + random_below(s, (unsigned)area) : random_below(s, (unsigned)w->r.workspace_len);
    if (random_below(s, 8) == 0) k = need - 1;
    w->workspace_due[k] = (uint32_t)random_word(s, w->workspace_due[k]);
}

static void replace_table(random_source *s, walk *w)
{
    for (unsigned t = 0; t < w->record_due[1]; t++)
        if (random_below(s, 2)) random_table(s, &w->r, w->workspace_due + t * area_of(&w->r), &w->record_due[2 + t]);
}

// Drops the last pair of a table; the only one too.
static void drop_pair(random_source *s, walk *w)
{
    size_t width = w->r.subset_limit + 2;
    if (w->record_due[1] == 0) return;
    unsigned t = random_below(s, (unsigned)w->record_due[1]);
    memset(w->workspace_due + t * area_of(&w->r) + --w->record_due[2 + t] * width, 0, 4 * width);
}

// Damages what is due and gives the archive the same.
static void damage(random_source *s, walk *w)
{
    switch (random_below(s, 6)) {
    case 0: damage_record(s, w); break;
    case 1: damage_row(s, w); break;
    case 2: damage_word(s, w); break;
    case 3: drop_pair(s, w); break;
    default: replace_table(s, w);
    }
    memcpy(w->record, w->record_due, 80);
    memcpy(w->workspace, w->workspace_due, 4 * w->r.workspace_len);
}

// A request that the walk was not started with.
static oracle_request other_request(random_source *s, const oracle_request *r)
{
    oracle_request other = *r;
    switch (random_below(s, 6)) {
    case 0: other.pins_in = random_mask(s, 4, 2); break;
    case 1: other.pins_out = (uint64_t)1 << random_below(s, 64); break;
    case 2: if (r->plan_limit > 1) other.plan_limit--; break;
    case 3: other.workspace_len = need_of(r) - 1; break;
    case 4: other.sheet_len = random_below(s, (unsigned)r->sheet_len + 1); break;
    default: other.answer_len = random_below(s, 3);
    }
    return other;
}

// Makes calls on a damaged state, or with other arguments, and puts the state back.
static void try_damage(random_source *s, walk *w, tally *n)
{
    uint64_t record[10];
    size_t bytes = 4 * w->r.workspace_len;
    uint32_t *workspace = malloc(bytes + 4);
    memcpy(record, w->record_due, 80);
    memcpy(workspace, w->workspace_due, bytes);
    oracle_request r = w->r;
    if (random_below(s, 5) == 0) r = other_request(s, &r), n->others++;
    else damage(s, w), n->damaged++;
    if (r.sheet_len != w->r.sheet_len) w->sheet = lend(&sheet_room, r.sheet_len, w->seed), memcpy((uint8_t *)w->sheet, r.sheet, r.sheet_len);
    call_and_compare(w, VERDICT, &r);
    oracle_answer a = call_and_compare(w, STEP, &r);
    if (a.kind != 2) n->acted++;
    else if (a.value == 18) n->records++;
    else if (a.value >= 15) n->fulls++;
    else n->refused++;
    if (r.sheet_len != w->r.sheet_len) w->sheet = lend(&sheet_room, w->r.sheet_len, w->seed), memcpy((uint8_t *)w->sheet, w->r.sheet, w->r.sheet_len);
    memcpy(w->record_due, record, 80);
    memcpy(w->record, record, 80);
    memcpy(w->workspace_due, workspace, bytes);
    memcpy(w->workspace, workspace, bytes);
    free(workspace);
}

// ---- random walks

static void random_limits(random_source *s, oracle_request *r, const oracle_history *h)
{
    uint64_t pairs, subsets;
    oracle_need(h, &pairs, &subsets);
    bool is_tight = random_below(s, 5) == 0;
    r->plan_limit = is_tight ? 1 + random_below(s, (unsigned)pairs) : pairs + random_below(s, 3);
    r->subset_limit = is_tight ? 1 + random_below(s, (unsigned)subsets) : subsets + random_below(s, 3);
    r->workspace_len = need_of(r) + random_below(s, 10);
}

static void count_step(const oracle_step *s, tally *n)
{
    n->passed += s->command.code == 0x51;
    n->granted += s->command.code == 0x13;
    n->back += s->links_back;
}

static void run_walk(random_source *s, walk *w, const oracle_history *h, tally *n)
{
    oracle_answer a = call_and_compare(w, START, &w->r);
    size_t steps = 0;
    while (a.kind == 3) {
        if (random_below(s, 3) == 0) try_damage(s, w, n);
        if (steps < h->steps && random_below(s, 4) == 0) call_and_compare(w, VERDICT, &w->r); // 18: not at the end
        a = call_and_compare(w, STEP, &w->r);
        if (a.kind == 3) count_step(&h->step[steps], n), compare_meaning(w, h, ++steps);
        n->steps++;
    }
    if (a.kind == 2 || a.kind == 4) call_and_compare(w, STEP, &w->r); // the same again
    compare_decision(w, a, n);
    if (a.kind == 4) try_damage(s, w, n);
}

static void try_walk(random_source *s, tally *n)
{
    uint8_t sheet[RANDOM_SHEET_ROOM];
    unsigned atoms = random_below(s, 6), rules = random_below(s, 5) + (atoms == 0);
    oracle_request r = {sheet, 0, 1024, 1024, 0, 0, SIZE_MAX, 0, 0, 3 + random_below(s, 2)};
    r.sheet_len = random_sound(s, sheet, atoms, rules);
    if (random_below(s, 2)) random_grants(s, sheet, r.sheet_len);
    if (random_below(s, 2)) r.sheet_len = random_names(s, sheet, r.sheet_len);
    if (random_below(s, 3) == 0) r.pins_in = random_mask(s, atoms, 4);
    if (random_below(s, 3) == 0) r.pins_out = random_mask(s, atoms, 4) & ~r.pins_in;
    oracle_history h = oracle_walk(r.sheet, r.sheet_len, r.pins_in, r.pins_out);
    random_limits(s, &r, &h);
    walk w = begin(&r, random_next(s));
    run_walk(s, &w, &h, n);
    end(&w);
    oracle_forget(&h);
    n->walks++;
}

// A start that is refused, or whose answer slice is short, leaves record and workspace.
static void try_refused_start(random_source *s)
{
    uint8_t sheet[RANDOM_SHEET_ROOM];
    oracle_request r = {sheet, random_policy(s, sheet, 3, 2, 3), 8, 8, 0, 0, 0, 0, 0, 3};
    if (random_below(s, 2)) random_grants(s, sheet, r.sheet_len);
    if (random_below(s, 2)) r.sheet_len = random_names(s, sheet, r.sheet_len);
    r.workspace_len = need_of(&r);
    if (random_below(s, 2)) r.sheet_len = random_damage(s, sheet, r.sheet_len);
    walk w = begin(&r, random_next(s));
    oracle_request other = other_request(s, &r);
    if (other.sheet_len == r.sheet_len) call_and_compare(&w, START, &other);
    end(&w);
}

int main(int arguments, char **argument)
{
    random_source s = {77};
    tally n = {0};
    uint64_t walks = arguments > 1 ? strtoull(argument[1], NULL, 10) : 6000;
    calls_begin();
    sheet_room = lent_new(RANDOM_SHEET_ROOM);
    record_room = lent_new(80);
    workspace_room = lent_new(4 * 400000);
    answer_room = lent_new(8 * 8);
    try_linkings();
    case_name = "random walk";
    for (case_number = 0; case_number < walks; case_number++) try_walk(&s, &n);
    case_name = "refused start";
    for (case_number = 0; case_number < walks; case_number++) try_refused_start(&s);
    printf("walks %" PRIu64 ": ended %" PRIu64 ", full %" PRIu64 "\n", n.walks, n.ended, n.full);
    printf("steps %" PRIu64 ": over names %" PRIu64 ", over granted copies %" PRIu64 ", over links that go back %" PRIu64 "\n", n.steps, n.passed,
           n.granted, n.back);
    printf("damaged records and workspaces %" PRIu64 ", other arguments %" PRIu64 ": [18] %" PRIu64 ", [15] or [16] %" PRIu64
           ", [1] to [13] %" PRIu64 ", acted on %" PRIu64 "\n", n.damaged, n.others, n.records, n.fulls, n.refused, n.acted);
    bool is_thin = n.ended < 100 || n.full < 100 || n.passed < 100 || n.granted < 100 || n.back < 100;
    if (n.records < 100 || n.fulls < 10 || n.refused < 100 || n.acted < 100) is_thin = true;
    if (is_thin) {
        printf("some outcome came up too seldom\n");
        return 1;
    }
    printf("test_walk: all agree\n");
    return 0;
}
