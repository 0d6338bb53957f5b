// Decisions, reports and names on random sheets (sound, damaged, with granted copies, names, links both ways, tight limits, pins) against the oracle.
#include "calls.h"
#include "random.h"

#include <inttypes.h>
#include <stdio.h>
#include <stdlib.h>

typedef struct {
    uint64_t sheets, calls, yes, no, reported, refused[19], ordered, short_answers, granted, named, at_names, in_names;
    uint64_t back, by_back; // sheets with a link i j that puts copies of j into rules of i, and decisions that hang on it
} tally;

static void count(tally *n, const oracle_request *r, oracle_answer a, bool is_report)
{
    n->calls++;
    if (r->answer_len < 3) n->short_answers++;
    else if (a.kind == 2) n->refused[a.value]++;
    else if (is_report) n->reported++;
    else if (a.kind == 1) n->yes++;
    else n->no++;
}

// Rows in which a longer subset list stands before a shorter one: the order is not that of the words written.
static void count_ordered(tally *n, const oracle_table *t)
{
    for (const uint32_t *a = t->words, *b; (b = a + a[1] + 2) < t->words + t->length; a = b)
        if (a[0] == b[0] && a[1] > b[1]) {
            n->ordered++;
            return;
        }
}

static size_t random_sheet(random_source *s, uint8_t *sheet)
{
    unsigned atoms = random_below(s, 12) == 0 ? 7 + random_below(s, 3) : random_below(s, 7), rules = random_below(s, 7);
    if (atoms + rules == 0) return 0;
    size_t n = random_sound(s, sheet, atoms, rules);
    if (random_below(s, 2)) random_grants(s, sheet, n);
    if (random_below(s, 2)) n = random_names(s, sheet, n);
    return random_below(s, 4) == 0 ? random_damage(s, sheet, n) : n;
}

static void random_pins(random_source *s, oracle_request *r)
{
    r->pins_in = r->pins_out = 0;
    if (random_below(s, 2)) return;
    r->pins_in = random_mask(s, 6, 5);
    r->pins_out = random_mask(s, 6, 5) & ~r->pins_in;
    if (random_below(s, 20) == 0) r->pins_in |= r->pins_out;
    if (random_below(s, 20) == 0) r->pins_out |= (uint64_t)1 << random_below(s, 64);
}

// Copies of a sheet that passes checks 1 to 12.
static unsigned atoms_of(const oracle_request *r)
{
    policy p;
    policy_build(&p, r->sheet, r->sheet_len);
    return p.atoms;
}

// Drops the pins on copies that the sheet lacks.
static void fit_pins(oracle_request *r)
{
    uint64_t all = ((uint64_t)1 << atoms_of(r)) - 1;
    r->pins_in &= all;
    r->pins_out &= all;
}

static uint64_t random_limit(random_source *s, uint64_t need)
{
    static const uint64_t odd[] = {0, 1025, ((uint64_t)1 << 32) + 7, UINT64_MAX};
    unsigned choice = random_below(s, 64);
    if (choice == 0) return odd[random_below(s, 4)];
    if (choice < 8 && need > 1) return need - 1;
    if (choice < 16) return 1 + random_below(s, (unsigned)need);
    return need + (choice < 40 ? 0 : random_below(s, 4));
}

static void random_limits(random_source *s, oracle_request *r, const oracle_history *h)
{
    uint64_t pairs, subsets;
    oracle_need(h, &pairs, &subsets);
    r->plan_limit = random_limit(s, pairs);
    r->subset_limit = random_limit(s, subsets);
}

static void random_lengths(random_source *s, oracle_request *r)
{
    unsigned choice = random_below(s, 40);
    r->workspace_len = need_of(r);
    if (choice < 3) r->workspace_len--;
    else if (choice < 5) r->workspace_len = random_below(s, (unsigned)r->workspace_len);
    else if (choice < 12) r->workspace_len += random_below(s, 20);
    choice = random_below(s, 120);
    r->answer_len = choice < 4 ? choice % 3 : choice < 30 ? 3 + choice % 4 : 3;
}

// Whether the decision is another one where no copy is granted, the tables being as they are.
static bool counts_grants(const oracle_request *r, oracle_history h, oracle_answer grounded)
{
    h.policy.granted = 0;
    oracle_answer other = oracle_grounded(r, &h);
    return other.kind != grounded.kind || other.value != grounded.value;
}

// The policy where links have a direction: i j leaves the rules of group i as they are.
static policy directed_policy(const oracle_history *h)
{
    policy p = {0};
    for (size_t k = 0; k < h->steps; k++) {
        const policy_command *c = &h->step[k].command;
        policy before = p;
        policy_apply(&p, c);
        for (unsigned r = 0; policy_is_link(c->code) && r < p.rules; r++)
            if (p.rule_label[r] == c->i) p.head[r] = before.head[r], p.positive[r] = before.positive[r], p.negative[r] = before.negative[r];
    }
    return p;
}

// Whether the decision is another one where links have a direction, the tables being as they are.
static bool counts_back(const oracle_request *r, oracle_history h, oracle_answer grounded)
{
    h.policy = directed_policy(&h);
    oracle_answer other = oracle_grounded(r, &h);
    return other.kind != grounded.kind || other.value != grounded.value;
}

static void count_back(const oracle_request *r, const oracle_history *h, oracle_answer grounded, tally *n)
{
    bool goes_back = h->steps > 0 && policy_has_link_back(r->sheet, r->sheet_len), counts = counts_back(r, *h, grounded);
    if (counts && !goes_back) disagree("the oracle", r, "no link finds rules in its first group and copies in its second, but direction counts");
    n->back += goes_back;
    n->by_back += counts;
}

static void try_decisions(const oracle_request *r, const oracle_history *h, tally *n)
{
    oracle_answer grounded = oracle_grounded(r, h), plain = oracle_plain(r, h);
    expect_call(CALL_GROUNDED, r, grounded, NULL);
    expect_call(CALL_PLAIN, r, plain, NULL);
    count(n, r, grounded, false);
    count(n, r, plain, false);
    expect_unnamed(r, grounded, plain);
    expect_exchanged(r, grounded, plain);
    n->named += expect_names(r);
    n->granted += counts_grants(r, *h, grounded);
    count_back(r, h, grounded, n);
}

// The words that the report asked for needs, if it needs any.
static size_t words_of(const oracle_history *h, size_t asked, bool is_plain)
{
    for (size_t k = 0; k < h->steps; k++)
        if (h->step[k].command.offset == asked) return is_plain ? h->step[k].triples.length : h->step[k].pairs.length;
    return 3;
}

// Reports asked at a 51, and inside its name.
static void count_names(tally *n, const oracle_history *h, size_t asked)
{
    for (size_t k = 0; k < h->steps; k++) {
        const policy_command *c = &h->step[k].command;
        if (c->code != 0x51) continue;
        n->at_names += asked == c->offset;
        n->in_names += asked > c->offset && asked < c->next;
    }
}

static void try_report(random_source *s, oracle_request r, const oracle_history *h, tally *n, bool is_plain)
{
    const oracle_table *table;
    size_t words = words_of(h, r.asked, is_plain);
    unsigned choice = random_below(s, 16);
    r.report_len = choice == 0 ? words - 1 : choice == 1 ? random_below(s, (unsigned)words) : words + (choice < 6) * random_below(s, 9);
    oracle_answer want = is_plain ? oracle_plain_report(&r, h, &table) : oracle_report(&r, h, &table);
    expect_call(is_plain ? CALL_PLAIN_REPORT : CALL_REPORT, &r, want, table);
    if (table && !is_plain) count_ordered(n, table);
    count(n, &r, want, true);
    count_names(n, h, r.asked);
}

static void try_reports(random_source *s, oracle_request r, const oracle_history *h, tally *n)
{
    for (unsigned k = 0; k < 4; k++) {
        bool at_command = h->steps > 0 && k < 3;
        r.asked = at_command ? h->step[k == 0 ? h->steps - 1 : random_below(s, (unsigned)h->steps)].command.offset
                             : random_below(s, (unsigned)r.sheet_len + 3);
        try_report(s, r, h, n, false);
        try_report(s, r, h, n, true);
    }
}

static void try_random(random_source *s, tally *n)
{
    uint8_t sheet[RANDOM_SHEET_ROOM];
    oracle_request r = {sheet, random_sheet(s, sheet), 1024, 1024, 0, 0, SIZE_MAX, 0, 0, 3};
    oracle_history h = {0, NULL, {0}};
    random_pins(s, &r);
    if (oracle_check(&r).value == 13 && random_below(s, 8)) fit_pins(&r);
    if (oracle_check(&r).kind != 2) {
        if (atoms_of(&r) > ORACLE_ATOMS) return; // damage that made it too large to enumerate
        h = oracle_walk(r.sheet, r.sheet_len, r.pins_in, r.pins_out);
    }
    random_limits(s, &r, &h);
    random_lengths(s, &r);
    n->sheets++;
    try_decisions(&r, &h, n);
    if (h.steps > 0 && random_below(s, 2)) policy_exchange(sheet, r.sheet_len); // its tables are the same
    try_reports(s, r, &h, n);
    oracle_forget(&h);
}

static void print_tally(const tally *n)
{
    printf("random sheets: %" PRIu64 "; calls that agree with the oracle: %" PRIu64 "\n", n->sheets, n->calls);
    printf("  yes %" PRIu64 ", no %" PRIu64 ", reported %" PRIu64 ", short answer slice %" PRIu64 "\n ", n->yes, n->no, n->reported,
           n->short_answers);
    for (unsigned k = 2; k <= 17; k++) printf(" [%u] %" PRIu64, k, n->refused[k]);
    printf("\n");
    printf("  reports with a longer subset list before a shorter one: %" PRIu64 "; at a 51 %" PRIu64 ", inside its name %" PRIu64 "\n", n->ordered,
           n->at_names, n->in_names);
    printf("  copies with a name: %" PRIu64 "; decisions that hang on granted copies: %" PRIu64 "\n", n->named, n->granted);
    printf("  sheets with a link that goes back: %" PRIu64 "; decisions that hang on it: %" PRIu64 "\n", n->back, n->by_back);
}

// Every outcome must have come up, or the sheets test less than they seem to. 64 copies (9) are tried apart.
static void check_tally(const tally *n)
{
    bool is_thin = n->yes < 100 || n->no < 100 || n->reported < 100 || n->ordered < 10 || n->granted < 50;
    if (n->named < 100 || n->at_names < 100 || n->in_names < 100 || n->back < 100 || n->by_back < 50) is_thin = true;
    for (unsigned k = 2; k <= 17; k++)
        if (k != 9 && n->refused[k] < 10) is_thin = true;
    if (!is_thin) return;
    printf("some outcome came up too seldom\n");
    exit(1);
}

int main(int arguments, char **argument)
{
    random_source s = {2024};
    tally n = {0};
    uint64_t sheets = arguments > 1 ? strtoull(argument[1], NULL, 10) : 8000;
    calls_begin();
    case_name = "random sheet";
    for (case_number = 0; case_number < sheets; case_number++) try_random(&s, &n);
    print_tally(&n);
    check_tally(&n);
    printf("test_random: all agree\n");
    return 0;
}
