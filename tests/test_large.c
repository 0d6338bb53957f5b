// Sheets too large for the oracle: every word of the archive's answers, reports and walks against the hand-written C.
#include "calls.h"
#include "families.h"
#include "random.h"
#include "reference.h"

#include <inttypes.h>
#include <stdio.h>
#include <stdlib.h>
#include <string.h>

static uint32_t *workspace, *report;

typedef struct { uint64_t sheets, calls, refused, steps, named; } tally;

// ---- what is wanted, by the reference

static oracle_answer wanted(call c, const oracle_request *r)
{
    uint64_t answer[3];
    switch (c) {
    case CALL_GROUNDED:
        reference_grounded(r->sheet, r->sheet_len, r->plan_limit, r->subset_limit, r->pins_in, r->pins_out, workspace, r->workspace_len, answer, 3);
        break;
    case CALL_PLAIN:
        reference_plain(r->sheet, r->sheet_len, r->plan_limit, r->subset_limit, r->pins_in, r->pins_out, workspace, r->workspace_len, answer, 3);
        break;
    case CALL_REPORT:
        reference_report(r->sheet, r->sheet_len, r->asked, r->plan_limit, r->subset_limit, r->pins_in, r->pins_out, workspace, r->workspace_len,
                         report, r->report_len, answer, 3);
        break;
    default:
        reference_plain_report(r->sheet, r->sheet_len, r->asked, r->plan_limit, r->subset_limit, r->pins_in, r->pins_out, workspace,
                               r->workspace_len, report, r->report_len, answer, 3);
    }
    return (oracle_answer){answer[0], answer[1], answer[2]};
}

// The reference with the copies of a mask pinned as the plan has them.
static bool is_yes(const oracle_request *r, uint64_t plan, uint64_t copies)
{
    oracle_request pinned = *r;
    pinned.pins_in |= copies & plan;
    pinned.pins_out |= copies & ~plan;
    return wanted(CALL_GROUNDED, &pinned).kind == 1;
}

// 02, Item 5: yes with every copy pinned to the plan; and no copy of it can be left out, the lower ones being as they are.
static bool is_first(const oracle_request *r, uint64_t plan)
{
    policy p;
    policy_build(&p, r->sheet, r->sheet_len);
    uint64_t all = ((uint64_t)1 << p.atoms) - 1;
    if ((plan & ~all) || !is_yes(r, plan, all)) return false;
    for (uint64_t copy = 1; copy & all; copy <<= 1)
        if ((plan & copy) && is_yes(r, plan & ~copy, 2 * copy - 1)) return false;
    return true;
}

static void try_call(call c, const oracle_request *r, tally *n)
{
    oracle_answer want = wanted(c, r);
    oracle_table table = {report, want.place, want.value, 0};
    bool has_report = c != CALL_GROUNDED && c != CALL_PLAIN && want.kind == 1;
    expect_call(c, r, want, has_report ? &table : NULL);
    if (c == CALL_GROUNDED && want.kind == 1 && !is_first(r, want.value)) disagree("the reference", r, "the plan shown is not the first");
    n->calls++;
    n->refused += want.kind == 2;
}

// ---- a walk: the table that each step makes is the one reported

static void compare_newest(const oracle_request *r, const nuntennis_record *record, const uint32_t *found)
{
    size_t width = r->subset_limit + 2, t = record->tables - 1;
    oracle_answer want = wanted(CALL_REPORT, r);
    if (record->counts[t] != want.value) disagree("nuntennis_step", r, "%" PRIu64 " pairs, expected %" PRIu64, record->counts[t], want.value);
    const uint32_t *row = found + t * r->plan_limit * width;
    for (const uint32_t *pair = report; pair < report + want.place; pair += pair[1] + 2, row += width)
        if (memcmp(row, pair, 4 * (pair[1] + 2u)) != 0) disagree("nuntennis_step", r, "a pair of the table differs from the report");
}

static void try_walk(oracle_request r, random_source *s, tally *n)
{
    nuntennis_record record = {0};
    uint64_t answer[3];
    r.workspace_len = need_of(&r);
    uint32_t *found = malloc(4 * r.workspace_len);
    r.report_len = REPORT_WORDS(r.plan_limit, r.subset_limit);
    nuntennis_start(&record, found, r.workspace_len, r.sheet, r.sheet_len, r.plan_limit, r.subset_limit, r.pins_in, r.pins_out, answer, 3);
    while (answer[0] == NUNTENNIS_MOVED) {
        r.asked = record.place;
        nuntennis_step(&record, found, r.workspace_len, r.sheet, r.sheet_len, r.plan_limit, r.subset_limit, r.pins_in, r.pins_out, answer, 3);
        n->steps++;
        if (answer[0] == NUNTENNIS_MOVED && (random_below(s, 40) == 0 || r.sheet_len < 100)) compare_newest(&r, &record, found);
    }
    oracle_answer want = wanted(CALL_GROUNDED, &r);
    if (answer[0] == NUNTENNIS_ENDED)
        nuntennis_verdict(&record, found, r.workspace_len, r.sheet, r.sheet_len, r.plan_limit, r.subset_limit, r.pins_in, r.pins_out, answer, 3);
    bool is_same = want.kind == 2 ? answer[1] == want.value && answer[2] == want.place : answer[1] == 0 && answer[2] == 0;
    if (answer[0] != want.kind || !is_same) disagree("a walk", &r, "its end is not the decision's");
    free(found);
}

// ---- the sheets

static size_t random_start(random_source *s, const oracle_request *r)
{
    size_t starts[4096], n = 0;
    for (size_t at = 0; at < r->sheet_len; at = policy_command_at(r->sheet, at).next) starts[n++] = at;
    return starts[random_below(s, (unsigned)n)];
}

// The names are the oracle's; without them, and with the groups of links exchanged, the archive decides as the C does with the sheet as it is.
static void try_alike(const oracle_request *r, tally *n)
{
    oracle_answer grounded = wanted(CALL_GROUNDED, r), plain = wanted(CALL_PLAIN, r);
    expect_unnamed(r, grounded, plain);
    expect_exchanged(r, grounded, plain);
    n->named += expect_names(r);
}

static void try_sheet(oracle_request r, random_source *s, tally *n)
{
    r.workspace_len = need_of(&r);
    try_call(CALL_GROUNDED, &r, n);
    try_call(CALL_PLAIN, &r, n);
    for (unsigned k = 0; k < 2; k++) {
        r.asked = random_start(s, &r);
        r.report_len = REPORT_WORDS(r.plan_limit, r.subset_limit);
        try_call(CALL_REPORT, &r, n);
        try_call(CALL_PLAIN_REPORT, &r, n);
        r.report_len = 0;
    }
    try_alike(&r, n);
    n->sheets++;
}

// Small limits, so that 15 and 16 come somewhere on the way.
static void try_small_limits(oracle_request r, random_source *s, tally *n)
{
    for (unsigned k = 0; k < 4; k++) {
        r.plan_limit = 1 + random_below(s, 160);
        r.subset_limit = 1 + random_below(s, 100);
        r.workspace_len = need_of(&r);
        try_call(CALL_GROUNDED, &r, n);
        try_call(CALL_PLAIN, &r, n);
    }
}

static void try_families(random_source *s, tally *n)
{
    static instance x[INSTANCES];
    size_t count = all_families(x);
    for (case_number = 0; case_number < count; case_number++) {
        const instance *i = &x[case_number];
        oracle_request r = {i->sheet, i->sheet_len, i->plan_limit, i->subset_limit, i->pins_in, i->pins_out, 0, 0, 0, 3};
        bool is_first = case_number == 0 || i->family != i[-1].family;
        case_name = i->family;
        try_small_limits(r, s, n);
        if (!is_first) continue;
        try_sheet(r, s, n);
        try_walk(r, s, n);
    }
}

// Parts joined anyhow, or groups of both, with more copies and rules than can be enumerated.
static void try_random(random_source *s, tally *n)
{
    uint8_t sheet[RANDOM_SHEET_ROOM];
    oracle_request r = {sheet, 0, 1, 1, 0, 0, 0, 0, 0, 3};
    unsigned atoms = 8 + random_below(s, 16), rules = 4 + random_below(s, 30), labels = 2 + random_below(s, 3);
    r.plan_limit = 1 + random_below(s, 200);
    r.subset_limit = 1 + random_below(s, 200);
    r.sheet_len = random_below(s, 2) ? random_parts(s, sheet, atoms, rules, labels) : random_mixed(s, sheet, atoms, rules, labels);
    if (random_below(s, 2)) random_grants(s, sheet, r.sheet_len);
    if (random_below(s, 2)) r.sheet_len = random_names(s, sheet, r.sheet_len);
    r.pins_in = random_mask(s, atoms, 8);
    r.pins_out = random_mask(s, atoms, 8) & ~r.pins_in;
    try_sheet(r, s, n);
    try_walk(r, s, n);
}

int main(int arguments, char **argument)
{
    random_source s = {4711};
    tally n = {0};
    uint64_t sheets = arguments > 1 ? strtoull(argument[1], NULL, 10) : 120;
    workspace = malloc(4 * NUNTENNIS_MOST_WORKSPACE_WORDS(1024, 1024));
    report = malloc(4 * REPORT_WORDS(1024, 1024));
    calls_begin();
    try_families(&s, &n);
    case_name = "large random sheet";
    for (case_number = 0; case_number < sheets; case_number++) try_random(&s, &n);
    printf("test_large: %" PRIu64 " sheets, %" PRIu64 " calls (%" PRIu64 " refused), %" PRIu64 " steps, %" PRIu64 " named copies: all agree\n",
           n.sheets, n.calls, n.refused, n.steps, n.named);
    free(workspace);
    free(report);
    return 0;
}
