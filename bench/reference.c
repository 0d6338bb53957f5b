// The calls by hand in plain C: reading, checks, and one walk over the tables, with no allocation.
#include "reference.h"

#include "tables.h"

enum { SHEET_BYTES = 4096, RULES = 256, NAME_BYTES = 16 };

enum { NO = 0, YES = 1, REFUSED = 2 };

enum { OVERLONG = 1, LIMITS, CRAMPED, CLASH, UNKNOWN, CUT, GROUP, SAME, CROWDED, DEEP, BARE, UNJOINED, ABSENT, OFFSET, REPORT_SHORT = 17 };

typedef struct { uint64_t kind, value, place; } outcome;

typedef struct {
    const uint8_t *sheet;
    size_t sheet_len;
    uint64_t plan_limit, subset_limit, pins_in, pins_out;
    uint32_t *workspace;
    size_t workspace_len;
} request;

// ---- reading

typedef struct { unsigned atoms, rules, depth, deepest; } counts;

// Operands of a command byte; -1 for no command.
static int operands_of(unsigned code)
{
    switch (code) {
    case ATOM: case RULE: case GRANTED: return 1;
    case UNION: case NAME: return 0;
    case RELABEL: case HEAD: case POSITIVE: case NEGATIVE: return 2;
    default: return -1;
    }
}

// Reads the command at an offset inside the sheet: 0, or 5 to 8.
static unsigned read_command(const uint8_t *sheet, size_t sheet_len, size_t at, command *c)
{
    int operands = operands_of(sheet[at]), behind = sheet[at] == NAME ? NAME_BYTES : operands;
    if (operands < 0) return UNKNOWN;
    if (sheet_len - at - 1 < (size_t)behind) return CUT;
    c->code = sheet[at];
    c->i = operands > 0 ? sheet[at + 1] : 0;
    c->j = operands > 1 ? sheet[at + 2] : 0;
    c->length = 1 + (unsigned)behind;
    if (c->i >= LABELS || c->j >= LABELS) return GROUP;
    if (operands == 2 && c->i == c->j) return SAME;
    return 0;
}

// Counts a command: 0, or 9 to 11 with nothing counted.
static unsigned count_command(counts *n, unsigned code)
{
    switch (code) {
    case ATOM: case GRANTED:
        if (n->atoms == ATOMS) return CROWDED;
        if (n->depth == PARTS) return DEEP;
        n->atoms++, n->depth++;
        return 0;
    case RULE:
        if (n->rules == RULES) return CROWDED;
        if (n->depth == PARTS) return DEEP;
        n->rules++, n->depth++;
        return 0;
    case UNION:
        if (n->depth < 2) return BARE;
        n->depth--;
        return 0;
    default:
        return n->depth < 1 ? BARE : 0;
    }
}

static outcome refused(unsigned number, size_t place)
{
    return (outcome){REFUSED, number, place};
}

static const outcome passed = {NO, 0, 0};

static size_t workspace_need(const request *r, const counts *n)
{
    return ((size_t)n->deepest + 1) * r->plan_limit * (r->subset_limit + 2);
}

static bool is_limit(uint64_t n)
{
    return 1 <= n && n <= LIMIT;
}

// Checks 5 to 12, and whether a command starts at the offset asked.
static outcome check_sheet(const request *r, size_t asked, counts *n, bool *found)
{
    command c = {0};
    for (size_t at = 0; at < r->sheet_len; at += c.length) {
        unsigned fault = read_command(r->sheet, r->sheet_len, at, &c);
        if (fault == 0) fault = count_command(n, c.code);
        if (fault != 0) return refused(fault, at);
        if (n->depth > n->deepest) n->deepest = n->depth;
        if (at == asked) *found = true;
    }
    return n->depth == 1 ? passed : refused(UNJOINED, r->sheet_len);
}

// Checks 1 to 13, and 14 where a report is asked.
static outcome check(const request *r, const size_t *asked, counts *n)
{
    if (r->sheet_len > SHEET_BYTES) return refused(OVERLONG, 0);
    if (!is_limit(r->plan_limit) || !is_limit(r->subset_limit)) return refused(LIMITS, 0);
    bool found = false;
    outcome o = check_sheet(r, asked ? *asked : 0, n, &found);
    if (o.kind == REFUSED) return o;
    if (r->workspace_len < workspace_need(r, n)) return refused(CRAMPED, 0);
    if ((r->pins_in | r->pins_out) >> n->atoms) return refused(ABSENT, r->sheet_len);
    if (r->pins_in & r->pins_out) return refused(CLASH, 0);
    if (asked && !found) return refused(OFFSET, *asked);
    return passed;
}

// ---- the calls

// Runs the commands up to the end given: the refusal of the first that does not fit.
static outcome walk(state *s, const request *r, const counts *n, size_t end, unsigned (*run)(state *, const command *))
{
    command c = {0};
    tables_begin(s, n->deepest, r->plan_limit, r->subset_limit, r->pins_in, r->pins_out, r->workspace);
    for (size_t at = 0; at < end; at += c.length) {
        read_command(r->sheet, r->sheet_len, at, &c);
        unsigned fault = run(s, &c);
        if (fault) return refused(fault, at);
    }
    return passed;
}

// The interpretation whose atom c counted 2^(62-c).
static uint64_t mask_of(uint64_t first)
{
    uint64_t mask = 0;
    for (unsigned c = 0; c < ATOMS; c++) mask |= (first >> (62 - c) & 1) << c;
    return mask;
}

static outcome conclude(const state *s)
{
    const table *t = &s->tables[0];
    uint64_t best = UINT64_MAX;
    for (size_t k = 0; k < t->count; k++)
        if (is_accepting(t->rows + k * s->width) && t->first[k] < best) best = t->first[k];
    return best == UINT64_MAX ? (outcome){NO, 0, 0} : (outcome){YES, mask_of(best), 0};
}

static outcome conclude_plain(const state *s)
{
    const table *t = &s->tables[0];
    for (size_t k = 0; k < t->count; k++)
        if (t->rows[k] < NO_UNMET) return (outcome){YES, 0, 0};
    return (outcome){NO, 0, 0};
}

static outcome write_pairs(state *s, uint32_t *report, size_t report_len, size_t asked)
{
    const table *t = &s->tables[s->depth - 1];
    const uint32_t *rows[LIMIT];
    size_t words = 0;
    for (size_t k = 0; k < t->count; k++) words += t->rows[k * s->width + 1] + 2;
    if (report_len < words) return refused(REPORT_SHORT, asked);
    order_rows(t, s->width, rows);
    for (size_t k = 0; k < t->count; k++) {
        memcpy(report, rows[k], (rows[k][1] + 2) * sizeof *report);
        report += rows[k][1] + 2;
    }
    return (outcome){YES, t->count, words};
}

static outcome write_triples(state *s, uint32_t *report, size_t report_len, size_t asked)
{
    const table *t = &s->tables[s->depth - 1];
    if (report_len < t->count) return refused(REPORT_SHORT, asked);
    sort_triples(t->rows, t->count);
    memcpy(report, t->rows, t->count * sizeof *report);
    return (outcome){YES, t->count, t->count};
}

static void clear(const request *r, const counts *n)
{
    memset(r->workspace, 0, workspace_need(r, n) * sizeof *r->workspace);
}

static uint64_t say(outcome o, uint64_t *answer)
{
    answer[0] = o.kind;
    answer[1] = o.value;
    answer[2] = o.place;
    return 1;
}

static outcome decide(const request *r, unsigned (*run)(state *, const command *), outcome (*end)(const state *))
{
    state s;
    counts n = {0};
    outcome o = check(r, NULL, &n);
    if (o.kind == REFUSED) return o;
    o = walk(&s, r, &n, r->sheet_len, run);
    if (o.kind != REFUSED) o = end(&s);
    clear(r, &n);
    return o;
}

// Both decisions: by the commands on tables, and what the last table says.
static uint64_t answer_decision(request r, unsigned (*run)(state *, const command *), outcome (*end)(const state *),
                                uint64_t *answer, size_t answer_len)
{
    return answer_len < 3 ? 0 : say(decide(&r, run, end), answer);
}

uint64_t reference_grounded(const uint8_t *sheet, size_t sheet_len,
                            uint64_t plan_limit, uint64_t subset_limit, uint64_t pins_in, uint64_t pins_out,
                            uint32_t *workspace, size_t workspace_len,
                            uint64_t *answer, size_t answer_len)
{
    request r = {sheet, sheet_len, plan_limit, subset_limit, pins_in, pins_out, workspace, workspace_len};
    return answer_decision(r, run_command, conclude, answer, answer_len);
}

uint64_t reference_plain(const uint8_t *sheet, size_t sheet_len,
                         uint64_t plan_limit, uint64_t subset_limit, uint64_t pins_in, uint64_t pins_out,
                         uint32_t *workspace, size_t workspace_len,
                         uint64_t *answer, size_t answer_len)
{
    request r = {sheet, sheet_len, plan_limit, subset_limit, pins_in, pins_out, workspace, workspace_len};
    return answer_decision(r, run_plain_command, conclude_plain, answer, answer_len);
}

static outcome report_on(const request *r, size_t asked, unsigned (*run)(state *, const command *),
                         outcome (*write)(state *, uint32_t *, size_t, size_t), uint32_t *report, size_t report_len)
{
    state s;
    counts n = {0};
    outcome o = check(r, &asked, &n);
    if (o.kind == REFUSED) return o;
    o = walk(&s, r, &n, asked + 1, run);
    if (o.kind != REFUSED) o = write(&s, report, report_len, asked);
    clear(r, &n);
    return o;
}

// Both reports: by the commands on tables, and how the newest table is written.
static uint64_t answer_report(request r, size_t asked, unsigned (*run)(state *, const command *),
                              outcome (*write)(state *, uint32_t *, size_t, size_t), uint32_t *report, size_t report_len,
                              uint64_t *answer, size_t answer_len)
{
    return answer_len < 3 ? 0 : say(report_on(&r, asked, run, write, report, report_len), answer);
}

uint64_t reference_report(const uint8_t *sheet, size_t sheet_len, size_t asked,
                          uint64_t plan_limit, uint64_t subset_limit, uint64_t pins_in, uint64_t pins_out,
                          uint32_t *workspace, size_t workspace_len,
                          uint32_t *report, size_t report_len,
                          uint64_t *answer, size_t answer_len)
{
    request r = {sheet, sheet_len, plan_limit, subset_limit, pins_in, pins_out, workspace, workspace_len};
    return answer_report(r, asked, run_command, write_pairs, report, report_len, answer, answer_len);
}

uint64_t reference_plain_report(const uint8_t *sheet, size_t sheet_len, size_t asked,
                                uint64_t plan_limit, uint64_t subset_limit, uint64_t pins_in, uint64_t pins_out,
                                uint32_t *workspace, size_t workspace_len,
                                uint32_t *report, size_t report_len,
                                uint64_t *answer, size_t answer_len)
{
    request r = {sheet, sheet_len, plan_limit, subset_limit, pins_in, pins_out, workspace, workspace_len};
    return answer_report(r, asked, run_plain_command, write_triples, report, report_len, answer, answer_len);
}
