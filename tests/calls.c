// Lends the buffers, makes the call, and compares what is left in each of them with what 01 says.
#define _DEFAULT_SOURCE
#include "calls.h"

#include "lent.h"

#include <inttypes.h>
#include <signal.h>
#include <stdarg.h>
#include <stdio.h>
#include <stdlib.h>
#include <string.h>
#include <unistd.h>

_Static_assert(POLICY_GROUPS == NUNTENNIS_GROUPS, "the header's groups are document 02's");
_Static_assert(POLICY_NAME == NUNTENNIS_NAME_BYTES, "the header's names are document 02's");

const char *case_name = "";
uint64_t case_number;

static const char *const names[] = {"nuntennis_grounded", "nuntennis_plain", "nuntennis_report", "nuntennis_plain_report"};

// ---- what went wrong

static void print_pins(const char *word, uint64_t pins)
{
    if (pins == 0) return;
    printf("#: pins %s", word);
    for (unsigned c = 0; c < 64; c++)
        if (pins >> c & 1) printf(" %u", c);
    printf("\n");
}

static void print_request(const oracle_request *r)
{
    printf("# %s, case %" PRIu64 "\n", case_name, case_number);
    printf("# workspace %zu words, asked %zu, report %zu words, answer %zu words\n", r->workspace_len, r->asked, r->report_len,
           r->answer_len);
    printf("#: limits %" PRIu64 " %" PRIu64 "\n", r->plan_limit, r->subset_limit);
    print_pins("in", r->pins_in);
    print_pins("out", r->pins_out);
    for (size_t k = 0; k < r->sheet_len; k++) printf("%02X%c", r->sheet[k], k % 24 == 23 || k + 1 == r->sheet_len ? '\n' : ' ');
}

_Noreturn void disagree(const char *call, const oracle_request *r, const char *format, ...)
{
    va_list arguments;
    va_start(arguments, format);
    printf("DISAGREEMENT in %s: ", call);
    vprintf(format, arguments);
    printf("\n");
    va_end(arguments);
    print_request(r);
    fflush(stdout);
    _exit(1);
}

static const char *running;
static const oracle_request *running_on;

void watch(const char *call, const oracle_request *r)
{
    running = call;
    running_on = r;
}

static void on_fault(int signal)
{
    if (running) disagree(running, running_on, "signal %d: a word outside the lent buffers was touched", signal);
    _exit(1);
}

// ---- the buffers

static lent sheet_room, workspace_room, report_room, answer_room;

void calls_begin(void)
{
    sheet_room = lent_new(8192);
    workspace_room = lent_new((NUNTENNIS_MOST_WORKSPACE_WORDS(1024, 1024) + 64) * 4);
    report_room = lent_new((REPORT_WORDS(1024, 1024) + 64) * 4);
    answer_room = lent_new(8 * 16);
    signal(SIGSEGV, on_fault);
    signal(SIGBUS, on_fault);
}

size_t need_of(const oracle_request *r)
{
    if (r->plan_limit < 1 || r->plan_limit > 1024 || r->subset_limit < 1 || r->subset_limit > 1024) return 200;
    return NUNTENNIS_WORKSPACE_WORDS(oracle_parts(r), r->plan_limit, r->subset_limit);
}

typedef struct { const uint8_t *sheet; uint32_t *workspace, *report; uint64_t *answer; } buffers;

static uint64_t make_call(call c, const oracle_request *r, const buffers *b)
{
    switch (c) {
    case CALL_GROUNDED:
        return nuntennis_grounded(b->sheet, r->sheet_len, r->plan_limit, r->subset_limit, r->pins_in, r->pins_out, b->workspace,
                                  r->workspace_len, b->answer, r->answer_len);
    case CALL_PLAIN:
        return nuntennis_plain(b->sheet, r->sheet_len, r->plan_limit, r->subset_limit, r->pins_in, r->pins_out, b->workspace,
                               r->workspace_len, b->answer, r->answer_len);
    case CALL_REPORT:
        return nuntennis_report(b->sheet, r->sheet_len, r->asked, r->plan_limit, r->subset_limit, r->pins_in, r->pins_out, b->workspace,
                                r->workspace_len, b->report, r->report_len, b->answer, r->answer_len);
    default:
        return nuntennis_plain_report(b->sheet, r->sheet_len, r->asked, r->plan_limit, r->subset_limit, r->pins_in, r->pins_out,
                                      b->workspace, r->workspace_len, b->report, r->report_len, b->answer, r->answer_len);
    }
}

// The sheet and the answer alone.
static buffers lend_reading(const oracle_request *r, uint64_t seed)
{
    uint8_t *sheet = lend(&sheet_room, r->sheet_len, seed);
    memcpy(sheet, r->sheet, r->sheet_len);
    return (buffers){sheet, NULL, NULL, lend(&answer_room, 8 * r->answer_len, seed)};
}

static buffers lend_all(const oracle_request *r, uint64_t seed)
{
    buffers b = lend_reading(r, seed);
    b.workspace = lend(&workspace_room, 4 * r->workspace_len, seed);
    b.report = lend(&report_room, 4 * r->report_len, seed);
    return b;
}

// ---- the rules

static bool is_zero(const uint32_t *words, size_t n)
{
    for (size_t k = 0; k < n; k++)
        if (words[k] != 0) return false;
    return true;
}

static void check_answer(const char *name, const oracle_request *r, const uint64_t *answer, oracle_answer want)
{
    if (answer[0] == want.kind && answer[1] == want.value && answer[2] == want.place) return;
    disagree(name, r, "answer %" PRIu64 " %" PRIu64 " %" PRIu64 ", expected %" PRIu64 " %" PRIu64 " %" PRIu64, answer[0], answer[1],
             answer[2], want.kind, want.value, want.place);
}

// Refusals 1 to 14 leave the workspace, all else clears what is needed of it.
static void check_workspace(call c, const oracle_request *r, const buffers *b, oracle_answer want, uint64_t seed)
{
    bool is_cleared = want.kind != 2 || want.value >= 15;
    size_t changed = is_cleared ? need_of(r) : 0;
    if (!is_untouched(&workspace_room, 4 * r->workspace_len, 4 * changed, seed))
        disagree(names[c], r, is_cleared ? "a workspace word past the need was changed" : "a refusal changed the workspace");
    if (!is_zero(b->workspace, changed)) disagree(names[c], r, "the workspace is not zero in the words needed");
}

static void check_report(call c, const oracle_request *r, const buffers *b, const oracle_table *table, uint64_t seed)
{
    size_t words = table ? table->length : 0;
    if (!is_untouched(&report_room, 4 * r->report_len, 4 * words, seed))
        disagree(names[c], r, "the report's buffer was changed past the %zu words written", words);
    for (size_t k = 0; k < words; k++)
        if (b->report[k] != table->words[k])
            disagree(names[c], r, "word %zu of the report is %" PRIu32 ", expected %" PRIu32, k, b->report[k], table->words[k]);
}

static void check_untouched(call c, const oracle_request *r, uint64_t seed)
{
    if (!is_untouched(&answer_room, 8 * r->answer_len, 0, seed)) disagree(names[c], r, "a short answer slice was changed");
    if (!is_untouched(&workspace_room, 4 * r->workspace_len, 0, seed)) disagree(names[c], r, "a short answer slice, and a changed workspace");
    if (!is_untouched(&report_room, 4 * r->report_len, 0, seed)) disagree(names[c], r, "a short answer slice, and a changed report");
}

// What a call that is lent nothing but the sheet and the answer leaves.
static void check_reading(const char *name, const oracle_request *r, const buffers *b, uint64_t returned, oracle_answer want, uint64_t seed)
{
    if (returned != (r->answer_len >= 3)) disagree(name, r, "it returned %" PRIu64, returned);
    if (r->sheet_len > 0 && memcmp(b->sheet, r->sheet, r->sheet_len) != 0) disagree(name, r, "the sheet was changed");
    if (returned == 1) check_answer(name, r, b->answer, want);
    if (!is_untouched(&answer_room, 8 * r->answer_len, returned ? 24 : 0, seed)) disagree(name, r, "an answer word was changed");
}

static void expect_depth(const oracle_request *r, uint64_t seed)
{
    static const char name[] = "nuntennis_depth";
    buffers b = lend_all(r, seed);
    watch(name, r);
    uint64_t returned = nuntennis_depth(b.sheet, r->sheet_len, b.answer, r->answer_len);
    watch(NULL, NULL);
    check_reading(name, r, &b, returned, oracle_depth(r), seed);
}

static oracle_answer expect_name(const oracle_request *r, uint64_t copy, uint64_t seed)
{
    char name[64];
    snprintf(name, sizeof name, "nuntennis_name of copy %" PRIu64, copy);
    buffers b = lend_reading(r, seed);
    oracle_answer want = oracle_name(r, copy);
    watch(name, r);
    uint64_t returned = nuntennis_name(b.sheet, r->sheet_len, copy, b.answer, r->answer_len);
    watch(NULL, NULL);
    check_reading(name, r, &b, returned, want, seed);
    return want;
}

static void make_and_check(call c, const oracle_request *r, oracle_answer want, const oracle_table *table, uint64_t seed)
{
    buffers b = lend_all(r, seed);
    watch(names[c], r);
    uint64_t returned = make_call(c, r, &b);
    watch(NULL, NULL);
    if (returned != (r->answer_len >= 3)) disagree(names[c], r, "it returned %" PRIu64, returned);
    if (r->sheet_len > 0 && memcmp(b.sheet, r->sheet, r->sheet_len) != 0) disagree(names[c], r, "the sheet was changed");
    if (returned == 0) {
        check_untouched(c, r, seed);
        return;
    }
    check_answer(names[c], r, b.answer, want);
    if (!is_untouched(&answer_room, 8 * r->answer_len, 24, seed)) disagree(names[c], r, "an answer word past the third was changed");
    check_workspace(c, r, &b, want, seed);
    check_report(c, r, &b, table, seed);
}

static uint64_t next_seed(void)
{
    static uint64_t seed;
    return seed += 1000003;
}

void expect_call(call c, const oracle_request *r, oracle_answer want, const oracle_table *table)
{
    uint64_t seed = next_seed();
    make_and_check(c, r, want, table, seed);
    expect_depth(r, seed);
}

unsigned expect_names(const oracle_request *r)
{
    static const uint64_t others[] = {64, 65, 255, 256, (uint64_t)1 << 32, (uint64_t)1 << 63, UINT64_MAX - 1, UINT64_MAX};
    uint64_t seed = next_seed();
    unsigned named = 0;
    for (uint64_t copy = 0; copy < 64; copy++) named += expect_name(r, copy, seed).kind == 1;
    for (size_t k = 0; k < sizeof others / sizeof *others; k++) expect_name(r, others[k], seed);
    return named;
}

void expect_unnamed(const oracle_request *r, oracle_answer grounded, oracle_answer plain)
{
    uint8_t sheet[NUNTENNIS_SHEET_BYTES];
    oracle_request unnamed = *r;
    if (oracle_depth(r).kind == 2) return;
    if (grounded.kind == 2) grounded.place = policy_unnamed(sheet, r->sheet, grounded.place);
    if (plain.kind == 2) plain.place = policy_unnamed(sheet, r->sheet, plain.place);
    unnamed.sheet = sheet;
    unnamed.sheet_len = policy_unnamed(sheet, r->sheet, r->sheet_len);
    if (unnamed.sheet_len == r->sheet_len) return;
    expect_call(CALL_GROUNDED, &unnamed, grounded, NULL);
    expect_call(CALL_PLAIN, &unnamed, plain, NULL);
}

void expect_exchanged(const oracle_request *r, oracle_answer grounded, oracle_answer plain)
{
    uint8_t sheet[NUNTENNIS_SHEET_BYTES];
    oracle_request exchanged = *r;
    if (oracle_depth(r).kind == 2) return;
    memcpy(sheet, r->sheet, r->sheet_len);
    policy_exchange(sheet, r->sheet_len);
    exchanged.sheet = sheet;
    if (memcmp(sheet, r->sheet, r->sheet_len) == 0) return;
    expect_call(CALL_GROUNDED, &exchanged, grounded, NULL);
    expect_call(CALL_PLAIN, &exchanged, plain, NULL);
}
