// 31 by the machine's instructions: calls that differ only in the groups they name and in what the sets hold take the same path through the archive
// (document 02, Item 6).
#define _GNU_SOURCE
#include "nuntennis.h"
#include "random.h"

#include <inttypes.h>
#include <signal.h>
#include <stdio.h>
#include <stdlib.h>
#include <string.h>
#include <ucontext.h>

enum { PAIRS = 1, SUBSETS = 16, VARIANTS = 4 };

// A set of groups; where the groups of unmet rules begin in a triple.
enum { GROUPS = NUNTENNIS_GROUPS, SETS = 1 << GROUPS, UNMET = 2 * GROUPS };

static const size_t words = NUNTENNIS_MOST_WORKSPACE_WORDS(PAIRS, SUBSETS), report_words = NUNTENNIS_REPORT_WORDS(PAIRS, SUBSETS);

typedef struct {
    uint8_t sheet[64];
    size_t sheet_len;
    uint64_t pins_in, pins_out;
    uint32_t pair[2 + SUBSETS]; // the table that a step finds
} question;

static random_source source = {1};

// ---- the path of a call: where its instructions stand

enum { SHORTEST = 1000, LONGEST = 1 << 15 };

typedef struct { size_t length; uint64_t at[LONGEST]; } path;

static path *running;

// While the trap flag is set the processor stops after each instruction.
static void on_trap(int signal, siginfo_t *info, void *context)
{
    (void)signal, (void)info;
    if (running->length < LONGEST) running->at[running->length++] = (uint64_t)((ucontext_t *)context)->uc_mcontext.gregs[REG_RIP];
}

static inline void watch(path *p)
{
    running = p;
    p->length = 0;
    __asm__ volatile("lea -128(%%rsp), %%rsp; pushfq; orq $0x100, (%%rsp); popfq; lea 128(%%rsp), %%rsp" ::: "cc", "memory");
}

static inline void unwatch(void)
{
    __asm__ volatile("lea -128(%%rsp), %%rsp; pushfq; andq $~0x100, (%%rsp); popfq; lea 128(%%rsp), %%rsp" ::: "cc", "memory");
}

// The command at byte 2, on the question's table.
static uint64_t step(const question *q, path *p)
{
    static uint32_t workspace[NUNTENNIS_MOST_WORKSPACE_WORDS(PAIRS, SUBSETS)];
    uint64_t answer[3];
    nuntennis_record record = {2, 1, {1}};
    memset(workspace, 0, sizeof workspace);
    memcpy(workspace, q->pair, sizeof q->pair);
    watch(p);
    nuntennis_step(&record, workspace, words, q->sheet, q->sheet_len, PAIRS, SUBSETS, q->pins_in, q->pins_out, answer, 3);
    unwatch();
    return answer[0];
}

// The table after the last command, which has three bytes.
static uint64_t report(const question *q, path *p)
{
    static uint32_t workspace[NUNTENNIS_MOST_WORKSPACE_WORDS(PAIRS, SUBSETS)], written[NUNTENNIS_REPORT_WORDS(PAIRS, SUBSETS)];
    uint64_t answer[3];
    watch(p);
    nuntennis_report(q->sheet, q->sheet_len, q->sheet_len - 3, PAIRS, SUBSETS, q->pins_in, q->pins_out, workspace, words, written, report_words,
                     answer, 3);
    unwatch();
    return answer[0];
}

typedef uint64_t call(const question *, path *);

static _Noreturn void fail(const char *what, const question *q)
{
    printf("test_moves: %s: on the sheet", what);
    for (size_t k = 0; k < q->sheet_len; k++) printf(" %02X", q->sheet[k]);
    printf("\n");
    exit(1);
}

static void compare(const path *first, const path *p, const char *what, const question *q)
{
    size_t k = 0;
    while (k < first->length && k < p->length && first->at[k] == p->at[k]) k++;
    if (k == first->length && k == p->length) return;
    int64_t from_report = k > 0 ? (int64_t)(p->at[k - 1] - (uint64_t)(uintptr_t)nuntennis_report) : 0;
    printf("test_moves: the paths part after %zu instructions, behind nuntennis_report %+" PRId64 "\n", k, from_report);
    fail(what, q);
}

typedef void ask(question *, const void *shape, unsigned variant);

// All variants of a question take one path. The answer is how many instructions it has.
static size_t expect_one_path(const char *what, call *c, uint64_t due, ask *a, const void *shape)
{
    static path first, p;
    question q;
    for (unsigned k = 0; k < VARIANTS; k++) {
        a(&q, shape, k);
        if (c(&q, k > 0 ? &p : &first) != due) fail("another answer", &q);
        if (k > 0) compare(&first, &p, what, &q);
    }
    if (first.length < SHORTEST || first.length == LONGEST) fail("the path was not kept, or not whole", &q);
    return first.length;
}

// The first call of a function of the C library goes through the linker.
static void bind_names(call *c, ask *a, const void *shape)
{
    static path p;
    question q;
    a(&q, shape, 0);
    c(&q, &p);
}

// ---- the questions

static void put(question *q, unsigned code, unsigned i, unsigned j)
{
    const uint8_t bytes[3] = {(uint8_t)code, (uint8_t)i, (uint8_t)j};
    size_t n = code == 0x21 ? 1 : code < 0x21 ? 2 : 3;
    memcpy(q->sheet + q->sheet_len, bytes, n);
    q->sheet_len += n;
}

// 31 on a pair with so many subsets. They stay in order, by the unmet rules of the groups that do not move; all else is random.
static void ask_move(question *q, const void *shape, unsigned variant)
{
    (void)variant;
    unsigned i = random_below(&source, GROUPS), j = (i + 1 + random_below(&source, GROUPS - 1)) % GROUPS;
    uint32_t both = 1u << i | 1u << j, others = (SETS - 1) & ~both, of_both = random_below(&source, SETS) & both, unmet = 0;
    *q = (question){.sheet_len = 0};
    put(q, 0x11, 0, 0);
    put(q, 0x31, i, j);
    q->pair[0] = random_below(&source, SETS) << UNMET | random_below(&source, 1 << UNMET);
    q->pair[1] = *(const unsigned *)shape;
    for (unsigned k = 0; k < q->pair[1]; k++) {
        q->pair[2 + k] = (unmet | of_both) << UNMET | random_below(&source, 1 << UNMET);
        unmet = (unmet - others) & others; // the next larger set of the others
    }
}

typedef struct { unsigned code; uint64_t pins_in, pins_out; } rules_shape;

// Two rules that move once they are linked, to the last copy's group or to one that has no copy, by the variant's digits: so subsets in which they are
// unmet come last. The first leaves what has its label to the second. Four copies, all pinned in or all out, make one pair.
static void ask_rules(question *q, const void *shape, unsigned variant)
{
    const rules_shape *s = shape;
    unsigned hand = 4 + random_below(&source, 2), done = 6 + random_below(&source, 2);
    *q = (question){.pins_in = s->pins_in, .pins_out = s->pins_out};
    for (unsigned c = 0; c < 4; c++) {
        put(q, 0x11, c, 0);
        if (c > 0) put(q, 0x21, 0, 0);
    }
    for (unsigned k = 0; k < 2; k++) {
        put(q, 0x12, hand, 0);
        put(q, 0x21, 0, 0);
        put(q, s->code, variant >> k & 1 ? 3 : 9 - hand, hand);
        put(q, 0x31, hand, done);
    }
}

int main(void)
{
    enum { LENGTHS = 5, SHAPES = 3 };
    static const unsigned lengths[LENGTHS] = {0, 1, 7, 8, 13};
    static const rules_shape shapes[SHAPES] = {{0x41, 15, 0}, {0x42, 0, 15}, {0x43, 15, 0}};
    struct sigaction action = {.sa_sigaction = on_trap, .sa_flags = SA_SIGINFO};
    size_t instructions = 0, cases = 0;
    sigaction(SIGTRAP, &action, NULL);
    bind_names(step, ask_move, &lengths[0]);
    bind_names(report, ask_rules, &shapes[0]);
    for (; cases < LENGTHS; cases++) instructions += expect_one_path("a move", step, NUNTENNIS_MOVED, ask_move, &lengths[cases]);
    for (size_t k = 0; k < SHAPES; k++, cases++)
        instructions += expect_one_path("a move behind a rule", report, NUNTENNIS_REPORTED, ask_rules, &shapes[k]);
    printf("test_moves: one path whatever the groups and sets, in %zu cases of %zu instructions together\n", cases, instructions);
    return 0;
}
