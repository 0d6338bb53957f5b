// Grounded decisions side by side in one run: the archive, an older one if it is linked, the hand-written C, and clingo where it is installed.
#define _DEFAULT_SOURCE
#include "clingo.h"
#include "families.h"
#include "nuntennis.h"
#include "reference.h"

#include <inttypes.h>
#include <stdio.h>
#include <stdlib.h>
#include <string.h>
#include <sys/resource.h>
#include <time.h>

// Short runs in many turns: then the machine is as busy for one way as for the other.
enum { RUNS = 101, FEW_RUNS = 15, LONG_RUNS = 3 };

static uint32_t *workspace;

static double seconds_by(clockid_t clock)
{
    struct timespec t;
    clock_gettime(clock, &t);
    return (double)t.tv_sec + (double)t.tv_nsec * 1e-9;
}

static double seconds_of(struct timeval t)
{
    return (double)t.tv_sec + (double)t.tv_usec * 1e-6;
}

// Processor time of this process and of the programs it waited for: other work on the machine is not in it.
static double seconds(void)
{
    struct rusage programs;
    getrusage(RUSAGE_CHILDREN, &programs);
    return seconds_by(CLOCK_PROCESS_CPUTIME_ID) + seconds_of(programs.ru_utime) + seconds_of(programs.ru_stime);
}

// ---- the ways to decide

typedef struct { const instance *x; char *text; } question;

typedef uint64_t grounded(const uint8_t *, size_t, uint64_t, uint64_t, uint64_t, uint64_t, uint32_t *, size_t, uint64_t *, size_t);

// The call of an older archive, by another name (c.mk).
extern grounded old_grounded __attribute__((weak));

static int by_call(grounded *call, const instance *x, uint64_t *plan)
{
    uint64_t answer[3];
    call(x->sheet, x->sheet_len, x->plan_limit, x->subset_limit, x->pins_in, x->pins_out, workspace,
         NUNTENNIS_MOST_WORKSPACE_WORDS(x->plan_limit, x->subset_limit), answer, 3);
    *plan = answer[1];
    return answer[0] == 2 ? -(int)answer[1] : (int)answer[0];
}

static int by_archive(const question *q, uint64_t *plan)
{
    return by_call(nuntennis_grounded, q->x, plan);
}

static int by_old(const question *q, uint64_t *plan)
{
    return by_call(old_grounded, q->x, plan);
}

static int by_reference(const question *q, uint64_t *plan)
{
    return by_call(reference_grounded, q->x, plan);
}

static int by_library(const question *q, uint64_t *plan)
{
    *plan = 0;
    return clingo_by_library(q->text);
}

static int by_program(const question *q, uint64_t *plan)
{
    *plan = 0;
    return clingo_by_program(q->text);
}

typedef int decide(const question *, uint64_t *);

enum { ARCHIVE, OLD, REFERENCE, LIBRARY, PROGRAM, WAYS };

static decide *const ways[WAYS] = {by_archive, by_old, by_reference, by_library, by_program};

static const char *const names[WAYS] = {"the archive", "the older archive", "the hand-written C", "clingo", "clingo as a program"};

static bool has_old;

// Whether links of the older archive have a direction: then it says no to a rule in a link's first group that makes a copy in its second.
static bool is_old_directed(void)
{
    static const instance behind = {"", {0x12, 0x00, 0x11, 0x01, 0x21, 0x41, 0x00, 0x01}, 8, 2, 1, 0, 0};
    uint64_t plan;
    return by_call(old_grounded, &behind, &plan) != 1;
}

// An older archive may lack a command, or take links one way that go both: then it is not there for the family.
static bool old_reads(const instance *x, size_t n)
{
    uint64_t plan;
    for (size_t k = 0; old_grounded && k < n; k++) {
        if (by_call(old_grounded, &x[k], &plan) == -NUNTENNIS_UNKNOWN) return false;
        if (is_old_directed() && policy_has_link_back(x[k].sheet, x[k].sheet_len)) return false;
    }
    return old_grounded != NULL;
}

static bool is_there(unsigned way)
{
    return way == OLD ? has_old : way == LIBRARY ? clingo_has_library() : way == PROGRAM ? clingo_has_program() : true;
}

// ---- all must agree

static _Noreturn void disagree(const question *q, const char *what)
{
    printf("DISAGREEMENT on %s: %s\n", q->x->family, what);
    for (size_t k = 0; k < q->x->sheet_len; k++) printf("%02X%c", q->x->sheet[k], k % 24 == 23 ? '\n' : ' ');
    printf("\n");
    exit(1);
}

// The plan shown is an answer set: with every copy pinned to it the answer is still yes.
static void check_plan(const question *q, uint64_t plan, const policy *p)
{
    uint64_t all = p->atoms == 64 ? UINT64_MAX : ((uint64_t)1 << p->atoms) - 1, ignored;
    instance pinned = *q->x;
    if ((plan & ~all) || (q->x->pins_in & ~plan) || (q->x->pins_out & plan)) disagree(q, "the plan does not obey the pins");
    pinned.pins_in = plan;
    pinned.pins_out = all & ~plan;
    question fixed = {&pinned, asp_text(p, pinned.pins_in, pinned.pins_out)};
    if (by_reference(&fixed, &ignored) != 1) disagree(q, "the plan shown is not grounded, says the hand-written C");
    if (clingo_has_library() && clingo_by_library(fixed.text) != 1) disagree(q, "the plan shown is no answer set, says clingo");
    free(fixed.text);
}

static int check_agreement(const question *q, const policy *p)
{
    uint64_t plan, other;
    int said = by_archive(q, &plan);
    if (said < 0) disagree(q, "the archive refuses");
    for (unsigned way = OLD; way < WAYS; way++) {
        if (!is_there(way)) continue;
        if (ways[way](q, &other) != said || (way <= REFERENCE && other != plan)) disagree(q, names[way]);
    }
    if (said == 1) check_plan(q, plan, p);
    return said;
}

// ---- timing

static int compare_times(const void *a, const void *b)
{
    double x = *(const double *)a, y = *(const double *)b;
    return x < y ? -1 : x > y;
}

// One run: every sheet of the family so many times. Seconds per decision.
static double time_run(decide *way, const question *q, size_t n, unsigned times)
{
    uint64_t plan;
    double start = seconds();
    for (unsigned t = 0; t < times; t++)
        for (size_t k = 0; k < n; k++) way(&q[k], &plan);
    return (seconds() - start) / ((double)times * (double)n);
}

// How long it takes once, by the clock.
static double once(decide *way, const question *q, size_t n)
{
    double start = seconds_by(CLOCK_MONOTONIC);
    time_run(way, q, n, 1);
    return seconds_by(CLOCK_MONOTONIC) - start;
}

// So many times that a run takes some 4 ms.
static unsigned times_of(double took)
{
    return took > 0.004 ? 1 : (unsigned)(0.004 / took) + 1;
}

static unsigned runs_of(double took)
{
    return took > 1 ? LONG_RUNS : took > 0.02 ? FEW_RUNS : RUNS;
}

// Medians; the ways take turns, so that a busy machine is busy for all of them. A family that takes long is run less often.
static void time_family(const question *q, size_t n, double *median)
{
    double run[WAYS][RUNS];
    unsigned times[WAYS], runs = RUNS;
    for (unsigned way = 0; way < WAYS; way++) {
        double took = is_there(way) ? once(ways[way], q, n) : 0.004;
        times[way] = times_of(took);
        if (runs_of(took) < runs) runs = runs_of(took);
    }
    for (unsigned k = 0; k < runs; k++)
        for (unsigned way = 0; way < WAYS; way++) run[way][k] = is_there(way) ? time_run(ways[way], q, n, times[way]) : 0;
    for (unsigned way = 0; way < WAYS; way++) {
        qsort(run[way], runs, sizeof(double), compare_times);
        median[way] = run[way][runs / 2];
    }
}

// ---- the table

static void print_ratio(double ours, double theirs)
{
    if (theirs > 0) printf(" %8.3f", ours / theirs);
    else printf(" %8s", "-");
}

static void print_time(double t)
{
    if (t > 0) printf(" %10.4f", t * 1e3);
    else printf(" %10s", "-");
}

static void bench_family(const instance *x, size_t n)
{
    question q[INSTANCES];
    double t[WAYS];
    unsigned yes = 0;
    has_old = old_reads(x, n);
    for (size_t k = 0; k < n; k++) {
        policy p;
        policy_build(&p, x[k].sheet, x[k].sheet_len);
        q[k] = (question){&x[k], asp_text(&p, x[k].pins_in, x[k].pins_out)};
        yes += check_agreement(&q[k], &p) == 1;
    }
    time_family(q, n, t);
    printf("%-32s %3zu %3u %5" PRIu64 " %5" PRIu64, x->family, n, yes, x->plan_limit, x->subset_limit);
    print_time(t[ARCHIVE]);
    print_time(t[OLD]);
    print_ratio(t[ARCHIVE], t[OLD]);
    print_time(t[REFERENCE]);
    print_ratio(t[ARCHIVE], t[REFERENCE]);
    print_time(t[LIBRARY]);
    print_ratio(t[ARCHIVE], t[LIBRARY]);
    print_time(t[PROGRAM]);
    printf("\n");
    fflush(stdout);
    for (size_t k = 0; k < n; k++) free(q[k].text);
}

static void print_head(void)
{
    printf("Milliseconds of processor time per grounded decision, median of %d runs (%d where a run takes over 20 ms, %d over a second).\n", RUNS,
           FEW_RUNS, LONG_RUNS);
    printf("Each decision reads the sheet, checks, walks and clears the workspace.\n");
    if (!old_grounded) printf("No older archive (make bench OLD=archive): its columns are empty.\n");
    if (clingo_has_library()) printf("clingo %s in this process: grounding and solving of the same policy as text.\n", clingo_version_text());
    else printf("No clingo library (CLINGO_LIBRARY=path of libclingo.so.3, Debian package gringo): its columns are empty.\n");
    if (clingo_has_program()) printf("clingo as a program: the same with its start, timed from outside.\n");
    else printf("No clingo program (CLINGO=path, Debian package gringo): its column is empty.\n");
    printf("%-32s %3s %3s %5s %5s %10s %10s %8s %10s %8s %10s %8s %10s\n", "family", "n", "yes", "P", "G", "archive", "old", "/ old", "C", "/ C",
           "clingo", "/ clingo", "program");
}

// By the archive alone, once.
static int bench_once(const instance *x)
{
    uint64_t plan;
    question q = {x, NULL};
    printf("%s, %zu bytes, P = %" PRIu64 ", G = %" PRIu64 ": ", x->family, x->sheet_len, x->plan_limit, x->subset_limit);
    fflush(stdout);
    double start = seconds();
    int said = by_archive(&q, &plan);
    printf("%s in %.3f s of processor time\n", said == 1 ? "yes" : said == 0 ? "no" : "refused", seconds() - start);
    return said < 0;
}

static bool is_named(const instance *x, const char *name)
{
    return strncmp(x->family, name, strlen(name)) == 0;
}

static int bench_each_once(const instance *x, size_t n, const char *name)
{
    int refused = 0;
    for (size_t k = 0; k < n; k++)
        if (is_named(&x[k], name)) refused |= bench_once(&x[k]);
    return refused;
}

// bench [--without-clingo | --once | --longest] [family]: all families, or those whose names begin so.
int main(int arguments, char **argument)
{
    static instance x[INSTANCES];
    int options = arguments > 1 && argument[1][0] == '-';
    const char *option = options ? argument[1] : "", *name = arguments > 1 + options ? argument[1 + options] : "";
    size_t n = all_families(x);
    n += long_families(x + n);
    workspace = calloc(NUNTENNIS_MOST_WORKSPACE_WORDS(1024, 1024), sizeof *workspace);
    memset(workspace, 1, NUNTENNIS_MOST_WORKSPACE_WORDS(1024, 1024) * sizeof *workspace);
    if (strcmp(option, "--longest") == 0) return longest_family(x), bench_once(x);
    if (strcmp(option, "--once") == 0) return bench_each_once(x, n, name);
    if (strcmp(option, "--without-clingo") != 0) clingo_begin();
    print_head();
    for (size_t k = 0, end; k < n; k = end) {
        for (end = k; end < n && x[end].family == x[k].family; end++) {}
        if (is_named(&x[k], name)) bench_family(&x[k], end - k);
    }
    printf("bench: all answers agree\n");
    return 0;
}
