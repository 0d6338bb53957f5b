// Calls in threads: none uses more stack than the header says; several at once, on the stack that it recommends, answer as one at a time.
#define _DEFAULT_SOURCE
#include "families.h"
#include "nuntennis.h"

#include <pthread.h>
#include <stdio.h>
#include <stdlib.h>
#include <string.h>

enum { STACK = 1 << 20, PAINT = 0xA5, THREADS = 4 };

static const size_t words = NUNTENNIS_MOST_WORKSPACE_WORDS(1024, 1024), report_words = NUNTENNIS_REPORT_WORDS(1024, 1024);

// What the calls of one thread are lent.
typedef struct { uint32_t *workspace, *report; uint64_t answer[3]; } room;

static void no_call(const instance *x, room *r)
{
    (void)x, (void)r;
}

static void call_depth(const instance *x, room *r)
{
    nuntennis_depth(x->sheet, x->sheet_len, r->answer, 3);
}

static void call_name(const instance *x, room *r)
{
    nuntennis_name(x->sheet, x->sheet_len, 1, r->answer, 3);
}

static void call_grounded(const instance *x, room *r)
{
    nuntennis_grounded(x->sheet, x->sheet_len, x->plan_limit, x->subset_limit, x->pins_in, x->pins_out, r->workspace, words, r->answer, 3);
}

static void call_plain(const instance *x, room *r)
{
    nuntennis_plain(x->sheet, x->sheet_len, x->plan_limit, x->subset_limit, x->pins_in, x->pins_out, r->workspace, words, r->answer, 3);
}

// The last command of a family's sheet is a join, or has three bytes.
static size_t last_command(const instance *x)
{
    return x->sheet[x->sheet_len - 1] == 0x21 ? x->sheet_len - 1 : x->sheet_len - 3;
}

static void call_report(const instance *x, room *r)
{
    nuntennis_report(x->sheet, x->sheet_len, last_command(x), x->plan_limit, x->subset_limit, x->pins_in, x->pins_out, r->workspace, words,
                     r->report, report_words, r->answer, 3);
}

static void call_plain_report(const instance *x, room *r)
{
    nuntennis_plain_report(x->sheet, x->sheet_len, last_command(x), x->plan_limit, x->subset_limit, x->pins_in, x->pins_out, r->workspace,
                           words, r->report, report_words, r->answer, 3);
}

static void call_walk(const instance *x, room *r)
{
    nuntennis_record record = {0};
    uint32_t *workspace = r->workspace;
    uint64_t *answer = r->answer;
    nuntennis_start(&record, workspace, words, x->sheet, x->sheet_len, x->plan_limit, x->subset_limit, x->pins_in, x->pins_out, answer, 3);
    while (answer[0] == NUNTENNIS_MOVED)
        nuntennis_step(&record, workspace, words, x->sheet, x->sheet_len, x->plan_limit, x->subset_limit, x->pins_in, x->pins_out, answer, 3);
    nuntennis_verdict(&record, workspace, words, x->sheet, x->sheet_len, x->plan_limit, x->subset_limit, x->pins_in, x->pins_out, answer, 3);
}

typedef void call(const instance *, room *);

enum { CALLS = 7 };

static const struct { const char *name; call *call; } calls[CALLS] = {
    {"depth", call_depth},
    {"name", call_name},
    {"grounded", call_grounded},
    {"plain", call_plain},
    {"report", call_report},
    {"plain_report", call_plain_report},
    {"walk", call_walk},
};

// One sheet of each family, and what each call answered on it.
static const instance *sheets[INSTANCES];
static uint64_t answers[CALLS][INSTANCES][3];
static size_t sheet_count;

static void choose_sheets(void)
{
    static instance instances[INSTANCES];
    size_t n = all_families(instances);
    for (size_t k = 0; k < n; k++)
        if (k == 0 || instances[k].family != instances[k - 1].family) sheets[sheet_count++] = &instances[k];
}

static room new_room(void)
{
    room r = {calloc(words, sizeof *r.workspace), calloc(report_words, sizeof *r.report), {0}};
    if (r.workspace && r.report) return r;
    printf("no memory\n");
    exit(2);
}

static void free_room(room *r)
{
    free(r->workspace);
    free(r->report);
}

static pthread_t start(pthread_attr_t *attributes, void *(*run)(void *), void *given)
{
    pthread_t thread;
    if (pthread_create(&thread, attributes, run, given) == 0) return thread;
    printf("no thread with a stack of its own\n");
    exit(2);
}

// ---- one call at a time, each on a stack that was painted before

typedef struct { call *call; const instance *x; room *r; } job;

static void *run_job(void *given)
{
    const job *j = given;
    j->call(j->x, j->r);
    return NULL;
}

// Bytes from the top of the stack to the lowest one changed.
static size_t stack_of(call *call, const instance *x, room *r)
{
    static unsigned char *stack;
    job j = {call, x, r};
    pthread_attr_t attributes;
    if (!stack) stack = aligned_alloc(4096, STACK);
    memset(stack, PAINT, STACK);
    pthread_attr_init(&attributes);
    pthread_attr_setstack(&attributes, stack, STACK);
    pthread_join(start(&attributes, run_job, &j), NULL);
    pthread_attr_destroy(&attributes);
    size_t low = 0;
    while (low < STACK && stack[low] == PAINT) low++;
    return STACK - low;
}

// The most that a call used beside what its thread has anyway.
static size_t measure(void)
{
    room r = new_room();
    size_t thread_only = stack_of(no_call, sheets[0], &r), most = 0;
    for (size_t c = 0; c < CALLS; c++) {
        size_t most_here = 0;
        for (size_t k = 0; k < sheet_count; k++) {
            size_t used = stack_of(calls[c].call, sheets[k], &r) - thread_only;
            memcpy(answers[c][k], r.answer, sizeof r.answer);
            if (used > most_here) most_here = used;
        }
        printf("stack of %s: %zu bytes\n", calls[c].name, most_here);
        if (most_here > most) most = most_here;
    }
    printf("stack of a thread that makes no call: %zu bytes\n", thread_only);
    free_room(&r);
    return most;
}

// ---- all calls in several threads at once

// Sheets with large limits are left out: a step reads the whole workspace each time.
static void *run_all(void *given)
{
    room *r = given;
    for (size_t c = 0; c < CALLS; c++)
        for (size_t k = 0; k < sheet_count; k++) {
            if (sheets[k]->plan_limit > 64) continue;
            calls[c].call(sheets[k], r);
            if (memcmp(r->answer, answers[c][k], sizeof r->answer) == 0) continue;
            printf("%s on %s: another answer than alone\n", calls[c].name, sheets[k]->family);
            exit(1);
        }
    return NULL;
}

static void try_at_once(void)
{
    room rooms[THREADS];
    pthread_t threads[THREADS];
    pthread_attr_t attributes;
    pthread_attr_init(&attributes);
    pthread_attr_setstacksize(&attributes, NUNTENNIS_THREAD_STACK_BYTES);
    for (size_t t = 0; t < THREADS; t++) rooms[t] = new_room();
    for (size_t t = 0; t < THREADS; t++) threads[t] = start(&attributes, run_all, &rooms[t]);
    for (size_t t = 0; t < THREADS; t++) pthread_join(threads[t], NULL);
    for (size_t t = 0; t < THREADS; t++) free_room(&rooms[t]);
    pthread_attr_destroy(&attributes);
}

int main(void)
{
    choose_sheets();
    size_t most = measure();
    if (most > NUNTENNIS_STACK_BYTES) {
        printf("test_stack: %zu bytes over NUNTENNIS_STACK_BYTES, %d\n", most - NUNTENNIS_STACK_BYTES, NUNTENNIS_STACK_BYTES);
        return 1;
    }
    try_at_once();
    printf("test_stack: %zu of %d bytes, %zu left; %d threads of %d bytes at once agree\n", most, NUNTENNIS_STACK_BYTES,
           NUNTENNIS_STACK_BYTES - most, THREADS, NUNTENNIS_THREAD_STACK_BYTES);
    return 0;
}
