// ASP text of a policy, clingo as a process, and the few calls of its library that a decision takes.
#define _GNU_SOURCE
#include "clingo.h"

#include <dlfcn.h>
#include <fcntl.h>
#include <inttypes.h>
#include <signal.h>
#include <spawn.h>
#include <stdio.h>
#include <stdlib.h>
#include <string.h>
#include <sys/wait.h>
#include <unistd.h>

extern char **environ;

// ---- the policy as text

static void put_atoms(FILE *out, uint64_t atoms, const char *sign, const char *between)
{
    const char *before = "";
    for (unsigned c = 0; c < 64; c++)
        if (atoms >> c & 1) {
            fprintf(out, "%s%sa%u", before, sign, c);
            before = between;
        }
}

static void put_rule(FILE *out, uint64_t head, uint64_t positive, uint64_t negative)
{
    put_atoms(out, head, "", " | ");
    fputs(" :- ", out);
    put_atoms(out, positive, "", ", ");
    if (positive && negative) fputs(", ", out);
    put_atoms(out, negative, "not ", ", ");
    if (!positive && !negative) fputs("#true", out);
    fputs(".\n", out);
}

char *asp_text(const policy *p, uint64_t pins_in, uint64_t pins_out)
{
    char *text;
    size_t length;
    FILE *out = open_memstream(&text, &length);
    for (unsigned r = 0; r < p->rules; r++) put_rule(out, p->head[r], p->positive[r], p->negative[r]);
    for (unsigned c = 0; c < p->atoms; c++) {
        if (p->granted >> c & 1) fprintf(out, "{a%u}.\n", c);
        if (pins_in >> c & 1) put_rule(out, 0, 0, (uint64_t)1 << c);
        if (pins_out >> c & 1) put_rule(out, 0, (uint64_t)1 << c, 0);
    }
    fclose(out);
    return text;
}

// ---- the program: exit status 10 or 30 says yes, 20 says no

static const char *program = "clingo";
static bool has_program;

static int run_program(char *const *arguments, const char *text)
{
    int to_program[2], status = -1;
    pid_t child;
    posix_spawn_file_actions_t actions;
    if (pipe2(to_program, O_CLOEXEC) != 0) return -1;
    posix_spawn_file_actions_init(&actions);
    posix_spawn_file_actions_adddup2(&actions, to_program[0], 0);
    posix_spawn_file_actions_addopen(&actions, 1, "/dev/null", O_WRONLY, 0);
    posix_spawn_file_actions_addopen(&actions, 2, "/dev/null", O_WRONLY, 0);
    bool is_started = posix_spawnp(&child, program, &actions, NULL, arguments, environ) == 0;
    posix_spawn_file_actions_destroy(&actions);
    close(to_program[0]);
    size_t length = strlen(text), written = 0;
    while (is_started && written < length) {
        ssize_t n = write(to_program[1], text + written, length - written);
        if (n <= 0) break;
        written += (size_t)n;
    }
    close(to_program[1]);
    if (!is_started || waitpid(child, &status, 0) != child || !WIFEXITED(status)) return -1;
    return WEXITSTATUS(status);
}

int clingo_by_program(const char *text)
{
    char *arguments[] = {(char *)program, "-V0", "-n1", "--warn=none", "-", NULL};
    int status = run_program(arguments, text);
    return status == 10 || status == 30 ? 1 : status == 20 ? 0 : -1;
}

// ---- the library, by the five calls that it takes

typedef struct clingo_control clingo_control;
typedef struct clingo_handle clingo_handle;
typedef struct { const char *name; const uint64_t *arguments; size_t size; } clingo_part;

static struct {
    bool (*control_new)(const char *const *, size_t, void (*)(int, const char *, void *), void *, unsigned, clingo_control **);
    void (*control_free)(clingo_control *);
    bool (*control_add)(clingo_control *, const char *, const char *const *, size_t, const char *);
    bool (*control_ground)(clingo_control *, const clingo_part *, size_t, void *, void *);
    bool (*control_solve)(clingo_control *, unsigned, const int32_t *, size_t, void *, void *, clingo_handle **);
    bool (*handle_get)(clingo_handle *, unsigned *);
    bool (*handle_close)(clingo_handle *);
    void (*version)(int *, int *, int *);
} library;

static bool has_library;

static bool load(void *opened, const char *name, void *call)
{
    void *found = dlsym(opened, name);
    memcpy(call, &found, sizeof found);
    return found != NULL;
}

static bool load_library(const char *path)
{
    void *opened = dlopen(path, RTLD_NOW | RTLD_LOCAL);
    return opened && load(opened, "clingo_control_new", &library.control_new) && load(opened, "clingo_control_free", &library.control_free)
        && load(opened, "clingo_control_add", &library.control_add) && load(opened, "clingo_control_ground", &library.control_ground)
        && load(opened, "clingo_control_solve", &library.control_solve) && load(opened, "clingo_solve_handle_get", &library.handle_get)
        && load(opened, "clingo_solve_handle_close", &library.handle_close) && load(opened, "clingo_version", &library.version);
}

static void ignore(int code, const char *message, void *data)
{
    (void)code, (void)message, (void)data;
}

static int solve(clingo_control *control)
{
    const clingo_part base = {"base", NULL, 0};
    clingo_handle *handle;
    unsigned result = 0;
    if (!library.control_ground(control, &base, 1, NULL, NULL)) return -1;
    if (!library.control_solve(control, 0, NULL, 0, NULL, NULL, &handle)) return -1;
    bool is_known = library.handle_get(handle, &result);
    library.handle_close(handle);
    return !is_known ? -1 : result & 1 ? 1 : result & 2 ? 0 : -1;
}

int clingo_by_library(const char *text)
{
    const char *const arguments[] = {"-n1"};
    clingo_control *control;
    if (!library.control_new(arguments, 1, ignore, NULL, 20, &control)) return -1;
    int said = library.control_add(control, "base", NULL, 0, text) ? solve(control) : -1;
    library.control_free(control);
    return said;
}

// ---- finding both

void clingo_begin(void)
{
    const char *path = getenv("CLINGO_LIBRARY");
    signal(SIGPIPE, SIG_IGN);
    if (getenv("CLINGO")) program = getenv("CLINGO");
    has_program = clingo_by_program("a.") == 1 && clingo_by_program(":- #true.") == 0;
    has_library = load_library(path ? path : "libclingo.so.3") && clingo_by_library("a.") == 1 && clingo_by_library(":- #true.") == 0;
}

bool clingo_has_program(void)
{
    return has_program;
}

bool clingo_has_library(void)
{
    return has_library;
}

const char *clingo_version_text(void)
{
    static char text[40];
    int major = 0, minor = 0, revision = 0;
    if (has_library) library.version(&major, &minor, &revision);
    snprintf(text, sizeof text, "%d.%d.%d", major, minor, revision);
    return has_library ? text : "unknown";
}
