// Reading of the host's command line: whatever is wrong is named.
#include "arguments.h"

#include <stdio.h>
#include <string.h>

static int print_wrong(const char *word, const char *value, const char *wrong)
{
    fprintf(stderr, "host: %s%s%s: %s\n", word, *value ? " " : "", value, wrong);
    fprintf(stderr, "usage: host [--raw | --hex] [-p PLANS] [-g SUBSETS] [-i COPIES] [-o COPIES] SHEET (host --help says more)\n");
    return 0;
}

static int take_path(arguments *a, const char *path)
{
    if (a->path) return print_wrong(path, "", "a second sheet");
    a->path = path;
    return 1;
}

static int take_form(arguments *a, const char *word, sheet_file_form form)
{
    if (a->form != SHEET_FILE_GUESS && a->form != form) return print_wrong(word, "", "--raw and --hex exclude each other");
    a->form = form;
    return 1;
}

static int take_long_option(arguments *a, const char *word)
{
    if (strcmp(word, "--raw") == 0) return take_form(a, word, SHEET_FILE_RAW);
    if (strcmp(word, "--hex") == 0) return take_form(a, word, SHEET_FILE_HEX);
    if (strcmp(word, "--help") != 0) return print_wrong(word, "", "no such option");
    a->wants_help = 1;
    return 1;
}

static argument_number *number_of(arguments *a, char letter)
{
    switch (letter) {
    case 'p': return &a->plan_limit;
    case 'g': return &a->subset_limit;
    case 'i': return &a->pins_in;
    case 'o': return &a->pins_out;
    default: return NULL;
    }
}

// Copies of several -i (or -o) add up.
static int take_value(argument_number *n, const char *option, const char *value)
{
    int is_limit = option[1] == 'p' || option[1] == 'g';
    const char *wrong = is_limit ? sheet_file_number(value, &n->value) : sheet_file_copies(value, &n->value);
    n->is_given = 1;
    return wrong ? print_wrong(option, *value ? value : "''", wrong) : 1;
}

// A letter with its value, which stands in the same word or is the next one.
static int take_option(arguments *a, const char *word, const char *next)
{
    char option[] = {'-', word[1], 0};
    argument_number *n = number_of(a, word[1]);
    if (!n) return print_wrong(word, "", "no such option");
    if (!word[2] && !next) return print_wrong(option, "", "its value is missing");
    return take_value(n, option, word[2] ? word + 2 : next);
}

int arguments_read(arguments *a, int count, char **words)
{
    int ends_options = 0;
    *a = (arguments){.form = SHEET_FILE_GUESS};
    for (int k = 1; k < count; k++) {
        const char *word = words[k];
        if (ends_options || word[0] != '-' || !word[1]) {
            if (!take_path(a, word)) return 0;
        } else if (strcmp(word, "--") == 0) {
            ends_options = 1;
        } else if (word[1] == '-') {
            if (!take_long_option(a, word)) return 0;
        } else {
            if (!take_option(a, word, k + 1 < count ? words[k + 1] : NULL)) return 0;
            k += word[2] == 0;
        }
    }
    return a->path || a->wants_help ? 1 : print_wrong("SHEET", "", "not given");
}

static void apply(const argument_number *n, uint64_t *setting)
{
    if (n->is_given) *setting = n->value;
}

void arguments_apply(const arguments *a, sheet_file *f)
{
    apply(&a->plan_limit, &f->plan_limit);
    apply(&a->subset_limit, &f->subset_limit);
    apply(&a->pins_in, &f->pins_in);
    apply(&a->pins_out, &f->pins_out);
}
