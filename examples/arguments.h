// The host's command line.
#ifndef ARGUMENTS_H
#define ARGUMENTS_H

#include "sheet_file.h"

typedef struct {
    int is_given;
    uint64_t value;
} argument_number;

typedef struct {
    const char *path;  // of the sheet
    sheet_file_form form;
    int wants_help;
    argument_number plan_limit, subset_limit, pins_in, pins_out;
} arguments;

// 1, or 0 with what is wrong on standard error. Options may stand behind the sheet.
int arguments_read(arguments *a, int count, char **words);

// What is given goes before what the file says.
void arguments_apply(const arguments *a, sheet_file *f);

#endif
