// clingo on the same policies: as a program, and as a library in this process where it can be loaded.
#ifndef CLINGO_H
#define CLINGO_H

#include "policy.h"

#include <stdbool.h>
#include <stddef.h>
#include <stdint.h>

// The policy as ASP text, granted copies as choices and pins as constraints. The text stays the caller's to free.
char *asp_text(const policy *p, uint64_t pins_in, uint64_t pins_out);

// Finds the program ($CLINGO, else `clingo`) and the library ($CLINGO_LIBRARY, else libclingo.so.3).
void clingo_begin(void);
bool clingo_has_program(void);
bool clingo_has_library(void);
const char *clingo_version_text(void);

// Is there an answer set? 1, 0, or -1 where clingo did not say. Grounding and solving of the text, for one answer set.
int clingo_by_program(const char *text);
int clingo_by_library(const char *text);

#endif
