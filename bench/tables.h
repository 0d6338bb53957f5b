// The tables of document 01 in lent words, for the hand-written C.
//
// A row is a pair: Q, number of subsets, subsets rising. Rows of a table lie at a fixed stride and in no order: a decision needs none,
// a report sorts at the end. Beside each row stands the least number of the interpretations behind it, where atom c counts 2^(62-c): the
// least of all is the first answer set. A row of a plain table is one triple.
#ifndef TABLES_H
#define TABLES_H

#include "triples.h"

enum { ATOMS = 63, PARTS = 8, AREAS = PARTS + 1 };

enum { ATOM = 0x11, RULE = 0x12, GRANTED = 0x13, UNION = 0x21, RELABEL = 0x31, HEAD = 0x41, POSITIVE = 0x42, NEGATIVE = 0x43, NAME = 0x51 };

enum { SUBSETS_FULL = 15, PLANS_FULL = 16 };

typedef struct { unsigned code, i, j, length; } command;

// The marks are those of all atoms of the part, in and out, and of all its rules, met or not: its triples have no others.
typedef struct { uint32_t *rows; uint64_t *first; size_t count; uint32_t marks; } table;

// Where the row with a given hash stands: its number and 1, or 0.
typedef struct { uint16_t slots[4 * LIMIT]; unsigned mask; } row_index;

typedef struct {
    size_t pair_limit, subset_limit, width;
    uint64_t assumed_true, assumed_false;
    unsigned atoms, depth, parts; // parts: the most there are at once
    table tables[AREAS];          // the one behind them is free
    uint64_t first[AREAS][LIMIT];
    row_index index;
    filter seen;
} state;

void tables_begin(state *s, unsigned parts, size_t pair_limit, size_t subset_limit, uint64_t assumed_true, uint64_t assumed_false, uint32_t *workspace);

// One command on pair tables, or on plain ones: 0, 15 or 16. A refused command leaves the tables in use as they were.
unsigned run_command(state *s, const command *c);
unsigned run_plain_command(state *s, const command *c);

// An answer set: all rules satisfied, and no subset satisfies the reduct.
bool is_accepting(const uint32_t *row);

// By rising Q, then by subset list: for qsort over pointers to rows.
int compare_rows(const void *x, const void *y);

// The rows of a table in report order.
void order_rows(const table *t, size_t width, const uint32_t **rows);

#endif
