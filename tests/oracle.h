// What document 01 says of a sheet, by enumeration: tables, answers, records. For up to ORACLE_ATOMS copies; slow and simple.
#ifndef ORACLE_H
#define ORACLE_H

#include "policy.h"

enum { ORACLE_ATOMS = 12 };

// The arguments of a call.
typedef struct {
    const uint8_t *sheet;
    size_t sheet_len;
    uint64_t plan_limit, subset_limit, pins_in, pins_out;
    size_t workspace_len, asked, report_len, answer_len;
} oracle_request;

typedef struct { uint64_t kind, value, place; } oracle_answer;

// ---- tables, as a report writes them

typedef struct { uint32_t *words; size_t length, entries, most_subsets; } oracle_table;

// The pairs of all interpretations of one part that obey the pins, or their triples alone.
oracle_table oracle_pairs(const policy *p, unsigned part, uint64_t pins_in, uint64_t pins_out);
oracle_table oracle_triples(const policy *p, unsigned part, uint64_t pins_in, uint64_t pins_out);

// What Definition 8 with 02, Items 9 and 11 makes of tables found: the newest one (and the one below it for a union; both NULL for a leaf).
oracle_table oracle_define(const policy_command *command, unsigned atom, uint64_t pins_in, uint64_t pins_out,
                           const oracle_table *below, const oracle_table *newest);

void oracle_free(oracle_table *table);

// ---- the tables after each command

typedef struct {
    policy_command command;
    unsigned atoms;     // before the command
    bool links_back;    // whether it is a link that finds rules of its first label and atoms of its second
    unsigned depth;     // after it
    unsigned made[8];   // which step made the table of each part
    oracle_table pairs, triples; // of the newest part
} oracle_step;

typedef struct { size_t steps; oracle_step *step; policy policy; } oracle_history;

// For a sheet that passes checks 1 to 13.
oracle_history oracle_walk(const uint8_t *sheet, size_t sheet_len, uint64_t pins_in, uint64_t pins_out);
void oracle_forget(oracle_history *history);

// ---- answers

// Checks 1 to 13: kind 2, or kind 0 where all pass.
oracle_answer oracle_check(const oracle_request *request);

// The most parts at once: checks 1 and 5 to 12, and then kind 1.
oracle_answer oracle_depth(const oracle_request *request);

// Where the name of a copy begins: the same checks, and then kind 1; kind 0 where it has none.
oracle_answer oracle_name(const oracle_request *request, uint64_t copy);

// Those of the commands before the first fault.
unsigned oracle_parts(const oracle_request *request);

// The least limits, from 1 on, that no table exceeds.
void oracle_need(const oracle_history *history, uint64_t *plan_limit, uint64_t *subset_limit);

// The first table that exceeds the limits, of the first n steps: kind 2, or kind 0.
oracle_answer oracle_fit(const oracle_history *history, size_t n, uint64_t plan_limit, uint64_t subset_limit);

// All three words: a grounded yes shows the first plan, a plain one none.
oracle_answer oracle_grounded(const oracle_request *request, const oracle_history *history);
oracle_answer oracle_plain(const oracle_request *request, const oracle_history *history);

// The table reported, or NULL with a refusal.
oracle_answer oracle_report(const oracle_request *request, const oracle_history *history, const oracle_table **table);
oracle_answer oracle_plain_report(const oracle_request *request, const oracle_history *history, const oracle_table **table);

// ---- a walk's record and workspace: place, number of tables, eight counts

// Whether a step or verdict finds what refusal 18 asks for, where checks 1 to 13 pass.
bool oracle_is_record(const oracle_request *request, const uint64_t record[10], const uint32_t *workspace);

// The table t that stands in a workspace of that form.
oracle_table oracle_found(const oracle_request *request, const uint64_t record[10], const uint32_t *workspace, unsigned t);

// Lays a table of at most P pairs with at most G subsets into its area.
void oracle_lay(const oracle_request *request, uint32_t *workspace, unsigned t, const oracle_table *table);

// The command at an offset where one starts, the atoms and the parts before it; false at the end and elsewhere.
bool oracle_locate(const oracle_request *request, uint64_t place, policy_command *command, unsigned *atoms, unsigned *depth);

#endif
