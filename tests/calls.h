// One call of the archive on lent buffers full of noise, held to document 01's rules for answer, workspace and report.
#ifndef CALLS_H
#define CALLS_H

#include "nuntennis.h"
#include "oracle.h"

typedef enum { CALL_GROUNDED, CALL_PLAIN, CALL_REPORT, CALL_PLAIN_REPORT, CALLS } call;

// Words that no report is longer than.
#define REPORT_WORDS(P, G) ((size_t)(P) * ((size_t)(G) + 2))

// Which case is being tried: printed with a disagreement.
extern const char *case_name;
extern uint64_t case_number;

void calls_begin(void);

// Makes the call. The answer must be the one wanted, the plan of a yes included; all buffers must be as 01 says. A wanted report is the
// table's words. Then the sheet's depth is asked, and must be the oracle's.
void expect_call(call c, const oracle_request *r, oracle_answer want, const oracle_table *table);

// Asks for the name of every copy, and of some numbers that no copy has: the answers must be the oracle's. How many have a name.
unsigned expect_names(const oracle_request *r);

// With the names of a sheet taken out both decisions are these ones, a refusal at the same command. A sheet that 1 or 5 to 12 refuses passes.
void expect_unnamed(const oracle_request *r, oracle_answer grounded, oracle_answer plain);

// With the groups of every link exchanged both decisions are these ones (02, Item 11). A sheet that 1 or 5 to 12 refuses passes.
void expect_exchanged(const oracle_request *r, oracle_answer grounded, oracle_answer plain);

// The call that is running, NULL for none: named should it touch a page that it may not.
void watch(const char *call, const oracle_request *r);

// Prints the case as a sheet file, what is wrong with it, and ends the program with status 1.
_Noreturn void disagree(const char *call, const oracle_request *r, const char *format, ...);

// Words of workspace needed; for a sheet with a fault, or limits outside 1 to 1024, some number.
size_t need_of(const oracle_request *r);

#endif
