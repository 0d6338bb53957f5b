// The policy that a sheet builds, and what its plans are, from the rules' meaning alone.
#ifndef POLICY_H
#define POLICY_H

#include <stdbool.h>
#include <stddef.h>
#include <stdint.h>

// Groups are 0 to 9 (02, Item 12), and a name has sixteen bytes (02, Item 1).
enum { POLICY_GROUPS = 10, POLICY_NAME = 16 };

typedef struct { unsigned code, i, j; size_t offset, next; } policy_command;

// Atoms and rules of all parts; part 0 is the oldest.
typedef struct {
    unsigned atoms, rules, parts, most_parts; // the parts there are, and the most there were at once
    uint8_t atom_label[64], atom_part[64];
    uint8_t rule_label[256], rule_part[256];
    uint64_t head[256], positive[256], negative[256];
    uint64_t granted;      // atoms that no rule need make (02, Item 9)
    bool is_atom_last;     // of the leaves
    size_t atom_name[64];  // where the last name of each atom begins; 0 for none, as a leaf stands before every name
} policy;

// The refusal from 5 to 11 of the command at an offset inside the sheet, or 0; and the command, where it is 0.
unsigned policy_fault(const uint8_t *sheet, size_t sheet_len, size_t at, const policy *before);
policy_command policy_command_at(const uint8_t *sheet, size_t at);

bool policy_is_link(unsigned code);

void policy_apply(policy *p, const policy_command *c);

// Whether the command is a link i j that puts copies of j into rules of i: the newest part has some of both.
bool policy_links_back(const policy *before, const policy_command *c);

// The policy of a sheet that passes checks 1 to 12.
void policy_build(policy *p, const uint8_t *sheet, size_t sheet_len);

// Whether such a sheet has such a link. If not, it means the same where a link i j puts copies of i into rules of j alone.
bool policy_has_link_back(const uint8_t *sheet, size_t sheet_len);

// The commands of such a sheet, or the first of them, without the names: how many bytes they have.
size_t policy_unnamed(uint8_t *to, const uint8_t *sheet, size_t sheet_len);

// Makes every second copy of such a sheet a granted one, from the copy with the number given (0 or 1) on.
void policy_grant_half(uint8_t *sheet, size_t sheet_len, unsigned first);

// Exchanges the two groups of every link of such a sheet: it means the same (02, Item 11).
void policy_exchange(uint8_t *sheet, size_t sheet_len);

bool policy_obeys(uint64_t interpretation, uint64_t pins_in, uint64_t pins_out);
bool policy_is_model(const policy *p, uint64_t interpretation);
bool policy_is_answer_set(const policy *p, uint64_t interpretation);

// Whether a set is one of the smaller plans considered: a proper subset that agrees on every granted atom.
bool policy_is_smaller(const policy *p, uint64_t interpretation, uint64_t subset);

#endif
