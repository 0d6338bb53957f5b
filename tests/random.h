// Pseudo-random numbers with a fixed start, and sheets made of them.
#ifndef RANDOM_H
#define RANDOM_H

#include <stddef.h>
#include <stdint.h>

typedef struct { uint64_t state; } random_source;

uint64_t random_next(random_source *r);
unsigned random_below(random_source *r, unsigned n); // n is not 0

// Each of the low bits set with one chance in so many.
uint64_t random_mask(random_source *r, unsigned bits, unsigned one_in);

enum { RANDOM_SHEET_ROOM = 4200 };

// A sheet without faults: so many copies and rules, in groups below `labels` (2 to all of them for parts, 1 to all but two for a policy, 2 to all
// but two for a mixed one). Parts are joined and linked anyhow; a policy is written rule by rule, and no group of it holds both copies and rules;
// in a mixed one most groups do, and their links put copies into rules both ways (02, Item 11).
size_t random_parts(random_source *r, uint8_t *sheet, unsigned atoms, unsigned rules, unsigned labels);
size_t random_policy(random_source *r, uint8_t *sheet, unsigned atoms, unsigned rules, unsigned labels);
size_t random_mixed(random_source *r, uint8_t *sheet, unsigned atoms, unsigned rules, unsigned labels);

// One of the three, in some groups; it has a copy or a rule at least.
size_t random_sound(random_source *r, uint8_t *sheet, unsigned atoms, unsigned rules);

// Makes some copies of a sheet without faults granted ones.
void random_grants(random_source *r, uint8_t *sheet, size_t sheet_len);

// Puts names behind some commands of a sheet without faults, behind some of them two, while it stays within 4096 bytes.
size_t random_names(random_source *r, uint8_t *sheet, size_t sheet_len);

// Changes, drops or adds a few bytes or commands.
size_t random_damage(random_source *r, uint8_t *sheet, size_t sheet_len);

#endif
