// The sheets of the benchmark.
#ifndef FAMILIES_H
#define FAMILIES_H

#include <stddef.h>
#include <stdint.h>

typedef struct {
    const char *family; // sheets of one family stand together and are timed as one
    uint8_t sheet[4096];
    size_t sheet_len;
    uint64_t plan_limit, subset_limit, pins_in, pins_out;
} instance;

// Fill in their sheets, at most INSTANCES together; how many there are.
enum { INSTANCES = 80 };
size_t all_families(instance *instances);  // all that take milliseconds
size_t long_families(instance *instances); // the benchmark's own: a decision, or a walk of it, takes seconds

// One sheet of 404 bytes whose decision takes minutes.
void longest_family(instance *x);

#endif
