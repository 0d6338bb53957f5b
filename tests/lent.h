// Buffers that catch a step outside: each ends at a page that nobody may touch, and noise stands before it.
#ifndef LENT_H
#define LENT_H

#include <stdbool.h>
#include <stddef.h>
#include <stdint.h>

typedef struct { unsigned char *end; size_t room; } lent;

lent lent_new(size_t room);
void lent_free(lent *buffer);

// The last bytes of the buffer, with noise in them and in the bytes before.
void *lend(const lent *buffer, size_t bytes, uint64_t seed);

// Whether the bytes of what was lent, from an offset on, and those before it still hold that noise.
bool is_untouched(const lent *buffer, size_t bytes, size_t from, uint64_t seed);

#endif
