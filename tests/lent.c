// Pages by mmap; noise that can be computed again instead of being kept.
#define _DEFAULT_SOURCE
#include "lent.h"

#include <stdio.h>
#include <stdlib.h>
#include <string.h>
#include <sys/mman.h>
#include <unistd.h>

enum { BEFORE = 64 };

static size_t whole_pages(size_t bytes)
{
    size_t page = (size_t)sysconf(_SC_PAGESIZE);
    return (bytes + page - 1) / page * page;
}

lent lent_new(size_t room)
{
    size_t page = (size_t)sysconf(_SC_PAGESIZE), bytes = whole_pages(room + BEFORE);
    unsigned char *base = mmap(NULL, bytes + page, PROT_READ | PROT_WRITE, MAP_PRIVATE | MAP_ANONYMOUS, -1, 0);
    if (base == MAP_FAILED || mprotect(base + bytes, page, PROT_NONE) != 0) {
        perror("mmap");
        exit(2);
    }
    return (lent){base + bytes, room};
}

void lent_free(lent *b)
{
    size_t bytes = whole_pages(b->room + BEFORE);
    munmap(b->end - bytes, bytes + (size_t)sysconf(_SC_PAGESIZE));
}

// Noise by the distance from the end, so that it needs no copy to be compared with.
static uint64_t noise(uint64_t seed, size_t k)
{
    uint64_t x = (seed + k) * 0x9E3779B97F4A7C15u;
    return x ^ x >> 29;
}

void *lend(const lent *b, size_t bytes, uint64_t seed)
{
    if (bytes > b->room) {
        fprintf(stderr, "lent: %zu bytes of %zu\n", bytes, b->room);
        exit(2);
    }
    for (size_t k = 8; k < bytes + BEFORE + 8 && k <= b->room + BEFORE; k += 8) {
        uint64_t x = noise(seed, k);
        memcpy(b->end - k, &x, 8);
    }
    return b->end - bytes;
}

bool is_untouched(const lent *b, size_t bytes, size_t from, uint64_t seed)
{
    for (size_t k = 8; k < bytes + BEFORE + 8 && k <= b->room + BEFORE; k += 8) {
        uint64_t x = noise(seed, k);
        unsigned char want[8];
        memcpy(want, &x, 8);
        if (memcmp(b->end - k, want, 8) == 0) continue;
        for (size_t j = 0; j < 8; j++) {
            size_t back = k - j; // distance of this byte from the end
            bool may_change = back <= bytes && bytes - back < from;
            if (!may_change && b->end[-(ptrdiff_t)back] != want[j]) return false;
        }
    }
    return true;
}
