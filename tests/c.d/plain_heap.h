/* The table design of the library in plain C, written by hand and not proved. tests/benchmark_c
 * compares the library with it. */
#ifndef PLAIN_HEAP_H
#define PLAIN_HEAP_H

#include "tlsf_heap.h"

enum { PLAIN_LEVELS = 22, PLAIN_CLASSES = 32 * PLAIN_LEVELS, PLAIN_POOLS = 8 };

/* A block: its size and, in the lowest bits, its state; links are slots. */
struct plain_record {
    uint32_t place, word;
    uint16_t prev, next, prev_free, next_free;
};

struct plain_pool {
    uint64_t base, bytes;
    uint16_t first;
};

typedef struct plain_heap {
    struct plain_record *records;
    uint32_t count, left, levels, steps[PLAIN_LEVELS];
    uint16_t vacant, heads[PLAIN_CLASSES];
    uint32_t pool_count;
    struct plain_pool pools[PLAIN_POOLS];
} plain_heap;

/* The calls of tlsf_heap.h, with its statuses. */
uint32_t plain_create(uint32_t records, plain_heap *heap);
void plain_destroy(plain_heap *heap);
uint32_t plain_add_pool(plain_heap *heap, uint64_t base, uint64_t bytes);
uint32_t plain_malloc(plain_heap *heap, uint64_t bytes, tlsf_heap_block *out);
uint32_t plain_memalign(plain_heap *heap, uint64_t align, uint64_t bytes, tlsf_heap_block *out);
uint32_t plain_free(plain_heap *heap, tlsf_heap_block block);
uint32_t plain_realloc(plain_heap *heap, tlsf_heap_block block, uint64_t bytes,
                       tlsf_heap_block *out);

#endif
