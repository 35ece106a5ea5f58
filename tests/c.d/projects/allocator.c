/* See allocator.h. */
#include "allocator.h"

#include <assert.h>
#include <stdlib.h>
#include <string.h>

#include "tlsf.h"

#define MAX_CHUNKS 8
#define FIRST_CHUNK ((size_t)32 * 1024)

typedef struct chunk {
    void *memory;
    size_t bytes;
    pool_t pool;
} chunk;

struct allocator {
    tlsf_t tlsf;
    size_t limit;
    size_t reserved;
    size_t next_bytes;
    chunk chunks[MAX_CHUNKS];
};

allocator *allocator_create(size_t limit)
{
    allocator *a = (allocator *)calloc(1, sizeof(allocator) + tlsf_size());
    if (!a) {
        return NULL;
    }
    a->tlsf = tlsf_create(a + 1);
    a->limit = limit;
    a->next_bytes = FIRST_CHUNK;
    if (!a->tlsf) {
        free(a);
        return NULL;
    }
    return a;
}

void allocator_destroy(allocator *a)
{
    int i;
    tlsf_destroy(a->tlsf);
    for (i = 0; i < MAX_CHUNKS; i++) {
        free(a->chunks[i].memory);
    }
    free(a);
}

/* One more pool, in which a block of this size fits. */
static int grow(allocator *a, size_t align, size_t size)
{
    size_t bytes;
    int i;
    if (size > tlsf_block_size_max() - align) {
        return 0;
    }
    /* tlsf looks for a block in the next class of sizes. */
    bytes = size + size / 16 + align + tlsf_block_size_min();
    bytes += tlsf_pool_overhead() + tlsf_alloc_overhead();
    bytes += tlsf_align_size() - bytes % tlsf_align_size();
    if (bytes < a->next_bytes) {
        bytes = a->next_bytes;
    }
    if (bytes > a->limit - a->reserved) {
        return 0;
    }
    for (i = 0; i < MAX_CHUNKS; i++) {
        chunk *c = &a->chunks[i];
        if (!c->memory) {
            c->memory = malloc(bytes);
            c->pool = c->memory ? tlsf_add_pool(a->tlsf, c->memory, bytes) : NULL;
            if (!c->pool) {
                free(c->memory);
                c->memory = NULL;
                return 0;
            }
            c->bytes = bytes;
            a->reserved += bytes;
            a->next_bytes *= 2;
            return 1;
        }
    }
    return 0;
}

void *allocator_alloc(allocator *a, size_t size)
{
    void *ptr = tlsf_malloc(a->tlsf, size);
    if (!ptr && size && grow(a, tlsf_align_size(), size)) {
        ptr = tlsf_malloc(a->tlsf, size);
    }
    assert(!ptr || tlsf_block_size(ptr) >= size);
    return ptr;
}

void *allocator_alloc_aligned(allocator *a, size_t align, size_t size)
{
    void *ptr = tlsf_memalign(a->tlsf, align, size);
    if (!ptr && size && grow(a, align, size)) {
        ptr = tlsf_memalign(a->tlsf, align, size);
    }
    assert((size_t)ptr % align == 0);
    return ptr;
}

void *allocator_resize(allocator *a, void *ptr, size_t size)
{
    void *other = tlsf_realloc(a->tlsf, ptr, size);
    if (!other && size && grow(a, tlsf_align_size(), size)) {
        other = tlsf_realloc(a->tlsf, ptr, size);
    }
    return other;
}

void allocator_free(allocator *a, void *ptr) { tlsf_free(a->tlsf, ptr); }

static void count(void *ptr, size_t size, int used, void *user)
{
    allocator_stats *stats = (allocator_stats *)user;
    (void)ptr;
    if (used) {
        stats->used_blocks++;
        stats->used_bytes += size;
    } else {
        stats->free_blocks++;
        stats->free_bytes += size;
        if (size > stats->largest_free) {
            stats->largest_free = size;
        }
    }
}

size_t allocator_trim(allocator *a)
{
    size_t before = a->reserved;
    int i;
    for (i = 0; i < MAX_CHUNKS; i++) {
        chunk *c = &a->chunks[i];
        if (c->memory) {
            allocator_stats stats;
            memset(&stats, 0, sizeof(stats));
            tlsf_walk_pool(c->pool, count, &stats);
            if (stats.used_blocks == 0) {
                tlsf_remove_pool(a->tlsf, c->pool);
                free(c->memory);
                a->reserved -= c->bytes;
                memset(c, 0, sizeof(*c));
            }
        }
    }
    if (a->reserved == 0) {
        a->next_bytes = FIRST_CHUNK;
    }
    return before - a->reserved;
}

void allocator_get_stats(allocator *a, allocator_stats *stats)
{
    int i;
    memset(stats, 0, sizeof(*stats));
    stats->reserved = a->reserved;
    for (i = 0; i < MAX_CHUNKS; i++) {
        if (a->chunks[i].memory) {
            stats->chunks++;
            tlsf_walk_pool(a->chunks[i].pool, count, stats);
        }
    }
}

int allocator_is_intact(allocator *a)
{
    int good = tlsf_check(a->tlsf) == 0;
    int i;
    for (i = 0; i < MAX_CHUNKS; i++) {
        good = good && (!a->chunks[i].memory || tlsf_check_pool(a->chunks[i].pool) == 0);
    }
    return good;
}
