/* tests/c.d/projects/allocator.c at work: it grows, serves what a model of it says, and shrinks. */
#include <stdint.h>
#include <string.h>

#include "cases.h"
#include "projects/allocator.h"

enum { BLOCKS = 300, STEPS = 100000, MOST = 6000, LIMIT = 8 << 20 };

static struct block {
    unsigned char *bytes;
    size_t size;
    unsigned char seed;
} blocks[BLOCKS];

static uint32_t state = 1;

static size_t below(size_t most)
{
    state = state * 1664525u + 1013904223u;
    return (size_t)((uint64_t)(state >> 8) * most >> 24);
}

static void fill(struct block *block, size_t size)
{
    block->size = size;
    block->seed = (unsigned char)below(256);
    for (size_t k = 0; k < size; k++) {
        block->bytes[k] = (unsigned char)(block->seed + 3 * k);
    }
}

static bool is_filled(const struct block *block, size_t size)
{
    for (size_t k = 0; k < size; k++) {
        if (block->bytes[k] != (unsigned char)(block->seed + 3 * k)) {
            return false;
        }
    }
    return true;
}

static bool step(allocator *a)
{
    struct block *block = &blocks[below(BLOCKS)];
    size_t size = 1 + below(below(4) == 0 ? MOST : 400), align = (size_t)8 << below(10);
    bool good = is_filled(block, block->size);
    if (block->bytes == NULL && below(4) == 0) {
        block->bytes = (unsigned char *)allocator_alloc_aligned(a, align, size);
        good = good && (uintptr_t)block->bytes % align == 0;
    } else if (block->bytes == NULL) {
        block->bytes = (unsigned char *)allocator_alloc(a, size);
    } else if (below(3) == 0) {
        size_t kept = size < block->size ? size : block->size;
        block->bytes = (unsigned char *)allocator_resize(a, block->bytes, size);
        good = good && block->bytes != NULL && is_filled(block, kept);
    } else {
        allocator_free(a, block->bytes);
        block->bytes = NULL;
        size = 0;
    }
    good = good && (size == 0 || block->bytes != NULL);
    if (good) {
        fill(block, size);
    }
    return good;
}

static void serves(allocator *a)
{
    allocator_stats stats;
    size_t live = 0, bytes = 0;
    bool good = true;
    for (unsigned k = 0; k < STEPS && good; k++) {
        good = step(a) && (k % 500 != 0 || allocator_is_intact(a));
    }
    for (size_t k = 0; k < BLOCKS; k++) {
        live += blocks[k].bytes != NULL;
        bytes += blocks[k].size;
    }
    allocator_get_stats(a, &stats);
    expect(good, "each block keeps its bytes");
    expect(stats.used_blocks == live && stats.used_bytes >= bytes, "its count of blocks");
    expect(stats.chunks >= 3 && stats.used_bytes + stats.free_bytes < stats.reserved,
           "it has grown, and a chunk has more than its blocks' bytes");
}

static void refuses(allocator *a)
{
    allocator_stats before, after;
    allocator_get_stats(a, &before);
    expect(allocator_alloc(a, LIMIT) == NULL && allocator_alloc(a, SIZE_MAX / 2) == NULL
               && allocator_alloc(a, 0) == NULL,
           "more than its limit, and no bytes");
    expect(allocator_resize(a, NULL, 0) == NULL, "a resize of nothing to nothing");
    allocator_get_stats(a, &after);
    expect(memcmp(&before, &after, sizeof before) == 0 && allocator_is_intact(a),
           "what is refused changes nothing");
}

static void shrinks(allocator *a)
{
    allocator_stats stats;
    void *kept;
    for (size_t k = 0; k < BLOCKS; k++) {
        allocator_free(a, blocks[k].bytes);
        blocks[k].bytes = NULL;
    }
    kept = allocator_alloc(a, 100);
    size_t given = allocator_trim(a);
    allocator_get_stats(a, &stats);
    expect(kept != NULL && given > 0 && stats.chunks == 1 && stats.used_blocks == 1,
           "all chunks but that of the last block go back");
    allocator_free(a, kept);
    expect(allocator_trim(a) > 0, "and then that one");
    allocator_get_stats(a, &stats);
    expect(stats.chunks == 0 && stats.reserved == 0 && stats.free_blocks == 0, "none is left");
    kept = allocator_alloc(a, 1 << 20);
    expect(kept != NULL && allocator_is_intact(a), "it grows again");
}

int main(void)
{
    allocator *a = allocator_create(LIMIT);
    expect(a != NULL, "an allocator");
    serves(a);
    refuses(a);
    shrinks(a);
    allocator_destroy(a);
    return cases_end();
}
