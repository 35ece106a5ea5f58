/* The calls of tlsf.h over random runs beside a plain model: several heaps, each with an array of
 * its blocks in order of address, and with pools anywhere. The model doesn't say which free block
 * of a class is taken: it takes what is given, and says whether that was right. */
#include <stdlib.h>
#include <string.h>

#include "cases.h"
#include "tlsf.h"

enum {
    HEAPS = 3,
    POOLS = 8,
    MOST_RECORDS = 60,
    AREAS = 24,
    AREA = 6144,
    STALE = 32,
    FRONT = 8,
    CLASSES = 704
};
#define GREATEST 1073741808u

/* A block: its first byte is that in front of its pointer's eight. */
struct block {
    unsigned char *start;
    size_t size;
    int pool;
    bool live;
    unsigned char seed;
};

struct pool {
    pool_t handle;
    unsigned char *start;
    size_t bytes;
    int area;
};

struct heap {
    tlsf_t tlsf;
    size_t records, count, most_live, bad_pointers, bad_aligns, unserved;
    struct block blocks[MOST_RECORDS + 2];
    struct pool pools[POOLS];
};

static struct heap heaps[HEAPS];
static _Alignas(16) unsigned char control[HEAPS][4096];
static _Alignas(16) unsigned char areas_of_program[AREAS / 2][AREA];
static unsigned char *areas[AREAS];
static bool area_taken[AREAS];
static void *stale[STALE];
static uint64_t calls, served, refused, table_full, no_fit, moved, grown, tight, bad_pointers,
    pools_added, pools_gone, pools_kept, pools_refused;

static uint64_t state;

static uint64_t below(uint64_t bound)
{
    state ^= state << 13;
    state ^= state >> 7;
    state ^= state << 17;
    return state % bound;
}

/* ---- the model ---- */

static uint64_t low(uint64_t class)
{
    uint64_t level = class / 32, step = class % 32;
    return level == 0 ? 16 * step : (1ull << (level + 8)) + step * (1ull << (level + 3));
}

static uint64_t class_of(uint64_t size)
{
    uint64_t class = size < 512 ? size / 16 : 32;
    while (class + 1 < CLASSES && low(class + 1) <= size) {
        class ++;
    }
    return class;
}

static void insert(struct heap *heap, size_t at, struct block block)
{
    memmove(&heap->blocks[at + 1], &heap->blocks[at], (heap->count - at) * sizeof block);
    heap->blocks[at] = block;
    heap->count++;
}

static void erase(struct heap *heap, size_t at)
{
    heap->count--;
    memmove(&heap->blocks[at], &heap->blocks[at + 1], (heap->count - at) * sizeof heap->blocks[0]);
}

static unsigned char *pointer_of(const struct block *block) { return block->start + FRONT; }

static void fill(struct block *block)
{
    for (size_t k = 0; k < block->size - FRONT; k++) {
        pointer_of(block)[k] = (unsigned char)(block->seed + 7 * k);
    }
}

static bool is_filled(const unsigned char *bytes, size_t length, unsigned char seed)
{
    for (size_t k = 0; k < length; k++) {
        if (bytes[k] != (unsigned char)(seed + 7 * k)) {
            return false;
        }
    }
    return true;
}

static size_t least(size_t one, size_t other) { return one < other ? one : other; }

static size_t rounded(size_t bytes)
{
    return bytes == 0 || bytes > GREATEST - FRONT ? 0 : (bytes + FRONT + 15) / 16 * 16;
}

/* Where a block of the free one would begin, so that its pointer is aligned. */
static unsigned char *start_in(const struct block *block, size_t align)
{
    uintptr_t address = (uintptr_t)block->start + FRONT;
    return block->start + ((align - address % align) % align);
}

static size_t rests(const struct block *block, size_t align, size_t m)
{
    unsigned char *start = start_in(block, align);
    return (size_t)(start > block->start) + (size_t)(start + m < block->start + block->size);
}

/* The least class that has a free block, of those whose blocks all have the bytes wanted. */
static uint64_t best_class(const struct heap *heap, size_t wanted)
{
    uint64_t best = CLASSES;
    for (size_t k = 0; k < heap->count; k++) {
        uint64_t class = heap->blocks[k].live ? CLASSES : class_of(heap->blocks[k].size);
        if (class < best && low(class) >= wanted) {
            best = class;
        }
    }
    return best;
}

static bool is_of(const struct block *block, uint64_t class)
{
    return !block->live && class_of(block->size) == class;
}

/* A null pointer is right: there is no fit, or the table is full. */
static bool may_refuse(const struct heap *heap, size_t m, size_t align)
{
    uint64_t class = best_class(heap, align <= 16 ? m : m + align - 16);
    if (m == 0 || class == CLASSES) {
        no_fit++;
        return true;
    }
    for (size_t k = 0; k < heap->count; k++) {
        if (is_of(&heap->blocks[k], class)
            && heap->count + rests(&heap->blocks[k], align, m) > heap->records) {
            table_full++;
            return true;
        }
    }
    return false;
}

/* A malloc gives a block though none is of a class that surely has the bytes: each of the class
 * below has them. */
static bool has_below(const struct heap *heap, size_t m, size_t align)
{
    size_t fitting = 0, others = 0;
    for (size_t k = 0; k < heap->count; k++) {
        bool of = m != 0 && is_of(&heap->blocks[k], class_of(m));
        bool fits = of && heap->blocks[k].size >= m
                    && heap->count + rests(&heap->blocks[k], align, m) <= heap->records;
        fitting += fits;
        others += of && !fits;
    }
    return align <= 16 && best_class(heap, m) == CLASSES && fitting > 0 && others == 0;
}

/* The block at `at` becomes a rest, a live block and a rest. */
static void split(struct heap *heap, size_t at, unsigned char *start, size_t m)
{
    struct block old = heap->blocks[at], live = old, behind = old;
    size_t gap = (size_t)(start - old.start);
    live.start = start;
    live.size = m;
    live.live = true;
    live.seed = (unsigned char)below(256);
    behind.start = start + m;
    behind.size = old.size - gap - m;
    behind.live = false;
    erase(heap, at);
    if (behind.size > 0) {
        insert(heap, at, behind);
    }
    insert(heap, at, live);
    if (gap > 0) {
        old.size = gap;
        old.live = false;
        insert(heap, at, old);
    }
}

/* What was given is right; the model has it, and it is filled. */
static bool takes(struct heap *heap, unsigned char *given, size_t m, size_t align)
{
    uint64_t class = best_class(heap, align <= 16 ? m : m + align - 16);
    bool below = class == CLASSES && align <= 16 && m != 0;
    class = below ? class_of(m) : class;
    tight += below;
    for (size_t k = 0; k < heap->count; k++) {
        struct block *block = &heap->blocks[k];
        if (given > block->start && given < block->start + block->size) {
            unsigned char *start = given - FRONT;
            size_t more = rests(block, align, m);
            if (m == 0 || !is_of(block, class) || block->size < m || start != start_in(block, align)
                || heap->count + more > heap->records) {
                return false;
            }
            size_t at = k + (start > block->start);
            split(heap, k, start, m);
            fill(&heap->blocks[at]);
            return tlsf_block_size(given) == m - FRONT;
        }
    }
    return false;
}

static size_t find(const struct heap *heap, const void *pointer)
{
    size_t k = 0;
    while (k < heap->count && !(heap->blocks[k].live && pointer_of(&heap->blocks[k]) == pointer)) {
        k++;
    }
    return k;
}

static bool is_free_beside(const struct heap *heap, size_t at, size_t other)
{
    return other < heap->count && !heap->blocks[other].live
           && heap->blocks[other].pool == heap->blocks[at].pool;
}

static void release(struct heap *heap, size_t at)
{
    stale[below(STALE)] = pointer_of(&heap->blocks[at]);
    heap->blocks[at].live = false;
    if (is_free_beside(heap, at, at + 1)) {
        heap->blocks[at].size += heap->blocks[at + 1].size;
        erase(heap, at + 1);
    }
    if (at > 0 && is_free_beside(heap, at, at - 1)) {
        heap->blocks[at - 1].size += heap->blocks[at].size;
        erase(heap, at);
    }
}

/* ---- the heaps beside it ---- */

struct walk {
    const struct heap *heap;
    size_t at;
    bool good;
};

static void compare(void *ptr, size_t size, int used, void *user)
{
    struct walk *walk = (struct walk *)user;
    const struct block *block = &walk->heap->blocks[walk->at++];
    walk->good = walk->good && ptr == pointer_of(block) && size == block->size - FRONT
                 && (used != 0) == block->live;
}

/* Each pool's blocks are the model's, and live ones have their size. */
static bool agrees(const struct heap *heap)
{
    size_t seen = 0;
    for (int k = 0; k < POOLS; k++) {
        if (heap->pools[k].handle != NULL) {
            struct walk walk = {heap, 0, true};
            while (walk.at < heap->count && heap->blocks[walk.at].pool != k) {
                walk.at++;
            }
            size_t first = walk.at;
            tlsf_walk_pool(heap->pools[k].handle, compare, &walk);
            if (!walk.good || walk.at == first
                || (walk.at < heap->count && heap->blocks[walk.at].pool == k)) {
                return false;
            }
            seen += walk.at - first;
        }
    }
    return seen == heap->count;
}

static bool whole(const struct heap *heap)
{
    for (size_t k = 0; k < heap->count; k++) {
        const struct block *block = &heap->blocks[k];
        if (block->live && !is_filled(pointer_of(block), block->size - FRONT, block->seed)) {
            return false;
        }
    }
    return tlsf_check(heap->tlsf) == 0;
}

/* The bytes of the pools, those of live blocks without what is in front, and the largest free block
 * with it. */
struct sums {
    size_t bytes, live, blocks, largest;
};

static struct sums sums_of(const struct heap *heap)
{
    struct sums sums = {0, 0, 0, 0};
    for (size_t k = 0; k < heap->count; k++) {
        const struct block *block = &heap->blocks[k];
        sums.bytes += block->size;
        sums.blocks += block->live;
        sums.live += block->live ? block->size - FRONT : 0;
        sums.largest = !block->live && block->size > sums.largest ? block->size : sums.largest;
    }
    return sums;
}

/* The figures are the model's. A realloc that moves holds both blocks for a while, but tells that
 * of neither: so the most is that between calls. */
static bool figures_agree(struct heap *heap)
{
    tlsf_figures told;
    struct sums sums = sums_of(heap);
    uint64_t class = class_of(sums.largest);
    size_t request = sums.largest == 0 ? 0 : low(class) - FRONT;
    size_t free = sums.largest == 0 ? 0 : low(class + 1) - 16 - FRONT;
    heap->most_live = sums.live > heap->most_live ? sums.live : heap->most_live;
    return tlsf_stats(heap->tlsf, &told) == 0 && told.bytes_live == sums.live
           && told.blocks_live == sums.blocks && told.most_bytes_live == heap->most_live
           && told.bytes_free == sums.bytes - sums.live - FRONT * sums.blocks
           && told.records == heap->records && told.records_used == heap->count
           && told.largest_request == request && told.largest_free == free
           && told.refusals[TLSF_REFUSED_POINTER] + told.refusals[TLSF_REFUSED_FRONT]
                  == heap->bad_pointers
           && told.refusals[TLSF_REFUSED_ALIGNMENT] == heap->bad_aligns
           && told.refusals[TLSF_REFUSED_NO_FIT] + told.refusals[TLSF_REFUSED_TABLE_FULL]
                  == heap->unserved;
}

static size_t some_bytes(void)
{
    switch (below(24)) {
    case 0: return 0;
    case 1: return SIZE_MAX - below(40);
    case 2: return GREATEST - below(40);
    case 3: return below(5000);
    default: return 1 + below(300);
    }
}

/* All the bytes that some free block can serve. */
static size_t all_bytes(const struct heap *heap)
{
    const struct block *block = &heap->blocks[heap->count == 0 ? 0 : below(heap->count)];
    return heap->count == 0 || block->live ? some_bytes() : block->size - FRONT;
}

static bool ask_for_block(struct heap *heap)
{
    size_t bytes = below(8) == 0 ? all_bytes(heap) : some_bytes(), m = rounded(bytes),
           align = below(3) == 0 ? (size_t)1 << below(13) : 16;
    bool bad = below(40) == 0;
    if (bad) {
        align = below(2) == 0 ? 3 * ((size_t)1 << below(20))
                              : (size_t)1 << (22 + below(8 * sizeof(size_t) - 22));
    }
    unsigned char *given =
        (unsigned char *)(align == 16 && below(2) == 0 ? tlsf_malloc(heap->tlsf, bytes)
                                                       : tlsf_memalign(heap->tlsf, align, bytes));
    align = align < 16 ? 16 : align;
    if (given == NULL) {
        refused++;
        heap->bad_aligns += bad && bytes != 0;
        heap->unserved += !bad && bytes != 0;
        return bad || (may_refuse(heap, m, align) && !has_below(heap, m, align));
    }
    served++;
    return !bad && (uintptr_t)given % align == 0 && takes(heap, given, m, align);
}

static size_t some_live(const struct heap *heap)
{
    for (int tries = 0; tries < 8 && heap->count > 0; tries++) {
        size_t at = below(heap->count);
        if (heap->blocks[at].live) {
            return at;
        }
    }
    return MOST_RECORDS;
}

static bool ask_for_free(struct heap *heap)
{
    size_t at = some_live(heap);
    if (at == MOST_RECORDS) {
        tlsf_free(heap->tlsf, NULL);
        return true;
    }
    struct block *block = &heap->blocks[at];
    bool good = is_filled(pointer_of(block), block->size - FRONT, block->seed);
    if (below(4) == 0) {
        good = tlsf_realloc(heap->tlsf, pointer_of(block), 0) == NULL && good;
    } else {
        tlsf_free(heap->tlsf, pointer_of(block));
    }
    release(heap, at);
    return good;
}

/* Where it is: it takes of the free block behind it, or leaves what it doesn't need. */
static bool stays(struct heap *heap, size_t at, size_t m, bool has_next)
{
    struct block *block = &heap->blocks[at];
    unsigned char seed = block->seed, *given = pointer_of(block);
    size_t had = block->size;
    grown += m > had;
    if (m == had || (m < had && !has_next && heap->count >= heap->records)) {
        return tlsf_block_size(given) == had - FRONT && is_filled(given, had - FRONT, seed);
    }
    if (has_next) {
        block->size += block[1].size;
        erase(heap, at + 1);
    }
    split(heap, at, block->start, m);
    bool good =
        tlsf_block_size(given) == m - FRONT && is_filled(given, least(had, m) - FRONT, seed);
    fill(&heap->blocks[at]);
    return good;
}

static bool ask_for_realloc(struct heap *heap)
{
    size_t bytes = some_bytes(), m = rounded(bytes), at = some_live(heap);
    if (at == MOST_RECORDS) {
        unsigned char *given = (unsigned char *)tlsf_realloc(heap->tlsf, NULL, bytes);
        heap->unserved += given == NULL && bytes != 0;
        return given == NULL ? may_refuse(heap, m, 16) && !has_below(heap, m, 16)
                             : takes(heap, given, m, 16);
    }
    if (bytes == 0) {
        return true;
    }
    struct block old = heap->blocks[at];
    bool has_next = is_free_beside(heap, at, at + 1);
    size_t all = old.size + (has_next ? heap->blocks[at + 1].size : 0);
    unsigned char *given = (unsigned char *)tlsf_realloc(heap->tlsf, pointer_of(&old), bytes);
    if (m != 0 && m <= all) {
        return given == pointer_of(&old) && stays(heap, at, m, has_next);
    }
    if (given == NULL) {
        refused++;
        heap->unserved++;
        return may_refuse(heap, m, 16) && tlsf_block_size(pointer_of(&old)) == old.size - FRONT;
    }
    moved++;
    bool good = is_filled(given, old.size - FRONT, old.seed) && takes(heap, given, m, 16);
    release(heap, find(heap, pointer_of(&old)));
    return good;
}

/* Where a block begins in memory that the program has written all of: an array of its own. Of the
 * others no call has to read a byte that wasn't written. */
static void *start_of_written(const struct heap *heap)
{
    size_t at = heap->count == 0 ? 0 : below(heap->count);
    const struct block *block = &heap->blocks[at];
    return heap->count == 0 || heap->pools[block->pool].area % 2 != 0 ? NULL : block->start;
}

/* A pointer that is no live block's of the heap. */
static void *bad_pointer(struct heap *heap, unsigned char *on_stack)
{
    struct heap *other = &heaps[below(HEAPS)];
    size_t at = some_live(heap), far = some_live(other);
    struct block *block = &heap->blocks[at];
    switch (below(6)) {
    case 0: return stale[below(STALE)];
    case 1: return far == MOST_RECORDS ? NULL : pointer_of(&other->blocks[far]);
    case 2:
        return at == MOST_RECORDS ? on_stack
                                  : pointer_of(block) + 1 + below(block->size - FRONT - 1);
    case 3: return start_of_written(heap);
    case 4: return heap->tlsf;
    default: return on_stack;
    }
}

static bool ask_with_bad_pointer(struct heap *heap)
{
    _Alignas(16) unsigned char on_stack[64] = {0};
    void *pointer = bad_pointer(heap, on_stack + 32);
    if (pointer == NULL || find(heap, pointer) != heap->count) {
        return true;
    }
    bad_pointers++;
    heap->bad_pointers += 3;
    tlsf_free(heap->tlsf, pointer);
    return tlsf_realloc(heap->tlsf, pointer, 1 + below(200)) == NULL
           && tlsf_realloc(heap->tlsf, pointer, 0) == NULL;
}

/* The eight bytes in front of a pointer, copied to elsewhere in its block, make no pointer. */
static bool ask_with_copied_front(struct heap *heap)
{
    size_t at = some_live(heap);
    if (at == MOST_RECORDS || heap->blocks[at].size < 64) {
        return true;
    }
    unsigned char *pointer = pointer_of(&heap->blocks[at]);
    memcpy(pointer + 8, pointer - FRONT, FRONT);
    tlsf_free(heap->tlsf, pointer + 16);
    bool good =
        tlsf_realloc(heap->tlsf, pointer + 16, 20) == NULL && tlsf_block_size(pointer + 16) == 0;
    fill(&heap->blocks[at]);
    bad_pointers++;
    heap->bad_pointers += 2;
    return good;
}

static bool overlaps(const struct heap *heap, unsigned char *start, size_t bytes)
{
    for (int k = 0; k < POOLS; k++) {
        const struct pool *pool = &heap->pools[k];
        if (pool->handle != NULL && start < pool->start + pool->bytes
            && pool->start < start + bytes) {
            return true;
        }
    }
    return false;
}

static size_t place_of(const struct heap *heap, int pool)
{
    size_t at = 0;
    while (at < heap->count && heap->blocks[at].pool < pool) {
        at++;
    }
    return at;
}

/* A pool at an odd address and of an odd size; now and then of an area that the heap has already.
 */
static bool add_pool(struct heap *heap)
{
    int area = (int)below(AREAS), k = 0;
    size_t skip = 8 * below(40), bytes = below(8) == 0 ? below(60) : below(AREA - skip);
    skip += below(30) == 0 ? 1 + below(7) : 0;
    unsigned char *memory = areas[area] + skip, *start = areas[area] + (skip + 7) / 16 * 16 + 8;
    size_t usable =
        bytes < (size_t)(start - memory) ? 0 : (bytes - (size_t)(start - memory)) / 16 * 16;
    bool own = overlaps(heap, start, usable);
    if (area_taken[area] && !own) {
        return true;
    }
    while (k < POOLS && heap->pools[k].handle != NULL) {
        k++;
    }
    bool right = skip % sizeof(void *) == 0 && usable >= 16 && k < POOLS && !own
                 && heap->count < heap->records;
    pool_t handle = tlsf_add_pool(heap->tlsf, memory, bytes);
    if (!right) {
        pools_refused++;
        return handle == NULL;
    }
    struct pool pool = {handle, start, usable, area};
    struct block block = {start, usable, k, false, 0};
    heap->pools[k] = pool;
    insert(heap, place_of(heap, k), block);
    area_taken[area] = true;
    pools_added++;
    return handle != NULL && tlsf_check_pool(handle) == 0
           && (k != 0 || tlsf_get_pool(heap->tlsf) == handle);
}

static bool remove_pool(struct heap *heap)
{
    int k = (int)below(POOLS);
    struct pool *pool = &heap->pools[k];
    if (pool->handle == NULL) {
        tlsf_remove_pool(heap->tlsf, NULL);
        tlsf_remove_pool(heap->tlsf, heap);
        return true;
    }
    size_t at = place_of(heap, k);
    bool is_free = !heap->blocks[at].live && heap->blocks[at].size == pool->bytes;
    tlsf_remove_pool(heap->tlsf, pool->handle);
    if (!is_free) {
        pools_kept++;
        return tlsf_check_pool(pool->handle) == 0;
    }
    bool good = tlsf_check_pool(pool->handle) == -1;
    memset(pool->start, 0x55, pool->bytes);
    erase(heap, at);
    area_taken[pool->area] = false;
    pool->handle = NULL;
    pools_gone++;
    return good && (k != 0 || tlsf_get_pool(heap->tlsf) == NULL);
}

static bool make(struct heap *heap, unsigned char *memory)
{
    size_t skip = 8 * below(3);
    memset(heap, 0, sizeof *heap);
    heap->records = 1 + below(MOST_RECORDS);
    size_t bytes = tlsf_size_records((uint32_t)heap->records);
    heap->tlsf = tlsf_create_records(memory + skip, bytes, (uint32_t)heap->records);
    return heap->tlsf == (tlsf_t)(memory + skip) && tlsf_get_pool(heap->tlsf) == NULL;
}

static bool call(struct heap *heap)
{
    uint64_t kind = below(100);
    bool good = kind < 34   ? ask_for_block(heap)
                : kind < 60 ? ask_for_free(heap)
                : kind < 82 ? ask_for_realloc(heap)
                : kind < 88 ? ask_with_bad_pointer(heap)
                : kind < 89 ? ask_with_copied_front(heap)
                : kind < 95 ? add_pool(heap)
                            : remove_pool(heap);
    return good && agrees(heap) && figures_agree(heap);
}

static bool run(uint64_t seed, uint64_t how_many)
{
    bool good = true;
    state = seed * 0x9e3779b97f4a7c15u + 1;
    memset(area_taken, 0, sizeof area_taken);
    memset(stale, 0, sizeof stale);
    for (int k = 0; k < HEAPS; k++) {
        good = make(&heaps[k], control[k]) && good;
    }
    for (uint64_t k = 0; k < how_many && good; k++) {
        struct heap *heap = &heaps[below(HEAPS)];
        calls++;
        good = call(heap) && (k % 16 != 0 || whole(heap));
    }
    for (int k = 0; k < HEAPS; k++) {
        good = good && whole(&heaps[k]);
        tlsf_destroy(heaps[k].tlsf);
        good = good && tlsf_malloc(heaps[k].tlsf, 1) == NULL && tlsf_check(heaps[k].tlsf) == -1;
    }
    return good;
}

int main(int argc, char **argv)
{
    uint64_t runs = argc > 1 ? strtoull(argv[1], NULL, 10) : 1000;
    bool good = true;
    for (int k = 0; k < AREAS; k++) {
        areas[k] = k % 2 == 0 ? areas_of_program[k / 2] : (unsigned char *)aligned_alloc(16, AREA);
        good = good && areas[k] != NULL && (uintptr_t)areas[k] % 16 == 0;
    }
    for (uint64_t seed = 1; seed <= runs && good; seed++) {
        good = run(seed, 1000);
        if (!good) {
            printf("seed %llu, call %llu\n", (unsigned long long)seed, (unsigned long long)calls);
        }
    }
    for (int k = 1; k < AREAS; k += 2) {
        free(areas[k]);
    }
    expect(good, "random runs answer as the plain model");
    expect(served > calls / 10 && moved > calls / 1000 && grown > calls / 1000,
           "blocks that are given, that move and that grow");
    expect(no_fit > calls / 1000 && table_full > calls / 1000 && refused > 0,
           "calls refused: no fit, table full");
    expect(tight > calls / 1000, "blocks of the class below");
    expect(bad_pointers > calls / 100, "pointers refused");
    expect(pools_added > calls / 1000 && pools_gone > calls / 1000 && pools_kept > calls / 1000
               && pools_refused > calls / 1000,
           "pools added, gone, kept and refused");
    return cases_end();
}
