/* Parts of tlsf_parts.h: their bytes as constant expressions beside the definitions, what each call
 * refuses, and random programs that stay within random limits, in memory of just the bytes told.
 *
 *     parts [CALLS]    the calls of the random programs: without it 2,000,000, and 200,000 on a
 *                      board */
#include <stdlib.h>
#include <string.h>

#include "cases.h"
#include "tlsf_heap.h"
#include "tlsf_parts.h"

#ifdef __linux__
#define CALLS 2000000
#else
#define CALLS 200000
#endif
enum { CLASSES = 704, VALUES = 100000, SLOTS = 300, MOST_BLOCKS = 60, STEPS = 20000 };

static uint64_t state = 88172645463325252u;

static uint64_t below(uint64_t bound)
{
    state ^= state << 13;
    state ^= state >> 7;
    state ^= state << 17;
    return state % bound;
}

/* ---- the bytes ---- */

/* 2,130 blocks of 80 bytes and 16 more for each record; the heap's 1,696, its start, twice 8, and a
 * bit for each block in 34 words of 8 bytes. */
#define START (sizeof(void *) == 8 ? 368 : 336)
_Static_assert(TLSF_PART_BYTES(64, 2130) == 2130 * (80 + 16) + 1696 + START + 16 + 34 * 8,
               "a part");
_Static_assert(TLSF_PART_BYTES(64, 64) - TLSF_PART_BYTES(64, 63) == 80 + 16
                   && TLSF_PART_BYTES(64, 65) - TLSF_PART_BYTES(64, 64) == 80 + 16 + 8,
               "a word for 64 blocks");
#define LIST(part) part(64, 2130) part(2048, 41) part(335872, 1)
_Static_assert(TLSF_PARTS_BYTES(LIST) - TLSF_PARTS_OWN
                   == TLSF_PART_BYTES(64, 2130) + TLSF_PART_BYTES(2048, 41)
                          + TLSF_PART_BYTES(335872, 1),
               "three parts");
_Static_assert(TLSF_CLASS_SIZE(TLSF_WITH_FRONT(335872)) == 344064, "the lowest size of a class");
_Static_assert(TLSF_CLASS_SIZE(TLSF_WITH_FRONT(2048)) == 2112, "the class above 2,056 bytes");
_Static_assert(TLSF_SURE_BYTES(60, 60 * 1040, 1040) == 130872 - (368 - START), "what is enough");
_Static_assert(TLSF_SURE_BYTES(0, 0, 0) == 0 && TLSF_SURE_BYTES(32767, 16, 16) == 0
                   && TLSF_SURE_BYTES(1, 1073741808, 16) == 0
                   && TLSF_SURE_BYTES(1, 16, 1056964601) == 0,
               "nothing is enough");
/* How its blocks are aligned depends on where the memory begins. */
static _Alignas(512) unsigned char memory[TLSF_PARTS_BYTES(LIST)];
static const tlsf_part list[] = {LIST(TLSF_PART)};

/* The lowest size of a class, by its definition. */
static uint64_t low(uint64_t class)
{
    uint64_t level = class / 32, step = class % 32;
    return level == 0 ? 16 * step : (1ull << (level + 8)) + step * (1ull << (level + 3));
}

static void bytes(void)
{
    bool same = true;
    for (uint64_t class = 1; class < CLASSES; class ++) {
        same = same && TLSF_CLASS_SIZE(low(class)) == low(class)
               && TLSF_CLASS_SIZE(low(class - 1) + 16) == low(class);
    }
    expect(same, "the class size of each class's least and greatest request");
    for (int k = 0; k < VALUES && same; k++) {
        uint32_t blocks = (uint32_t)below(1ull << (1 + below(17)));
        size_t sum = (size_t)below(1ull << (1 + below(31)));
        size_t largest = (size_t)below(1ull << (1 + below(31)));
        same = TLSF_SURE_BYTES(blocks, sum, largest) == tlsf_sure_bytes(blocks, sum, largest)
               && TLSF_SIZE_RECORDS(blocks) == tlsf_size_records(blocks);
    }
    expect(same, "TLSF_SURE_BYTES and tlsf_sure_bytes tell the same of 100,000 programs");
    expect(tlsf_parts_bytes(list, 3) == sizeof memory,
           "tlsf_parts_bytes tells what the macro does");
}

static bool is_bad(uint32_t count, tlsf_part first, tlsf_part second)
{
    const tlsf_part told[9] = {first,     second,    {3000, 1}, {4000, 1}, {5000, 1},
                               {6000, 1}, {7000, 1}, {8000, 1}, {9000, 1}};
    return tlsf_parts_bytes(told, count) == 0
           && tlsf_parts_create(memory, sizeof memory, told, count) == NULL;
}

/* Five parts of 1,056,964,608 bytes each: more than 32 bits tell. */
static void large_parts(void)
{
    tlsf_part five[5];
    size_t sum = TLSF_PARTS_OWN;
    for (uint32_t k = 0; k < 5; k++) {
        five[k] = (tlsf_part){16777200u + k, 63};
        sum += TLSF_PART_BYTES(16777200u + k, 63);
    }
    expect(tlsf_parts_bytes(five, 5) == (sizeof(size_t) == 8 ? sum : 0)
               && tlsf_parts_bytes(five, 1) != 0,
           "parts whose bytes have no size_t can't be made");
}

static void bad_parts(void)
{
    const tlsf_part one = {16, 1}, two = {32, 1};
    expect(is_bad(0, one, two) && is_bad(9, one, two) && !is_bad(8, one, two),
           "one to eight parts");
    expect(is_bad(2, two, one) && is_bad(2, one, one), "parts in order of size");
    expect(is_bad(1, (tlsf_part){0, 1}, two) && is_bad(1, (tlsf_part){16, 0}, two)
               && is_bad(2, one, (tlsf_part){32, 0}) && is_bad(1, (tlsf_part){16, 65536}, two),
           "a size, and from 1 to 65,535 blocks");
    expect(is_bad(1, (tlsf_part){1056964601, 1}, two) && is_bad(1, (tlsf_part){UINT32_MAX, 1}, two)
               && is_bad(1, (tlsf_part){536870913, 2}, two)
               && is_bad(1, (tlsf_part){UINT32_MAX, UINT32_MAX}, two),
           "no more bytes than a pool has");
    expect(tlsf_parts_create(memory, sizeof memory - 1, list, 3) == NULL
               && tlsf_parts_create(memory + 4, sizeof memory, list, 2) == NULL
               && tlsf_parts_create(NULL, sizeof memory, list, 3) == NULL,
           "memory that is too small, or begins elsewhere");
}

/* ---- refusals ---- */

static struct told {
    int count;
    enum tlsf_refusal what;
    const void *ptr;
    size_t bytes;
} told;

static void tell(enum tlsf_refusal what, const void *ptr, size_t bytes_asked, void *user)
{
    struct told *at = (struct told *)user;
    *at = (struct told){at->count + 1, what, ptr, bytes_asked};
}

/* Whether one refusal was told, of this kind, pointer and bytes. */
static bool was_told(enum tlsf_refusal what, const void *ptr, size_t bytes_asked)
{
    bool was = told.count == 1 && told.what == what && told.ptr == ptr && told.bytes == bytes_asked;
    told.count = 0;
    return was;
}

static tlsf_parts *of_list(void)
{
    tlsf_parts *parts = tlsf_parts_create(memory, sizeof memory, list, 3);
    told.count = 0;
    tlsf_parts_set_refusal_hook(parts, tell, &told);
    return parts;
}

static void full_parts(void)
{
    tlsf_parts *parts = of_list();
    tlsf_part_figures figures;
    bool served = true;
    for (int k = 0; k < 2130; k++) {
        served = served && tlsf_parts_malloc(parts, (size_t)k % 65) != NULL;
    }
    expect(served && told.count == 0, "as many blocks as were told");
    expect(tlsf_parts_malloc(parts, 64) == NULL && was_told(TLSF_REFUSED_NO_FIT, NULL, 64)
               && tlsf_parts_malloc(parts, 0) == NULL && was_told(TLSF_REFUSED_NO_FIT, NULL, 0),
           "one more is refused, and told");
    expect(tlsf_parts_malloc(parts, 335872) != NULL && tlsf_parts_malloc(parts, 65) != NULL
               && told.count == 0,
           "the other parts serve");
    expect(tlsf_parts_malloc(parts, 335872) == NULL && was_told(TLSF_REFUSED_NO_FIT, NULL, 335872)
               && tlsf_parts_malloc(parts, 335873) == NULL
               && was_told(TLSF_REFUSED_NO_FIT, NULL, 335873)
               && tlsf_parts_malloc(parts, SIZE_MAX) == NULL
               && was_told(TLSF_REFUSED_NO_FIT, NULL, SIZE_MAX)
               && tlsf_parts_calloc(parts, SIZE_MAX / 2, 3) == NULL
               && was_told(TLSF_REFUSED_NO_FIT, NULL, SIZE_MAX),
           "above the last part's size");
    expect(tlsf_parts_stats(parts, 0, &figures) == 0 && figures.told.largest == 64
               && figures.told.blocks == 2130 && figures.blocks_live == 2130
               && figures.most_blocks_live == 2130 && figures.refused == 2
               && tlsf_parts_stats(parts, 2, &figures) == 0 && figures.refused == 1
               && tlsf_parts_stats(parts, 3, &figures) == -1
               && tlsf_parts_refusals(parts, TLSF_REFUSED_NO_FIT) == 6,
           "the figures");
}

static void bad_pointers(void)
{
    tlsf_parts *parts = of_list();
    unsigned char *block = (unsigned char *)tlsf_parts_malloc(parts, 60);
    unsigned char *large = (unsigned char *)tlsf_parts_malloc(parts, 2000);
    unsigned char *aligned = (unsigned char *)tlsf_parts_aligned_alloc(parts, 1024, 900);
    int local = 0;
    memset(large, 1, 2000);
    for (unsigned char *at = large + 16; at < large + 2000; at += 16) {
        tlsf_parts_free(parts, at);
    }
    expect(told.count == 124 && told.what == TLSF_REFUSED_FRONT, "pointers into a block");
    told.count = 0;
    tlsf_parts_free(parts, &local);
    expect(was_told(TLSF_REFUSED_POINTER, &local, 0), "a pointer into no part");
    expect(tlsf_parts_realloc(parts, &local, 7) == NULL && was_told(TLSF_REFUSED_POINTER, &local, 7)
               && tlsf_parts_realloc(parts, large + 16, 8) == NULL
               && was_told(TLSF_REFUSED_FRONT, large + 16, 8),
           "realloc of these");
    expect(aligned != NULL && (uintptr_t)aligned % 1024 == 0
               && tlsf_parts_live_size(parts, aligned) >= 900,
           "an aligned block");
    tlsf_parts_free(parts, aligned);
    expect(told.count == 0, "it is freed by its address");
    tlsf_parts_free(parts, aligned);
    expect(was_told(TLSF_REFUSED_POINTER, aligned, 0), "but once");
    tlsf_parts_free(parts, block);
    tlsf_parts_free(parts, block);
    expect(was_told(TLSF_REFUSED_POINTER, block, 0), "a block freed twice");
    expect(tlsf_parts_aligned_alloc(parts, 24, 9) == NULL
               && was_told(TLSF_REFUSED_ALIGNMENT, NULL, 9)
               && tlsf_parts_aligned_alloc(parts, 0, 9) == NULL
               && was_told(TLSF_REFUSED_ALIGNMENT, NULL, 9)
               && tlsf_parts_aligned_alloc(parts, (size_t)1 << 20, SIZE_MAX) == NULL
               && was_told(TLSF_REFUSED_NO_FIT, NULL, SIZE_MAX),
           "bad alignments");
    bool sums = true;
    for (size_t align = 32; align <= 4096; align *= 2) {
        sums = sums && tlsf_parts_aligned_alloc(parts, align, SIZE_MAX) == NULL
               && was_told(TLSF_REFUSED_NO_FIT, NULL, SIZE_MAX)
               && tlsf_parts_aligned_alloc(parts, align, SIZE_MAX - align + 32) == NULL
               && was_told(TLSF_REFUSED_NO_FIT, NULL, SIZE_MAX - align + 32);
    }
    expect(sums, "bytes and an alignment that are above SIZE_MAX together");
    memset(large - 8, 1, 8);
    tlsf_parts_free(parts, large);
    expect(was_told(TLSF_REFUSED_FRONT, large, 0) && tlsf_parts_check(parts) < 0,
           "a spoiled front");
}

/* A block that is free again, and then another's, with its pointer further on. */
static void stale_pointers(void)
{
    tlsf_parts *parts = of_list();
    unsigned char *stale = (unsigned char *)tlsf_parts_malloc(parts, 1500);
    tlsf_parts_free(parts, stale);
    /* An alignment that the block's start hasn't, at most 512, and the bytes for which its part
     * serves. */
    size_t align = 32;
    while ((uintptr_t)stale % align == 0) {
        align *= 2;
    }
    size_t bytes_asked = 1516 - align;
    unsigned char *aligned = (unsigned char *)tlsf_parts_aligned_alloc(parts, align, bytes_asked);
    memset(aligned, 7, tlsf_parts_live_size(parts, aligned));
    expect(stale < aligned && aligned < stale + 1500 && told.count == 0,
           "an aligned block in its place");
    tlsf_parts_free(parts, stale);
    expect(was_told(TLSF_REFUSED_POINTER, stale, 0) && tlsf_parts_live_size(parts, stale) == 0
               && tlsf_parts_realloc(parts, stale, 10) == NULL
               && was_told(TLSF_REFUSED_POINTER, stale, 10),
           "the stale pointer is refused");
    unsigned char *other = (unsigned char *)tlsf_parts_malloc(parts, 1500);
    expect(other != NULL && (other + 1500 <= stale || stale + 1500 <= other) && aligned[0] == 7
               && aligned[bytes_asked - 1] == 7,
           "the live block stays its own");
    tlsf_parts_free(parts, aligned);
    expect(told.count == 0 && tlsf_parts_live_size(parts, aligned) == 0,
           "it is freed by its own pointer");
    unsigned char *again = (unsigned char *)tlsf_parts_malloc(parts, 1500);
    tlsf_parts_free(parts, aligned);
    expect(again == stale && was_told(TLSF_REFUSED_POINTER, aligned, 0)
               && tlsf_parts_live_size(parts, again) >= 1500,
           "and its pointer is stale where a plain block begins before it");
    told.count = 0;
    tlsf_parts_free(parts, again);
    tlsf_parts_free(parts, other);
    expect(told.count == 0 && tlsf_parts_check(parts) == 0, "all are freed, and whole");
}

/* The hook that was set last is told, with its own user. */
static void hooks(void)
{
    struct told first = {0, TLSF_REFUSALS, NULL, 0}, second = first;
    tlsf_parts *parts = of_list();
    tlsf_parts_set_refusal_hook(parts, tell, &first);
    tlsf_parts_set_refusal_hook(parts, tell, &second);
    bool none = tlsf_parts_malloc(parts, SIZE_MAX) == NULL;
    expect(none && first.count == 0 && second.count == 1 && second.bytes == SIZE_MAX
               && told.count == 0,
           "another user of the hook");
    tlsf_parts_set_refusal_hook(parts, NULL, NULL);
    expect(tlsf_parts_malloc(parts, SIZE_MAX) == NULL && second.count == 1, "no hook");
}

static void without_parts(void)
{
    tlsf_part_figures figures;
    tlsf_parts *parts = of_list();
    unsigned char *block = (unsigned char *)tlsf_parts_malloc(parts, 60);
    tlsf_parts_destroy(parts);
    expect(tlsf_parts_malloc(parts, 1) == NULL && tlsf_parts_realloc(parts, block, 9) == NULL
               && tlsf_parts_live_size(parts, block) == 0,
           "parts that were destroyed");
    tlsf_parts_destroy(NULL);
    tlsf_parts_free(NULL, block);
    tlsf_parts_set_refusal_hook(NULL, tell, NULL);
    expect(tlsf_parts_malloc(NULL, 1) == NULL && tlsf_parts_realloc(NULL, block, 1) == NULL
               && tlsf_parts_aligned_alloc(NULL, 64, 1) == NULL
               && tlsf_parts_calloc(NULL, 1, 1) == NULL && tlsf_parts_live_size(NULL, block) == 0
               && tlsf_parts_stats(NULL, 0, &figures) == -1 && tlsf_parts_check(NULL) < 0
               && tlsf_parts_refusals(NULL, TLSF_REFUSED_NO_FIT) == 0,
           "no parts");
}

/* ---- random programs ---- */

/* What a program holds: each block's bytes, the part that it counts for, and its own byte. */
struct held {
    unsigned char *at;
    size_t bytes;
    uint32_t part;
    unsigned char byte;
};

static struct held held[SLOTS];
static tlsf_part limits[TLSF_PARTS_MOST];
static uint32_t count, live[TLSF_PARTS_MOST], most[TLSF_PARTS_MOST];
static uint64_t calls, refused;
/* Pointers of blocks that were freed, or moved. */
enum { STALE = 64 };
static unsigned char *stale[STALE];

/* The part that a request counts for: `count` for none. */
static uint32_t part_of(uint64_t asked)
{
    uint32_t k = 0;
    while (k < count && limits[k].largest < asked) {
        k++;
    }
    return k;
}

/* Some bytes that tell the block's own at both ends. */
static void mark(struct held *block)
{
    size_t end = block->bytes < 64 ? block->bytes : 64;
    block->byte = (unsigned char)(1 + below(255));
    memset(block->at, block->byte, end);
    memset(block->at + block->bytes - end, block->byte, end);
}

static bool is_marked(const unsigned char *at, size_t from, size_t end, unsigned char byte)
{
    while (from < end && at[from] == byte) {
        from++;
    }
    return from == end;
}

static bool is_own(const struct held *block)
{
    size_t end = block->bytes < 64 ? block->bytes : 64;
    return is_marked(block->at, 0, end, block->byte)
           && is_marked(block->at, block->bytes - end, block->bytes, block->byte);
}

static void hold(struct held *block, unsigned char *at, size_t bytes_held, uint32_t part)
{
    *block = (struct held){at, bytes_held, part, 0};
    mark(block);
    live[part]++;
    most[part] = live[part] > most[part] ? live[part] : most[part];
}

/* A request is refused where its part is full or there is none, and nowhere else. Few of these are
 * made. */
static bool asks(tlsf_parts *parts, struct held *block)
{
    size_t align = (size_t)1 << below(below(4) == 0 ? 12 : 5);
    size_t size = (size_t)below(limits[below(count)].largest + 2u);
    uint32_t kind = (uint32_t)below(3);
    size_t more = kind == 0 && align > 16 ? align - 16 : 0;
    uint32_t part = part_of((size == 0 ? 1 : size) + more);
    bool is_above = part == count || live[part] == limits[part].blocks;
    if (is_above && below(32) > 0) {
        return true;
    }
    calls++;
    void *at = kind == 0   ? tlsf_parts_aligned_alloc(parts, align, size)
               : kind == 1 ? tlsf_parts_calloc(parts, size, 1)
                           : tlsf_parts_malloc(parts, size);
    if (is_above) {
        refused++;
        return at == NULL && was_told(TLSF_REFUSED_NO_FIT, NULL, size);
    }
    bool good = at != NULL && told.count == 0 && tlsf_parts_live_size(parts, at) >= size
                && (uintptr_t)at % (kind == 0 && align > 16 ? align : 16) == 0
                && (kind != 1 || is_marked((unsigned char *)at, 0, size, 0));
    if (good) {
        hold(block, (unsigned char *)at, size, part);
    }
    return good;
}

/* A block that changes its part is refused where that is full. One that doesn't stays. */
static bool resizes(tlsf_parts *parts, struct held *block)
{
    calls++;
    struct held old = *block;
    size_t size = 1 + (size_t)below(limits[below(count)].largest + 1u);
    uint32_t part = part_of(size);
    unsigned char *at = (unsigned char *)tlsf_parts_realloc(parts, old.at, size);
    if (part != old.part && (part == count || live[part] == limits[part].blocks)) {
        refused++;
        return at == NULL && was_told(TLSF_REFUSED_NO_FIT, NULL, size) && is_own(&old);
    }
    size_t kept = old.bytes < size ? old.bytes : size;
    bool good =
        at != NULL && told.count == 0 && (uintptr_t)at % 8 == 0
        && tlsf_parts_live_size(parts, at) >= size
        && is_marked(at, 0, kept < 64 ? kept : 64, old.byte)
        && (size < old.bytes
            || is_marked(at, old.bytes - (old.bytes < 64 ? old.bytes : 64), old.bytes, old.byte));
    live[old.part]--;
    stale[below(STALE)] = old.at;
    if (good) {
        hold(block, at, size, part);
    }
    return good;
}

static bool frees(tlsf_parts *parts, struct held *block)
{
    bool own = is_own(block);
    calls++;
    stale[below(STALE)] = block->at;
    if (below(2) == 0) {
        tlsf_parts_free(parts, block->at);
    } else {
        own = own && tlsf_parts_realloc(parts, block->at, 0) == NULL;
    }
    live[block->part]--;
    block->at = NULL;
    return own && told.count == 0;
}

/* ---- pointers that no live block has ---- */

static bool is_held(const unsigned char *ptr)
{
    int k = 0;
    while (k < SLOTS && held[k].at != ptr) {
        k++;
    }
    return k < SLOTS;
}

/* A pointer that was a block's once, or into a block, or the program's own, or none. */
static unsigned char *no_pointer(void)
{
    static unsigned char own[64];
    const struct held *block = &held[below(SLOTS)];
    uint64_t kind = below(8);
    unsigned char *ptr = kind < 5            ? stale[below(STALE)]
                         : kind == 5         ? own + 16 * below(4)
                         : block->at == NULL ? NULL
                                             : block->at + 1 + below(block->bytes + 1);
    return ptr == NULL || is_held(ptr) ? NULL : ptr;
}

/* It is refused by each call, and told as it is. */
static bool refuses(tlsf_parts *parts)
{
    unsigned char *ptr = no_pointer();
    size_t asked = (size_t)below(3000);
    bool frees_it = below(2) == 0;
    if (ptr == NULL) {
        return true;
    }
    calls++;
    if (frees_it) {
        tlsf_parts_free(parts, ptr);
    }
    bool none = frees_it || tlsf_parts_realloc(parts, ptr, asked) == NULL;
    enum tlsf_refusal what = told.what == TLSF_REFUSED_FRONT ? told.what : TLSF_REFUSED_POINTER;
    return none && was_told(what, ptr, frees_it ? 0 : asked)
           && tlsf_parts_live_size(parts, ptr) == 0;
}

/* The figures are those of the program. */
static bool agrees(const tlsf_parts *parts)
{
    bool same = tlsf_parts_check(parts) == 0;
    for (uint32_t k = 0; k < count; k++) {
        tlsf_part_figures figures;
        same = same && tlsf_parts_stats(parts, k, &figures) == 0 && figures.blocks_live == live[k]
               && figures.most_blocks_live == most[k];
    }
    return same;
}

/* It mostly asks for a time, and then mostly frees. */
static bool runs(tlsf_parts *parts)
{
    bool good = parts != NULL;
    for (int step = 0; step < STEPS && good; step++) {
        struct held *block = &held[below(SLOTS)];
        uint64_t turn = below(8);
        bool grows = step / 2000 % 2 == 0;
        if (block->at == NULL) {
            good = (!grows && turn != 0) || asks(parts, block);
        } else {
            good = turn < 3 ? resizes(parts, block) : (grows && turn != 3) || frees(parts, block);
        }
        good = good && (below(4) != 0 || refuses(parts)) && (step % 500 != 0 || agrees(parts));
    }
    return good && agrees(parts);
}

static void set_limits(void)
{
    memset(held, 0, sizeof held);
    memset(stale, 0, sizeof stale);
    memset(live, 0, sizeof live);
    memset(most, 0, sizeof most);
    count = 0;
    uint64_t wanted = 1 + below(TLSF_PARTS_MOST), size = 0;
    while (count < wanted) {
        size += 1 + below(1ull << (1 + below(12)));
        limits[count] = (tlsf_part){(uint32_t)size, (uint32_t)(1 + below(MOST_BLOCKS))};
        count++;
    }
}

/* One program, in memory of just the bytes, from a multiple of 8 on that may be one of 16. */
static bool program(void)
{
    set_limits();
    size_t size = tlsf_parts_bytes(limits, count);
    unsigned char *own = (unsigned char *)malloc(size + 8);
    tlsf_parts *parts = tlsf_parts_create(own + (below(2) == 0 ? 8 : 0), size, limits, count);
    told.count = 0;
    tlsf_parts_set_refusal_hook(parts, tell, &told);
    bool good = runs(parts);
    tlsf_parts_destroy(parts);
    free(own);
    return good;
}

static int run(uint64_t wanted)
{
    bool good = true;
    bytes();
    large_parts();
    bad_parts();
    full_parts();
    bad_pointers();
    stale_pointers();
    hooks();
    without_parts();
    while (good && calls < wanted) {
        good = program();
    }
    printf("%llu calls, %llu refused\n", (unsigned long long)calls, (unsigned long long)refused);
    expect(good && calls >= wanted, "random programs are refused nothing within their limits");
    expect(refused > wanted / 100, "and what is above is refused, and told");
    return cases_end();
}

/* A board passes no words. */
#ifdef __linux__
int main(int words, char **word) { return run(words > 1 ? strtoull(word[1], NULL, 10) : CALLS); }
#else
int main(void) { return run(CALLS); }
#endif
