/* Calls for callgrind to count, over the library or, with -DPLAIN, over the heap of plain_heap.h.
 * LIVE is the number of other live blocks. No test.
 *
 *     instructions pairs LIVE   pairs of free and malloc; it writes what they answered
 *     instructions worst LIVE   one call in each of some bad states, then any calls: a line each
 *
 * tests/benchmark_c runs it: each counted call is one of the functions named counted_.. */
#include <stdio.h>
#include <stdlib.h>
#include <string.h>
#include <valgrind/callgrind.h>

#ifdef PLAIN
#include "plain_heap.h"
#define CALL(name) plain_##name
static plain_heap heap;
#else
#include "tlsf_heap.h"
#define CALL(name) tlsf_heap_##name
static tlsf_heap heap;
#endif

#define APART __attribute__((noinline))
#define WORK 1073741824u /* where the pools of a state begin; the other live blocks are below */
#define GREATEST 1073741808u

enum { MOST = 60000, PAIRS = 20000, MOST_OWN = 400, CALLS = 4000 };

static tlsf_heap_block blocks[MOST], given;
static volatile uint32_t status;
static uint64_t state = 1;

static uint32_t next(void)
{
    state = state * 6364136223846793005u + 1442695040888963407u;
    return (uint32_t)(state >> 33);
}

APART static void counted_nothing(tlsf_heap_block block) { status = block.place; }

APART static void counted_malloc(uint64_t bytes) { status = CALL(malloc)(&heap, bytes, &given); }

APART static void counted_free(tlsf_heap_block block) { status = CALL(free)(&heap, block); }

APART static void counted_memalign(uint64_t align, uint64_t bytes)
{
    status = CALL(memalign)(&heap, align, bytes, &given);
}

APART static void counted_realloc(tlsf_heap_block block, uint64_t bytes)
{
    status = CALL(realloc)(&heap, block, bytes, &given);
}

static void must(uint32_t answered)
{
    if (answered != TLSF_OK) {
        printf("a state can't be made: %s\n", tlsf_heap_status_name(answered));
        exit(1);
    }
}

static void pairs(uint32_t live)
{
    uint64_t sum = 0;
    must(CALL(create)(65535, &heap));
    must(CALL(add_pool)(&heap, 0, 1u << 29));
    for (uint32_t k = 0; k < live; k++) {
        must(CALL(malloc)(&heap, 1 + next() % 512, &blocks[k]));
    }
    for (uint32_t pair = 0; pair < PAIRS; pair++) {
        uint32_t k = next() % live;
        counted_free(blocks[k]);
        sum += status;
        counted_malloc(1 + next() % 512);
        sum = sum * 31 + status + given.place;
        blocks[k] = given;
    }
    counted_nothing(given);
    printf("%u pairs, answers %llu\n", (unsigned)PAIRS, (unsigned long long)sum);
    CALL(destroy)(&heap);
}

/* ---- bad states ---- */

/* Where a free block stands in its list. */
enum place_in_list { MIDDLE, ALONE, FIRST, LAST, PLACES };

static const char *const names[] = {"in the middle", "alone", "first", "last"};

/* A heap with `live` live blocks, which fill their pool. */
static void begin(uint32_t live)
{
    must(CALL(create)(65535, &heap));
    must(CALL(add_pool)(&heap, 0, 16 * live));
    for (uint32_t k = 0; k < live; k++) {
        must(CALL(malloc)(&heap, 16, &given));
    }
}

static tlsf_heap_block live_block(uint64_t bytes)
{
    tlsf_heap_block block;
    must(CALL(malloc)(&heap, bytes, &block));
    return block;
}

/* What stands in front of a block and behind it, and whether a block of the size of all three is
 * free. */
static const char *sides(uint32_t live, int before, int behind, bool full, tlsf_heap_block *middle)
{
    static char told[128];
    tlsf_heap_block others[2][2], both, front, back;
    begin(live);
    must(CALL(add_pool)(&heap, WORK, 1u << 20));
    for (int side = 0; side < 2; side++) {
        for (int k = 0; k < 2; k++) {
            others[side][k] = live_block(side == 0 ? 496 : 512);
            live_block(16);
        }
    }
    both = live_block(1024);
    live_block(16);
    front = live_block(496);
    *middle = live_block(16);
    back = live_block(512);
    live_block(16);
    for (int side = 0; side < 2; side++) {
        int where = side == 0 ? before : behind;
        if (where == MIDDLE || where == FIRST) {
            must(CALL(free)(&heap, others[side][0]));
        }
        must(CALL(free)(&heap, side == 0 ? front : back));
        if (where == MIDDLE || where == LAST) {
            must(CALL(free)(&heap, others[side][1]));
        }
    }
    if (full) {
        must(CALL(free)(&heap, both));
    }
    snprintf(told, sizeof told, "the one in front %s, the one behind %s, their list %s",
             names[before], names[behind], full ? "full" : "empty");
    return told;
}

static void told(const char *call, const char *which)
{
    CALLGRIND_DUMP_STATS;
    printf("%s: %s: %s\n", call, which, tlsf_heap_status_name(status));
    CALL(destroy)(&heap);
}

static void frees(uint32_t live)
{
    for (int before = 0; before < PLACES; before++) {
        for (int behind = 0; behind < PLACES; behind++) {
            for (int full = 0; full < 2; full++) {
                tlsf_heap_block middle;
                const char *which = sides(live, before, behind, full, &middle);
                counted_free(middle);
                told("free", which);
            }
        }
    }
}

/* A block that moves: into the first of two of the greatest blocks, or into one alone, whose rest
 * is of another level. */
static void moves(uint32_t live)
{
    for (int before = 0; before < PLACES; before++) {
        for (int behind = 0; behind < PLACES; behind++) {
            for (int full = 0; full < 2; full++) {
                for (int far = 0; far < 2; far++) {
                    tlsf_heap_block middle;
                    const char *which = sides(live, before, behind, full, &middle);
                    if (far) {
                        must(CALL(add_pool)(&heap, 2u * WORK, GREATEST));
                        must(CALL(add_pool)(&heap, 3u * WORK, GREATEST));
                    } else {
                        must(CALL(add_pool)(&heap, 2u * WORK, 1u << 29));
                    }
                    counted_realloc(middle, (1u << 20) + 16);
                    told("realloc", which);
                }
            }
        }
    }
}

/* A block that grows into the one behind it. */
static void grows(uint32_t live)
{
    for (int behind = 0; behind < PLACES; behind++) {
        tlsf_heap_block middle;
        const char *which = sides(live, ALONE, behind, true, &middle);
        counted_realloc(middle, 32);
        told("realloc", which);
    }
}

/* A split of the only block of a class, or of the first of two, each with a live block behind it.
 * The lists that the pieces enter are empty or not. */
static void splits(uint32_t live, int pools, uint32_t base, uint32_t bytes, uint64_t align,
                   uint64_t wanted, bool full)
{
    static const uint64_t others[] = {496, 512, (1u << 19) - 32, 1u << 19};
    tlsf_heap_block kept[4], large[2];
    begin(live);
    if (full) {
        must(CALL(add_pool)(&heap, WORK, 1u << 22));
        for (int k = 0; k < 4; k++) {
            kept[k] = live_block(others[k]);
            live_block(16);
        }
    }
    for (int k = 0; k < pools; k++) {
        must(CALL(add_pool)(&heap, (2u + (uint32_t)k) * WORK + base, bytes + 16));
    }
    for (int k = 0; k < pools; k++) {
        large[k] = live_block(bytes);
        live_block(16);
    }
    for (int k = 0; k < pools; k++) {
        must(CALL(free)(&heap, large[k]));
    }
    for (int k = 0; k < 4 && full; k++) {
        must(CALL(free)(&heap, kept[k]));
    }
    if (align == 0) {
        counted_malloc(wanted);
        told("malloc", full ? "lists full" : "lists empty");
    } else {
        counted_memalign(align, wanted);
        told("memalign", full ? "lists full" : "lists empty");
    }
}

/* Any calls, one after the other in one heap. */
static void anything(uint32_t live)
{
    static tlsf_heap_block own[MOST_OWN];
    uint32_t count = 0;
    state = 1;
    begin(live);
    must(CALL(add_pool)(&heap, WORK, 1u << 20));
    must(CALL(add_pool)(&heap, 2u * WORK, GREATEST));
    must(CALL(add_pool)(&heap, 3u * WORK, 1u << 29));
    for (uint32_t call = 0; call < CALLS; call++) {
        uint32_t kind = count < 50          ? next() % 2
                        : count == MOST_OWN ? 2
                                            : next() % 4,
                 at = count > 0 ? next() % count : 0;
        uint64_t bytes = next() % 7 == 0 ? 1 + next() % 600000 : 1 + next() % 2000,
                 align = 1u << next() % 16;
        if (kind == 0) {
            counted_malloc(bytes);
        } else if (kind == 1) {
            counted_memalign(align, bytes);
        } else if (kind == 2) {
            counted_free(own[at]);
            own[at] = own[--count];
        } else {
            counted_realloc(own[at], bytes);
        }
        if (kind < 2 && status == TLSF_OK) {
            own[count++] = given;
        } else if (kind == 3 && status == TLSF_OK) {
            own[at] = given;
        }
        CALLGRIND_DUMP_STATS;
        printf("%s: any: %s\n",
               kind == 0   ? "malloc"
               : kind == 1 ? "memalign"
               : kind == 2 ? "free"
                           : "realloc",
               tlsf_heap_status_name(status));
    }
    CALL(destroy)(&heap);
}

static void worst(uint32_t live)
{
    static const uint32_t sizes[] = {1056964608, 1u << 29, (1u << 29) + (1u << 24), 1u << 20};
    static const uint64_t wanted[] = {16, 512, 520, (1u << 29) - 512, (1u << 20) - 512, 1u << 19};
    tlsf_heap_block none = {0, 0};
    counted_nothing(none);
    CALLGRIND_DUMP_STATS;
    printf("nothing: no call: served\n");
    for (size_t size = 0; size < 4; size++) {
        for (size_t bytes = 0; bytes < 6; bytes++) {
            for (int pools = 1; pools < 3; pools++) {
                for (int full = 0; full < 2; full++) {
                    splits(live, pools, 0, sizes[size], 0, wanted[bytes], full);
                    splits(live, pools, 16, sizes[size], 512, wanted[bytes], full);
                    splits(live, pools, 32, sizes[size], 1u << 19, wanted[bytes], full);
                }
            }
        }
    }
    frees(live);
    moves(live);
    grows(live);
    anything(live);
}

int main(int count, char **words)
{
    uint32_t live = count == 3 ? (uint32_t)atoi(words[2]) : 0;
    if (live == 0 || live > MOST) {
        return 2;
    }
    if (strcmp(words[1], "pairs") == 0) {
        pairs(live);
    } else {
        worst(live);
    }
    return 0;
}
