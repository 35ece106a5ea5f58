/* How large a pool is always enough: the functions of tlsf_heap.h and tlsf.h beside the
 * definitions, an order of requests that is refused on just the bytes of a bound and served on 16
 * more, and random programs that stay within their limits, some of them made to fragment. */
#include <stdlib.h>
#include <string.h>

#include "cases.h"
#include "tlsf.h"
#include "tlsf_heap.h"

enum { CLASSES = 704, VALUES = 100000, PROGRAMS = 300, STEPS = 3000, MOST_LIVE = 48 };

static uint64_t state = 88172645463325252u;

static uint64_t below(uint64_t bound)
{
    state ^= state << 13;
    state ^= state >> 7;
    state ^= state << 17;
    return state % bound;
}

/* ---- the definitions ---- */

static uint64_t low(uint64_t class)
{
    uint64_t level = class / 32, step = class % 32;
    return level == 0 ? 16 * step : (1ull << (level + 8)) + step * (1ull << (level + 3));
}

/* The lowest size of the first class that holds what is asked, or 0. */
static uint64_t wanted_class_size(uint64_t align, uint64_t bytes)
{
    uint64_t asked = (bytes + 15) / 16 * 16 + (align > 16 ? align - 16 : 0);
    for (uint64_t class = 0; class < CLASSES && bytes > 0 && bytes <= 1073741808; class ++) {
        if (low(class) >= asked) {
            return low(class);
        }
    }
    return 0;
}

static uint64_t any_size(void) { return below(1ull << (1 + below(31))); }

static void class_sizes(void)
{
    bool same = true;
    for (int k = 0; k < VALUES; k++) {
        uint64_t align = 1ull << below(30), bytes = any_size();
        same = same && tlsf_heap_class_size(align, bytes) == wanted_class_size(align, bytes);
    }
    expect(same, "the class sizes of 100,000 requests");
    same = true;
    for (uint64_t class = 1; class < CLASSES; class ++) {
        same = same && tlsf_heap_class_size(1, low(class)) == low(class)
               && tlsf_heap_class_size(1, low(class) - 15) == low(class);
    }
    expect(same, "each class's own");
    same = true;
    for (uint64_t class = 1; class < CLASSES; class ++) {
        uint64_t next = class + 1 < CLASSES ? low(class + 1) : TLSF_HEAP_GREATEST + 16;
        same = same && tlsf_heap_class_step(low(class)) == next - low(class)
               && tlsf_heap_class_step(next - 16) == next - low(class)
               && tlsf_heap_class_low(low(class)) == low(class)
               && tlsf_heap_class_low(next - 16) == low(class);
    }
    expect(same && tlsf_heap_class_step(UINT64_MAX) >> 58 == 1, "the class that a block is of");
    same = tlsf_heap_class_size(1, 0) == 0 && tlsf_heap_class_size(1, 1056964609) == 0
           && tlsf_heap_class_size(0, 16) == 0 && tlsf_heap_class_size(24, 16) == 0
           && tlsf_heap_class_size(1u << 30, 16) == 0 && tlsf_heap_class_size(1, UINT64_MAX) == 0
           && tlsf_heap_class_size(UINT64_MAX, 16) == 0;
    expect(same, "no class for no bytes, too many, or no alignment");
}

static void sure_pools(void)
{
    bool same = tlsf_heap_sure_pool(60, 60 * 1040, tlsf_heap_class_size(1, 1040)) == 125856
                && tlsf_heap_sure_pool(3, 448, 320) == 1680 && tlsf_heap_sure_pool(0, 0, 16) == 16;
    expect(same, "the worked pools");
    expect(tlsf_heap_sure_pool(10, 1000, 112) == 2064 && tlsf_heap_sure_pool(10, 1008, 112) == 2080,
           "bytes that are no multiple of 16: the least pool above what refuses");
    same = true;
    for (int k = 0; k < VALUES; k++) {
        uint64_t blocks = below(1000), bytes = any_size() / 2, size = low(1 + below(CLASSES / 2));
        uint64_t refusing = bytes + (blocks + 1) * (size - 16),
                 pool = tlsf_heap_sure_pool(blocks, bytes, (uint32_t)size);
        bool small = refusing < 1073741808;
        same = same
               && (small ? pool % 16 == 0 && pool > refusing && pool <= refusing + 16 : pool == 0);
    }
    expect(same,
           "the sure pools of 100,000 programs are the least multiples of 16 above what refuses");
    same = tlsf_heap_sure_pool(32767, 16, 16) == 0 && tlsf_heap_sure_pool(1, 16, 0) == 0
           && tlsf_heap_sure_pool(1, 1073741808, 16) == 0
           && tlsf_heap_sure_pool(1, UINT64_MAX, 16) == 0
           && tlsf_heap_sure_pool(UINT64_MAX, 16, 16) == 0
           && tlsf_heap_sure_pool(1, 1073741792, 16) == 1073741808;
    expect(same, "none above the greatest pool, or where there can't be as many records");
}

/* ---- the bound is exact ---- */

/* Whether a last request of `size` bytes is served on a pool of this many bytes: behind as many
 * blocks of a unit as there are, each between two gaps of a unit less than `size`. */
static bool last_is_served(uint64_t pool, uint32_t live, uint32_t size)
{
    tlsf_heap heap = {0};
    tlsf_heap_block gaps[MOST_LIVE + 1], block = {0, 0};
    bool served = tlsf_heap_create(2 * live + 3, &heap) == TLSF_OK
                  && tlsf_heap_add_pool(&heap, 0, pool) == TLSF_OK;
    for (uint32_t k = 0; served && k <= live; k++) {
        served = tlsf_heap_malloc(&heap, size - 16, &gaps[k]) == TLSF_OK
                 && (k == live || tlsf_heap_malloc(&heap, 16, &block) == TLSF_OK);
    }
    for (uint32_t k = 0; served && k <= live; k++) {
        served = tlsf_heap_free(&heap, gaps[k]) == TLSF_OK;
    }
    expect(served, "a fragmented heap is made");
    uint32_t status = tlsf_heap_malloc(&heap, size, &block);
    tlsf_heap_destroy(&heap);
    return served && status == TLSF_OK;
}

static void bound_is_exact(void)
{
    for (uint32_t live = 0; live <= 40; live += 8) {
        for (uint32_t size = 32; size < 1024; size += 240) {
            uint64_t sure = tlsf_heap_sure_pool(live, 16 * live, size);
            expect(!last_is_served(sure - 16, live, size), "a pool of a unit less refuses");
            expect(last_is_served(sure, live, size), "the sure pool serves");
        }
    }
}

/* ---- random programs over tlsf.h ---- */

/* A program's limits, and what it holds. */
struct program {
    uint32_t blocks;
    size_t bytes, largest, held;
    void *live[MOST_LIVE];
    size_t sizes[MOST_LIVE];
};

static size_t in_units(size_t size) { return (size + 15) / 16 * 16; }

/* One request within the limits: false where it is refused. */
static bool step(tlsf_t tlsf, struct program *p)
{
    uint32_t k = (uint32_t)below(p->blocks);
    size_t size = 1 + below(below(4) == 0 ? p->largest : p->largest / 4 + 1);
    size = size > p->largest ? p->largest : size;
    bool frees = p->live[k] != NULL && below(3) == 0;
    if (frees || p->held - p->sizes[k] + in_units(size) > p->bytes) {
        tlsf_free(tlsf, p->live[k]);
        p->held -= p->sizes[k];
        p->live[k] = NULL;
        p->sizes[k] = 0;
        return true;
    }
    void *given = tlsf_realloc(tlsf, p->live[k], size);
    if (given == NULL) {
        return false;
    }
    p->held += in_units(size) - p->sizes[k];
    p->live[k] = given;
    p->sizes[k] = in_units(size);
    memset(given, (int)k, size);
    return true;
}

static bool is_served(unsigned char *memory)
{
    struct program p = {.blocks = 1 + (uint32_t)below(MOST_LIVE)};
    p.largest = 1 + below(below(2) == 0 ? 200 : 5000);
    p.bytes = in_units(p.largest) + below(p.blocks) * p.largest / (1 + below(4));
    size_t bytes = tlsf_sure_bytes(p.blocks, p.bytes, p.largest);
    tlsf_t tlsf = tlsf_create_records(memory + 8 * below(2), bytes, 2 * p.blocks + 3);
    bool served = bytes != 0 && tlsf != NULL;
    for (int k = 0; served && k < STEPS; k++) {
        served = step(tlsf, &p);
    }
    served = served && tlsf_check(tlsf) == 0;
    tlsf_destroy(tlsf);
    return served;
}

/* The pool of a heap in just tlsf_sure_bytes has the bytes that the law of a sure pool asks for,
 * and at most a unit more. A block has 8 bytes in front, which take it to the next unit at most. */
static bool has_sure_pool(unsigned char *memory)
{
    tlsf_figures figures;
    uint32_t blocks = (uint32_t)below(300);
    size_t largest = 1 + below(30000), bytes = 16 * below(200000);
    uint64_t class_size = wanted_class_size(1, largest + 8);
    uint64_t pool = bytes + 16 * (uint64_t)blocks + (blocks + 1) * (class_size - 16) + 16;
    tlsf_t tlsf = tlsf_create_records(memory + 8 * below(2),
                                      tlsf_sure_bytes(blocks, bytes, largest), 2 * blocks + 3);
    bool good = tlsf_stats(tlsf, &figures) == 0 && figures.bytes_free >= pool
                && figures.bytes_free <= pool + 16 && figures.records == 2 * blocks + 3;
    tlsf_destroy(tlsf);
    return good;
}

static void sure_bytes(void)
{
    size_t room = (size_t)16 << 20;
    unsigned char *memory = (unsigned char *)malloc(room);
    bool good = memory != NULL && tlsf_sure_bytes(299, 3200000, 30000) < room - 8;
    for (int k = 0; good && k < VALUES / 10; k++) {
        good = has_sure_pool(memory);
    }
    expect(good, "the pools of 10,000 heaps in tlsf_sure_bytes are sure ones");
    free(memory);
}

/* Every second of as many small blocks as there may be is freed, and a large one is asked for. */
static bool is_served_in_holes(unsigned char *memory, uint32_t blocks, size_t small, size_t large)
{
    void *live[MOST_LIVE];
    tlsf_t tlsf =
        tlsf_create_records(memory, tlsf_sure_bytes(blocks, blocks * large, large), 2 * blocks + 3);
    bool served = tlsf != NULL;
    for (uint32_t k = 0; served && k < blocks; k++) {
        live[k] = tlsf_malloc(tlsf, small);
        served = live[k] != NULL;
    }
    for (uint32_t k = 0; served && k < blocks; k += 2) {
        tlsf_free(tlsf, live[k]);
        served = tlsf_malloc(tlsf, large) != NULL;
    }
    tlsf_destroy(tlsf);
    return served;
}

static void programs(void)
{
    size_t room = tlsf_sure_bytes(MOST_LIVE, MOST_LIVE * 5000, 5000) + 16;
    unsigned char *memory = (unsigned char *)malloc(room);
    bool served = memory != NULL;
    for (int k = 0; served && k < PROGRAMS; k++) {
        served = is_served(memory);
    }
    expect(served, "random programs within their limits are never refused");
    served = memory != NULL;
    for (uint32_t blocks = 1; served && blocks <= MOST_LIVE; blocks++) {
        served = is_served_in_holes(memory, blocks, 16, 100)
                 && is_served_in_holes(memory, blocks, 1000, 4000);
    }
    expect(served, "nor are programs that fragment");
    expect(tlsf_sure_bytes(1, 16, 0) == 0 && tlsf_sure_bytes(40000, 16, 16) == 0
               && tlsf_sure_bytes(1, SIZE_MAX, 16) == 0,
           "no heap is sure for no bytes, or for too many blocks or bytes");
    free(memory);
}

int main(void)
{
    class_sizes();
    sure_pools();
    bound_is_exact();
    programs();
    sure_bytes();
    return cases_end();
}
