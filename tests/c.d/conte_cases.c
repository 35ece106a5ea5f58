/* The calls of tlsf.h, case by case: what they take, what they refuse, and their limits. */
#define _DEFAULT_SOURCE
#include <stdlib.h>
#include <string.h>
#include <sys/mman.h>

#include "cases.h"
#include "handed_in.h"
#include "tlsf.h"

enum { RECORDS = 1024, RECORD = 16, GREATEST_POOL = 1073741808 };
#define GIGABYTE ((size_t)1 << 30)

static _Alignas(16) unsigned char memory[1 << 16], other_memory[1 << 16];

/* The bytes of a heap with this number of records, at a multiple of 16. */
static size_t control_bytes(size_t records)
{
    return tlsf_size() - MOST_SKIPPED - RECORD * RECORDS + RECORD * records;
}

struct counted {
    size_t live, free, bytes;
};

static void count_block(void *ptr, size_t size, int used, void *user)
{
    struct counted *counted = (struct counted *)user;
    (void)ptr;
    counted->live += used != 0;
    counted->free += used == 0;
    counted->bytes += size + tlsf_alloc_overhead();
}

static struct counted count(pool_t pool)
{
    struct counted counted = {0, 0, 0};
    tlsf_walk_pool(pool, count_block, &counted);
    return counted;
}

static bool has(pool_t pool, size_t live, size_t free)
{
    struct counted counted = count(pool);
    return counted.live == live && counted.free == free;
}

/* Each takes what it says and no byte more: the sanitizers look on. */
static void exact_memory(void)
{
    for (size_t skip = 0; skip <= 8; skip += 8) {
        unsigned char *control = (unsigned char *)malloc(tlsf_size() + skip);
        unsigned char *pool_memory = (unsigned char *)malloc(4000 + skip);
        tlsf_t tlsf = tlsf_create(control + skip);
        pool_t pool = tlsf_add_pool(tlsf, pool_memory + skip, 4000);
        void *one = tlsf_malloc(tlsf, 100);
        expect(tlsf == control + skip && pool != NULL && one != NULL,
               "a heap in tlsf_size() bytes, and a pool elsewhere");
        size_t beside = (uintptr_t)(pool_memory + skip) % 16 == 8 ? 0 : 16;
        expect(count(pool).bytes == 4000 - beside && tlsf_check(tlsf) == 0,
               "the pool has its bytes, less those beside fronts and multiples of 16");
        size_t blocks = 1;
        while (tlsf_malloc(tlsf, 1) != NULL) {
            blocks++;
        }
        expect(blocks == (count(pool).bytes - 112) / 16 + 1, "it is filled to its end");
        free(control);
        free(pool_memory);
    }
}

/* Where a call that makes a heap was refused there is none. */
static bool is_no_heap(unsigned char *at)
{
    tlsf_figures figures;
    return tlsf_check(at) == -1 && tlsf_stats(at, &figures) == -1 && tlsf_get_pool(at) == NULL
           && tlsf_malloc(at, 1) == NULL
           && tlsf_add_pool(at, other_memory, sizeof other_memory) == NULL;
}

static void creates(void)
{
    size_t least = control_bytes(1) + 24; /* eight fewer at a multiple of 16 */
    expect(tlsf_create(NULL) == NULL && tlsf_create_with_pool(NULL, 1 << 20) == NULL,
           "no memory, no heap");
    expect(tlsf_create(memory + 2) == NULL && tlsf_create_with_pool(memory + 1, 1 << 15) == NULL,
           "memory where no pointer may begin, no heap");
    expect(tlsf_create_with_pool(memory, least - 8) != NULL
               && tlsf_create_with_pool(memory, least - 9) == NULL,
           "the least with a pool, at a multiple of 16");
    expect(tlsf_create_with_pool(memory + 8, least) != NULL
               && tlsf_create_with_pool(memory + 8, least - 1) == NULL,
           "the least with a pool, at another of 8");
    expect(tlsf_create_with_pool(memory, 0) == NULL && tlsf_create_with_pool(memory, 100) == NULL,
           "too few bytes, no heap");
    expect(tlsf_create_records(memory, 1 << 16, 0) == NULL && is_no_heap(memory)
               && tlsf_create_records(memory, SIZE_MAX / 2, 65536) == NULL && is_no_heap(memory),
           "records: none, or too many");
    tlsf_t tlsf = tlsf_create_records(memory, control_bytes(1) - 8, 1);
    expect(tlsf != NULL && tlsf_get_pool(tlsf) == NULL
               && tlsf_create_records(memory, control_bytes(1) - 9, 1) == NULL,
           "one record, and no byte for a pool");
    expect(tlsf_size_records(1) == control_bytes(1)
               && tlsf_size_records(RECORDS) == tlsf_size() - MOST_SKIPPED
               && tlsf_create_records(memory + 8, tlsf_size_records(1), 1) != NULL
               && tlsf_get_pool(memory + 8) == NULL,
           "tlsf_size_records: the bytes of a heap without a pool");
    expect(tlsf_create_records(memory, control_bytes(1) + 15, 1) != NULL
               && tlsf_get_pool(memory) == NULL,
           "23 bytes are no pool");
    expect(tlsf_create_records(memory, control_bytes(1) + 16, 1) != NULL
               && tlsf_get_pool(memory) != NULL,
           "24 bytes are one");
    expect(tlsf_malloc(memory + 4, 1) == NULL && tlsf_check(memory + 4) == -1,
           "no heap is at a multiple of 4");
    bool refused = true;
    for (size_t few = 1; few < least - 8; few += 7) {
        void *little = malloc(few);
        refused = refused && little != NULL && tlsf_create_with_pool(little, few) == NULL
                  && tlsf_create_records(little, few, 63 + (uint32_t)few) == NULL;
        free(little);
    }
    expect(refused, "too few bytes are refused, and none behind them is written");
}

/* As many blocks as there are records. */
static bool has_records(void *mem, size_t bytes, size_t records)
{
    tlsf_t tlsf = tlsf_create_with_pool(mem, bytes);
    while (tlsf_malloc(tlsf, 1) != NULL) {
    }
    struct counted counted = count(tlsf_get_pool(tlsf));
    bool good = counted.live + counted.free == records
                && counted.bytes == (bytes - control_bytes(records)) / 16 * 16;
    good = good && tlsf_check(tlsf) == 0 && tlsf_malloc(tlsf, 1) == NULL;
    tlsf_destroy(tlsf);
    return good;
}

static void records(void)
{
    size_t bytes = (size_t)17 << 20, each_bytes = sizeof(void *) == 4 ? 80 : 112;
    void *large = aligned_alloc(16, bytes);
    bool each = true;
    for (size_t k = 1; k < 60; k++) {
        each = each && has_records(memory, tlsf_size_records(0) + each_bytes * k, k + 1)
               && has_records(memory, tlsf_size_records(0) + each_bytes * k - 16, k);
    }
    expect(
        each,
        "one record, and one more for each 112 bytes, or 80, that a heap without records leaves");
    expect(has_records(large, tlsf_size_records(0) + each_bytes * 65534, 65535), "65,535 records");
    expect(has_records(large, bytes, 65535), "and no more");
    free(large);
}

/* How many blocks of this size a heap has, until one is refused. It has this number of records, or
 * for 0 as many as tlsf_create_with_pool gives it. */
static size_t filled(size_t bytes, size_t size, uint32_t records)
{
    void *area = aligned_alloc(16, bytes);
    tlsf_t tlsf = records == 0 ? tlsf_create_with_pool(area, bytes)
                               : tlsf_create_records(area, bytes, records);
    size_t blocks = 0;
    for (void *one = tlsf_malloc(tlsf, size); one != NULL; one = tlsf_malloc(tlsf, size)) {
        memset(one, 0xff, size);
        blocks++;
    }
    blocks = tlsf_check(tlsf) == 0 ? blocks : 0;
    free(area);
    return blocks;
}

/* Of 1,000 bytes a block takes 1,008, and a record 16. So 9,344 records leave 1 MiB room for 889,
 * and at 32 bits 13,082 for 830. 1,022 leave it for 1,021, as do 1,023 at 32 bits. */
static void capacities(void)
{
    uint32_t few = (uint32_t)(((1 << 20) - tlsf_size_records(0)) / 1024 + 1);
    expect(filled(65536, 64, 0) >= 560, "64 KiB: at least 560 blocks of 64 bytes");
    expect(filled(1 << 20, 64, 0) >= 9300, "1 MiB: at least 9,300 blocks of 64 bytes");
    expect(filled(1 << 20, 1000, 0) == (sizeof(void *) == 8 ? 889 : 830),
           "1 MiB: 889 or 830 blocks of 1,000 bytes");
    expect(filled(64 << 20, 16, 0) == 65534, "64 MiB: a block of 16 bytes for each record but one");
    expect(few == (sizeof(void *) == 8 ? 1022 : 1023) && filled(1 << 20, 1000, few) == 1021,
           "1 MiB, a record for each 1,024 bytes: 1,021 blocks of 1,000 bytes");
}

static void limits(void)
{
    bool fits = true, least = true;
    for (size_t n = 16; n <= 480; n += 16) {
        tlsf_t tlsf = tlsf_create(other_memory);
        fits = fits && tlsf_add_pool(tlsf, memory + 8, n + tlsf_pool_overhead()) != NULL
               && tlsf_malloc(tlsf, n) != NULL;
        tlsf = tlsf_create(other_memory);
        fits = fits && tlsf_add_pool(tlsf, memory, n + tlsf_pool_overhead()) != NULL
               && tlsf_malloc(tlsf, n) != NULL;
        tlsf = tlsf_create(other_memory);
        tlsf_add_pool(tlsf, memory, n + 9 + tlsf_pool_overhead() - 8);
        least = least && tlsf_malloc(tlsf, n + 9) == NULL;
    }
    expect(fits && least,
           "tlsf_pool_overhead() more bytes are enough for a block, and eight less aren't");
    expect(tlsf_pool_overhead() % sizeof(void *) == 0,
           "a pool may begin so many bytes behind another address");
    tlsf_t tlsf = tlsf_create_with_pool(memory, sizeof memory);
    void *one = tlsf_malloc(tlsf, 1);
    expect(tlsf_block_size(one) == tlsf_block_size_min() && tlsf_block_size_min() == 8,
           "the least block");
    expect((uintptr_t)one % tlsf_align_size() == 0 && tlsf_align_size() == 16,
           "a pointer is a multiple of 16");
    expect((unsigned char *)tlsf_malloc(tlsf, 16) - (unsigned char *)one
               == (ptrdiff_t)(8 + tlsf_alloc_overhead()),
           "what a block takes");
    expect(tlsf_block_size(NULL) == 0 && tlsf_malloc(tlsf, 0) == NULL
               && tlsf_memalign(tlsf, 64, 0) == NULL,
           "no pointer, and no bytes");
    expect(tlsf_malloc(tlsf, SIZE_MAX) == NULL && tlsf_memalign(tlsf, 64, SIZE_MAX) == NULL
               && tlsf_realloc(tlsf, one, SIZE_MAX) == NULL,
           "more bytes than there are");
    expect(tlsf_block_size(one) == 8 && tlsf_check(tlsf) == 0,
           "a refused realloc leaves its block");
}

/* Whether a pool that has tlsf_pool_overhead() more bytes serves this block, and no more bytes than
 * it has. */
static bool pool_serves(tlsf_t tlsf, unsigned char *at, size_t bytes)
{
    pool_t pool = tlsf_add_pool(tlsf, at, bytes + tlsf_pool_overhead());
    void *one = tlsf_malloc(tlsf, bytes);
    bool good = one != NULL && tlsf_block_size(one) >= bytes && tlsf_check(tlsf) == 0
                && tlsf_malloc(tlsf, bytes + tlsf_pool_overhead()) == NULL;
    tlsf_free(tlsf, one);
    tlsf_remove_pool(tlsf, pool);
    return good && tlsf_get_pool(tlsf) == NULL;
}

static void overheads(unsigned char *large)
{
    tlsf_t tlsf = tlsf_create_records(memory, control_bytes(4), 4);
    bool each = true, units = true, doubled = true;
    for (size_t n = 1; n <= 20000; n++) {
        each = each && pool_serves(tlsf, large + n % 2 * 8, n);
    }
    expect(each, "a pool for each block of 1 to 20,000 bytes");
    for (size_t n = 16; n <= 99984; n += 16) {
        units = units && pool_serves(tlsf, large, n) && pool_serves(tlsf, large + 8, n);
    }
    expect(units, "12,498 pools, each of one block, of a multiple of 16 to 99,984 bytes");
    for (size_t n = 1 << 16; n < GIGABYTE; n *= 2) {
        doubled = doubled && pool_serves(tlsf, large + 8, n - 17) && pool_serves(tlsf, large, n + 1)
                  && pool_serves(tlsf, large, n + n / 64);
    }
    expect(doubled, "and pools up to some 520 MiB");
}

/* The first block of the list below is tried, and no other; what was tried is whole again. */
static void tight_fits(void)
{
    tlsf_t tlsf = tlsf_create_records(memory, control_bytes(2), 2);
    tlsf_add_pool(tlsf, other_memory, 2080 + 16);
    expect(tlsf_malloc(tlsf, 2072 + 1) == NULL && has(tlsf_get_pool(tlsf), 0, 1)
               && tlsf_check(tlsf) == 0,
           "one byte more than a pool has is refused, and the pool is one free block");
    void *one = tlsf_malloc(tlsf, 2072);
    expect(one != NULL && has(tlsf_get_pool(tlsf), 1, 0), "all that it has is served");
    tlsf = tlsf_create_records(memory, control_bytes(1), 1);
    tlsf_add_pool(tlsf, other_memory, 2080 + 16);
    expect(tlsf_memalign(tlsf, 32, 2072) == NULL && has(tlsf_get_pool(tlsf), 0, 1),
           "with an alignment above 16 it isn't");
    expect(tlsf_malloc(tlsf, 2072) != NULL && has(tlsf_get_pool(tlsf), 1, 0),
           "it is with one record, since there is no rest");
}

static void alignments(unsigned char *large)
{
    bool aligned = true, refused = true, whole = true;
    for (size_t skip = 0; skip < 4096; skip += 504) {
        tlsf_t tlsf = tlsf_create(memory);
        pool_t pool = tlsf_add_pool(tlsf, large + skip, 32 << 20);
        void *blocks[22];
        for (int k = 0; k <= 21; k++) {
            size_t align = (size_t)1 << k;
            blocks[k] = tlsf_memalign(tlsf, align, 100);
            aligned = aligned && blocks[k] != NULL && (uintptr_t)blocks[k] % align == 0
                      && tlsf_block_size(blocks[k]) == 104;
        }
        refused = refused && tlsf_memalign(tlsf, 1 << 22, 1) == NULL
                  && tlsf_memalign(tlsf, 48, 1) == NULL && tlsf_memalign(tlsf, SIZE_MAX, 1) == NULL
                  && tlsf_memalign(tlsf, 0, 100) == NULL;
        whole = whole && tlsf_check(tlsf) == 0;
        for (int k = 0; k <= 21; k++) {
            tlsf_free(tlsf, blocks[(k * 5) % 22]);
        }
        whole = whole && has(pool, 0, 1);
    }
    expect(aligned, "each alignment up to 2^21, in pools at any address");
    expect(refused, "an alignment above it, or that is no power of two");
    expect(whole, "what lies in front of an aligned block isn't lost");
}

/* Alignments of a megabyte and two, where the pool's memory is aligned to less than a page. */
static void great_alignments(unsigned char *large)
{
    size_t two = (size_t)2 << 20;
    unsigned char *even = large + (two - (uintptr_t)large % two);
    bool aligned = true;
    for (size_t k = 0; k < 8; k++) {
        size_t skip = k * (two / 8) + 16 * (3 * k + 1);
        tlsf_t tlsf = tlsf_create(memory);
        tlsf_add_pool(tlsf, even + skip, 7 << 20);
        tlsf_add_pool(tlsf, even + (16 << 20) + two - skip, 7 << 20);
        for (size_t align = two / 2; align <= two; align *= 2) {
            void *one = tlsf_memalign(tlsf, align, 100), *other = tlsf_memalign(tlsf, align, 100);
            aligned = aligned && one != NULL && (uintptr_t)one % align == 0 && other != NULL
                      && (uintptr_t)other % align == 0 && tlsf_check(tlsf) == 0;
        }
    }
    expect(aligned, "alignments of 2^20 and 2^21 in pools that aren't so aligned");
}

/* A pool whose first pointer is a multiple of 2^21, and one record: so the heap has its one block
 * at the place 0, in the slot 0. A request that is refused leaves it. */
static void first_place(unsigned char *large)
{
    size_t two = (size_t)2 << 20;
    unsigned char *even = large + (two - (uintptr_t)large % two);
    tlsf_t tlsf = tlsf_create_records(memory, control_bytes(1), 1);
    tlsf_add_pool(tlsf, even - 8, 4096);
    void *one = tlsf_malloc(tlsf, 4088);
    bool refused = one == even;
    for (size_t bytes = 1; bytes < 9000; bytes += 97) {
        refused = refused && tlsf_malloc(tlsf, bytes) == NULL;
    }
    expect(refused && tlsf_live_size(tlsf, one) == 4088, "a block at the place 0 stays");
}

/* Pools and the heap's own memory that touch, in each order; and those that share 32 bytes. */
static void side_by_side(void)
{
    unsigned char *area = other_memory;
    size_t own = tlsf_size_records(64) + 8;
    tlsf_t tlsf = tlsf_create_records(area + 8192, own - own % 16, 64);
    expect(tlsf_get_pool(tlsf) == NULL && tlsf_add_pool(tlsf, area + 4096, 1024) != NULL,
           "a pool of 1,024 bytes");
    expect(tlsf_add_pool(tlsf, area + 4096 - 1024 + 32, 1024) == NULL
               && tlsf_add_pool(tlsf, area + 4096 + 1024 - 32, 1024) == NULL,
           "one that shares 32 bytes with it is refused");
    pool_t before = tlsf_add_pool(tlsf, area + 4096 - 1024, 1024),
           behind = tlsf_add_pool(tlsf, area + 4096 + 1024, 1024);
    expect(before != NULL && behind != NULL,
           "one directly in front of it, and one directly behind");
    expect(tlsf_add_pool(tlsf, area + 8192 - 1024 + 32, 1024) == NULL
               && tlsf_add_pool(tlsf, area + 8192 + own / 16 * 16 - 32, 1024) == NULL,
           "one that shares 32 bytes with the heap itself is refused");
    expect(tlsf_add_pool(tlsf, area + 8192 - 1024, 1024) != NULL
               && tlsf_add_pool(tlsf, area + 8192 + own / 16 * 16, 1024) != NULL,
           "one directly in front of the heap, and one directly behind");
    unsigned char *first = (unsigned char *)tlsf_malloc(tlsf, 1000);
    size_t filled = 0;
    for (unsigned char *one = first; one != NULL; filled++) {
        memset(one, (int)filled, 1000);
        one = (unsigned char *)tlsf_malloc(tlsf, 1000);
    }
    expect(filled == 5 && tlsf_check(tlsf) == 0 && tlsf_malloc(tlsf, 1016) == NULL,
           "each has a block of its own, and no block lies in two");
}

/* A heap at `at`, a multiple of 8: its own memory ends at a multiple of 16. A pool of 64 bytes at
 * each multiple of 8 around is refused exactly where one of its bytes is the heap's own. */
static bool keeps_its_memory(unsigned char *at)
{
    tlsf_t tlsf = tlsf_create_records(at, tlsf_size_records(4), 4);
    uintptr_t own = (uintptr_t)at, end = (own + tlsf_size_records(4)) / 16 * 16;
    bool good = tlsf != NULL;
    for (uintptr_t from = own - 128; from <= end + 128; from += 8) {
        uintptr_t first = (from + 7) / 16 * 16 + 8;
        bool shares = first + 64 > own && first < end;
        pool_t pool =
            tlsf_add_pool(tlsf, at + (ptrdiff_t)(from - own), (size_t)(first - from) + 64);
        good = good && (pool == NULL) == shares && tlsf_check(tlsf) == 0;
        tlsf_remove_pool(tlsf, pool);
    }
    tlsf_destroy(tlsf);
    return good;
}

static void own_memory(void)
{
    expect(keeps_its_memory(other_memory + 1024), "pools that share 8 bytes or more with the heap");
    expect(keeps_its_memory(other_memory + 1032), "and with one at another multiple of 8");
}

static void greatest(unsigned char *large)
{
    tlsf_t tlsf = tlsf_create(memory);
    expect(tlsf_add_pool(tlsf, large, GREATEST_POOL + 24) == NULL, "a pool above the greatest");
    expect(tlsf_add_pool(tlsf, large, SIZE_MAX) == NULL
               && tlsf_add_pool(tlsf, (void *)(UINTPTR_MAX - 63), 128) == NULL,
           "a pool above the end of memory");
    pool_t pool = tlsf_add_pool(tlsf, large, GREATEST_POOL + 23);
    expect(pool != NULL && count(pool).bytes == GREATEST_POOL, "the greatest pool");
    void *one = tlsf_malloc(tlsf, GIGABYTE / 2),
         *whole = tlsf_realloc(tlsf, one, tlsf_block_size_max());
    expect(whole == one && tlsf_block_size(whole) == tlsf_block_size_max() && has(pool, 1, 0),
           "the greatest block");
    expect(tlsf_realloc(tlsf, whole, tlsf_block_size_max() + 1) == NULL
               && tlsf_malloc(tlsf, tlsf_block_size_max() + 1) == NULL,
           "a greater one");
    tlsf_free(tlsf, whole);
    for (size_t bytes = 1056964592; bytes <= tlsf_block_size_max(); bytes += 1048575) {
        one = tlsf_malloc(tlsf, bytes);
        expect(one != NULL, "a malloc beyond the lowest size of the last class");
        tlsf_free(tlsf, one);
    }
    one = tlsf_malloc(tlsf, tlsf_block_size_max());
    expect(one != NULL && has(pool, 1, 0), "a malloc of the greatest block");
    tlsf_free(tlsf, one);
    /* The greatest size of a class is 1,056,964,608, and an aligned request asks for 16 more. */
    one = tlsf_memalign(tlsf, 32, 1056964608 - 16 - 8);
    expect(one != NULL && (uintptr_t)one % 32 == 0
               && tlsf_memalign(tlsf, 32, tlsf_block_size_max()) == NULL,
           "a memalign of the most that a class surely has");
    tlsf_free(tlsf, one);
    expect(tlsf_create_with_pool(large, 2 * GIGABYTE) == NULL && is_no_heap(large),
           "a heap with a pool above the greatest");
}

/* The pools of a heap have places below 4 GiB. */
static void places(unsigned char *large)
{
    tlsf_t tlsf = tlsf_create(memory);
    pool_t first = tlsf_add_pool(tlsf, large, GREATEST_POOL),
           second = tlsf_add_pool(tlsf, large + GIGABYTE + 8, GREATEST_POOL),
           third = tlsf_add_pool(tlsf, large + 2 * GIGABYTE + 40, GREATEST_POOL);
    expect(first != NULL && second != NULL && third != NULL, "three of the greatest pools");
    expect(tlsf_add_pool(tlsf, large + 3 * GIGABYTE + 4096, GREATEST_POOL) == NULL,
           "four of them, at other addresses modulo 2^21, are too many");
    expect(tlsf_add_pool(tlsf, large + 3 * GIGABYTE + 4096, GIGABYTE - (16 << 20)) != NULL
               && tlsf_check(tlsf) == 0,
           "with one a little smaller they aren't");
    tlsf_remove_pool(tlsf, second);
    expect(tlsf_add_pool(tlsf, large + GIGABYTE + 64, GIGABYTE - (4 << 20)) != NULL
               && tlsf_check(tlsf) == 0,
           "one is gone, and another is added");
}

/* Four of the greatest pools side by side, from a multiple of 2^21 on, leave 64 of the 2^32
 * places. */
static void all_places(unsigned char *large)
{
    size_t two = (size_t)2 << 20;
    unsigned char *even = large + (two - (uintptr_t)large % two);
    bool all = true;
    tlsf_t tlsf = tlsf_create(memory);
    for (size_t k = 0; k < 4; k++) {
        all = all && tlsf_add_pool(tlsf, even + k * GREATEST_POOL - 8, GREATEST_POOL) != NULL;
    }
    unsigned char *last = even + (size_t)4 * GREATEST_POOL;
    expect(all && tlsf_add_pool(tlsf, last - 8, 80) == NULL
               && tlsf_add_pool(tlsf, last - 8, 64) != NULL && tlsf_check(tlsf) == 0,
           "pools of 4 GiB in all, and not 16 bytes more");
    expect(tlsf_malloc(tlsf, 56) == last && tlsf_live_size(tlsf, last) == 56
               && tlsf_block_size(last) == 56 && tlsf_check(tlsf) == 0,
           "a block at the last places");
    tlsf_free(tlsf, last);
    expect(tlsf_live_size(tlsf, last) == 0 && tlsf_check(tlsf) == 0, "and it is freed");
}

/* A pool goes to the first range of places that has room for it, wherever its entry is. */
static void places_between(unsigned char *large)
{
    pool_t last[4] = {NULL};
    tlsf_t tlsf = tlsf_create(memory);
    for (int k = 0; k < 3; k++) {
        last[k] = tlsf_add_pool(tlsf, large + k * GIGABYTE + 8, k == 0 ? 1000 : GREATEST_POOL + 8);
    }
    tlsf_remove_pool(tlsf, last[0]);
    last[0] = tlsf_add_pool(tlsf, large + 3 * GIGABYTE + 8, GREATEST_POOL + 8);
    tlsf_remove_pool(tlsf, last[2]);
    last[3] = tlsf_add_pool(tlsf, large + 2 * GIGABYTE + 64, GIGABYTE - 64);
    expect(last[0] != NULL && last[1] != NULL && last[3] != NULL,
           "a pool between the places of others");
    tlsf = tlsf_create(memory);
    for (int k = 0; k < 7; k++) {
        last[k % 4] = tlsf_add_pool(tlsf, large + 1000 * k, 1000);
    }
    expect(tlsf_add_pool(tlsf, large + GIGABYTE, GREATEST_POOL) != NULL,
           "a great one behind seven little ones");
    tlsf_remove_pool(tlsf, tlsf_get_pool(tlsf));
    expect(tlsf_add_pool(tlsf, large + 2 * GIGABYTE, GREATEST_POOL) != NULL
               && tlsf_check(tlsf) == 0,
           "and one behind it");
}

/* Eight pools of 500 MiB, and each second one removed: four gaps of places, and some 96 MiB behind.
 * A pool that is greater than a gap finds room where two gaps have become one. */
static void places_removed(unsigned char *large)
{
    enum { MEGABYTE = 1 << 20 };
    size_t each = (size_t)500 * MEGABYTE, more = (size_t)600 * MEGABYTE;
    unsigned char *behind = large + 8 * each;
    pool_t made[8];
    bool all = true;
    tlsf_t tlsf = tlsf_create(memory);
    for (int k = 0; k < 8; k++) {
        made[k] = tlsf_add_pool(tlsf, large + k * each + 8, each);
        all = all && made[k] != NULL;
    }
    expect(all && tlsf_add_pool(tlsf, behind + 8, 64) == NULL, "eight pools of 500 MiB");
    for (int k = 0; k < 8; k += 2) {
        tlsf_remove_pool(tlsf, made[k]);
    }
    expect(tlsf_add_pool(tlsf, behind + 8, more) == NULL && tlsf_check(tlsf) == 0,
           "with each second one removed, one of 600 MiB is refused");
    pool_t same = tlsf_add_pool(tlsf, behind + 8, each);
    expect(same != NULL, "one of 500 MiB isn't");
    tlsf_remove_pool(tlsf, same);
    tlsf_remove_pool(tlsf, made[3]);
    same = tlsf_add_pool(tlsf, behind + 8, more);
    expect(same != NULL && tlsf_check(tlsf) == 0,
           "nor one of 600 MiB, where two gaps have become one");
    tlsf_remove_pool(tlsf, tlsf_get_pool(tlsf) == same ? same : NULL);
    expect(tlsf_get_pool(tlsf) == NULL && tlsf_add_pool(tlsf, large + 8, 1000) != NULL
               && tlsf_get_pool(tlsf) != NULL,
           "its entry is the next pool's");
}

/* The places below all pools are taken, too, where another pool has the entry of the one before. */
static void places_below(unsigned char *large)
{
    enum { MEGABYTE = 1 << 20 };
    static const size_t sizes[] = {500, 1000, 1000, 1000, 580};
    size_t at = 0;
    bool all = true;
    tlsf_t tlsf = tlsf_create(memory);
    for (int k = 0; k < 5; k++) {
        pool_t pool = tlsf_add_pool(tlsf, large + at * MEGABYTE + 8, sizes[k] * MEGABYTE);
        all = all && pool != NULL;
        if (k == 2) {
            tlsf_remove_pool(tlsf, tlsf_get_pool(tlsf));
        }
        at += sizes[k];
    }
    expect(all && tlsf_get_pool(tlsf) != NULL
               && tlsf_add_pool(tlsf, large + 8, (size_t)500 * MEGABYTE) != NULL
               && tlsf_add_pool(tlsf, large + at * MEGABYTE + 8, (size_t)50 * MEGABYTE) == NULL
               && tlsf_check(tlsf) == 0,
           "a pool in the places below all others");
}

static void pools(void)
{
    unsigned char *area = other_memory;
    tlsf_t tlsf = tlsf_create(memory);
    pool_t made[8];
    bool good = tlsf_get_pool(tlsf) == NULL && tlsf_malloc(tlsf, 1) == NULL;
    for (int k = 0; k < 8; k++) {
        made[k] = tlsf_add_pool(tlsf, area + 1000 * k, 1000);
        good = good && made[k] != NULL;
    }
    expect(good && tlsf_get_pool(tlsf) == made[0] && tlsf_add_pool(tlsf, area + 9000, 1000) == NULL,
           "eight pools, and no ninth");
    tlsf_remove_pool(tlsf, made[3]);
    expect(tlsf_check_pool(made[3]) == -1 && has(made[3], 0, 0) && tlsf_check(tlsf) == 0,
           "a pool is gone");
    expect(tlsf_add_pool(tlsf, area + 2976, 500) == NULL
               && tlsf_add_pool(tlsf, area + 3504, 600) == NULL,
           "memory of another pool is refused");
    expect(tlsf_add_pool(tlsf, memory + 64, 1000) == NULL
               && tlsf_add_pool(tlsf, memory + tlsf_size() - 32, 1000) == NULL,
           "that of the heap itself is refused");
    expect(tlsf_add_pool(tlsf, area + 3002, 500) == NULL && tlsf_add_pool(tlsf, NULL, 500) == NULL
               && tlsf_add_pool(tlsf, area + 3008, 23) == NULL,
           "where no pointer may begin, none, or too small");
    expect(tlsf_add_pool(tlsf, area + 3008, 24) != NULL && tlsf_check(tlsf) == 0, "the least pool");
    void *one = tlsf_malloc(tlsf, 500);
    size_t kept = 0;
    for (int k = 0; k < 8; k++) {
        tlsf_remove_pool(tlsf, made[k]);
        kept += tlsf_check_pool(made[k]) == 0;
    }
    expect(one != NULL && kept == 1 && tlsf_block_size(one) == 504,
           "the pool of a live block stays");
    tlsf_free(tlsf, one);
    tlsf_t other = tlsf_create_with_pool(other_memory + 16384, 8192);
    tlsf_remove_pool(tlsf, tlsf_get_pool(other));
    expect(tlsf_get_pool(other) != NULL && tlsf_malloc(other, 100) != NULL,
           "another heap's pool stays");
    expect(tlsf_check_pool(NULL) == -1 && tlsf_check(NULL) == -1 && has(NULL, 0, 0),
           "no pool and no heap");
}

static bool refuses(tlsf_t tlsf, void *pointer)
{
    struct counted before = count(tlsf_get_pool(tlsf));
    tlsf_free(tlsf, pointer);
    bool good = tlsf_realloc(tlsf, pointer, 40) == NULL && tlsf_realloc(tlsf, pointer, 0) == NULL;
    struct counted after = count(tlsf_get_pool(tlsf));
    return good && before.live == after.live && before.free == after.free && tlsf_check(tlsf) == 0;
}

static void pointers(void)
{
    tlsf_t tlsf = tlsf_create_with_pool(memory, sizeof memory),
           other = tlsf_create_with_pool(other_memory, sizeof other_memory);
    unsigned char *one = (unsigned char *)tlsf_malloc(tlsf, 100),
                  *two = (unsigned char *)tlsf_malloc(tlsf, 100);
    void *far = tlsf_malloc(other, 100);
    _Alignas(16) unsigned char on_stack[64] = {0};
    expect(tlsf_live_size(tlsf, one) == 104 && tlsf_live_size(other, far) == 104, "a live block");
    expect(tlsf_live_size(tlsf, far) == 0 && tlsf_live_size(NULL, one) == 0
               && tlsf_live_size(tlsf, NULL) == 0 && tlsf_live_size(tlsf, (void *)16) == 0
               && tlsf_live_size(tlsf, two + 16) == 0 && tlsf_live_size(tlsf, on_stack) == 0,
           "none of this heap");
    tlsf_free(tlsf, one);
    expect(refuses(tlsf, one) && tlsf_block_size(one) == 0 && tlsf_live_size(tlsf, one) == 0,
           "a pointer that is free");
    expect(refuses(tlsf, far) && tlsf_block_size(far) == 104, "another heap's");
    unsigned char *block = (unsigned char *)tlsf_malloc(other, 16384);
    tlsf_t within = tlsf_create_with_pool(block, 16384);
    void *inner = tlsf_malloc(within, 100);
    expect(inner != NULL && refuses(other, inner) && refuses(within, far) && refuses(within, block)
               && tlsf_check(within) == 0,
           "that of a heap in a block of the heap");
    expect(tlsf_block_size(two + 8) == 0 && tlsf_block_size(two + 1) == 0,
           "no size at no multiple of 16");
    expect(refuses(tlsf, two + 16) && refuses(tlsf, two + 8) && refuses(tlsf, two + 1)
               && refuses(tlsf, two - 16),
           "within a block");
    expect(refuses(tlsf, on_stack + 16) && refuses(tlsf, tlsf)
               && refuses(tlsf, tlsf_get_pool(tlsf)),
           "none of a pool's");
    expect(refuses(tlsf, (void *)16) && refuses(tlsf, (void *)(UINTPTR_MAX - 15)),
           "where no memory is");
}

/* Pointers that were good, and one with a byte changed in front of it. */
static void old_pointers(void)
{
    tlsf_t tlsf = tlsf_create_with_pool(memory, sizeof memory);
    void *two = tlsf_malloc(tlsf, 100), *behind = tlsf_malloc(tlsf, 100);
    unsigned char kept[8];
    void *moved = tlsf_realloc(tlsf, two, 3000);
    expect(behind != NULL && moved != NULL && moved != two && refuses(tlsf, two)
               && tlsf_block_size(two) == 0 && tlsf_live_size(tlsf, two) == 0,
           "one that a realloc moved");
    void *aligned = tlsf_memalign(tlsf, 1024, 50);
    tlsf_free(tlsf, aligned);
    expect(refuses(tlsf, aligned), "an aligned one that is free");
    memcpy(kept, (unsigned char *)moved - 8, 8);
    ((unsigned char *)moved)[-1] ^= 1;
    tlsf_free(tlsf, moved);
    expect(tlsf_realloc(tlsf, moved, 10) == NULL && tlsf_check(tlsf) == -1
               && tlsf_check_pool(tlsf_get_pool(tlsf)) == -1,
           "one with a changed byte in front of it, and the check tells it");
    memcpy((unsigned char *)moved - 8, kept, 8);
    expect(tlsf_check(tlsf) == 0 && tlsf_block_size(moved) == 3000, "whole again");
}

/* Writes at a place the front that a live block would have there: its own, with the distance
 * added. */
static void forge_front(unsigned char *at, const unsigned char *live)
{
    uint64_t front;
    memcpy(&front, live - 8, 8);
    front += (uint64_t)(at - live);
    memcpy(at - 8, &front, 8);
}

/* A whole front where no block begins. tlsf_block_size gets no heap, and looks at no more than
 * it. */
static void forged_fronts(void)
{
    tlsf_t tlsf = tlsf_create_with_pool(memory, sizeof memory),
           other = tlsf_create_with_pool(other_memory, sizeof other_memory);
    unsigned char *one = (unsigned char *)tlsf_malloc(tlsf, 1000),
                  *far = (unsigned char *)tlsf_malloc(other, 1000);
    bool good = true;
    for (size_t skip = 8; skip <= 900; skip += 8) {
        forge_front(one + skip, one);
        forge_front(far + skip, one);
        good = good && refuses(tlsf, one + skip) && tlsf_live_size(tlsf, one + skip) == 0
               && refuses(other, far + skip) && tlsf_live_size(other, far + skip) == 0
               && refuses(tlsf, far + skip)
               && tlsf_block_size(one + skip) == (skip % 16 == 0 ? 1000 : 0);
    }
    expect(good && tlsf_live_size(tlsf, one) == 1000 && tlsf_live_size(other, far) == 1000,
           "a whole front where no block begins is of no block");
}

/* A front of the block before it became smaller, and one of another block of its size: the check
 * tells each. */
static void other_fronts(void)
{
    tlsf_t tlsf = tlsf_create_with_pool(memory, sizeof memory);
    unsigned char *one = (unsigned char *)tlsf_malloc(tlsf, 200),
                  *two = (unsigned char *)tlsf_malloc(tlsf, 104), before[8], now[8];
    memcpy(before, one - 8, 8);
    bool good = tlsf_realloc(tlsf, one, 104) == one && tlsf_check(tlsf) == 0;
    memcpy(now, one - 8, 8);
    memcpy(one - 8, before, 8);
    expect(good && tlsf_check(tlsf) == -1 && tlsf_check_pool(tlsf_get_pool(tlsf)) == -1,
           "a front with another size is told");
    forge_front(one, two);
    expect(tlsf_check(tlsf) == -1 && tlsf_live_size(tlsf, one) == 0 && tlsf_block_size(one) == 104,
           "so is one with another slot");
    tlsf_free(tlsf, one);
    memcpy(one - 8, now, 8);
    expect(tlsf_check(tlsf) == 0 && tlsf_live_size(tlsf, one) == 104
               && tlsf_live_size(tlsf, two) == 104,
           "and both blocks are kept");
}

/* Each byte of a front, in each way: the check tells it, no call takes the pointer for its block,
 * and with the byte as it was all is whole. */
static void each_byte_in_front(void)
{
    tlsf_t tlsf = tlsf_create_with_pool(memory, sizeof memory);
    unsigned char *one = (unsigned char *)tlsf_malloc(tlsf, 40);
    bool told = true, kept = true;
    for (unsigned k = 0; k < 8 * 255; k++) {
        unsigned char *at = one - 1 - k % 8, change = (unsigned char)(1 + k / 8);
        *at ^= change;
        told = told && tlsf_check(tlsf) == -1 && tlsf_live_size(tlsf, one) == 0
               && tlsf_block_size(one) == 0;
        tlsf_free(tlsf, one);
        kept = kept && tlsf_realloc(tlsf, one, 80) == NULL && has(tlsf_get_pool(tlsf), 1, 1);
        *at ^= change;
    }
    expect(told && tlsf_check(tlsf) == 0, "each changed byte in front of a block is told");
    expect(kept && tlsf_block_size(one) == 40, "and the block is kept");
}

/* A size and a slot take 42 bits of a front before it is scrambled. A bit above them, in each
 * place: no call takes the pointer for its block. */
static void each_bit_too_many(void)
{
    tlsf_t tlsf = tlsf_create_with_pool(memory, sizeof memory);
    unsigned char *one = (unsigned char *)tlsf_malloc(tlsf, 40);
    bool told = true;
    for (unsigned bit = 42; bit < 64; bit++) {
        uint64_t whole, front;
        memcpy(&whole, one - 8, 8);
        front = whole + ((uint64_t)1 << bit) * 0x9e3779b97f4a7c15u;
        memcpy(one - 8, &front, 8);
        told = told && tlsf_block_size(one) == 0 && tlsf_live_size(tlsf, one) == 0
               && tlsf_check(tlsf) == -1;
        memcpy(one - 8, &whole, 8);
    }
    expect(told && tlsf_block_size(one) == 40 && tlsf_check(tlsf) == 0,
           "each bit too many in front of a block is told");
}

/* A byte behind a block is the next one's front. */
static void overruns(void)
{
    tlsf_t tlsf = tlsf_create_with_pool(memory, sizeof memory);
    unsigned char *blocks[3];
    for (int k = 0; k < 3; k++) {
        blocks[k] = (unsigned char *)tlsf_malloc(tlsf, 24);
        memset(blocks[k], 0xff, tlsf_block_size(blocks[k]));
    }
    expect(tlsf_check(tlsf) == 0 && tlsf_check_pool(tlsf_get_pool(tlsf)) == 0,
           "bytes of blocks may be anything");
    blocks[0][24] ^= 1;
    blocks[1][31] ^= 1;
    expect(tlsf_check(tlsf) == -2 && tlsf_check_pool(tlsf_get_pool(tlsf)) == -2,
           "two overruns are counted");
    tlsf_free(tlsf, blocks[1]);
    expect(count(tlsf_get_pool(tlsf)).live == 3, "a block with a spoiled front stays live");
    pool_t pool = tlsf_add_pool(tlsf, other_memory, 4096);
    unsigned char *last = (unsigned char *)tlsf_malloc(tlsf, 3000);
    last[-1] ^= 1;
    expect(tlsf_check(tlsf) == -3 && tlsf_check_pool(pool) == -1, "each pool is looked at");
    memset(memory + 512, 0xff, 256);
    expect(tlsf_check(tlsf) == -1 && tlsf_check_pool(tlsf_get_pool(tlsf)) == -1,
           "a spoiled table is told");
    memory[0] ^= 1;
    expect(tlsf_check(tlsf) == -1 && tlsf_malloc(tlsf, 1) == NULL && tlsf_check_pool(pool) == -1
               && has(pool, 0, 0),
           "a spoiled heap is none");
}

/* What a hook was told last, and how often. */
struct told {
    enum tlsf_refusal what;
    const void *ptr;
    size_t bytes, calls;
};

static void tell(enum tlsf_refusal what, const void *ptr, size_t bytes, void *user)
{
    struct told *told = (struct told *)user;
    *told = (struct told){what, ptr, bytes, told->calls + 1};
}

/* Whether so many calls told it since the last time that this was asked, the last of them this. */
static bool was_told(struct told *told, size_t calls, enum tlsf_refusal what, const void *ptr,
                     size_t bytes)
{
    bool good =
        told->calls == calls && told->what == what && told->ptr == ptr && told->bytes == bytes;
    told->calls = 0;
    return good;
}

static size_t refused(tlsf_t tlsf, enum tlsf_refusal what)
{
    tlsf_figures figures;
    return tlsf_stats(tlsf, &figures) == 0 ? figures.refusals[what] : SIZE_MAX;
}

static void refused_requests(void)
{
    struct told told = {TLSF_REFUSALS, NULL, 0, 0};
    tlsf_t tlsf = tlsf_create_records(memory, 32768, 2);
    tlsf_set_refusal_hook(tlsf, tell, &told);
    bool good = tlsf_malloc(tlsf, 40000) == NULL
                && was_told(&told, 1, TLSF_REFUSED_NO_FIT, NULL, 40000)
                && tlsf_malloc(tlsf, SIZE_MAX) == NULL
                && was_told(&told, 1, TLSF_REFUSED_NO_FIT, NULL, SIZE_MAX)
                && tlsf_memalign(tlsf, 64, 40000) == NULL
                && was_told(&told, 1, TLSF_REFUSED_NO_FIT, NULL, 40000);
    void *one = tlsf_malloc(tlsf, 100);
    good = good && tlsf_realloc(tlsf, one, 40000) == NULL
           && was_told(&told, 1, TLSF_REFUSED_NO_FIT, one, 40000)
           && tlsf_realloc(tlsf, one, SIZE_MAX) == NULL
           && was_told(&told, 1, TLSF_REFUSED_NO_FIT, one, SIZE_MAX);
    expect(good && refused(tlsf, TLSF_REFUSED_NO_FIT) == 5,
           "requests without room are told: no fit");
    good = tlsf_malloc(tlsf, 100) == NULL && was_told(&told, 1, TLSF_REFUSED_TABLE_FULL, NULL, 100)
           && tlsf_memalign(tlsf, 64, 100) == NULL
           && was_told(&told, 1, TLSF_REFUSED_TABLE_FULL, NULL, 100)
           && tlsf_realloc(tlsf, NULL, 100) == NULL
           && was_told(&told, 1, TLSF_REFUSED_TABLE_FULL, NULL, 100);
    expect(good && refused(tlsf, TLSF_REFUSED_TABLE_FULL) == 3,
           "requests without a record are told: table full");
    good =
        tlsf_memalign(tlsf, 48, 1) == NULL && was_told(&told, 1, TLSF_REFUSED_ALIGNMENT, NULL, 1)
        && tlsf_memalign(tlsf, 3, 2) == NULL && was_told(&told, 1, TLSF_REFUSED_ALIGNMENT, NULL, 2)
        && tlsf_memalign(tlsf, 1 << 22, 1) == NULL
        && was_told(&told, 1, TLSF_REFUSED_ALIGNMENT, NULL, 1) && tlsf_memalign(tlsf, 0, 5) == NULL
        && was_told(&told, 1, TLSF_REFUSED_ALIGNMENT, NULL, 5);
    expect(good && refused(tlsf, TLSF_REFUSED_ALIGNMENT) == 4, "alignments are told");
    tlsf_free(tlsf, NULL);
    good = tlsf_malloc(tlsf, 0) == NULL && tlsf_memalign(tlsf, 48, 0) == NULL
           && tlsf_realloc(tlsf, NULL, 0) == NULL && tlsf_realloc(tlsf, one, 0) == NULL;
    expect(good && told.calls == 0, "no bytes and no pointer are no refusal");
    tlsf_set_refusal_hook(tlsf, NULL, NULL);
    good = tlsf_malloc(tlsf, 40000) == NULL && told.calls == 0;
    expect(good && refused(tlsf, TLSF_REFUSED_NO_FIT) == 6, "without a hook it is counted");
    tlsf_set_refusal_hook(NULL, tell, &told);
    expect(tlsf_malloc(NULL, 1) == NULL && told.calls == 0, "no heap tells nothing");
}

/* A realloc that has to move, and a tight fit, each without a record for the rest. */
static void refused_once(void)
{
    struct told told = {TLSF_REFUSALS, NULL, 0, 0}, other = told;
    tlsf_t tlsf = tlsf_create_records(memory, 32768, 3);
    void *one = tlsf_malloc(tlsf, 100), *two = tlsf_malloc(tlsf, 100);
    tlsf_set_refusal_hook(tlsf, tell, &told);
    bool good = two != NULL && tlsf_realloc(tlsf, one, 200) == NULL
                && was_told(&told, 1, TLSF_REFUSED_TABLE_FULL, one, 200);
    expect(good && refused(tlsf, TLSF_REFUSED_TABLE_FULL) == 1
               && refused(tlsf, TLSF_REFUSED_NO_FIT) == 0 && tlsf_live_size(tlsf, one) == 104,
           "a realloc without a record is told once: table full");
    tlsf_set_refusal_hook(tlsf, tell, &other);
    good = tlsf_malloc(tlsf, 40000) == NULL && told.calls == 0
           && was_told(&other, 1, TLSF_REFUSED_NO_FIT, NULL, 40000);
    expect(good, "a hook that is set anew gets the new user");
    tlsf = tlsf_create_records(memory, control_bytes(1), 1);
    tlsf_add_pool(tlsf, other_memory, 2096 + 16);
    tlsf_set_refusal_hook(tlsf, tell, &told);
    good =
        tlsf_malloc(tlsf, 2072) == NULL && was_told(&told, 1, TLSF_REFUSED_TABLE_FULL, NULL, 2072);
    expect(good && refused(tlsf, TLSF_REFUSED_TABLE_FULL) == 1
               && refused(tlsf, TLSF_REFUSED_NO_FIT) == 0,
           "a block of the class below, without a record for its rest, is told: table full");
    tlsf = tlsf_create_records(memory, control_bytes(2), 2);
    tlsf_add_pool(tlsf, other_memory, 2080 + 16);
    tlsf_set_refusal_hook(tlsf, tell, &told);
    expect(tlsf_malloc(tlsf, 2073) == NULL && was_told(&told, 1, TLSF_REFUSED_NO_FIT, NULL, 2073)
               && refused(tlsf, TLSF_REFUSED_TABLE_FULL) == 0,
           "and one that is too small, with a record: no fit");
}

/* A free and a realloc of a pointer, each refused as this. */
static bool both_tell(tlsf_t tlsf, struct told *told, enum tlsf_refusal what, void *ptr)
{
    size_t before = refused(tlsf, what);
    tlsf_free(tlsf, ptr);
    bool good = was_told(told, 1, what, ptr, 0) && tlsf_realloc(tlsf, ptr, 7) == NULL;
    return was_told(told, 1, what, ptr, 7) && good && refused(tlsf, what) == before + 2;
}

static void refused_pointers(void)
{
    struct told told = {TLSF_REFUSALS, NULL, 0, 0};
    tlsf_t tlsf = tlsf_create_with_pool(memory, sizeof memory);
    tlsf_set_refusal_hook(tlsf, tell, &told);
    unsigned char *one = (unsigned char *)tlsf_malloc(tlsf, 100),
                  *two = (unsigned char *)tlsf_malloc(tlsf, 100);
    _Alignas(16) unsigned char on_stack[64] = {0};
    memset(two, 0x5a, 100);
    tlsf_free(tlsf, one);
    expect(both_tell(tlsf, &told, TLSF_REFUSED_POINTER, one)
               && both_tell(tlsf, &told, TLSF_REFUSED_FRONT, two + 16)
               && both_tell(tlsf, &told, TLSF_REFUSED_POINTER, two + 1)
               && both_tell(tlsf, &told, TLSF_REFUSED_POINTER, on_stack + 16)
               && both_tell(tlsf, &told, TLSF_REFUSED_POINTER, tlsf),
           "a stale, an interior and a foreign pointer are told, and where no front can be");
    tlsf_add_pool(tlsf, other_memory, 4096);
    unsigned char *blocks[2] = {two, NULL}, kept[8];
    while (blocks[1] < other_memory || blocks[1] >= other_memory + 4096) {
        blocks[1] = (unsigned char *)tlsf_malloc(tlsf, 3000);
    }
    bool spoiled = true;
    for (int k = 0; k < 2; k++) {
        memcpy(kept, blocks[k] - 8, 8);
        for (size_t bytes = 1; bytes <= 8; bytes++) {
            memset(blocks[k] - bytes, 0xee, bytes);
            spoiled = spoiled && both_tell(tlsf, &told, TLSF_REFUSED_FRONT, blocks[k]);
            memcpy(blocks[k] - 8, kept, 8);
            memset(blocks[k] - 8, 0xee, bytes);
            spoiled = spoiled && both_tell(tlsf, &told, TLSF_REFUSED_FRONT, blocks[k]);
            memcpy(blocks[k] - 8, kept, 8);
        }
        tlsf_free(tlsf, blocks[k]);
    }
    expect(spoiled, "a live block's pointer whose front was written over is told as that");
    expect(told.calls == 0 && tlsf_check(tlsf) == 0, "and freed where the front is as it was");
}

static void figures(void)
{
    tlsf_figures figures = {.blocks_live = 4711}, before;
    expect(tlsf_stats(NULL, &figures) == -1 && figures.blocks_live == 4711,
           "no figures of no heap");
    tlsf_t tlsf = tlsf_create_records(memory, tlsf_size_records(9), 9);
    bool good = tlsf_stats(tlsf, &before) == 0 && before.bytes_live == 0 && before.bytes_free == 0
                && before.blocks_live == 0 && before.largest_request == 0
                && before.largest_free == 0 && before.records == 9 && before.records_used == 0;
    expect(good, "of a heap without a pool");
    tlsf_add_pool(tlsf, other_memory + 8, 4096);
    void *one = tlsf_malloc(tlsf, 100), *two = tlsf_malloc(tlsf, 1000);
    good = tlsf_stats(tlsf, &figures) == 0 && figures.bytes_live == 104 + 1000
           && figures.blocks_live == 2 && figures.records_used == 3
           && figures.bytes_free == 4096 - 112 - 1008 && figures.most_bytes_live == 1104;
    /* 2,976 bytes are of the class from 2,944 to 3,008. */
    expect(good && figures.largest_request == 2944 - 8 && figures.largest_free == 3008 - 16 - 8,
           "of two blocks and a free one");
    tlsf_free(tlsf, one);
    two = tlsf_realloc(tlsf, two, 500);
    good = tlsf_stats(tlsf, &figures) == 0 && figures.bytes_live == 504 && figures.blocks_live == 1
           && figures.records_used == 3 && figures.bytes_free == 4096 - 512
           && figures.most_bytes_live == 1104;
    expect(good && two != NULL, "a block that is free, and one that shrinks");
    two = tlsf_realloc(tlsf, two, 3000);
    good = tlsf_stats(tlsf, &figures) == 0 && figures.bytes_live == 3000
           && figures.most_bytes_live == 3000;
    expect(good && two != NULL, "and one that grows");
}

/* A control part that has forgotten its pools: no call looks for a block's pool behind the
 * eight. */
static void forgotten_pools(void)
{
    enum { AT = 8 + 8, BYTES = 8 * 32 };
    tlsf_t tlsf = tlsf_create_with_pool(memory, sizeof memory);
    void *one = tlsf_malloc(tlsf, 100);
    memset(memory + AT, 0, BYTES);
    expect(one != NULL && tlsf_get_pool(tlsf) == NULL && tlsf_malloc(tlsf, 100) == NULL
               && tlsf_memalign(tlsf, 64, 100) == NULL && tlsf_realloc(tlsf, one, 2000) == NULL,
           "where the pools are forgotten no block is handed out");
    expect(tlsf_check(tlsf) == -1, "and the check tells it");
}

/* The bytes of the control part, without what is in front of the table. */
static size_t control_part(void) { return tlsf_size_records(0) - 8 - 1696; }

/* Each byte of the control part in turn, with each other value. */
static void each_byte_of_control(tlsf_t tlsf, const pool_t pools[3])
{
    size_t told = 0, of_pool[3] = {0}, changes = 255 * control_part();
    for (size_t k = 0; k < changes; k++) {
        unsigned char *at = (unsigned char *)tlsf + k / 255, change = (unsigned char)(1 + k % 255);
        *at ^= change;
        told += tlsf_check(tlsf) < 0;
        for (int pool = 0; pool < 3; pool++) {
            of_pool[pool] += tlsf_check_pool(pools[pool]) < 0;
        }
        *at ^= change;
    }
    expect(told == changes, "each byte of the control part, changed to each other value, is told");
    expect(of_pool[0] == changes && of_pool[1] == changes && of_pool[2] == changes,
           "and by the check of a pool");
}

/* Pieces of the control part are overwritten, or copied over others. */
static void pieces_of_control(tlsf_t tlsf)
{
    unsigned char kept[512], *control = (unsigned char *)tlsf;
    bool told = true;
    memcpy(kept, control, control_part());
    for (size_t at = 0; at < control_part(); at += 8) {
        for (size_t bytes = 8; bytes <= 64 && at + bytes <= control_part(); bytes += 8) {
            memset(control + at, (int)at + 1, bytes);
            told = told && tlsf_check(tlsf) < 0;
            memcpy(control, kept, control_part());
        }
        for (size_t from = 0; from + 32 <= control_part() && at + 32 <= control_part(); from += 8) {
            memcpy(control + at, kept + from, 32);
            bool same = memcmp(control, kept, control_part()) == 0;
            told = told && (tlsf_check(tlsf) == 0) == same;
            memcpy(control, kept, control_part());
        }
    }
    expect(told, "pieces of it that are overwritten or copied are told");
}

/* Each byte of the table in turn, with each of its bits: where it leads to its records they are
 * told, and no other leads the check astray. The records lie between two pieces of 16 bytes, and
 * the rest is behind. */
static void each_byte_of_table(void)
{
    enum { RECORDS = 40 };
    tlsf_t tlsf = tlsf_create_records(memory, tlsf_size_records(RECORDS), RECORDS);
    pool_t pool = tlsf_add_pool(tlsf, other_memory, 4096);
    void *one = tlsf_malloc(tlsf, 100);
    size_t leads = control_part() + 16 + 16 * RECORDS + 16, told = 0, wanted = 0;
    for (size_t at = control_part(); at < tlsf_size_records(RECORDS); at++) {
        bool is =
            (at >= leads && at < leads + sizeof(void *)) || (at >= leads + 8 && at < leads + 16);
        for (int way = 0; way < 8; way++) {
            memory[at] ^= 1u << way;
            bool tells = tlsf_check(tlsf) < 0;
            bool same = tells == (tlsf_check_pool(pool) < 0);
            told += is && tells && same;
            wanted += is;
            memory[at] ^= 1u << way;
        }
    }
    expect(one != NULL && told == wanted && wanted == 8 * (8 + sizeof(void *))
               && tlsf_check(tlsf) == 0,
           "a table that leads elsewhere than to its records is told");
}

/* An entry behind the eight, which says that it is the hundredth: its last four bytes are its
 * number. */
static void ninth_pool(void)
{
    uint32_t number = 100;
    tlsf_t tlsf = tlsf_create_records(memory, tlsf_size_records(12), 12);
    pool_t first = tlsf_add_pool(tlsf, other_memory, 2048);
    unsigned char *entry = (unsigned char *)first + 32 * number;
    memcpy(entry, first, 28);
    memcpy(entry + 28, &number, 4);
    expect(tlsf_check_pool(first) == 0 && tlsf_check_pool(entry) == -1 && has(entry, 0, 0),
           "an entry that isn't of the eight is no pool");
}

/* A whole table, but of before: what the control part has since then the check misses there. */
static void table_of_before(void)
{
    unsigned char kept[4096], *table = memory + control_part();
    size_t bytes = tlsf_size_records(12) - control_part();
    tlsf_t tlsf = tlsf_create_records(memory, tlsf_size_records(12), 12);
    pool_t first = tlsf_add_pool(tlsf, other_memory, 2048);
    void *one = tlsf_malloc(tlsf, 100);
    memcpy(kept, table, bytes);
    pool_t second = tlsf_add_pool(tlsf, other_memory + 4096, 2048);
    expect(tlsf_check(tlsf) == 0 && tlsf_check_pool(second) == 0, "a pool is added");
    memcpy(table, kept, bytes);
    expect(tlsf_check(tlsf) < 0 && tlsf_check_pool(second) < 0 && tlsf_check_pool(first) == 0,
           "one that the table doesn't have is told");
    tlsf = tlsf_create_records(memory, tlsf_size_records(12), 12);
    first = tlsf_add_pool(tlsf, other_memory, 2048);
    memcpy(kept, table, bytes);
    tlsf_remove_pool(tlsf, first);
    first = tlsf_add_pool(tlsf, other_memory, 1024);
    memcpy(table, kept, bytes);
    expect(tlsf_check(tlsf) < 0 && tlsf_check_pool(first) < 0, "so is one that is longer there");
    tlsf = tlsf_create_records(memory, tlsf_size_records(12), 12);
    first = tlsf_add_pool(tlsf, other_memory, 2048);
    memcpy(kept, table, bytes);
    one = tlsf_malloc(tlsf, 100);
    expect(one != NULL && tlsf_check(tlsf) == 0, "a block is live");
    memcpy(table, kept, bytes);
    expect(tlsf_check(tlsf) < 0 && tlsf_check_pool(first) < 0, "one that isn't there is missed");
}

static void spoiled_control(void)
{
    struct told told = {TLSF_REFUSALS, NULL, 0, 0};
    tlsf_t tlsf = tlsf_create_records(memory, tlsf_size_records(12), 12);
    pool_t pools[3];
    for (int k = 0; k < 3; k++) {
        pools[k] = tlsf_add_pool(tlsf, other_memory + 4096 * k + 8 * k, 2048);
    }
    void *one = tlsf_malloc(tlsf, 1500), *two = tlsf_malloc(tlsf, 1600),
         *three = tlsf_malloc(tlsf, 100);
    tlsf_set_refusal_hook(tlsf, tell, &told);
    tlsf_free(tlsf, one);
    tlsf_free(tlsf, one);
    expect(two != NULL && three != NULL && tlsf_malloc(tlsf, 4000) == NULL && told.calls == 2
               && tlsf_check(tlsf) == 0,
           "a heap that was in use is whole");
    each_byte_of_control(tlsf, pools);
    pieces_of_control(tlsf);
    expect(tlsf_check(tlsf) == 0 && tlsf_malloc(tlsf, 100) != NULL && tlsf_check(tlsf) == 0,
           "and with its bytes as they were it is whole");
}

static void free_block(void *ptr, size_t size, int used, void *user)
{
    (void)size;
    if (used) {
        tlsf_free((tlsf_t)user, ptr);
    }
}

/* A heap whose walker ends it: how often it is called. */
struct ending {
    tlsf_t tlsf;
    pool_t pool;
    size_t calls, ends_at;
    bool whole;
    unsigned char *behind; /* where the last block ended, with the next one's front */
    bool in_order;
};

static void end_all(void *ptr, size_t size, int used, void *user)
{
    struct ending *ending = (struct ending *)user;
    ending->in_order = ending->in_order && (ending->behind == NULL || ptr == ending->behind);
    ending->behind = (unsigned char *)ptr + size + 8;
    if (++ending->calls > ending->ends_at) {
        return;
    }
    free_block(ptr, size, used, ending->tlsf);
    if (ending->calls == ending->ends_at && ending->whole) {
        tlsf_destroy(ending->tlsf);
    } else if (ending->calls == ending->ends_at) {
        tlsf_remove_pool(ending->tlsf, ending->pool);
    }
}

/* The walker goes on to the end of the 64 blocks that were read. Then there are no more. */
static void walks_that_end(void)
{
    for (int whole = 0; whole < 2; whole++) {
        tlsf_t tlsf = tlsf_create_with_pool(memory, sizeof memory);
        for (int k = 0; k < 100; k++) {
            tlsf_malloc(tlsf, 100);
        }
        struct ending ending = {tlsf, tlsf_get_pool(tlsf), 0, whole ? 3 : 101, whole, NULL, true};
        tlsf_walk_pool(ending.pool, end_all, &ending);
        expect(ending.calls == (whole ? 64 : 101) && ending.in_order && tlsf_get_pool(tlsf) == NULL
                   && has(ending.pool, 0, 0),
               whole ? "a walker may end the heap" : "a walker may end the pool");
    }
}

static void grow_next(void *ptr, size_t size, int used, void *user)
{
    struct ending *ending = (struct ending *)user;
    (void)ptr, (void)size;
    ending->calls += used != 0;
    if (ending->calls <= ending->ends_at) {
        tlsf_malloc(ending->tlsf, 64);
    }
}

/* Blocks that are made behind what was read are met. */
static void walks_that_grow(void)
{
    tlsf_t tlsf = tlsf_create_with_pool(memory, sizeof memory);
    for (int k = 0; k < 64; k++) {
        tlsf_malloc(tlsf, 64);
    }
    struct ending ending = {tlsf, NULL, 0, 10, false, NULL, true};
    tlsf_walk_pool(tlsf_get_pool(tlsf), grow_next, &ending);
    expect(ending.calls == 74 && tlsf_check(tlsf) == 0, "a walker may allocate");
}

/* No call takes this for a heap, or its entry for a pool: it is a copy of a heap that has a
 * block. */
static bool is_none(unsigned char *copy, tlsf_t heap, void *one)
{
    size_t bytes = tlsf_size_records(8);
    tlsf_figures figures;
    pool_t pool = copy + ((unsigned char *)tlsf_get_pool(heap) - (unsigned char *)heap);
    struct told told = {TLSF_REFUSALS, NULL, 0, 0};
    bool good = tlsf_check(copy) == -1 && tlsf_malloc(copy, 1) == NULL
                && tlsf_memalign(copy, 64, 1) == NULL && tlsf_realloc(copy, one, 300) == NULL
                && tlsf_realloc(copy, one, 0) == NULL && tlsf_live_size(copy, one) == 0
                && tlsf_stats(copy, &figures) == -1 && tlsf_get_pool(copy) == NULL
                && tlsf_check_pool(pool) == -1 && has(pool, 0, 0);
    tlsf_free(copy, one);
    tlsf_remove_pool(copy, tlsf_get_pool(heap));
    tlsf_set_refusal_hook(copy, tell, &told);
    good = good && tlsf_add_pool(copy, other_memory, 1000) == NULL
           && tlsf_malloc(copy, SIZE_MAX) == NULL && told.calls == 0
           && memcmp(copy, heap, bytes) == 0;
    tlsf_destroy(copy);
    return good && memcmp(copy, heap, bytes) == 0 && tlsf_live_size(heap, one) == 104
           && tlsf_check(heap) == 0;
}

/* Copies near and far, up to 4 GiB behind the heap. A near one lies over the heap, which has
 * moved. */
static void copies(unsigned char *large)
{
    static const size_t near[] = {8, 16, 32, 64, 224, 256, 400};
    static const size_t far[] = {2400, 4096, 65536, 1 << 24, GIGABYTE, 2 * GIGABYTE, 4 * GIGABYTE};
    bool none = true;
    for (size_t k = 0; k < sizeof near / sizeof near[0] + sizeof far / sizeof far[0]; k++) {
        bool is_far = k >= sizeof near / sizeof near[0];
        unsigned char *copy = large + (is_far ? far[k - sizeof near / sizeof near[0]] : near[k]);
        tlsf_t tlsf = tlsf_create_records(large, tlsf_size_records(8), 8);
        tlsf_add_pool(tlsf, memory, 4096);
        void *one = tlsf_malloc(tlsf, 100);
        memmove(copy, large, tlsf_size_records(8));
        none = none && (is_far ? is_none(copy, tlsf, one) : tlsf_check(copy) == -1)
               && tlsf_malloc(copy, 1) == NULL && tlsf_get_pool(copy) == NULL;
        memset(copy, 0, tlsf_size_records(8));
    }
    expect(none, "a copy of a heap is none, near or far");
}

static void shrink_last(void *ptr, size_t size, int used, void *user)
{
    struct ending *ending = (struct ending *)user;
    (void)size;
    if (++ending->calls == ending->ends_at && used) {
        tlsf_realloc(ending->tlsf, ptr, 20);
    }
}

/* The last block of a piece becomes smaller. The next piece begins at its end of before, and so
 * behind the free block that is left of it. */
static void walks_that_shrink(void)
{
    tlsf_t tlsf = tlsf_create_with_pool(memory, sizeof memory);
    for (int k = 0; k < 100; k++) {
        tlsf_malloc(tlsf, 100);
    }
    struct ending ending = {tlsf, NULL, 0, 64, false, NULL, true};
    tlsf_walk_pool(tlsf_get_pool(tlsf), shrink_last, &ending);
    expect(ending.calls == 101 && has(tlsf_get_pool(tlsf), 100, 2),
           "a walker may make a block smaller");
}

static void ends(void)
{
    tlsf_t tlsf = tlsf_create_with_pool(memory, sizeof memory);
    void *one = NULL;
    for (int k = 0; k < 200; k++) {
        one = tlsf_malloc(tlsf, 10 * (size_t)(k % 20) + 1);
    }
    pool_t pool = tlsf_get_pool(tlsf);
    memcpy(other_memory, memory, sizeof memory);
    expect(tlsf_malloc(other_memory, 1) == NULL && tlsf_check(other_memory) == -1,
           "a copy of a heap is none");
    expect(has(pool, 200, 1), "two hundred blocks");
    tlsf_walk_pool(pool, free_block, tlsf);
    expect(has(pool, 0, 1) && tlsf_check(tlsf) == 0, "a walker may free each block");
    one = tlsf_malloc(tlsf, 10);
    tlsf_destroy(tlsf);
    tlsf_free(tlsf, one);
    expect(tlsf_live_size(tlsf, one) == 0 && tlsf_malloc(tlsf, 1) == NULL
               && tlsf_realloc(tlsf, one, 20) == NULL && tlsf_get_pool(tlsf) == NULL,
           "a heap that is gone has no block");
    expect(tlsf_add_pool(tlsf, other_memory, 1000) == NULL && tlsf_check(tlsf) == -1
               && tlsf_check_pool(pool) == -1 && has(pool, 0, 0),
           "nor a pool");
    tlsf_destroy(tlsf);
    tlsf_destroy(NULL);
    expect(tlsf_create_with_pool(memory, sizeof memory) == tlsf && tlsf_malloc(tlsf, 1000) != NULL,
           "its memory is another heap's");
}

/* Pools that lie far apart. */
static void in_large_memory(void)
{
    size_t room = 5 * GIGABYTE;
    unsigned char *large = (unsigned char *)mmap(
        NULL, room, PROT_READ | PROT_WRITE, MAP_PRIVATE | MAP_ANONYMOUS | MAP_NORESERVE, -1, 0);
    expect((void *)large != MAP_FAILED, "5 GiB of addresses");
    if ((void *)large != MAP_FAILED) {
        overheads(large);
        alignments(large);
        great_alignments(large);
        first_place(large);
        greatest(large);
        places(large);
        all_places(large);
        places_between(large);
        places_removed(large);
        places_below(large);
        copies(large);
        munmap(large, room);
    }
}

int main(void)
{
    exact_memory();
    handed_in();
    creates();
    records();
    capacities();
    limits();
    if (sizeof(void *) > 4) { /* A processor of 32 bits has no addresses for them. */
        in_large_memory();
    }
    tight_fits();
    pools();
    side_by_side();
    own_memory();
    pointers();
    old_pointers();
    forged_fronts();
    other_fronts();
    each_byte_in_front();
    each_bit_too_many();
    overruns();
    refused_requests();
    refused_once();
    refused_pointers();
    figures();
    forgotten_pools();
    spoiled_control();
    each_byte_of_table();
    table_of_before();
    ninth_pool();
    ends();
    walks_that_end();
    walks_that_grow();
    walks_that_shrink();
    return cases_end();
}
