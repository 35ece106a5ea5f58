/* Worked rows of the heap, through tlsf_heap.h. */
#include <string.h>

#include "cases.h"
#include "tlsf_heap.h"

enum { MOST_ROWS = 8 };

/* The last block given, and the block that the last call gave at a place. */
static tlsf_heap heap;
static tlsf_heap_block last;

static void begin(uint32_t records)
{
    tlsf_heap made = {0};
    expect(tlsf_heap_create(records, &made) == TLSF_OK, "create");
    heap = made;
}

static void end(void)
{
    expect(tlsf_heap_check(&heap), "the table is whole at the end");
    tlsf_heap_destroy(&heap);
}

static bool malloc_is(uint64_t bytes, uint32_t place)
{
    return tlsf_heap_malloc(&heap, bytes, &last) == TLSF_OK && last.place == place;
}

/* Refused with this status, and nothing is changed of what the out parameter points to. */
static bool malloc_refused(uint64_t bytes, uint32_t status)
{
    tlsf_heap_block block = {4711, 12};
    return tlsf_heap_malloc(&heap, bytes, &block) == status && block.place == 4711
           && block.slot == 12;
}

/* The pool's rows are these. */
static bool rows_are(uint64_t base, size_t count, const tlsf_heap_row *wanted)
{
    tlsf_heap_row rows[MOST_ROWS];
    uint64_t given = 0;
    if (tlsf_heap_walk(&heap, base, 0, rows, MOST_ROWS, &given) != TLSF_OK || given != count) {
        return false;
    }
    for (size_t k = 0; k < count; k++) {
        if (rows[k].place != wanted[k].place || rows[k].size != wanted[k].size
            || rows[k].used != wanted[k].used) {
            return false;
        }
    }
    return true;
}

static tlsf_heap_block first_split(void)
{
    begin(4);
    expect(tlsf_heap_add_pool(&heap, 0, 1024) == TLSF_OK, "pool (0, 1024)");
    expect(malloc_is(100, 0), "first-split: malloc(100) is place 0");
    const tlsf_heap_row rows[] = {{0, 112, true}, {112, 912, false}};
    expect(rows_are(0, 2, rows), "first-split: rows");
    return last;
}

static void reuse_and_merge(void)
{
    tlsf_heap_block first = first_split();
    expect(malloc_is(1, 112), "reuse-without-split: malloc(1) is place 112");
    tlsf_heap_block second = last;
    expect(tlsf_heap_free(&heap, first) == TLSF_OK, "reuse-without-split: free of place 0");
    expect(malloc_is(100, 0), "reuse-without-split: malloc(100) is place 0 again");
    expect(tlsf_heap_free(&heap, last) == TLSF_OK && tlsf_heap_free(&heap, second) == TLSF_OK,
           "merge-both-sides: frees");
    const tlsf_heap_row rows[] = {{0, 1024, false}};
    expect(rows_are(0, 1, rows), "merge-both-sides: one row");
    end();
}

static void lower_class_not_taken(void)
{
    begin(2);
    tlsf_heap_add_pool(&heap, 0, 1040);
    expect(malloc_refused(1040, TLSF_NO_FIT), "lower-class-not-taken: malloc(1040) is refused");
    expect(malloc_is(1024, 0), "lower-class-not-taken: malloc(1024) is place 0");
    const tlsf_heap_row rows[] = {{0, 1024, true}, {1024, 16, false}};
    expect(rows_are(0, 2, rows), "lower-class-not-taken: rows");
    end();
}

static void full_table(void)
{
    begin(1);
    tlsf_heap_add_pool(&heap, 0, 64);
    expect(malloc_refused(8, TLSF_TABLE_FULL), "full-table: malloc(8) is refused");
    const tlsf_heap_row rows[] = {{0, 64, false}};
    expect(rows_are(0, 1, rows), "full-table: nothing changed");
    expect(malloc_is(64, 0), "full-table: malloc(64) is place 0");
    tlsf_heap_block same = {9, 9};
    expect(tlsf_heap_realloc(&heap, last, 8, &same) == TLSF_OK && same.place == 0
               && same.slot == last.slot,
           "full-table: realloc to 8 keeps the block");
    uint32_t bytes = 0;
    expect(tlsf_heap_block_size(&heap, last, &bytes) == TLSF_OK && bytes == 64,
           "full-table: its size is 64");
    end();
}

static void newest_freed_first(void)
{
    begin(8);
    tlsf_heap_add_pool(&heap, 0, 128);
    tlsf_heap_block blocks[8];
    bool in_order = true;
    for (uint32_t k = 0; k < 8; k++) {
        in_order = malloc_is(8, 16 * k) && in_order;
        blocks[k] = last;
    }
    expect(in_order, "newest-freed-first: eight malloc(8) are places 0, 16, .., 112");
    tlsf_heap_free(&heap, blocks[0]);
    tlsf_heap_free(&heap, blocks[2]);
    expect(malloc_is(8, 32), "newest-freed-first: malloc(8) is 32");
    expect(malloc_is(8, 0), "newest-freed-first: malloc(8) is 0");
    expect(malloc_refused(8, TLSF_NO_FIT), "newest-freed-first: malloc(8) is refused");
    end();
}

static void greatest_class(void)
{
    begin(2);
    tlsf_heap_add_pool(&heap, 0, 1073741808);
    expect(malloc_refused(1056964609, TLSF_NO_FIT),
           "greatest-class: malloc(1056964609) is refused");
    expect(malloc_is(1056964608, 0), "greatest-class: malloc(1056964608) is place 0");
    const tlsf_heap_row rows[] = {{0, 1056964608, true}, {1056964608, 16777200, false}};
    expect(rows_are(0, 2, rows), "greatest-class: rows");
    end();
}

static void pools(void)
{
    begin(4);
    tlsf_heap_add_pool(&heap, 0, 64);
    tlsf_heap_add_pool(&heap, 64, 64);
    expect(malloc_is(64, 0) || last.place == 64, "pools-never-merged: malloc(64)");
    expect(tlsf_heap_free(&heap, last) == TLSF_OK, "pools-never-merged: its free");
    expect(malloc_refused(128, TLSF_NO_FIT), "pools-never-merged: malloc(128) is refused");
    expect(malloc_refused(0, TLSF_ZERO_SIZE), "pools-never-merged: malloc(0) is refused");
    end();
    begin(4);
    expect(tlsf_heap_add_pool(&heap, 4294967232, 64) == TLSF_OK, "pool-limits: (4294967232, 64)");
    expect(tlsf_heap_add_pool(&heap, 4294967240, 64) == TLSF_BAD_POOL,
           "pool-limits: (4294967240, 64)");
    expect(tlsf_heap_add_pool(&heap, 4, 64) == TLSF_BAD_POOL, "pool-limits: (4, 64)");
    expect(tlsf_heap_add_pool(&heap, 8, 64) == TLSF_BAD_POOL, "pool-limits: (8, 64)");
    expect(tlsf_heap_add_pool(&heap, 0, 0) == TLSF_BAD_POOL, "pool-limits: (0, 0)");
    expect(tlsf_heap_add_pool(&heap, 4294967168, 72) == TLSF_BAD_POOL,
           "pool-limits: (4294967168, 72)");
    expect(tlsf_heap_remove_pool(&heap, 8) == TLSF_NO_POOL, "pool-limits: remove_pool(8)");
    expect(malloc_is(16, 4294967232), "pool-limits: a live block in the pool");
    expect(tlsf_heap_remove_pool(&heap, 4294967232) == TLSF_POOL_IN_USE,
           "pool-limits: remove_pool of a used pool");
    expect(tlsf_heap_free(&heap, last) == TLSF_OK
               && tlsf_heap_remove_pool(&heap, 4294967232) == TLSF_OK,
           "pool-limits: and after its free");
    end();
    begin(16);
    for (uint64_t k = 0; k < 8; k++) {
        tlsf_heap_add_pool(&heap, 64 * k, 64);
    }
    expect(tlsf_heap_add_pool(&heap, 4096, 64) == TLSF_POOLS_FULL, "a ninth pool is refused");
    end();
}

static void memalign_row(void)
{
    begin(4);
    tlsf_heap_add_pool(&heap, 16, 256);
    expect(tlsf_heap_memalign(&heap, 64, 32, &last) == TLSF_OK && last.place == 64,
           "memalign-gap-and-rest: memalign(64, 32) is place 64");
    const tlsf_heap_row rows[] = {{16, 48, false}, {64, 32, true}, {96, 176, false}};
    expect(rows_are(16, 3, rows), "memalign-gap-and-rest: rows");
    tlsf_heap_block other = {7, 7};
    expect(tlsf_heap_memalign(&heap, 3, 0, &other) == TLSF_BAD_ALIGN,
           "memalign-gap-and-rest: memalign(3, 0)");
    expect(tlsf_heap_memalign(&heap, 1073741824, 8, &other) == TLSF_BAD_ALIGN,
           "memalign-gap-and-rest: memalign(1073741824, 8)");
    expect(tlsf_heap_memalign(&heap, 8, 0, &other) == TLSF_ZERO_SIZE,
           "memalign-gap-and-rest: memalign(8, 0)");
    expect(other.place == 7 && other.slot == 7, "memalign-gap-and-rest: what out points to stays");
    end();
}

static void realloc_rows(void)
{
    tlsf_heap_block block = first_split();
    expect(tlsf_heap_realloc(&heap, block, 200, &block) == TLSF_OK && block.place == 0,
           "grow-and-shrink-in-place: realloc to 200");
    const tlsf_heap_row grown[] = {{0, 208, true}, {208, 816, false}};
    expect(rows_are(0, 2, grown), "grow-and-shrink-in-place: rows of 200");
    expect(tlsf_heap_realloc(&heap, block, 8, &block) == TLSF_OK && block.place == 0,
           "grow-and-shrink-in-place: realloc to 8");
    const tlsf_heap_row shrunk[] = {{0, 16, true}, {16, 1008, false}};
    expect(rows_are(0, 2, shrunk), "grow-and-shrink-in-place: rows of 8");
    end();
    block = first_split();
    malloc_is(1, 112);
    tlsf_heap_block moved = {0, 0};
    expect(tlsf_heap_realloc(&heap, block, 200, &moved) == TLSF_OK && moved.place == 128,
           "realloc-moves: to place 128");
    const tlsf_heap_row rows[] = {
        {0, 112, false}, {112, 16, true}, {128, 208, true}, {336, 688, false}};
    expect(rows_are(0, 4, rows), "realloc-moves: rows");
    end();
    block = first_split();
    tlsf_heap_block stays = {5, 5};
    expect(tlsf_heap_realloc(&heap, block, 0, &stays) == TLSF_OK && stays.place == 5
               && stays.slot == 5,
           "double-free-and-realloc-to-zero: realloc to 0");
    expect(tlsf_heap_free(&heap, block) == TLSF_BAD_POINTER,
           "double-free-and-realloc-to-zero: a second free is refused");
    expect(tlsf_heap_realloc(&heap, block, 8, &stays) == TLSF_BAD_POINTER && stays.place == 5,
           "double-free-and-realloc-to-zero: so is realloc");
    uint32_t bytes = 77;
    expect(tlsf_heap_block_size(&heap, block, &bytes) == TLSF_BAD_POINTER && bytes == 77,
           "double-free-and-realloc-to-zero: and block_size");
    end();
}

static void walks(void)
{
    first_split();
    tlsf_heap_row rows[2] = {{1, 1, false}, {2, 2, false}};
    uint64_t count = 99;
    expect(tlsf_heap_walk(&heap, 16, 0, rows, 2, &count) == TLSF_NO_POOL && count == 99
               && rows[0].place == 1,
           "a walk of no pool changes nothing");
    expect(tlsf_heap_walk(&heap, 0, 0, rows, 1, &count) == TLSF_OK && count == 2,
           "a walk with room for one row tells that there are two");
    expect(rows[0].size == 112 && rows[0].used && rows[1].place == 2 && rows[1].size == 2,
           "and puts one");
    expect(tlsf_heap_walk(&heap, 0, 0, rows, 0, &count) == TLSF_OK && count == 2,
           "a walk without room counts");
    for (uint64_t from = 1; from <= 112; from += 111) {
        rows[0].place = 0;
        expect(tlsf_heap_walk(&heap, 0, from, rows, 2, &count) == TLSF_OK && count == 1
                   && rows[0].place == 112 && rows[0].size == 912 && rows[1].place == 2,
               "a walk from a place that is behind the first block's");
    }
    expect(tlsf_heap_walk(&heap, 0, 113, rows, 2, &count) == TLSF_OK && count == 0
               && rows[0].place == 112,
           "a walk from behind the last block's");
    expect(tlsf_heap_walk(&heap, 0, UINT64_MAX, rows, 2, &count) == TLSF_OK && count == 0,
           "a walk from the last of all places");
    end();
}

static void counts(void)
{
    tlsf_heap made = {0};
    expect(tlsf_heap_create(0, &made) == TLSF_BAD_COUNT && made.at == NULL, "no records");
    expect(tlsf_heap_create(65536, &made) == TLSF_BAD_COUNT && made.at == NULL, "65,536 records");
    expect(tlsf_heap_create(65535, &made) == TLSF_OK && made.at != NULL, "65,535 records");
    heap = made;
    end();
}

static void wrong_pointers(void)
{
    begin(2);
    tlsf_heap_add_pool(&heap, 0, 64);
    expect(malloc_is(64, 0) && tlsf_heap_free(&heap, last) == TLSF_OK && malloc_is(64, 0),
           "wrong-pointers: a block of place 0");
    const uint16_t slot = last.slot;
    const tlsf_heap_block wrong[] = {{0, (uint16_t)(1 - slot)}, {8, slot}, {0, 65535}};
    for (size_t k = 0; k < sizeof wrong / sizeof *wrong; k++)
        expect(tlsf_heap_free(&heap, wrong[k]) == TLSF_BAD_POINTER,
               "wrong-pointers: a wrong one is refused");
    tlsf_heap_block same = last;
    expect(tlsf_heap_realloc(&heap, last, UINT64_MAX, &same) == TLSF_NO_FIT,
           "wrong-pointers: realloc to 2^64 - 1 is refused");
    expect(tlsf_heap_free(&heap, last) == TLSF_OK, "wrong-pointers: the right one is served");
    end();
}

/* A heap of 2 * lives + pools blocks. One pool has live blocks of 16 bytes, each behind a free one
 * of 16, and a large rest behind them. The other pools are free, of 16 bytes. Answers the first
 * live block. */
static tlsf_heap_block between_holes(uint32_t records, uint32_t lives, uint32_t pools)
{
    tlsf_heap_block blocks[64];
    begin(records);
    bool served = tlsf_heap_add_pool(&heap, 0, 4096) == TLSF_OK;
    for (uint32_t k = 0; k < 2 * lives; k++) {
        served = malloc_is(16, 16 * k) && served;
        blocks[k] = last;
    }
    for (uint32_t k = 0; k < 2 * lives; k += 2) {
        served = tlsf_heap_free(&heap, blocks[k]) == TLSF_OK && served;
    }
    for (uint32_t k = 1; k < pools; k++) {
        served = tlsf_heap_add_pool(&heap, 8192u * k, 16) == TLSF_OK && served;
    }
    expect(served, "live blocks between holes");
    return blocks[1];
}

/* A call that wants one more block, two for an aligned one, was answered with this status: it is
 * served where there are records enough, and else refused. */
static void expect_enough(uint32_t status, bool is_enough, const char *call)
{
    char name[64];
    snprintf(name, sizeof name, "%s %s", call, is_enough ? "with records enough" : "with one less");
    expect(status == (is_enough ? TLSF_OK : TLSF_TABLE_FULL), name);
    end();
}

/* The least number of records with which each call is served beside these live blocks and pools,
 * and one less. */
static void enough(uint32_t lives, uint32_t pools)
{
    for (uint32_t more = 0; more <= 2; more++) {
        uint32_t records = 2 * lives + pools + more;
        tlsf_heap_block given = {4711, 12};
        tlsf_heap_block block = between_holes(records, lives, pools);
        uint32_t status = tlsf_heap_realloc(&heap, block, 100, &given);
        expect((given.place == 4711) == (status != TLSF_OK), "a refused block stays");
        expect_enough(status, more >= 1, "2 L + P + 1: a block moves");
        between_holes(records, lives, pools);
        expect_enough(tlsf_heap_malloc(&heap, 32, &given), more >= 1, "2 L + P + 1: malloc");
        between_holes(records, lives, pools);
        expect_enough(tlsf_heap_memalign(&heap, 2048, 32, &given), more == 2,
                      "2 L + P + 2: memalign");
        if (pools < 8) {
            between_holes(records, lives, pools);
            expect_enough(tlsf_heap_add_pool(&heap, 1048576, 16), more >= 1, "2 L + P + 1: a pool");
        }
    }
}

static void enough_records(void)
{
    enough(2, 1);
    enough(3, 2);
    enough(5, 3);
    enough(20, 8);
}

static void helpers(void)
{
    static _Alignas(16) unsigned char bytes[1024];
    tlsf_heap_block block = first_split();
    unsigned char *at = (unsigned char *)tlsf_heap_address(bytes, block);
    expect(at == bytes, "the address of a block");
    bool refused = true;
    for (size_t inside = 1; inside < 112; inside++) {
        tlsf_heap_block other = tlsf_heap_block_at(bytes, at + inside, block.slot);
        refused = refused && other.place == block.place + inside
                  && tlsf_heap_free(&heap, other) == TLSF_BAD_POINTER;
    }
    expect(refused, "the block at an address inside another is none");
    tlsf_heap_block back = tlsf_heap_block_at(bytes, at, block.slot);
    expect(back.place == block.place && tlsf_heap_free(&heap, back) == TLSF_OK,
           "and the block at an address");
    tlsf_heap_block last = {4294967280u, 7}, there;
    there = tlsf_heap_block_at(NULL, (void *)(uintptr_t)last.place, last.slot);
    expect((uintptr_t)tlsf_heap_address((void *)65536, last) == 65536 + (uintptr_t)last.place
               && there.place == last.place && there.slot == 7,
           "the address of the last place, and its block");
    expect(strcmp(tlsf_heap_status_name(TLSF_TABLE_FULL), "table full") == 0,
           "the name of a status");
    expect(strcmp(tlsf_heap_status_name(12), "unknown") == 0, "of none");
    end();
}

int main(void)
{
    reuse_and_merge();
    lower_class_not_taken();
    full_table();
    newest_freed_first();
    greatest_class();
    pools();
    memalign_row();
    realloc_rows();
    walks();
    counts();
    wrong_pointers();
    enough_records();
    helpers();
    return cases_end();
}
