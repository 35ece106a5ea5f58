/* A long random run through tlsf_heap.h beside a plain model: an array of blocks in order of place,
 * searched from end to end. */
#include <stdlib.h>
#include <string.h>

#include "cases.h"
#include "tlsf_heap.h"

enum { CLASSES = 704, MOST_POOLS = 8, MOST_RECORDS = 40, STATUSES = 12 };
#define GREATEST_SIZE 1073741808u
#define END_OF_PLACES 4294967296u

/* A block. A free one has the time when it was freed: the newest of a class is the first of its
 * list. */
struct block {
    uint64_t place, size, freed_at;
    uint64_t pool; /* where its pool begins */
    uint16_t slot;
    bool live;
};

static struct block blocks[MOST_RECORDS + 2];
static uint64_t count, records, pool_count, now;
static uint64_t pools[MOST_POOLS][2];

static uint64_t state;

static uint64_t below(uint64_t bound)
{
    state ^= state << 13;
    state ^= state >> 7;
    state ^= state << 17;
    return state % bound;
}

/* ---- the model ---- */

static uint64_t low(uint64_t class)
{
    uint64_t level = class / 32, step = class % 32;
    return level == 0 ? 16 * step : (1ull << (level + 8)) + step * (1ull << (level + 3));
}

static uint64_t class_of(uint64_t size)
{
    uint64_t class = 0;
    for (uint64_t c = 0; c < CLASSES; c++) {
        if (low(c) <= size) {
            class = c;
        }
    }
    return class;
}

/* Rounded up to the unit; 0 where that is none. */
static uint64_t rounded(uint64_t bytes)
{
    return bytes == 0 || bytes > GREATEST_SIZE ? 0 : (bytes + 15) / 16 * 16;
}

static void insert(uint64_t at, struct block block)
{
    memmove(&blocks[at + 1], &blocks[at], (count - at) * sizeof block);
    blocks[at] = block;
    count++;
}

static void erase(uint64_t at)
{
    count--;
    memmove(&blocks[at], &blocks[at + 1], (count - at) * sizeof blocks[0]);
}

/* The newest free block of the least class that has one, of the classes whose blocks all have these
 * bytes; or `count` where there is none. */
static uint64_t pick(uint64_t bytes)
{
    uint64_t found = count, best = CLASSES;
    for (uint64_t k = 0; k < count; k++) {
        uint64_t class = class_of(blocks[k].size);
        if (blocks[k].live || low(class) < bytes) {
            continue;
        }
        if (class < best || (class == best && blocks[k].freed_at > blocks[found].freed_at)) {
            best = class;
            found = k;
        }
    }
    return found;
}

/* The block at `at` is split: what is in front of the start, a live block of `bytes`, and what is
 * left behind. */
static void split(uint64_t at, uint64_t start, uint64_t bytes)
{
    struct block old = blocks[at], live = old, gap = old, rest = old;
    erase(at);
    gap.live = rest.live = false;
    gap.size = start - old.place;
    live.place = start;
    live.size = bytes;
    live.live = true;
    rest.place = start + bytes;
    rest.size = old.place + old.size - rest.place;
    if (gap.size > 0) {
        gap.freed_at = ++now;
        insert(at++, gap);
    }
    insert(at, live);
    if (rest.size > 0) {
        rest.freed_at = ++now;
        insert(at + 1, rest);
    }
}

static bool is_power(uint64_t align)
{
    return align != 0 && align <= 1u << 29 && (align & (align - 1)) == 0;
}

/* malloc is memalign with the unit; the place goes to *place. */
static uint32_t model_memalign(uint64_t align, uint64_t bytes, uint64_t *place)
{
    if (!is_power(align)) {
        return TLSF_BAD_ALIGN;
    }
    if (bytes == 0) {
        return TLSF_ZERO_SIZE;
    }
    uint64_t m = rounded(bytes);
    uint64_t at = m == 0 ? count : pick(align <= 16 ? m : m + align - 16);
    if (at == count) {
        return TLSF_NO_FIT;
    }
    uint64_t start = (blocks[at].place + align - 1) / align * align;
    uint64_t more = (start > blocks[at].place) + (start + m < blocks[at].place + blocks[at].size);
    if (count + more > records) {
        return TLSF_TABLE_FULL;
    }
    split(at, start, m);
    *place = start;
    return TLSF_OK;
}

static uint64_t find_live(tlsf_heap_block block)
{
    for (uint64_t k = 0; k < count; k++) {
        if (blocks[k].live && blocks[k].place == block.place && blocks[k].slot == block.slot) {
            return k;
        }
    }
    return count;
}

static bool is_free_beside(uint64_t at, uint64_t other)
{
    return other < count && !blocks[other].live && blocks[other].pool == blocks[at].pool;
}

static void model_release(uint64_t at)
{
    blocks[at].live = false;
    if (is_free_beside(at, at + 1)) {
        blocks[at].size += blocks[at + 1].size;
        erase(at + 1);
    }
    if (at > 0 && is_free_beside(at, at - 1)) {
        at--;
        blocks[at].size += blocks[at + 1].size;
        erase(at + 1);
    }
    blocks[at].freed_at = ++now;
}

/* Whether it moves goes to *moves, and where it is then to *place. */
static uint32_t model_realloc(tlsf_heap_block block, uint64_t bytes, uint64_t *place, bool *moves)
{
    uint64_t at = find_live(block);
    *moves = false;
    if (at == count) {
        return TLSF_BAD_POINTER;
    }
    *place = block.place;
    if (bytes == 0) {
        model_release(at);
        return TLSF_OK;
    }
    uint64_t m = rounded(bytes), size = blocks[at].size;
    if (m == 0) {
        return TLSF_NO_FIT;
    }
    bool has_next = is_free_beside(at, at + 1);
    uint64_t all = size + (has_next ? blocks[at + 1].size : 0);
    if (m == size || (m < size && !has_next && count >= records)) {
        return TLSF_OK;
    }
    if (m <= all) {
        uint16_t slot = blocks[at].slot;
        blocks[at].size = all;
        if (has_next) {
            erase(at + 1);
        }
        split(at, block.place, m);
        blocks[at].slot = slot;
        return TLSF_OK;
    }
    uint32_t status = model_memalign(16, bytes, place);
    if (status == TLSF_OK) {
        *moves = true;
        model_release(find_live(block));
    }
    return status;
}

static uint32_t model_add_pool(uint64_t base, uint64_t bytes)
{
    if (base % 16 != 0 || bytes % 16 != 0 || bytes < 16 || bytes > GREATEST_SIZE
        || base > END_OF_PLACES || base + bytes > END_OF_PLACES) {
        return TLSF_BAD_POOL;
    }
    for (uint64_t k = 0; k < pool_count; k++) {
        if (base < pools[k][0] + pools[k][1] && pools[k][0] < base + bytes) {
            return TLSF_BAD_POOL;
        }
    }
    if (pool_count == MOST_POOLS) {
        return TLSF_POOLS_FULL;
    }
    if (count == records) {
        return TLSF_TABLE_FULL;
    }
    struct block whole = {base, bytes, ++now, base, 0, false};
    uint64_t at = 0;
    while (at < count && blocks[at].place < base) {
        at++;
    }
    insert(at, whole);
    pools[pool_count][0] = base;
    pools[pool_count++][1] = bytes;
    return TLSF_OK;
}

static uint32_t model_remove_pool(uint64_t base)
{
    for (uint64_t k = 0; k < pool_count; k++) {
        if (pools[k][0] == base) {
            for (uint64_t at = 0; at < count; at++) {
                if (blocks[at].place == base && blocks[at].size == pools[k][1]
                    && !blocks[at].live) {
                    erase(at);
                    pools[k][0] = pools[pool_count - 1][0];
                    pools[k][1] = pools[--pool_count][1];
                    return TLSF_OK;
                }
            }
            return TLSF_POOL_IN_USE;
        }
    }
    return TLSF_NO_POOL;
}

/* ---- the run ---- */

static tlsf_heap heap;
static uint64_t met[STATUSES], calls, moved;

static bool slot_is_new(uint16_t slot, uint64_t except)
{
    for (uint64_t k = 0; k < count; k++) {
        if (blocks[k].live && blocks[k].place != except && blocks[k].slot == slot) {
            return false;
        }
    }
    return slot < records;
}

/* A block that was given is where the model has it, with a slot of its own that the model takes. */
static bool takes(tlsf_heap_block given, uint64_t place)
{
    for (uint64_t k = 0; k < count; k++) {
        if (blocks[k].live && blocks[k].place == place && given.place == place) {
            blocks[k].slot = given.slot;
            return slot_is_new(given.slot, place);
        }
    }
    return false;
}

static uint64_t some_bytes(void)
{
    switch (below(12)) {
    case 0: return 0;
    case 1: return GREATEST_SIZE + 1 - below(3);
    case 2: return below(3000);
    default: return 1 + below(400);
    }
}

/* A block that is live, or was, or never was. */
static tlsf_heap_block some_block(void)
{
    tlsf_heap_block block = {(uint32_t)(16 * below(300)), (uint16_t)below(MOST_RECORDS)};
    uint64_t k = below(count + 2);
    if (k < count) {
        block.place = (uint32_t)blocks[k].place;
        block.slot = blocks[k].slot;
    }
    return block;
}

static bool same(tlsf_heap_block a, tlsf_heap_block b)
{
    return a.place == b.place && a.slot == b.slot;
}

static bool ask_for_block(void)
{
    const tlsf_heap_block nothing = {0xdeadbeef, 0xabcd};
    tlsf_heap_block given = nothing;
    uint64_t bytes = some_bytes(), place = 0, align = below(3) == 0 ? 1ull << below(32) : 16;
    align = below(20) == 0 ? align + 1 : align;
    uint32_t status, wanted;
    if (below(2) == 0) {
        status = tlsf_heap_malloc(&heap, bytes, &given);
        wanted = model_memalign(16, bytes, &place);
    } else {
        status = tlsf_heap_memalign(&heap, align, bytes, &given);
        wanted = model_memalign(align, bytes, &place);
    }
    met[status]++;
    return status == wanted && (status == TLSF_OK ? takes(given, place) : same(given, nothing));
}

static bool ask_for_realloc(void)
{
    tlsf_heap_block block = some_block();
    const tlsf_heap_block nothing = {0xdeadbeef, 0xabcd};
    tlsf_heap_block given = nothing;
    uint64_t bytes = some_bytes(), place = 0;
    bool moves = false;
    uint32_t status = tlsf_heap_realloc(&heap, block, bytes, &given);
    uint32_t wanted = model_realloc(block, bytes, &place, &moves);
    met[status]++;
    if (status != wanted || status != TLSF_OK || bytes == 0) {
        return status == wanted && same(given, nothing);
    }
    moved += moves;
    return moves ? takes(given, place) : same(given, block);
}

static bool ask_for_free(void)
{
    tlsf_heap_block block = some_block();
    uint32_t size = 0xdeadbeef, status = tlsf_heap_block_size(&heap, block, &size);
    uint64_t at = find_live(block);
    if (status != (at == count ? TLSF_BAD_POINTER : TLSF_OK)
        || size != (at == count ? 0xdeadbeef : blocks[at].size)) {
        return false;
    }
    status = tlsf_heap_free(&heap, block);
    met[status]++;
    if (at == count) {
        return status == TLSF_BAD_POINTER;
    }
    model_release(at);
    return status == TLSF_OK;
}

static bool ask_for_pool(void)
{
    uint64_t base = 16 * below(300), bytes = 16 * below(below(2) == 0 ? 12 : 120), status;
    base = below(8) == 0 ? base + 8 : base;
    if (below(3) > 0) {
        status = tlsf_heap_add_pool(&heap, base, bytes);
        met[status]++;
        return status == model_add_pool(base, bytes);
    }
    base = pool_count > 0 && below(2) == 0 ? pools[below(pool_count)][0] : base;
    status = tlsf_heap_remove_pool(&heap, base);
    met[status]++;
    return status == model_remove_pool(base);
}

/* Whether a reading in pieces gives these rows, each piece from the end of the one before. */
static bool is_in_pieces(uint64_t base, const tlsf_heap_row *rows, uint64_t all)
{
    tlsf_heap_row piece[5];
    size_t room = 1 + calls % 5;
    uint64_t from = base, seen = 0, left = 0;
    do {
        if (tlsf_heap_walk(&heap, base, from, piece, room, &left) != TLSF_OK
            || seen + left != all) {
            return false;
        }
        for (size_t k = 0; k < room && left > 0; k++, left--, seen++) {
            if (piece[k].place != rows[seen].place || piece[k].size != rows[seen].size
                || piece[k].used != rows[seen].used) {
                return false;
            }
            from = (uint64_t)piece[k].place + piece[k].size;
        }
    } while (left > 0);
    return seen == all;
}

/* Every pool's rows are the model's blocks, and the table is whole. */
static bool agrees(void)
{
    uint64_t seen = 0;
    for (uint64_t k = 0; k < pool_count; k++) {
        tlsf_heap_row rows[MOST_RECORDS];
        uint64_t given = 0, at = 0;
        if (tlsf_heap_walk(&heap, pools[k][0], 0, rows, MOST_RECORDS, &given) != TLSF_OK) {
            return false;
        }
        while (at < count && blocks[at].place != pools[k][0]) {
            at++;
        }
        for (uint64_t row = 0; row < given; row++) {
            struct block *block = &blocks[at + row];
            if (rows[row].place != block->place || rows[row].size != block->size
                || rows[row].used != block->live || block->pool != pools[k][0]) {
                return false;
            }
        }
        if (!is_in_pieces(pools[k][0], rows, given)) {
            return false;
        }
        seen += given;
    }
    return seen == count && tlsf_heap_check(&heap);
}

/* Each block of the model has a record, and the largest request is the lowest size of the greatest
 * class with a free one. */
static bool figures_agree(void)
{
    uint64_t largest = 0;
    for (uint64_t k = 0; k < count; k++) {
        uint64_t bytes = blocks[k].live ? 0 : low(class_of(blocks[k].size));
        largest = bytes > largest ? bytes : largest;
    }
    return tlsf_heap_records_used(&heap) == count && tlsf_heap_largest_request(&heap) == largest;
}

static bool run(uint64_t seed, uint64_t how_many)
{
    state = seed * 0x9e3779b97f4a7c15u + 1;
    count = pool_count = 0;
    records = 1 + below(MOST_RECORDS);
    tlsf_heap made = {0};
    if (tlsf_heap_create((uint32_t)records, &made) != TLSF_OK) {
        return false;
    }
    heap = made;
    bool good = true;
    for (uint64_t k = 0; k < how_many && good; k++) {
        uint64_t kind = below(40);
        calls++;
        good = kind < 18   ? ask_for_block()
               : kind < 30 ? ask_for_free()
               : kind < 37 ? ask_for_realloc()
                           : ask_for_pool();
        good = good && agrees() && figures_agree();
    }
    tlsf_heap_destroy(&heap);
    return good;
}

int main(int argc, char **argv)
{
    uint64_t runs = argc > 1 ? strtoull(argv[1], NULL, 10) : 200;
    bool good = true;
    for (uint64_t seed = 1; seed <= runs && good; seed++) {
        good = run(seed, 1000);
        if (!good) {
            printf("seed %llu\n", (unsigned long long)seed);
        }
    }
    expect(good, "random runs answer as the plain model");
    for (uint32_t status = TLSF_OK; status <= TLSF_NO_POOL; status++) {
        if (status != TLSF_OUT_OF_MEMORY) {
            expect(met[status] > 0, tlsf_heap_status_name(status));
        }
    }
    expect(moved > 0, "blocks that move");
    return cases_end();
}
