/* What tlsf_check_at and tlsf_load_at tell: of each bit that is changed in the heap's start, in its
 * table and in front of its blocks, which block is wrong, and in what way. The records are read
 * here by docs/FORMATS.md; the blocks are those of a walk. */
#include <string.h>

#include "cases.h"
#include "tlsf.h"

enum {
    RECORDS = 48,
    POOLS = 3,
    POOL = 2048,
    BLOCKS = 16,
    RECORD = 16,
    WALKED = 64,
    FRONT = 8,
    VACANT = 0,
    FREE = 1,
    LIVE = 2
};

static _Alignas(16) unsigned char memory[4096], areas[POOLS][POOL + 64];
static tlsf_t heap;
static pool_t pools[POOLS];

/* The blocks of a walk of all pools. */
static struct walked {
    unsigned char *at;
    size_t size;
    int used;
    uint32_t pool;
} walked[WALKED];
static size_t count;

static void note(void *ptr, size_t size, int used, void *pool)
{
    walked[count++] = (struct walked){(unsigned char *)ptr, size, used, *(uint32_t *)pool};
}

static void walk(void)
{
    count = 0;
    for (uint32_t k = 0; k < POOLS; k++) {
        tlsf_walk_pool(pools[k], note, &k);
    }
}

/* How often each kind was told, where one bit was changed. */
static size_t kinds[TLSF_FAULT_FRONT + 1];

static uint32_t below(uint32_t bound)
{
    static uint32_t state = 7;
    state = state * 1664525u + 1013904223u;
    return (state >> 8) % bound;
}

/* A heap of three pools, with live and free blocks in each. */
static void make(void)
{
    static void *blocks[BLOCKS];
    heap = tlsf_create_records(memory, tlsf_size_records(RECORDS), RECORDS);
    for (uint32_t k = 0; k < POOLS; k++) {
        pools[k] = tlsf_add_pool(heap, areas[k], POOL);
    }
    memset(blocks, 0, sizeof blocks);
    for (int step = 0; step < 400; step++) {
        uint32_t k = below(BLOCKS);
        tlsf_free(heap, blocks[k]);
        blocks[k] = step % 3 == 0 ? NULL : tlsf_malloc(heap, 1 + below(400));
    }
    walk();
}

/* Where the heap's parts lie in its memory: its start, the records behind 16 bytes, and the table's
 * head behind 16 more. */
static size_t start_bytes(void) { return tlsf_size_records(0) - 8 - 1696; }
static unsigned char *records(void) { return memory + start_bytes() + 16; }

static uint32_t number(const unsigned char *at, int bytes)
{
    uint32_t sum = 0;
    while (bytes-- > 0) {
        sum = sum << 8 | at[bytes];
    }
    return sum;
}

static uint32_t state_of(const unsigned char *record) { return number(record + 4, 4) % 16; }

/* The block of a record: its place and its pointer are equal modulo 2 MiB. */
static const struct walked *block_of(const unsigned char *record)
{
    for (size_t k = 0; k < count; k++) {
        if ((number(record, 4) ^ (uintptr_t)walked[k].at) % 2097152 == 0) {
            return &walked[k];
        }
    }
    return NULL;
}

/* A pool's first block begins 8 bytes behind its memory, and its pointer 8 more. */
static bool names(const tlsf_fault *fault, const struct walked *block)
{
    return fault->block == block->at && fault->pool == block->pool
           && fault->offset == (size_t)(block->at - areas[block->pool]) - 2 * FRONT
           && fault->text != NULL;
}

static bool names_none(const tlsf_fault *fault, enum tlsf_fault_kind what)
{
    return fault->what == what && fault->block == NULL && fault->pool == 8 && fault->text != NULL;
}

/* What is told where a bit is changed; it is changed back. */
static tlsf_fault told(unsigned char *at, int bit, bool *is_wrong)
{
    tlsf_fault fault = {TLSF_FAULT_TABLE, NULL, NULL, 1, 1, 1};
    *at ^= (unsigned char)(1u << bit);
    *is_wrong = tlsf_check_at(heap, &fault) < 0;
    bool same = (tlsf_check(heap) < 0) == *is_wrong && (fault.what != TLSF_FAULT_NONE) == *is_wrong;
    *at ^= (unsigned char)(1u << bit);
    fault.text = same ? fault.text : NULL;
    kinds[fault.what]++;
    return fault;
}

/* Each bit of a block's record: its place, size, state and neighbours name that block. The links of
 * a free block's list name a free block. Those of a live one mean nothing, so they are told of the
 * table where they are no slots, and else not. */
static bool is_told_of(unsigned char *record)
{
    const struct walked *block = block_of(record);
    bool good = block != NULL, wrong = false;
    for (int at = 0; good && at < RECORD; at++) {
        for (int bit = 0; good && bit < 8; bit++) {
            tlsf_fault fault = told(record + at, bit, &wrong);
            if (at < 12) {
                bool is_link = at >= 8;
                good = wrong && names(&fault, block)
                       && (fault.what == TLSF_FAULT_RECORD
                           || (is_link && fault.what == TLSF_FAULT_CHAIN));
            } else if (state_of(record) == FREE) {
                good = wrong && fault.what == TLSF_FAULT_LIST && fault.block != NULL;
            } else {
                good = !wrong || names_none(&fault, TLSF_FAULT_TABLE);
            }
        }
    }
    return good;
}

/* A vacant record, and the table's head: no block is named. */
static bool is_told_of_table(unsigned char *at, size_t bytes)
{
    bool good = true, wrong = false;
    for (size_t k = 0; k < bytes; k++) {
        for (int bit = 0; bit < 8; bit++) {
            tlsf_fault fault = told(at + k, bit, &wrong);
            good = good && (!wrong || names_none(&fault, TLSF_FAULT_TABLE));
        }
    }
    return good;
}

static void records_and_head(void)
{
    size_t free_blocks = 0, live = 0, vacant = 0, good = 0;
    for (int k = 0; k < RECORDS; k++) {
        unsigned char *record = records() + RECORD * k;
        free_blocks += state_of(record) == FREE;
        live += state_of(record) == LIVE;
        vacant += state_of(record) == VACANT;
        good += state_of(record) == VACANT ? is_told_of_table(record, RECORD) : is_told_of(record);
    }
    expect(free_blocks >= 4 && live >= 8 && vacant >= 8 && free_blocks + live == count,
           "live, free and vacant records");
    expect(good == RECORDS, "each bit of each record is told of its block");
    expect(is_told_of_table(records() + RECORD * RECORDS + 16, 1664),
           "each bit of the table's head is told of the table");
    expect(tlsf_check(heap) == 0, "and all is whole again");
}

/* The heap's start: its first 8 bytes, what is summed up, and the figures of live blocks, which
 * aren't. */
static void start(void)
{
    size_t none = 0, control = 0, figures = 0, others = 0;
    bool wrong = false;
    for (size_t at = 0; at < start_bytes(); at++) {
        for (int bit = 0; bit < 8; bit++) {
            tlsf_fault fault = told(memory + at, bit, &wrong);
            none += names_none(&fault, TLSF_FAULT_NO_HEAP);
            control += names_none(&fault, TLSF_FAULT_CONTROL);
            figures += names_none(&fault, TLSF_FAULT_FIGURES);
            others += !wrong;
        }
    }
    expect(
        none == 8 * 8 && figures == 8 * 24 && control == 8 * (start_bytes() - 32) && others == 0,
        "each bit of the heap's start is told: a heap that isn't there, its figures, and the rest");
    tlsf_fault fault;
    expect(tlsf_check_at(NULL, &fault) == -1 && names_none(&fault, TLSF_FAULT_NO_HEAP),
           "a null pointer is no heap");
    expect(tlsf_check_at(heap, &fault) == 0 && names_none(&fault, TLSF_FAULT_NONE),
           "a whole heap has no fault");
    expect(tlsf_check_at(heap, NULL) == 0, "nothing need be told");
}

static void fronts(void)
{
    bool good = true, wrong = false;
    size_t live = 0;
    for (size_t k = 0; k < count; k++) {
        for (int at = 1; walked[k].used && at <= FRONT; at++) {
            tlsf_fault fault = told(walked[k].at - at, k % 8, &wrong);
            good = good && wrong && names(&fault, &walked[k]) && fault.what == TLSF_FAULT_FRONT
                   && fault.size == walked[k].size;
            live++;
        }
    }
    expect(good && live >= 8 * FRONT,
           "each byte in front of a live block is told of it, with its size");
    walked[1].at[-1] ^= 1;
    walked[count - 2].at[-1] ^= 1;
    tlsf_fault fault;
    size_t first = walked[1].used ? 1 : count - 2,
           lost = (size_t)(walked[1].used != 0) + (size_t)(walked[count - 2].used != 0);
    expect(tlsf_check_at(heap, &fault) == -(int)lost && lost > 0 && names(&fault, &walked[first]),
           "of two the first is told");
    walked[1].at[-1] ^= 1;
    walked[count - 2].at[-1] ^= 1;
}

/* A table of before a pool was added. */
static void lost_pool(void)
{
    static unsigned char kept[sizeof memory];
    tlsf_fault fault;
    size_t table = tlsf_size_records(RECORDS) - start_bytes();
    heap = tlsf_create_records(memory, tlsf_size_records(RECORDS), RECORDS);
    pools[0] = tlsf_add_pool(heap, areas[0], POOL);
    memcpy(kept, memory + start_bytes(), table);
    pools[1] = tlsf_add_pool(heap, areas[1], POOL);
    memcpy(memory + start_bytes(), kept, table);
    bool each = true;
    for (int kind = TLSF_FAULT_NO_HEAP; kind <= TLSF_FAULT_FRONT; kind++) {
        each = each && (kinds[kind] > 0) == (kind != TLSF_FAULT_POOL);
    }
    expect(each, "each other kind was told");
    expect(tlsf_check_at(heap, &fault) < 0 && fault.what == TLSF_FAULT_POOL && fault.pool == 1
               && fault.block == NULL,
           "a pool that the table lacks is told by its number");
}

static void images(void)
{
    static _Alignas(16) unsigned char other[sizeof memory], image[TLSF_IMAGE_BYTES(RECORDS)];
    make();
    size_t length = tlsf_save(heap, image, sizeof image), loaded = 0;
    tlsf_memory of[8] = {{areas[0], POOL}, {areas[1], POOL}, {areas[2], POOL}};
    bool good = true;
    for (size_t k = 0; k < count; k++) {
        for (int at = 1; walked[k].used && at <= FRONT; at++) {
            tlsf_fault fault = {TLSF_FAULT_NONE, NULL, NULL, 1, 1, 1};
            walked[k].at[-at] ^= 0x20;
            int status = tlsf_load_at(other, sizeof other, image, length, of, &fault);
            walked[k].at[-at] ^= 0x20;
            good = good && status == TLSF_BROKEN_FRONTS && names(&fault, &walked[k])
                   && fault.what == TLSF_FAULT_FRONT && fault.size == walked[k].size;
            loaded++;
        }
    }
    expect(length > 0 && good && loaded >= 8 * FRONT,
           "an image with a front that is spoiled: its block, pool and offset");
    tlsf_fault fault = {TLSF_FAULT_NONE, NULL, NULL, 1, 1, 1};
    expect(tlsf_load_at(other, sizeof other, image, length - 1, of, &fault) == TLSF_BROKEN_HEAD
               && fault.pool == 1,
           "where something else is wrong nothing is told");
    expect(tlsf_load_at(other, sizeof other, image, length, of, &fault) == 0 && fault.pool == 1
               && tlsf_check(other) == 0,
           "nor where it is loaded");
    expect(tlsf_load_at(other, sizeof other, image, length, of, NULL) == 0, "nothing need be told");
}

int main(void)
{
    make();
    expect(tlsf_check(heap) == 0 && count > 12, "a heap of three pools");
    records_and_head();
    start();
    fronts();
    images();
    lost_pool();
    return cases_end();
}
