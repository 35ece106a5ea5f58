/* A checksum over all that a heap answers to random calls, the same on each processor. Between the
 * calls the heap is read, saved, loaded again, and an image with a changed bit is tried. The last
 * line is `CALLS calls, LIVE live, CHECKSUM`. All memory is the program's own. */
#include <inttypes.h>
#include <stdio.h>

#include "tlsf_heap.h"

#ifndef RECORDS
#define RECORDS 8000
#endif
#ifndef POOL
#define POOL (1u << 20)
#endif
#ifndef CALLS
#define CALLS 1000000
#endif
enum { LIVE = RECORDS / 2, READS = 5000, IMAGES = 20000 };

static _Alignas(16) unsigned char tables[2][TLSF_HEAP_TABLE_BYTES(RECORDS)];
static unsigned char image[TLSF_HEAP_IMAGE_BYTES(RECORDS)];
static tlsf_heap_row rows[16];
static tlsf_heap_block blocks[LIVE];
static uint32_t live, table;
static uint64_t state = 0x2545f4914f6cdd1du, sum = 0xcbf29ce484222325u;
static tlsf_heap heap;

static uint32_t below(uint32_t bound)
{
    state = state * 6364136223846793005u + 1442695040888963407u;
    return (uint32_t)(state >> 33) % bound;
}

static void add(uint64_t value) { sum = (sum ^ value) * 0x100000001b3u; }

static void add_block(enum tlsf_status status, tlsf_heap_block block)
{
    add((uint64_t)status);
    add(block.place);
    add(block.slot);
}

/* All rows of a pool, sixteen at a time. */
static void add_rows(uint64_t base)
{
    uint64_t from = base, left = 0;
    do {
        add((uint64_t)tlsf_heap_walk(&heap, base, from, rows, 16, &left));
        add(left);
        for (uint64_t k = 0; k < left && k < 16; k++) {
            add(rows[k].place);
            add(rows[k].size);
            add(rows[k].used);
            from = (uint64_t)rows[k].place + rows[k].size;
        }
    } while (left > 16);
}

/* The heap goes on as the one that is loaded from its image. Where a bit of that is changed, the
 * status tells. */
static void reload(void)
{
    tlsf_heap other = {0};
    uint64_t bytes = 0;
    add((uint64_t)tlsf_heap_save(&heap, image, sizeof image, &bytes));
    for (uint64_t k = 0; k < bytes; k++) {
        add(image[k]);
    }
    add((uint64_t)tlsf_heap_save(&heap, image, sizeof image - 1, &bytes));
    add(bytes);
    tlsf_heap_destroy(&heap);
    table = 1 - table;
    add((uint64_t)tlsf_heap_load_in(tables[table], sizeof tables[table], image, sizeof image,
                                    &heap));
    uint32_t bit = below(8);
    image[below(sizeof image)] ^= (unsigned char)(1u << bit);
    add((uint64_t)tlsf_heap_load_in(tables[1 - table], sizeof tables[1 - table], image,
                                    sizeof image, &other));
    tlsf_heap_destroy(&other);
}

static void ask(void)
{
    uint32_t bytes = below(8) > 0 ? below(600) : below(40000), k = live > 0 ? below(live) : 0,
             kind = below(10), size = 0;
    tlsf_heap_block block = {0, 0};
    enum tlsf_status status = TLSF_OK;
    if (kind < 5 && live < LIVE) {
        status = kind > 0 ? tlsf_heap_malloc(&heap, bytes, &block)
                          : tlsf_heap_memalign(&heap, 1u << below(14), bytes, &block);
        blocks[live] = block;
        live += status == TLSF_OK;
    } else if (kind < 8 && live > 0) {
        status = tlsf_heap_free(&heap, blocks[k]);
        add((uint64_t)tlsf_heap_free(&heap, blocks[k]));
        blocks[k] = blocks[--live];
    } else if (live > 0) {
        status = tlsf_heap_realloc(&heap, blocks[k], bytes + 1u, &block);
        blocks[k] = status == TLSF_OK ? block : blocks[k];
        add((uint64_t)tlsf_heap_block_size(&heap, blocks[k], &size));
    }
    add(size);
    add_block(status, block);
    add(tlsf_heap_largest_request(&heap));
    add(tlsf_heap_records_used(&heap));
}

/* A pool comes and goes, and wrong ones are refused. */
static void change_pools(void)
{
    static const uint64_t bases[] = {4294963200u, 4294967296u, UINT64_MAX - 15u, 8, 0};
    for (size_t k = 0; k < sizeof bases / sizeof *bases; k++) {
        add((uint64_t)tlsf_heap_add_pool(&heap, bases[k], 4096));
        add((uint64_t)tlsf_heap_add_pool(&heap, bases[k], UINT64_MAX - 15u));
    }
    add((uint64_t)tlsf_heap_remove_pool(&heap, 4294963200u));
    add((uint64_t)tlsf_heap_remove_pool(&heap, 4294967296u));
    add((uint64_t)tlsf_heap_remove_pool(&heap, 0));
    uint32_t bytes = below(1u << 30), align = 1u << below(31), count = below(40000);
    add(tlsf_heap_class_size(align, bytes));
    add(tlsf_heap_sure_pool(count, bytes, 16u * below(1u << 16)));
}

int main(void)
{
    add((uint64_t)tlsf_heap_create_in(tables[0], sizeof tables[0], 0, &heap));
    add((uint64_t)tlsf_heap_create_in(tables[0], sizeof tables[0] - 1, RECORDS, &heap));
    add((uint64_t)tlsf_heap_create_in(tables[0], sizeof tables[0], RECORDS, &heap));
    add((uint64_t)tlsf_heap_add_pool(&heap, 0, POOL));
    add((uint64_t)tlsf_heap_add_pool(&heap, POOL * 2u, POOL / 2u));
    for (uint32_t call = 0; call < CALLS; call++) {
        ask();
        if (call % READS == 0) {
            change_pools();
            add_rows(0);
            add_rows(POOL * 2u);
            add(tlsf_heap_check(&heap));
        }
        if (call % IMAGES == 0) {
            reload();
        }
    }
    printf("%d calls, %" PRIu32 " live, %08" PRIx32 "%08" PRIx32 "\n", CALLS, live,
           (uint32_t)(sum >> 32), (uint32_t)sum);
    return 0;
}
