/* Memory: tlsf_heap_create and tlsf_heap_load take it twice, and say where it is refused. No other
 * call takes any, and tlsf_heap_destroy gives both pieces back. The library's two functions stand
 * here over an array, as an embedded program would write them. */
#include <string.h>

#include "cases.h"
#include "tlsf_heap.h"

enum { RECORD = 16, HEAP = 1664, MOST_RECORDS = 65535 };

static _Alignas(16) unsigned char memory[4u << 20];
static size_t taken, greatest, least;
static unsigned takes, returns, live, refuse_at;

/* The bytes asked for, at a multiple of align, which is at most 16. */
struct rattle_tried rattle_alloc(size_t bytes, size_t align)
{
    struct rattle_tried none = {false, memory}, some = {true, memory + taken};
    (void)align;
    takes++;
    if (takes == refuse_at || bytes > sizeof memory - taken) {
        return none;
    }
    taken += (bytes + 15) / 16 * 16;
    greatest = bytes > greatest ? bytes : greatest;
    least = bytes < least ? bytes : least;
    live++;
    return some;
}

void rattle_dealloc(unsigned char *p)
{
    (void)p;
    returns++;
    live--;
}

static void start(unsigned refused)
{
    taken = greatest = 0;
    least = SIZE_MAX;
    takes = returns = live = 0;
    refuse_at = refused;
}

static void calls(tlsf_heap *heap)
{
    tlsf_heap_block one, other, third;
    tlsf_heap_row rows[4];
    uint32_t bytes;
    uint64_t count;
    static unsigned char image[TLSF_HEAP_IMAGE_BYTES(1000)];
    bool served = tlsf_heap_add_pool(heap, 0, 4096) == TLSF_OK
                  && tlsf_heap_add_pool(heap, 8192, 64) == TLSF_OK;
    served = tlsf_heap_malloc(heap, 100, &one) == TLSF_OK
             && tlsf_heap_memalign(heap, 256, 40, &other) == TLSF_OK && served;
    served = tlsf_heap_realloc(heap, one, 2000, &third) == TLSF_OK
             && tlsf_heap_block_size(heap, third, &bytes) == TLSF_OK && served;
    served =
        tlsf_heap_walk(heap, 0, 0, rows, 4, &count) == TLSF_OK && tlsf_heap_check(heap) && served;
    served = tlsf_heap_save(heap, image, sizeof image, &count) == TLSF_OK
             && tlsf_heap_save(heap, image, 100, &count) == TLSF_NO_ROOM && served;
    served =
        tlsf_heap_free(heap, third) == TLSF_OK && tlsf_heap_free(heap, other) == TLSF_OK && served;
    served = tlsf_heap_remove_pool(heap, 8192) == TLSF_OK && served;
    expect(served && tlsf_heap_free(heap, other) == TLSF_BAD_POINTER, "each call is made");
}

static void loads(void)
{
    static unsigned char image[TLSF_HEAP_IMAGE_BYTES(1000)];
    tlsf_heap heap = {0};
    uint64_t count;
    start(0);
    expect(tlsf_heap_create(1000, &heap) == TLSF_OK
               && tlsf_heap_save(&heap, image, sizeof image, &count) == TLSF_OK,
           "a heap is saved");
    tlsf_heap_destroy(&heap);
    for (unsigned refused = 1; refused <= 2; refused++) {
        tlsf_heap none = {0};
        start(refused);
        expect(tlsf_heap_load(image, sizeof image, &none) == TLSF_OUT_OF_MEMORY,
               refused == 1 ? "load, where the first is refused"
                            : "load, where the second is refused");
        expect(none.at == NULL && live == 0,
               "what out points to stays, and what it took is given back");
    }
    start(3);
    expect(tlsf_heap_load(image, sizeof image, &heap) == TLSF_OK && takes == 2 && live == 2,
           "load takes memory twice");
    calls(&heap);
    tlsf_heap_destroy(&heap);
    expect(takes == 2 && returns == 2 && live == 0,
           "no other call takes any, and destroy gives both back");
    start(0);
    image[0] = 0;
    expect(tlsf_heap_load(image, sizeof image, &heap) == TLSF_BROKEN_MAGIC && takes == 0,
           "bytes that are no image take no memory");
}

/* A call that fills a handle forgets the heap that it held: that goes on by a copy of the
 * handle. */
static void forgotten(void)
{
    static unsigned char image[TLSF_HEAP_IMAGE_BYTES(100)];
    tlsf_heap heap = {0}, first, second;
    tlsf_heap_block block = {0, 0};
    uint64_t count = 0;
    start(0);
    bool served = tlsf_heap_create(100, &heap) == TLSF_OK
                  && tlsf_heap_add_pool(&heap, 0, 4096) == TLSF_OK
                  && tlsf_heap_malloc(&heap, 100, &block) == TLSF_OK
                  && tlsf_heap_save(&heap, image, sizeof image, &count) == TLSF_OK;
    first = heap;
    served = served && tlsf_heap_create(100, &heap) == TLSF_OK;
    expect(served && returns == 0 && live == 4 && heap.at != first.at,
           "create over a heap in use gives nothing back");
    second = heap;
    expect(tlsf_heap_load(image, sizeof image, &heap) == TLSF_OK && returns == 0 && live == 6
               && heap.at != second.at,
           "load over a heap in use gives nothing back");
    expect(tlsf_heap_check(&first) && tlsf_heap_free(&first, block) == TLSF_OK
               && tlsf_heap_check(&second),
           "what was forgotten is whole");
    tlsf_heap_destroy(&first);
    tlsf_heap_destroy(&second);
    tlsf_heap_destroy(&heap);
    expect(returns == 6 && live == 0, "three ends give all back");
}

/* Whether a heap took its two pieces: the table of its records, and the heap itself. */
static bool has_taken(uint32_t records)
{
    size_t table = (size_t)RECORD * records;
    size_t more = table > HEAP ? table : HEAP, less = table > HEAP ? HEAP : table;
    return takes == 2 && live == 2 && taken == more + less && greatest == more && least == less;
}

/* Each number of records: a heap is made, takes its memory, and gives it back. */
static void each_count(void)
{
    bool made = true, whole = true, returned = true;
    for (uint32_t records = 1; records <= MOST_RECORDS; records++) {
        tlsf_heap heap = {0};
        start(0);
        made = made && tlsf_heap_create(records, &heap) == TLSF_OK && has_taken(records);
        if (!made) {
            printf("note: not with %u records\n", (unsigned)records);
            break;
        }
        whole = whole && (records % 1000 != 0 || tlsf_heap_check(&heap));
        tlsf_heap_destroy(&heap);
        returned = returned && live == 0 && returns == 2;
    }
    expect(made, "each count of records, 1 to 65,535: 16 bytes a record, and 1,664");
    expect(whole, "its table is whole");
    expect(returned, "it gives both back");
}

/* A heap with a block, in a pool that it fills, and with other pools. */
static bool make_saved(tlsf_heap *heap, uint32_t records, uint32_t pools, tlsf_heap_block *block)
{
    bool served = tlsf_heap_create(records, heap) == TLSF_OK;
    for (uint32_t pool = 0; pool < pools; pool++) {
        served = served && tlsf_heap_add_pool(heap, 4096u * pool, 1024) == TLSF_OK;
    }
    return served && tlsf_heap_malloc(heap, 1024, block) == TLSF_OK;
}

/* An image of a heap with this many records and pools loads. The heap loaded has an equal image,
 * and the block. */
static bool loads_what_is_saved(uint32_t records, uint32_t pools)
{
    static unsigned char image[TLSF_HEAP_IMAGE_BYTES(MOST_RECORDS)];
    static unsigned char again[TLSF_HEAP_IMAGE_BYTES(MOST_RECORDS)];
    tlsf_heap heap = {0}, other = {0};
    tlsf_heap_block block = {0, 0};
    uint64_t length = 0, other_length = 0;
    start(0);
    bool served = make_saved(&heap, records, pools, &block);
    served = served && tlsf_heap_save(&heap, image, sizeof image, &length) == TLSF_OK;
    tlsf_heap_destroy(&heap);
    start(0);
    if (!served || length != TLSF_HEAP_IMAGE_BYTES(records)
        || tlsf_heap_load(image, length, &other) != TLSF_OK) {
        return false;
    }
    served = has_taken(records) && tlsf_heap_check(&other);
    served = served && tlsf_heap_save(&other, again, sizeof again, &other_length) == TLSF_OK;
    served = served && other_length == length && memcmp(image, again, length) == 0;
    served = served && tlsf_heap_free(&other, block) == TLSF_OK;
    for (uint32_t pool = 0; pool < pools; pool++) {
        served = served && tlsf_heap_remove_pool(&other, 4096u * pool) == TLSF_OK;
    }
    tlsf_heap_destroy(&other);
    return served;
}

static void many_loads(void)
{
    static const uint32_t counts[] = {1,    2,    7,     8,     9,     999,   1000,  8191,
                                      8192, 8193, 12345, 20001, 32767, 32768, 65534, 65535};
    for (size_t k = 0; k < sizeof counts / sizeof counts[0]; k++) {
        uint32_t pools = counts[k] < 8 ? counts[k] : 8;
        char name[64];
        snprintf(name, sizeof name, "%u records, %u pools: saved and loaded", (unsigned)counts[k],
                 (unsigned)pools);
        expect(loads_what_is_saved(counts[k], pools), name);
    }
}

int main(void)
{
    tlsf_heap heap = {0};
    start(0);
    expect(tlsf_heap_create(1000, &heap) == TLSF_OK, "create with memory");
    expect(takes == 2 && live == 2, "create takes memory twice");
    calls(&heap);
    expect(takes == 2 && returns == 0, "no other call takes any or gives any back");
    tlsf_heap_destroy(&heap);
    expect(takes == 2 && returns == 2 && live == 0, "destroy gives both back");
    for (unsigned refused = 1; refused <= 2; refused++) {
        tlsf_heap none = {0};
        start(refused);
        expect(tlsf_heap_create(1000, &none) == TLSF_OUT_OF_MEMORY,
               refused == 1 ? "create, where the first is refused"
                            : "create, where the second is refused");
        expect(none.at == NULL, "what out points to stays");
        expect(live == 0, "what it took is given back");
    }
    start(3);
    expect(tlsf_heap_create(65535, &heap) == TLSF_OK, "create, where a third would be refused");
    expect(taken == 1050224, "a heap of 65,535 records takes 1,050,224 bytes");
    tlsf_heap_destroy(&heap);
    expect(live == 0, "and its end");
    start(0);
    expect(tlsf_heap_create(0, &heap) == TLSF_BAD_COUNT && takes == 0,
           "a bad count takes no memory");
    loads();
    forgotten();
    each_count();
    many_loads();
    return cases_end();
}
