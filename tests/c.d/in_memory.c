/* Heaps whose table is memory of the program. tlsf_heap_create_in and tlsf_heap_load_in get the
 * bytes that the header tells and fewer, at each alignment, many side by side. Then the ends of a
 * heap, and how many records are enough. A malloc over that of the C library counts here what is
 * asked for, and refuses the call that it is told to refuse. */
#include <stdlib.h>
#include <string.h>

#include "cases.h"
#include "tlsf_heap.h"

enum { RECORDS = 100, HEAPS = 40, REQUESTS = 20000, EDGE = 64 };

/* The two that tlsf_memory.c calls, by these names. */
void *counted_malloc(size_t bytes);
void counted_free(void *address);

static unsigned takes, returns, refuse_at;
static size_t asked;

void *counted_malloc(size_t bytes)
{
    takes++;
    asked += bytes;
    return takes == refuse_at ? NULL : malloc(bytes);
}

void counted_free(void *address)
{
    returns += address != NULL;
    free(address);
}

static void start(unsigned refused)
{
    takes = returns = 0;
    asked = 0;
    refuse_at = refused;
}

static uint64_t state = 88172645463325252u;

static uint64_t below(uint64_t bound)
{
    state ^= state << 13;
    state ^= state >> 7;
    state ^= state << 17;
    return state % bound;
}

static _Alignas(64) unsigned char memory[EDGE + TLSF_HEAP_TABLE_BYTES(RECORDS) + EDGE];
static unsigned char image[TLSF_HEAP_IMAGE_BYTES(RECORDS)];

static void fill(void) { memset(memory, 0xa5, sizeof memory); }

/* Whether the bytes in front of the table and behind it are as fill left them. */
static bool edges_stay(size_t from, size_t bytes)
{
    for (size_t k = 0; k < sizeof memory; k++) {
        if ((k < from || k >= from + bytes) && memory[k] != 0xa5) {
            return false;
        }
    }
    return true;
}

/* A heap over this memory, by create_in or of the image by load_in. */
static uint32_t make(bool loads, void *at, size_t bytes, tlsf_heap *heap)
{
    return loads ? tlsf_heap_load_in(at, bytes, image, sizeof image, heap)
                 : tlsf_heap_create_in(at, bytes, RECORDS, heap);
}

/* Serves and refuses as a heap of RECORDS records with a pool does, and ends. */
static bool works(tlsf_heap *heap)
{
    tlsf_heap_block one, other;
    bool served = tlsf_heap_add_pool(heap, 65536, 4096) == TLSF_OK;
    served = served && tlsf_heap_malloc(heap, 4000, &one) == TLSF_OK && one.place == 65536;
    served = served && tlsf_heap_malloc(heap, 4000, &other) == TLSF_NO_FIT;
    served = served && tlsf_heap_free(heap, one) == TLSF_OK && tlsf_heap_check(heap);
    return served && tlsf_heap_remove_pool(heap, 65536) == TLSF_OK;
}

static void at_its_bytes(bool loads)
{
    const char *call = loads ? "load_in" : "create_in";
    const size_t bytes = TLSF_HEAP_TABLE_BYTES(RECORDS);
    char name[100];
    tlsf_heap heap = {0};
    fill();
    start(0);
    bool made = make(loads, memory + EDGE, bytes, &heap) == TLSF_OK && works(&heap);
    tlsf_heap_destroy(&heap);
    snprintf(name, sizeof name, "%s at just its bytes, and no malloc", call);
    expect(made && takes == 0 && returns == 0, name);
    snprintf(name, sizeof name, "%s: the bytes around the table stay", call);
    expect(edges_stay(EDGE, bytes), name);
    bool refused = true;
    for (size_t less = 0; less < bytes; less++) {
        refused = refused && make(loads, memory + EDGE, less, &heap) == TLSF_BAD_MEMORY
                  && heap.at == NULL;
    }
    snprintf(name, sizeof name, "%s at each smaller number of bytes", call);
    expect(refused && takes == 0, name);
    bool aligned = true;
    for (size_t from = 0; from < EDGE; from++) {
        uint32_t wanted = from % TLSF_HEAP_UNIT == 0 ? TLSF_OK : TLSF_BAD_MEMORY;
        aligned = aligned && make(loads, memory + from, bytes, &heap) == wanted;
        aligned = aligned && (heap.at != NULL) == (wanted == TLSF_OK);
        tlsf_heap_destroy(&heap);
    }
    snprintf(name, sizeof name, "%s at each alignment", call);
    expect(aligned, name);
    snprintf(name, sizeof name, "%s at a null pointer", call);
    expect(make(loads, NULL, bytes, &heap) == TLSF_BAD_MEMORY && heap.at == NULL, name);
}

static void other_refusals(void)
{
    tlsf_heap heap = {0};
    start(0);
    expect(tlsf_heap_create_in(memory, sizeof memory, 0, &heap) == TLSF_BAD_COUNT
               && tlsf_heap_create_in(memory, sizeof memory, 65536, &heap) == TLSF_BAD_COUNT,
           "create_in with a bad count");
    expect(tlsf_heap_create_in(NULL, 0, 0, &heap) == TLSF_BAD_COUNT,
           "a bad count comes before bad memory");
    image[0] ^= 1;
    expect(tlsf_heap_load_in(memory, 10, image, sizeof image, &heap) == TLSF_BROKEN_MAGIC,
           "a broken image comes before bad memory");
    image[0] ^= 1;
    expect(heap.at == NULL && takes == 0, "what out points to stays");
    expect(strcmp(tlsf_heap_status_name(TLSF_BAD_MEMORY), "bad memory") == 0
               && TLSF_BAD_MEMORY == 15,
           "its status has a name");
    expect(tlsf_heap_create(RECORDS, &heap) == TLSF_OK && takes == 2,
           "behind a refused call memory is malloc's again");
    tlsf_heap_destroy(&heap);
}

/* Behind a refused call this memory is the program's again: another call takes it, and one without
 * memory asks malloc. */
static void is_free_again(const char *what)
{
    tlsf_heap heap = {0}, other = {0};
    start(0);
    bool good = tlsf_heap_create(RECORDS, &heap) == TLSF_OK && takes == 2 && works(&heap);
    tlsf_heap_destroy(&heap);
    good = good && returns == 2 && tlsf_heap_load(image, sizeof image, &heap) == TLSF_OK
           && takes == 4 && works(&heap);
    tlsf_heap_destroy(&heap);
    for (int loads = 0; loads <= 1; loads++) {
        fill();
        good = good && make(loads, memory + EDGE, TLSF_HEAP_TABLE_BYTES(RECORDS), &other) == TLSF_OK
               && works(&other) && edges_stay(EDGE, TLSF_HEAP_TABLE_BYTES(RECORDS));
        tlsf_heap_destroy(&other);
    }
    expect(good && takes == 4 && returns == 4, what);
}

static void after_refusals(void)
{
    const size_t bytes = TLSF_HEAP_TABLE_BYTES(RECORDS);
    tlsf_heap heap = {0};
    unsigned char *at = memory + EDGE;
    bool refused = tlsf_heap_create_in(at, bytes, 0, &heap) == TLSF_BAD_COUNT;
    is_free_again("no record, and the memory is free again");
    refused = tlsf_heap_create_in(at, bytes, 65536, &heap) == TLSF_BAD_COUNT && refused;
    is_free_again("too many records, and the memory is free again");
    refused = tlsf_heap_create_in(at, bytes - 1, RECORDS, &heap) == TLSF_BAD_MEMORY && refused;
    is_free_again("memory for one piece, and it is free again");
    refused =
        tlsf_heap_load_in(at, bytes - 1, image, sizeof image, &heap) == TLSF_BAD_MEMORY && refused;
    is_free_again("memory for one piece of an image's heap, and it is free again");
    refused = tlsf_heap_create_in(NULL, bytes, RECORDS, &heap) == TLSF_BAD_MEMORY && refused;
    is_free_again("no memory, and the next is taken");
    refused = tlsf_heap_load_in(at, bytes, image, sizeof image - 1, &heap) == TLSF_BROKEN_LENGTH
              && refused;
    is_free_again("a broken image, and the memory is free again");
    expect(refused && heap.at == NULL, "each was refused");
}

/* An image that is broken at this byte, over no memory, or over too little. */
static bool is_told_as(size_t at, uint32_t wanted)
{
    tlsf_heap heap = {0};
    image[at] ^= 1;
    bool told =
        tlsf_heap_load_in(NULL, 0, image, sizeof image, &heap) == wanted
        && tlsf_heap_load_in(NULL, sizeof memory, image, sizeof image, &heap) == wanted
        && tlsf_heap_load_in(memory, 0, image, sizeof image, &heap) == wanted
        && tlsf_heap_load_in(memory + 1, sizeof memory, image, sizeof image, &heap) == wanted;
    image[at] ^= 1;
    return told && heap.at == NULL;
}

/* The rules come before the memory. The image is of a heap without pools: its first words are the
 * magic, the number of records and that of pools. */
static void broken_without_memory(void)
{
    tlsf_heap heap = {0};
    start(0);
    expect(is_told_as(0, TLSF_BROKEN_MAGIC) && is_told_as(7, TLSF_BROKEN_MAGIC),
           "load_in at a null pointer of bytes that are no image: broken magic");
    expect(is_told_as(8, TLSF_BROKEN_LENGTH),
           "and of one with another number of records: broken length");
    expect(tlsf_heap_load_in(NULL, 0, image, 0, &heap) == TLSF_BROKEN_MAGIC && takes == 0,
           "and of no byte: broken magic");
    expect(is_told_as(sizeof image - 16, TLSF_BROKEN_STATES),
           "and of one with a vacant record that isn't zero: broken states");
}

/* The function that the library calls, beside what it never asks for. */
static void beyond_all(void)
{
    bool refused = true;
    start(0);
    for (size_t less = 0; less <= 30; less++) {
        struct rattle_tried none = rattle_alloc(SIZE_MAX - less, 16), odd = rattle_alloc(less, 32);
        refused = refused && !none.ok && none.p != NULL && !odd.ok && odd.p != NULL;
    }
    expect(refused && takes == 0, "rattle_alloc of some 2^64 bytes, or at an alignment above 16");
    bool served = true;
    start(0);
    for (size_t bytes = 0; bytes < 100; bytes++) {
        struct rattle_tried some = rattle_alloc(bytes, 1u << bytes % 5);
        served = served && some.ok && (uintptr_t)some.p % 16 == 0;
        memset(some.p, 0xff, bytes);
        rattle_dealloc(some.p);
    }
    expect(served && takes == 100 && returns == 100,
           "of 0 to 99 bytes, at each alignment up to 16");
}

/* A heap of malloc's memory asks for what the header tells, and each refusal is answered. */
static void of_malloc(void)
{
    static const uint32_t counts[] = {1, 2, RECORDS, 1000, 65535};
    for (size_t k = 0; k < sizeof counts / sizeof counts[0]; k++) {
        tlsf_heap heap = {0};
        char name[80];
        start(0);
        bool made = tlsf_heap_create(counts[k], &heap) == TLSF_OK && takes == 2;
        snprintf(name, sizeof name, "%u records: the bytes of a table", (unsigned)counts[k]);
        expect(made && asked == TLSF_HEAP_TABLE_BYTES(counts[k]), name);
        tlsf_heap_destroy(&heap);
        expect(returns == 2, "both are given back");
    }
    for (unsigned refused = 1; refused <= 4; refused++) {
        tlsf_heap heap = {0};
        start(refused);
        uint32_t status = tlsf_heap_create(RECORDS, &heap);
        bool right =
            refused <= 2 ? status == TLSF_OUT_OF_MEMORY && heap.at == NULL : status == TLSF_OK;
        tlsf_heap_destroy(&heap);
        uint32_t loaded = tlsf_heap_load(image, sizeof image, &heap);
        right = right
                && (refused > takes || refused <= 2
                    || (loaded == TLSF_OUT_OF_MEMORY && heap.at == NULL));
        tlsf_heap_destroy(&heap);
        expect(right && returns == takes - 1,
               "one of four requests refused: no heap, and all is given back");
    }
}

static void ends(void)
{
    tlsf_heap heap = {0};
    start(0);
    tlsf_heap_destroy(&heap);
    expect(heap.at == NULL && returns == 0, "zeros may be ended");
    expect(tlsf_heap_create(RECORDS, &heap) == TLSF_OK, "a heap");
    tlsf_heap_destroy(&heap);
    expect(heap.at == NULL && returns == 2, "its end leaves zeros");
    tlsf_heap_destroy(&heap);
    expect(heap.at == NULL && returns == 2, "and may come once more");
    expect(tlsf_heap_create_in(memory, sizeof memory, RECORDS, &heap) == TLSF_OK,
           "a heap in memory of the program");
    tlsf_heap_destroy(&heap);
    expect(returns == 2, "its end by tlsf_heap_destroy gives nothing back to malloc");
    expect(tlsf_heap_create_in(memory, sizeof memory, RECORDS, &heap) == TLSF_OK && works(&heap),
           "another in the same memory");
    tlsf_heap_destroy(&heap);
}

/* Heaps side by side in one array, each with its own places, in use in turn. */
static void side_by_side(void)
{
    enum { EACH = TLSF_HEAP_TABLE_BYTES(RECORDS), MOST = 40 };
    static _Alignas(16) unsigned char array[HEAPS * EACH];
    static tlsf_heap heaps[HEAPS];
    static tlsf_heap_block live[HEAPS][MOST];
    static unsigned lives[HEAPS];
    bool made = true, served = true, whole = true, ended = true;
    start(1);
    for (unsigned h = 0; h < HEAPS; h++) {
        made = made && tlsf_heap_create_in(array + h * EACH, EACH, RECORDS, &heaps[h]) == TLSF_OK;
        made = made && tlsf_heap_add_pool(&heaps[h], 65536u * h, 65536) == TLSF_OK;
    }
    for (unsigned k = 0; k < REQUESTS; k++) {
        unsigned h = (unsigned)below(HEAPS);
        if (lives[h] < MOST && below(3) > 0) {
            tlsf_heap_block *block = &live[h][lives[h]++];
            served = served && tlsf_heap_malloc(&heaps[h], 1 + below(800), block) == TLSF_OK;
            served = served && block->place / 65536 == h;
        } else if (lives[h] > 0) {
            unsigned at = (unsigned)below(lives[h]);
            served = served && tlsf_heap_free(&heaps[h], live[h][at]) == TLSF_OK;
            live[h][at] = live[h][--lives[h]];
        }
    }
    for (unsigned h = 0; h < HEAPS; h++) {
        whole = whole && tlsf_heap_check(&heaps[h]);
    }
    for (unsigned h = 0; h < HEAPS; h += 2) {
        tlsf_heap_destroy(&heaps[h]);
        memset(array + h * EACH, 0xff, EACH);
    }
    for (unsigned h = 1; h < HEAPS; h += 2) {
        while (lives[h] > 0) {
            ended = ended && tlsf_heap_free(&heaps[h], live[h][--lives[h]]) == TLSF_OK;
        }
        ended = ended && tlsf_heap_check(&heaps[h])
                && tlsf_heap_remove_pool(&heaps[h], 65536u * h) == TLSF_OK;
        tlsf_heap_destroy(&heaps[h]);
    }
    expect(made, "forty heaps in one array");
    expect(served, "each serves from its own pool");
    expect(whole, "each table is whole");
    expect(ended, "what is written over one that was ended is nothing to the others");
    expect(takes == 0 && returns == 0, "and malloc is never asked");
}

/* Random calls with at most `most` live blocks in a pool or two: whether none is refused for want
 * of a record. */
static bool is_enough(uint32_t records, unsigned most, uint32_t pools, bool aligned)
{
    tlsf_heap heap = {0};
    tlsf_heap_block live[8];
    unsigned lives = 0;
    bool enough = true;
    start(0);
    tlsf_heap_create(records, &heap);
    for (uint32_t pool = 0; pool < pools; pool++) {
        enough = tlsf_heap_add_pool(&heap, 4096u * pool, 2048) == TLSF_OK && enough;
    }
    for (unsigned k = 0; k < REQUESTS; k++) {
        uint64_t kind = below(3), bytes = 1 + below(300), at = lives ? below(lives) : 0;
        uint32_t status = TLSF_OK;
        if (kind == 0 && lives < most) {
            status = aligned ? tlsf_heap_memalign(&heap, 16u << below(6), bytes, &live[lives])
                             : tlsf_heap_malloc(&heap, bytes, &live[lives]);
            lives += status == TLSF_OK;
        } else if (kind == 1 && lives > 0) {
            status = tlsf_heap_realloc(&heap, live[at], bytes, &live[at]);
        } else if (kind == 2 && lives > 0) {
            tlsf_heap_free(&heap, live[at]);
            live[at] = live[--lives];
        }
        enough = enough && status != TLSF_TABLE_FULL;
    }
    tlsf_heap_destroy(&heap);
    return enough;
}

/* A block lies between two free ones, and an aligned one is asked for that leaves two rests. */
static uint32_t beyond(uint32_t records)
{
    tlsf_heap heap = {0};
    tlsf_heap_block one, other;
    bool served = tlsf_heap_create(records, &heap) == TLSF_OK
                  && tlsf_heap_add_pool(&heap, 0, 2048) == TLSF_OK;
    served = served && tlsf_heap_malloc(&heap, 16, &one) == TLSF_OK
             && tlsf_heap_malloc(&heap, 16, &other) == TLSF_OK;
    served = served && tlsf_heap_free(&heap, one) == TLSF_OK;
    uint32_t status = served ? tlsf_heap_memalign(&heap, 256, 100, &one) : TLSF_BAD_COUNT;
    tlsf_heap_destroy(&heap);
    return status;
}

static void enough_records(void)
{
    bool enough = true, aligned = true;
    for (uint32_t pools = 1; pools <= 3; pools++) {
        for (unsigned most = 1; most <= 8; most++) {
            enough = enough && is_enough(TLSF_HEAP_RECORDS(most, pools), most, pools, false);
            aligned = aligned && is_enough(TLSF_HEAP_RECORDS(most, pools), most, pools, true);
        }
    }
    expect(enough, "TLSF_HEAP_RECORDS are enough");
    expect(!is_enough(2 * 3 + 1, 3, 1, false), "one less is not");
    expect(aligned, "also where blocks are aligned");
    expect(beyond(TLSF_HEAP_RECORDS(1, 1)) == TLSF_TABLE_FULL,
           "a block beyond them that is aligned can take one more");
    expect(beyond(TLSF_HEAP_RECORDS(1, 1) + 1) == TLSF_OK, "and no second");
}

/* What the limits are is what calls answer. */
static void limits(void)
{
    tlsf_heap heap = {0};
    tlsf_heap_block block;
    start(0);
    expect(tlsf_heap_create(TLSF_HEAP_RECORDS_MOST + 1, &heap) == TLSF_BAD_COUNT
               && tlsf_heap_create(TLSF_HEAP_RECORDS_MOST, &heap) == TLSF_OK,
           "the most records");
    expect(tlsf_heap_add_pool(&heap, 0, TLSF_HEAP_GREATEST + TLSF_HEAP_UNIT) == TLSF_BAD_POOL
               && tlsf_heap_add_pool(&heap, 0, TLSF_HEAP_GREATEST) == TLSF_OK,
           "the greatest pool");
    expect(tlsf_heap_malloc(&heap, 1056964609, &block) == TLSF_NO_FIT
               && tlsf_heap_malloc(&heap, 1056964608, &block) == TLSF_OK,
           "the greatest that malloc serves");
    expect(tlsf_heap_realloc(&heap, block, TLSF_HEAP_GREATEST + 1ull, &block) == TLSF_NO_FIT
               && tlsf_heap_realloc(&heap, block, TLSF_HEAP_GREATEST, &block) == TLSF_OK,
           "the greatest block");
    uint32_t status = TLSF_OK;
    for (uint32_t pool = 1; pool < TLSF_HEAP_POOLS; pool++) {
        status |= tlsf_heap_add_pool(&heap, 0x40000000u + 64u * pool, TLSF_HEAP_UNIT);
    }
    expect(status == TLSF_OK
               && tlsf_heap_add_pool(&heap, 0x50000000u, TLSF_HEAP_UNIT) == TLSF_POOLS_FULL,
           "the most pools");
    expect(tlsf_heap_add_pool(&heap, 0, TLSF_HEAP_UNIT / 2) == TLSF_BAD_POOL, "the unit");
    tlsf_heap_destroy(&heap);
}

int main(void)
{
    tlsf_heap heap = {0};
    uint64_t count = 0;
    expect(tlsf_heap_create(RECORDS, &heap) == TLSF_OK
               && tlsf_heap_save(&heap, image, sizeof image, &count) == TLSF_OK
               && count == sizeof image,
           "a heap is saved");
    tlsf_heap_destroy(&heap);
    at_its_bytes(false);
    at_its_bytes(true);
    other_refusals();
    after_refusals();
    broken_without_memory();
    beyond_all();
    of_malloc();
    ends();
    side_by_side();
    enough_records();
    limits();
    return cases_end();
}
