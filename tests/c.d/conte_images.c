/* tlsf_save and tlsf_load: heaps whose pools stay and move, faults of images, and memory that isn't
 * enough. */
#include <stdlib.h>
#include <string.h>

#include "cases.h"
#include "tlsf.h"

enum { RECORDS = 300, POOL = 8192, POOLS = 3, BLOCKS = 64, STEPS = 4000 };
#define IMAGE TLSF_IMAGE_BYTES(RECORDS)

static _Alignas(64) unsigned char control[1 << 14], other_control[1 << 14], image[IMAGE];
static _Alignas(64) unsigned char here[POOLS][POOL + 16], there[POOLS][POOL + 16];

static uint32_t next_random(void)
{
    static uint64_t state = 7;
    state = state * 6364136223846793005u + 1442695040888963407u;
    return (uint32_t)(state >> 33);
}

/* The memory of the pools, as it is handed in: two at multiples of 16, and one at another of 8. */
static tlsf_memory memory_of(unsigned char pools[POOLS][POOL + 16], int k)
{
    return (tlsf_memory){pools[k] + (k == 1 ? 8 : 0), POOL};
}

static tlsf_t make(void)
{
    tlsf_t tlsf = tlsf_create_records(control, tlsf_size_records(RECORDS), RECORDS);
    for (int k = 0; k < POOLS; k++) {
        tlsf_memory memory = memory_of(here, k);
        if (tlsf_add_pool(tlsf, memory.mem, memory.bytes) == NULL) {
            return NULL;
        }
    }
    return tlsf;
}

/* Where a pointer into one of the pools here is in the other ones. */
static void *moved(const void *ptr)
{
    size_t at = ptr == NULL ? 0 : (size_t)((const unsigned char *)ptr - &here[0][0]);
    return ptr == NULL ? NULL : &there[0][0] + at;
}

static void *blocks[BLOCKS];

/* One call of any kind on a block. */
static void step(tlsf_t tlsf, uint32_t kind, size_t bytes, void **block)
{
    if (kind < 4) {
        tlsf_free(tlsf, *block);
        *block = kind == 0 ? tlsf_memalign(tlsf, 32, bytes) : tlsf_malloc(tlsf, bytes);
    } else if (*block != NULL) {
        void *now = tlsf_realloc(tlsf, *block, bytes);
        *block = now == NULL ? *block : now;
    }
    if (*block != NULL) {
        memset(*block, (int)bytes, tlsf_block_size(*block));
    }
}

static void fill(tlsf_t tlsf, unsigned steps)
{
    for (unsigned k = 0; k < steps; k++) {
        step(tlsf, next_random() % 5, 1 + next_random() % 700, &blocks[next_random() % BLOCKS]);
    }
}

static int load_moved(size_t length)
{
    tlsf_memory memory[8] = {{NULL, 0}};
    for (int k = 0; k < POOLS; k++) {
        memory[k] = memory_of(there, k);
    }
    return tlsf_load(other_control, tlsf_size_records(RECORDS), image, length, memory);
}

static bool same_figures(tlsf_t one, tlsf_t other)
{
    tlsf_figures a, b;
    return tlsf_stats(one, &a) == 0 && tlsf_stats(other, &b) == 0 && a.bytes_live == b.bytes_live
           && a.blocks_live == b.blocks_live && a.most_bytes_live == b.most_bytes_live
           && a.bytes_free == b.bytes_free && a.records == b.records
           && a.records_used == b.records_used && a.largest_request == b.largest_request;
}

static void count_row(void *ptr, size_t size, int used, void *user)
{
    (void)ptr, (void)size, (void)used;
    ++*(unsigned *)user;
}

/* Each of so many pools, whose entries lie 32 bytes apart, is whole by itself, and is walked. */
static bool pools_are_whole(tlsf_t tlsf, unsigned pools)
{
    bool whole = tlsf_get_pool(tlsf) != NULL;
    for (unsigned k = 0; k < pools && whole; k++) {
        pool_t pool = (unsigned char *)tlsf_get_pool(tlsf) + 32 * k;
        unsigned rows = 0;
        tlsf_walk_pool(pool, count_row, &rows);
        whole = tlsf_check_pool(pool) == 0 && rows > 0;
    }
    return whole;
}

/* The heap in other memory goes on as the one that was saved: each call answers the same there. */
static void goes_on(void)
{
    tlsf_t tlsf = make();
    bool same = tlsf != NULL;
    fill(tlsf, STEPS);
    same = same && tlsf_save(tlsf, image, sizeof image) == IMAGE;
    memcpy(there, here, sizeof here);
    same = same && load_moved(IMAGE) == 0;
    expect(same, "an image is loaded, with pools in other memory");
    expect(tlsf_check(other_control) == 0 && tlsf_check(tlsf) == 0
               && same_figures(tlsf, other_control),
           "it is whole, with the figures of the heap saved");
    expect(pools_are_whole(other_control, POOLS), "so is each pool");
    void *others[BLOCKS];
    for (int k = 0; k < BLOCKS; k++) {
        others[k] = moved(blocks[k]);
        same =
            same && tlsf_live_size(other_control, others[k]) == tlsf_live_size(tlsf, blocks[k])
            && (blocks[k] == NULL || memcmp(blocks[k], others[k], tlsf_block_size(blocks[k])) == 0);
    }
    expect(same, "each block moved with its pool, and has its bytes");
    for (unsigned k = 0; k < STEPS; k++) {
        uint32_t kind = next_random() % 5, at = next_random() % BLOCKS;
        size_t bytes = 1 + next_random() % 700;
        step(tlsf, kind, bytes, &blocks[at]);
        step(other_control, kind, bytes, &others[at]);
        same = same && moved(blocks[at]) == others[at];
    }
    expect(same && same_figures(tlsf, other_control) && tlsf_check(tlsf) == 0
               && tlsf_check(other_control) == 0,
           "each later call answers the same on both");
    for (int k = 0; k < BLOCKS; k++) {
        tlsf_free(other_control, others[k]);
    }
    tlsf_figures figures;
    expect(tlsf_stats(other_control, &figures) == 0 && figures.blocks_live == 0
               && figures.records_used == POOLS,
           "all its blocks are freed");
}

/* Pools at their addresses, and the heap's own memory too. */
static void stays(void)
{
    tlsf_t tlsf = make();
    memset(blocks, 0, sizeof blocks);
    fill(tlsf, 500);
    tlsf_memory memory[8] = {{NULL, 0}};
    for (int k = 0; k < POOLS; k++) {
        memory[k] = memory_of(here, k);
    }
    bool good = tlsf_save(tlsf, image, sizeof image) == IMAGE;
    size_t sizes[BLOCKS];
    for (int k = 0; k < BLOCKS; k++) {
        sizes[k] = tlsf_live_size(tlsf, blocks[k]);
    }
    memset(control, 0xff, sizeof control);
    good = good && tlsf_load(control, tlsf_size_records(RECORDS), image, IMAGE, memory) == 0;
    for (int k = 0; k < BLOCKS; k++) {
        good = good && tlsf_live_size(control, blocks[k]) == sizes[k];
    }
    expect(good && tlsf_check(control) == 0 && pools_are_whole(control, POOLS),
           "a heap is loaded where it was");
    tlsf_figures figures;
    good = tlsf_stats(control, &figures) == 0;
    for (int what = 0; what < TLSF_REFUSALS; what++) {
        good = good && figures.refusals[what] == 0;
    }
    expect(good, "it has refused nothing, whatever stood in its memory");
}

/* What isn't an image of the heap is refused, and then the pools are as they were. */
static void refused(void)
{
    static unsigned char kept[sizeof there];
    tlsf_t tlsf = make();
    memset(blocks, 0, sizeof blocks);
    fill(tlsf, 500);
    expect(tlsf_save(NULL, image, sizeof image) == 0 && tlsf_save(tlsf, image, IMAGE - 1) == 0
               && tlsf_save(tlsf, image, 0) == 0,
           "no heap has no image, and one that has no room isn't saved");
    bool good = tlsf_save(tlsf, image, IMAGE) == IMAGE;
    memcpy(there, here, sizeof here);
    memcpy(kept, there, sizeof kept);
    for (size_t length = 0; length < IMAGE; length += length < 400 ? 1 : 97) {
        unsigned char *cut = (unsigned char *)malloc(length + 1);
        memcpy(cut + 1, image, length);
        tlsf_memory memory[8] = {memory_of(there, 0), memory_of(there, 1), memory_of(there, 2)};
        good = good && cut != NULL
               && tlsf_load(other_control, tlsf_size_records(RECORDS), cut + 1, length, memory)
                      == TLSF_BROKEN_HEAD;
        free(cut);
    }
    expect(good && memcmp(kept, there, sizeof kept) == 0, "an image that is cut is refused");
    tlsf_memory memory[8] = {memory_of(there, 0), memory_of(there, 1), memory_of(there, 2)};
    size_t bytes = tlsf_size_records(RECORDS);
    memory[1].bytes -= 16;
    expect(tlsf_load(other_control, bytes, image, IMAGE, memory) == 15, "a pool that has no room");
    memory[1] = memory_of(there, 1);
    memory[2] = memory[0];
    expect(tlsf_load(other_control, bytes, image, IMAGE, memory) == TLSF_BROKEN_ADDRESSES,
           "two pools in one memory");
    memory[2] = memory_of(there, 2);
    memory[1] = (tlsf_memory){other_control + bytes - 64, POOL};
    expect(tlsf_load(other_control, bytes, image, IMAGE, memory) == 15,
           "a pool that overlaps the heap's own memory");
    memory[1] = memory_of(there, 1);
    expect(tlsf_load(other_control, tlsf_size_records(RECORDS) - 9, image, IMAGE, memory) == 15
               && tlsf_load(other_control + 4, bytes, image, IMAGE, memory) == 15
               && tlsf_load(NULL, bytes, image, IMAGE, memory) == 15
               && tlsf_load(other_control, bytes, image, IMAGE, NULL) == 15,
           "memory that is too small, or at no multiple of 8, or none");
    for (int k = 0; k < BLOCKS; k++) {
        if (blocks[k] != NULL) {
            unsigned char *front = (unsigned char *)moved(blocks[k]) - 1 - k % 8;
            *front ^= 1;
            good = good
                   && tlsf_load(other_control, bytes, image, IMAGE, memory) == TLSF_BROKEN_FRONTS
                   && tlsf_check(other_control) == -1;
            *front ^= 1;
        }
    }
    expect(good && memcmp(kept, there, sizeof kept) == 0,
           "a front that was changed is told, and no pool is written");
    expect(tlsf_load(other_control, bytes, image, IMAGE, memory) == 0
               && tlsf_check(other_control) == 0,
           "and the image itself is loaded");
}

/* Bytes of an image are changed: it is refused, or what is loaded is whole. */
static void spoiled(void)
{
    static unsigned char kept[IMAGE], pools[sizeof there];
    tlsf_t tlsf = make();
    memset(blocks, 0, sizeof blocks);
    fill(tlsf, 500);
    bool good = tlsf_save(tlsf, kept, IMAGE) == IMAGE;
    memcpy(pools, here, sizeof pools);
    unsigned told = 0, loaded = 0;
    for (unsigned k = 0; k < 20000; k++) {
        memcpy(image, kept, IMAGE);
        memcpy(there, pools, sizeof pools);
        for (uint32_t changes = 1 + next_random() % 2; changes > 0; changes--) {
            image[k % 3 == 0 ? next_random() % 280 : next_random() % IMAGE] =
                (unsigned char)next_random();
        }
        tlsf_destroy(other_control);
        int status = load_moved(IMAGE);
        told += status != 0;
        loaded += status == 0;
        good = good
               && (status == 0 ? tlsf_check(other_control) == 0
                               : tlsf_check(other_control) == -1
                                     && memcmp(pools, there, sizeof pools) == 0);
    }
    expect(good && told > 5000 && loaded > 0,
           "spoiled images are refused, or what is loaded is whole");
    for (size_t at = 0; at < 24; at++) {
        memcpy(image, kept, IMAGE);
        image[at] ^= 0x80;
        good = good && (load_moved(IMAGE) == TLSF_BROKEN_HEAD || (at >= 16 && at < 20));
    }
    expect(good, "each byte of the magic and the records is told");
}

/* A heap in one piece of memory, which moves. */
static void one_piece(void)
{
    static _Alignas(64) unsigned char piece[1 << 15], other[1 << 15];
    for (size_t skip = 0; skip <= 8; skip += 8) {
        tlsf_t tlsf = tlsf_create_records(piece + skip, sizeof piece - 8, RECORDS);
        unsigned char *one = (unsigned char *)tlsf_malloc(tlsf, 100),
                      *two = (unsigned char *)tlsf_malloc(tlsf, 5000);
        bool good = one != NULL && two != NULL && tlsf_save(tlsf, image, sizeof image) == IMAGE;
        strcpy((char *)one, "one");
        tlsf_free(tlsf, two);
        good = good && tlsf_save(tlsf, image, sizeof image) == IMAGE;
        memcpy(other, piece, sizeof piece);
        memset(piece, 0, sizeof piece);
        good = good && tlsf_load(other + skip, sizeof other - 8, image, IMAGE, NULL) == 0
               && tlsf_check(other + skip) == 0;
        unsigned char *now = other + (one - piece);
        expect(good && tlsf_live_size(other + skip, now) == 104 && strcmp((char *)now, "one") == 0
                   && tlsf_malloc(other + skip, 5000) == other + (two - piece),
               "a heap in one piece moves as a whole");
    }
}

/* What an image says of whose a pool is, and of its number, counts for nothing. */
static void others_entries(void)
{
    tlsf_t tlsf = make();
    memset(blocks, 0, sizeof blocks);
    fill(tlsf, 500);
    bool good = tlsf_save(tlsf, image, IMAGE) == IMAGE;
    for (int k = 0; k < 8; k++) {
        memset(image + 24 + 32 * k + 20, 0xa5, 12);
    }
    memcpy(there, here, sizeof here);
    expect(good && load_moved(IMAGE) == 0 && tlsf_check(other_control) == 0
               && pools_are_whole(other_control, POOLS),
           "numbers and owners of an image's pools are those of the heap that is loaded");
}

/* Eight pools of more than 64 KB. The first is in the piece of the control part, before and
 * after. */
enum {
    LARGE = 200000,
    LARGE_RECORDS = 8 * LARGE / 1000 + 100,
    PIECE = 65536 + LARGE,
    LARGE_POOLS = 8
};

struct large {
    unsigned char *piece, *pools[LARGE_POOLS];
    void *last[LARGE_POOLS];
};

static bool make_large(struct large *large)
{
    large->piece = (unsigned char *)malloc(PIECE);
    bool made =
        large->piece != NULL && tlsf_create_records(large->piece, PIECE, LARGE_RECORDS) != NULL;
    for (int k = 1; k < LARGE_POOLS; k++) {
        large->pools[k] = (unsigned char *)malloc(LARGE);
        made = made && large->pools[k] != NULL;
    }
    return made;
}

/* Fills one pool after the other with blocks of 1,000 bytes. */
static bool fill_large(struct large *large)
{
    bool filled = true;
    for (int k = 0; k < LARGE_POOLS && filled; k++) {
        filled = k == 0 || tlsf_add_pool(large->piece, large->pools[k], LARGE) != NULL;
        for (void *block = tlsf_malloc(large->piece, 1000); block != NULL;
             block = tlsf_malloc(large->piece, 1000)) {
            large->last[k] =
                (unsigned char *)block > (unsigned char *)large->last[k] ? block : large->last[k];
        }
    }
    return filled;
}

/* A front of the last block of each pool, at more than 64 KB, is looked at. */
static bool last_fronts_are_told(const struct large *large)
{
    bool told = tlsf_check(large->piece) == 0;
    for (unsigned k = 0; k < LARGE_POOLS; k++) {
        unsigned char *front = (unsigned char *)large->last[k] - 8;
        *front ^= 1;
        for (unsigned other = 0; other < LARGE_POOLS; other++) {
            told = told
                   && tlsf_check_pool((unsigned char *)tlsf_get_pool(large->piece) + 32 * other)
                          == (other == k ? -1 : 0);
        }
        told = told && tlsf_check(large->piece) == -1;
        *front ^= 1;
    }
    return told;
}

static void free_large(struct large *large)
{
    for (int k = 1; k < LARGE_POOLS; k++) {
        free(large->pools[k]);
    }
    free(large->piece);
}

static void eight_large_pools(void)
{
    static unsigned char saved[TLSF_IMAGE_BYTES(LARGE_RECORDS)];
    static struct large from, to;
    tlsf_memory memory[8] = {{NULL, 0}};
    bool good = make_large(&from) && make_large(&to) && fill_large(&from)
                && pools_are_whole(from.piece, LARGE_POOLS);
    expect(good && last_fronts_are_told(&from),
           "the last block of each of eight pools is looked at");
    good = good && tlsf_save(from.piece, saved, sizeof saved) == sizeof saved;
    memcpy(to.piece, from.piece, PIECE);
    memset(to.piece, 0xff, tlsf_size_records(LARGE_RECORDS));
    for (int k = 1; k < LARGE_POOLS; k++) {
        memory[k] = (tlsf_memory){to.pools[k], LARGE};
        memcpy(to.pools[k], from.pools[k], LARGE);
    }
    good = good && (uintptr_t)to.piece % 16 == (uintptr_t)from.piece % 16
           && tlsf_load(to.piece, PIECE, saved, sizeof saved, memory) == 0;
    expect(good && tlsf_check(to.piece) == 0 && pools_are_whole(to.piece, LARGE_POOLS)
               && same_figures(from.piece, to.piece),
           "eight pools are loaded, the first in what is left of the heap's memory");
    for (int k = 0; k < LARGE_POOLS; k++) {
        size_t at = (size_t)((unsigned char *)from.last[k] - (k == 0 ? from.piece : from.pools[k]));
        void *block = (k == 0 ? to.piece : to.pools[k]) + at;
        good = good && tlsf_live_size(to.piece, block) == 1000;
        tlsf_free(to.piece, block);
        good = good && tlsf_live_size(to.piece, block) == 0;
    }
    expect(good && tlsf_check(to.piece) == 0, "the last block of each is live there, and freed");
    free_large(&from);
    free_large(&to);
}

int main(void)
{
    goes_on();
    stays();
    refused();
    spoiled();
    one_piece();
    others_entries();
    eight_large_pools();
    return cases_end();
}
