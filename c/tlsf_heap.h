/* tlsf_heap.h: a heap with bounded calls (Two-Level Segregated Fit), for C programs.
 *
 * Fifteen of these calls are a proved library. docs/C.md says what is proved, and how to link the
 * library. tlsf_heap_create_in and tlsf_heap_load_in, the two calls over the program's own memory,
 * aren't proved. The C functions in this header aren't, either.
 *
 * A heap hands out places, not memory. A place is a number of bytes from a base that the program
 * chooses. A program that owns an array adds the array's address (tlsf_heap_address below). The
 * heap never reads or writes the bytes of a pool: its own table holds all that it knows. So a pool
 * may also be memory of a device or a file, or no memory at all.
 *
 * Units: places and sizes are in bytes. A block begins at a multiple of 16 and has a multiple of 16
 * bytes. A place is from 0 to 2^32 - 1. A block has at most 1,073,741,808 bytes (2^30 - 16).
 *
 * Bounds: a touch reads or writes one part of the table, or does both. The comments below tell the
 * most touches of a call, whatever the heap holds, served or refused. Only the calls that make a
 * heap take memory: once for the table, and once for the heap itself. tlsf_heap_destroy gives both
 * back.
 *
 * Who may call: a heap belongs to the thread that made it. Only one call on it runs at a time. No
 * call runs in a signal handler, or in the forked child of a process with threads. An interrupt
 * whose handler calls the heap is masked around the program's own calls. A program that uses a heap
 * in several threads puts a lock around it, at its own risk. It isn't proved that a heap may pass
 * from thread to thread.
 *
 * What the program owes: a tlsf_heap starts with zeros. The calls that make, load or destroy a heap
 * may take a tlsf_heap of zeros. All other calls take one that was made or loaded, and not
 * destroyed since. The program doesn't use two copies of it, and doesn't write it. Each pointer
 * points to an object of its type, and two pointers of one call point to different objects. Nothing
 * checks these rules. But each call checks the tlsf_heap_block that it gets, and refuses a wrong
 * one.
 */
#ifndef TLSF_HEAP_H
#define TLSF_HEAP_H

#include <stdbool.h>
#include <stddef.h>
#include <stdint.h>

#if UINTPTR_MAX < 0xffffffff || defined(__i386__)
#error "tlsf_heap.h is for 32 and 64 bits, but not for 32-bit x86: there is no library"
#endif

#ifdef __cplusplus
extern "C" {
#endif

#define TLSF_HEAP_VERSION "1.2.0"

/* Limits: places and sizes are multiples of the unit. The others are the greatest block and pool,
 * and the most pools and records of a heap. tlsf_heap_malloc serves up to 1,056,964,608 bytes,
 * which is the lowest size of the last class. By tlsf_heap_realloc a block can grow to
 * TLSF_HEAP_GREATEST. */
#define TLSF_HEAP_UNIT 16u
#define TLSF_HEAP_GREATEST 1073741808u
#define TLSF_HEAP_POOLS 8u
#define TLSF_HEAP_RECORDS_MOST 65535u

/* With this many records no call is refused for want of a record, while at most `blocks` blocks are
 * live in `pools` pools. A block that is asked for counts as live, and may be aligned. Each block,
 * live or free, takes a record, and a pool has at most one free block more than live blocks. The
 * number also has room for the second block that a realloc holds while it moves the first. */
#define TLSF_HEAP_RECORDS(blocks, pools) (2u * (blocks) + (pools) + 1u)

/* How many bytes tlsf_heap_create_in and tlsf_heap_load_in take for a heap of `records` records:
 * 16 for each, 1,664 for the heap itself, and 16 in front of each of these two. */
#define TLSF_HEAP_TABLE_BYTES(records) (1696u + 16u * (size_t)(records))

/* A class is a range of sizes, with a list of its free blocks. This is the distance from the lowest
 * size of one class to that of the next, around `bytes` bytes. It is 16 below 1,024 bytes. From
 * there on it doubles with each doubling of the size. */
static inline uint64_t tlsf_heap_class_step(uint64_t bytes)
{
    uint64_t step = TLSF_HEAP_UNIT;
    while (bytes / 64u >= step) {
        step *= 2u;
    }
    return step;
}

/* The lowest size of the class of a free block of `bytes` bytes, which is a multiple of 16. */
static inline uint64_t tlsf_heap_class_low(uint64_t bytes)
{
    return bytes - bytes % tlsf_heap_class_step(bytes);
}

/* The class size of a request for `bytes` bytes at a multiple of `align`. It is the lowest size of
 * the first class whose blocks are all large enough. Answers 0 where no class is large enough, or
 * `align` is no power of two up to 2^29. Take 1 for `align` where blocks aren't aligned. */
static inline uint32_t tlsf_heap_class_size(uint64_t align, uint64_t bytes)
{
    uint64_t size = (bytes + TLSF_HEAP_UNIT - 1u) / TLSF_HEAP_UNIT * TLSF_HEAP_UNIT;
    uint64_t step;
    if (bytes == 0u || bytes > TLSF_HEAP_GREATEST || align == 0u || align > (1u << 29)
        || (align & (align - 1u)) != 0u) {
        return 0;
    }
    size += align > TLSF_HEAP_UNIT ? align - TLSF_HEAP_UNIT : 0u;
    step = tlsf_heap_class_step(size);
    size = (size + step - 1u) / step * step;
    return size > 1056964608u ? 0u : (uint32_t)size;
}

/* The bytes of one pool that is always enough, in whatever order the program asks and gives back: a
 * multiple of 16.
 * These conditions have to hold. At most `blocks` blocks are live. They have at most `bytes` bytes
 * together, each rounded up to 16. `class_size` is the greatest tlsf_heap_class_size of the
 * requests. The heap has 2 * blocks + 3 records. Answers 0 where no pool is enough. The proved
 * library has two functions with a law that says this: laws::sure_pool_is_enough of tlsf_heap. The
 * two functions here are C, and aren't proved. */
static inline uint32_t tlsf_heap_sure_pool(uint64_t blocks, uint64_t bytes, uint32_t class_size)
{
    uint64_t size = class_size;
    uint64_t too_small = size > TLSF_HEAP_UNIT ? size - TLSF_HEAP_UNIT : 0u;
    uint64_t pool;
    if (class_size == 0u || blocks > (TLSF_HEAP_RECORDS_MOST - 3u) / 2u
        || bytes > TLSF_HEAP_GREATEST) {
        return 0;
    }
    pool = ((bytes + (blocks + 1u) * too_small) / TLSF_HEAP_UNIT + 1u) * TLSF_HEAP_UNIT;
    return pool > TLSF_HEAP_GREATEST ? 0u : (uint32_t)pool;
}

/* How many bytes the image of a heap of `records` records has: at most 1,050,080. */
#define TLSF_HEAP_IMAGE_BYTES(records) (1520u + 16u * (size_t)(records))

/* The proved library's pointers take eight bytes on each processor. */
#if UINTPTR_MAX < 0xffffffffffffffff
#define TLSF_HEAP_POINTER __attribute__((aligned(8)))
#else
#define TLSF_HEAP_POINTER
#endif

/* A heap. Start it with zeros (tlsf_heap heap = {0};) and fill it with a call that makes one. */
typedef struct tlsf_heap {
    unsigned char *at TLSF_HEAP_POINTER;
} tlsf_heap;

/* A live block: the place where it begins, and its slot, which is the number of its record. A stale
 * one is refused, unless a later block has the same place and slot. */
typedef struct tlsf_heap_block {
    uint32_t place;
    uint16_t slot;
} tlsf_heap_block;

/* A block of a pool as tlsf_heap_walk gives it: where it begins, its size, and whether it is
 * live. */
typedef struct tlsf_heap_row {
    uint32_t place;
    uint32_t size;
    bool used;
} tlsf_heap_row;

/* What a call answers: 0 where it is served, else the reason of the refusal. A refused call changes
 * neither the heap's content nor what its out parameter points to. Only a refused tlsf_heap_save
 * still writes as much as there is room for. */
enum tlsf_status {
    TLSF_OK = 0,
    TLSF_ZERO_SIZE = 1,     /* no byte was asked for */
    TLSF_NO_FIT = 2,        /* no free block is surely large enough, or none can be */
    TLSF_TABLE_FULL = 3,    /* the call needs more records than are vacant */
    TLSF_BAD_POINTER = 4,   /* no live block has this place and this slot */
    TLSF_BAD_ALIGN = 5,     /* the alignment isn't a power of two from 1 to 2^29 */
    TLSF_BAD_POOL = 6,      /* base or size of the pool aren't allowed, or it overlaps another */
    TLSF_POOLS_FULL = 7,    /* the heap has eight pools already */
    TLSF_POOL_IN_USE = 8,   /* a block of the pool is live */
    TLSF_OUT_OF_MEMORY = 9, /* memory was refused */
    TLSF_NO_POOL = 10,      /* no pool begins there */
    TLSF_BAD_COUNT = 11,    /* the number of records isn't from 1 to 65,535 */
    /* 12 and 13 aren't used. */
    TLSF_NO_ROOM = 14,    /* the image has more bytes than there is room for */
    TLSF_BAD_MEMORY = 15, /* the memory handed in is too small, or at no multiple of 16 */

    /* The bytes are no image of a heap. Twelve rules are checked in this order. The status is 100
     * plus the number of the first rule that is broken. docs/FORMATS.md says what stands where in
     * an image. */
    TLSF_BROKEN_MAGIC = 101,        /* at least 1,520 bytes, which begin with TLSFIMG1 */
    TLSF_BROKEN_LENGTH = 102,       /* 1 to 65,535 records, 8 pools or less, and nothing behind */
    TLSF_BROKEN_POOLS = 103,        /* each pool has an allowed base and size, above those before */
    TLSF_BROKEN_UNUSED_POOLS = 104, /* the other pool entries are zero */
    TLSF_BROKEN_STATES = 105,       /* each record is vacant, free or live; a vacant one is zero */
    TLSF_BROKEN_LINKS = 106,        /* each link is none or one of the records; a block has bytes */
    TLSF_BROKEN_CHAINS = 107,       /* each pool's chain ends, has blocks alone, is linked back */
    TLSF_BROKEN_COVER = 108,        /* the blocks of each chain cover its pool end to end */
    TLSF_BROKEN_ON_CHAINS = 109,    /* each block is on the chain of a pool */
    TLSF_BROKEN_MERGED = 110,       /* no two free blocks stand side by side */
    TLSF_BROKEN_LISTS = 111,        /* each class's list ends, has its free blocks alone */
    TLSF_BROKEN_ON_LISTS = 112      /* each free block is on the list of its class */
};

/* Fills *out with a heap of `records` records, from 1 to 65,535, with no pool. TLSF_HEAP_RECORDS
 * tells how many are enough.
 * Answers 0, TLSF_BAD_COUNT exactly where the number isn't from 1 to 65,535, or TLSF_OUT_OF_MEMORY.
 * What *out held before is overwritten, so a heap in use would be lost. */
enum tlsf_status tlsf_heap_create(uint32_t records, tlsf_heap *out);

/* As tlsf_heap_create, with the table in the `bytes` bytes at memory. These bytes are the heap's
 * until it is destroyed. No other memory is taken. TLSF_HEAP_TABLE_BYTES tells how many bytes are
 * enough.
 * Answers 0, or TLSF_BAD_COUNT as above. Else it answers TLSF_BAD_MEMORY exactly where there are
 * fewer bytes, or where memory is null or no multiple of 16. This call isn't proved. */
enum tlsf_status tlsf_heap_create_in(void *memory, size_t bytes, uint32_t records, tlsf_heap *out);

/* Ends the heap, gives its memory back, and leaves zeros in *heap. Memory that the program handed
 * in is the program's again. Where *heap is zeros, nothing is done. So a tlsf_heap may be destroyed
 * before it was filled, and may be destroyed twice. */
void tlsf_heap_destroy(tlsf_heap *heap);

/* Adds a pool of `bytes` bytes from the place base on, as one free block. At most 25 touches.
 * Answers 0, TLSF_BAD_POOL, TLSF_POOLS_FULL or TLSF_TABLE_FULL. A pool is bad where base or bytes
 * isn't a multiple of 16, or bytes isn't from 16 to 1,073,741,808. It is bad, too, where its end is
 * above 2^32, or it overlaps another pool. Pools are never merged. */
enum tlsf_status tlsf_heap_add_pool(tlsf_heap *heap, uint64_t base, uint64_t bytes);

/* Removes the pool that begins at the place base. At most 26 touches.
 * Answers 0, TLSF_NO_POOL where no pool begins at base, or TLSF_POOL_IN_USE unless the pool is one
 * free block. */
enum tlsf_status tlsf_heap_remove_pool(tlsf_heap *heap, uint64_t base);

/* Gives *out a live block of at least `bytes` bytes, rounded up to 16. At most 21 touches.
 * Answers 0, TLSF_ZERO_SIZE, TLSF_NO_FIT or TLSF_TABLE_FULL.
 * Lists are searched upwards, from the lowest class whose blocks all hold the bytes. The block is
 * the first of the first list that isn't empty. So TLSF_NO_FIT says that each free block is smaller
 * than that class. One of them might still hold the bytes. */
enum tlsf_status tlsf_heap_malloc(tlsf_heap *heap, uint64_t bytes, tlsf_heap_block *out);

/* As tlsf_heap_malloc, at a place that is a multiple of align, a power of two from 1 to 2^29. At
 * most 35 touches.
 * Answers 0, TLSF_BAD_ALIGN, TLSF_ZERO_SIZE, TLSF_NO_FIT or TLSF_TABLE_FULL. */
enum tlsf_status tlsf_heap_memalign(tlsf_heap *heap, uint64_t align, uint64_t bytes,
                                    tlsf_heap_block *out);

/* Frees the block, and merges it with its free neighbours in the pool. At most 30 touches.
 * Answers 0, or TLSF_BAD_POINTER unless a live block has this place and this slot. */
enum tlsf_status tlsf_heap_free(tlsf_heap *heap, tlsf_heap_block block);

/* Gives *out the block with room for `bytes` bytes, at its old place or at another. At most 54
 * touches. Where the place is another, the program copies the bytes that it has in the block before
 * its next call. The new block was given before the old one became free, so the two don't overlap.
 * No other block gets the old one's bytes before the next call.
 * Where bytes is 0 the block becomes free, and *out stays as it was.
 * Answers 0, TLSF_NO_FIT, TLSF_TABLE_FULL, or TLSF_BAD_POINTER unless a live block has this place
 * and this slot. A refused call leaves the old block as it was. */
enum tlsf_status tlsf_heap_realloc(tlsf_heap *heap, tlsf_heap_block block, uint64_t bytes,
                                   tlsf_heap_block *out);

/* Gives *out the number of bytes of a live block, which is a multiple of 16. At most one touch.
 * Answers 0, or TLSF_BAD_POINTER unless a live block has this place and this slot. */
enum tlsf_status tlsf_heap_block_size(const tlsf_heap *heap, tlsf_heap_block block, uint32_t *out);

/* How many records are in use: one for each block, live or free. At most one touch. */
uint32_t tlsf_heap_records_used(const tlsf_heap *heap);

/* The most bytes for which tlsf_heap_malloc finds a block now, and 0 where no block is free.
 * tlsf_heap_malloc never answers TLSF_NO_FIT for this many bytes or fewer, and always does for
 * more. At most 2 touches. The number is the lowest size of a class, and the largest free block is
 * of that class. So the block exceeds the number by less than tlsf_heap_class_step of it. */
uint32_t tlsf_heap_largest_request(const tlsf_heap *heap);

/* Puts blocks of the pool that begins at the place base into rows, in order of place. These blocks
 * begin at the place `from` or behind it. As many are put as `room` allows, but *count gets the
 * number of all of them. So a call from 0 with room 0 tells how much room the whole pool needs.
 * With few rows a pool is read piece by piece, and each piece begins at the end of the last row. At
 * most 4 touches, and one more for each block of the pool.
 * Answers 0, or TLSF_NO_POOL where no pool begins at base. Where room is 0, rows still points to a
 * tlsf_heap_row. */
enum tlsf_status tlsf_heap_walk(const tlsf_heap *heap, uint64_t base, uint64_t from,
                                tlsf_heap_row *rows, size_t room, uint64_t *count);

/* Whether the table is whole: its blocks, lists, bitmaps and pools, and the chain of its vacant
 * records. It is proved that the heap's calls keep it whole. Where this answers false, something
 * else wrote over the table. Then only tlsf_heap_destroy may be called. Of bytes that mean nothing,
 * for example those of a vacant record except its link, the call asks this alone: each place is a
 * multiple of 16, and each link is none or a record's number. It trusts the address and the length
 * of the table in the heap's own bytes. It reads each record, so it isn't for a path that has to be
 * quick. */
bool tlsf_heap_check(const tlsf_heap *heap);

/* Puts an image of the heap into the `room` bytes at bytes, or as much of it as there is room for.
 * *count gets the number of bytes put. The bytes behind these stay as they were. The heap is
 * unchanged, and no memory is taken. The call reads the whole table, so it isn't for a path that
 * has to be quick.
 * Answers 0 where the whole image is put, or TLSF_NO_ROOM exactly where the image has more bytes
 * than `room`. Where room is 0, bytes still points to a byte. TLSF_HEAP_IMAGE_BYTES tells the room
 * that is needed. */
enum tlsf_status tlsf_heap_save(const tlsf_heap *heap, unsigned char *bytes, size_t room,
                                uint64_t *count);

/* Fills *out with the heap whose image is in the `length` bytes at bytes. Each block that was live
 * is live again, with its place and its slot. The bytes need not be trusted. *out is filled exactly
 * where they break none of the twelve rules, unless memory is refused. The heap doesn't need the
 * bytes afterwards. Where it is served, at most 5 touches for each record and 8 for each of the 704
 * classes.
 * Answers 0, or TLSF_OUT_OF_MEMORY. For the first rule that is broken it answers TLSF_BROKEN_MAGIC
 * to TLSF_BROKEN_ON_LISTS, and asks for no memory. Where length is 0, bytes still points to a byte.
 * Where *out is filled, what it held before is overwritten, so a heap in use would be lost. */
enum tlsf_status tlsf_heap_load(const unsigned char *bytes, size_t length, tlsf_heap *out);

/* As tlsf_heap_load, but the table lies in the `bytes` bytes at memory, as for tlsf_heap_create_in.
 * The image doesn't overlap these bytes.
 * Answers 0, or the status of the first broken rule as above. Else it answers TLSF_BAD_MEMORY
 * exactly where the bytes are fewer than TLSF_HEAP_TABLE_BYTES of the image's records, or where
 * memory is null or no multiple of 16. This call isn't proved. */
enum tlsf_status tlsf_heap_load_in(void *memory, size_t bytes, const unsigned char *image,
                                   size_t length, tlsf_heap *out);

/* These two functions give the table its memory. The proved library needs them, memcpy and memset
 * from the program. tlsf_memory.c has the two over malloc and free, and is part of libtlsf_heap.a.
 * A program may have both functions of its own in their place. Then it has no tlsf_heap_create_in
 * and no tlsf_heap_load_in, which are in tlsf_memory.c, too.
 *
 * rattle_alloc answers `bytes` bytes of memory at a multiple of align, where align is at most 16.
 * Where no memory is left, ok is false, and p still points to some byte. rattle_dealloc gets back,
 * once, what rattle_alloc gave. */
struct rattle_tried {
    bool ok;
    unsigned char *p;
};
struct rattle_tried rattle_alloc(size_t bytes, size_t align);
void rattle_dealloc(unsigned char *p);

/* The name of a status. */
static inline const char *tlsf_heap_status_name(uint32_t status)
{
    switch (status) {
    case TLSF_OK: return "served";
    case TLSF_ZERO_SIZE: return "zero size";
    case TLSF_NO_FIT: return "no fit";
    case TLSF_TABLE_FULL: return "table full";
    case TLSF_BAD_POINTER: return "bad pointer";
    case TLSF_BAD_ALIGN: return "bad alignment";
    case TLSF_BAD_POOL: return "bad pool";
    case TLSF_POOLS_FULL: return "pools full";
    case TLSF_POOL_IN_USE: return "pool in use";
    case TLSF_OUT_OF_MEMORY: return "out of memory";
    case TLSF_NO_POOL: return "no pool";
    case TLSF_BAD_COUNT: return "bad count";
    case TLSF_NO_ROOM: return "no room";
    case TLSF_BAD_MEMORY: return "bad memory";
    case TLSF_BROKEN_MAGIC: return "broken image: magic";
    case TLSF_BROKEN_LENGTH: return "broken image: length";
    case TLSF_BROKEN_POOLS: return "broken image: pools";
    case TLSF_BROKEN_UNUSED_POOLS: return "broken image: unused pools";
    case TLSF_BROKEN_STATES: return "broken image: states";
    case TLSF_BROKEN_LINKS: return "broken image: links";
    case TLSF_BROKEN_CHAINS: return "broken image: chains";
    case TLSF_BROKEN_COVER: return "broken image: cover";
    case TLSF_BROKEN_ON_CHAINS: return "broken image: block on no chain";
    case TLSF_BROKEN_MERGED: return "broken image: free blocks side by side";
    case TLSF_BROKEN_LISTS: return "broken image: lists";
    case TLSF_BROKEN_ON_LISTS: return "broken image: free block on no list";
    default: return "unknown";
    }
}

/* The address where a block begins, for a program that owns an array with place 0 at base. It is a
 * multiple of 16 if base is one. It is a multiple of the alignment given to tlsf_heap_memalign if
 * base is a multiple of that alignment. */
static inline void *tlsf_heap_address(void *base, tlsf_heap_block block)
{
    return (unsigned char *)base + block.place;
}

/* The block at an address of that array, with the slot that the program kept. */
static inline tlsf_heap_block tlsf_heap_block_at(const void *base, const void *address,
                                                 uint16_t slot)
{
    ptrdiff_t place = (const unsigned char *)address - (const unsigned char *)base;
    tlsf_heap_block block;
    block.place = (uint32_t)place;
    block.slot = slot;
    return block;
}

#ifdef __cplusplus
}
#endif

#endif
