/* tlsf.h: the calls of Matthew Conte's tlsf 3.1, by their names and signatures, over a proved heap.
 *
 * A program written for his library compiles unchanged against this header. The heap below is
 * proved, and so are blocks' addresses and pools' places. The C around them isn't: the comment at
 * the head of tlsf.c says what it relies on. In short, a pointer is a multiple of 16. A block has
 * at most 1,073,741,800 bytes, and a heap has at most eight pools. A call that can't be served
 * answers a null pointer. A pointer that no live block has is refused, and nothing changes. But a
 * stale pointer can equal that of a later block. To free it frees that block.
 *
 * What differs, on 64 bits:
 *
 *                                                  his                 here
 *   alignment                                      8                   16
 *   tlsf_size(), the bytes that tlsf_create needs  6,536               18,456
 *   tlsf_alloc_overhead(), tlsf_pool_overhead()    8, 16               8, 32
 *   a pool of n + tlsf_pool_overhead() bytes       may refuse n        serves a block of n
 *   tlsf_block_size_min(), tlsf_block_size_max()   24, 2^32            8, 1,073,741,800
 *   blocks, live and free                          any number          as many as records
 *   pools                                          any number          eight, each up to
 *                                                                      1,073,741,808 bytes, in
 *                                                                      4 GiB of places
 *   tlsf_create_with_pool, pool refused            a heap without one  null
 *   tlsf_get_pool                                  what follows his    the first pool, or null
 *                                                  control structure
 *   tlsf_remove_pool with live blocks              an assertion, or    the pool stays
 *                                                  unchecked
 *   tlsf_memalign                                  any power of two    to 2^21, else null
 *   to free a pointer of no live block             an assertion, or    refused
 *                                                  corrupts
 *   the walker                                     must not change it  may allocate and free
 *   tlsf_destroy                                   does nothing        later calls are refused
 *
 * The heap takes no memory but what the program hands in. As for Conte's library it begins at a
 * multiple of a pointer's size: of 4 where pointers have 4 bytes, and of 8 where they have 8. Until
 * the heap or the pool is gone, the program uses only its blocks in this memory. Only one call on a
 * heap runs at a time.
 */
#ifndef TLSF_H
#define TLSF_H

#include <stddef.h>
#include <stdint.h>

#if UINTPTR_MAX < 0xffffffff || defined(__i386__)
#error "tlsf.h is for 32 and 64 bits, but not for 32-bit x86: there is no library"
#endif

#ifdef __cplusplus
extern "C" {
#endif

/* A heap, and a pool of it. */
typedef void *tlsf_t;
typedef void *pool_t;

/* Makes a heap without a pool, in tlsf_size() bytes. Answers a null pointer where mem is null, or
 * begins at no multiple of a pointer's size. The heap is mem, or where that is no multiple of 8,
 * mem + 4. The same holds for the next two calls. */
tlsf_t tlsf_create(void *mem);

/* Makes a heap and its first pool in `bytes` bytes. Answers a null pointer where tlsf_add_pool
 * would refuse the pool. The heap has one record, and one more for each 112 bytes above
 * tlsf_size_records(0), at most 65,535. For 32 bits it is each 80 bytes, and for a build the
 * TLSF_BYTES_A_RECORD that it tells. A record is a row of the heap's table. Each block, live or
 * free, takes one. */
tlsf_t tlsf_create_with_pool(void *mem, size_t bytes);

/* Makes a heap with `records` records, from 1 to 65,535. What is left of the bytes is a pool, if it
 * is 24 bytes or more. Answers a null pointer where one of these can't be made (this call isn't
 * Conte's). tlsf_size() bytes are enough for 1,024 records, or for as many as the library was built
 * with. A record takes 16 bytes. */
tlsf_t tlsf_create_records(void *mem, size_t bytes, uint32_t records);

/* Ends the heap. From then on its pointers are refused, and the memory is the program's again. */
void tlsf_destroy(tlsf_t tlsf);

/* Answers the first pool: the one that the heap was made with, or else the first that was added.
 * After it was removed, the next pool that is added takes its place. While there is no first pool,
 * the answer is a null pointer. */
pool_t tlsf_get_pool(tlsf_t tlsf);

/* Adds a pool: all whole units of 16 bytes from the first address on, from `mem` on, that is a
 * multiple of 8 and none of 16. Answers a null pointer where
 * - this is no unit, or more than 1,073,741,808 bytes
 * - `mem` is null, or begins at no multiple of a pointer's size
 * - the heap has eight pools already
 * - the heap has some of this memory already
 * - no record is vacant
 * - no piece of the heap's 4 GiB of places has room. A pool takes as many places as it has bytes,
 *   in one piece. Up to 2 MiB in front of it stay unused. It keeps its places until it is removed.
 *   So with pools in between, a greater one may be refused where a smaller one was removed. */
pool_t tlsf_add_pool(tlsf_t tlsf, void *mem, size_t bytes);

/* Removes the pool. A pool with a live block stays. */
void tlsf_remove_pool(tlsf_t tlsf, pool_t pool);

/* Answers a block, or a null pointer. For 0 bytes it answers a null pointer. Where no free list has
 * a block that is surely large enough, the call looks at one more list before it answers null. So a
 * pool that is one free block serves all its bytes. */
void *tlsf_malloc(tlsf_t tlsf, size_t bytes);

/* As tlsf_malloc, but the block begins at a multiple of `align`, which is a power of two up to
 * 2^21. */
void *tlsf_memalign(tlsf_t tlsf, size_t align, size_t bytes);

/* Gives the block room for `size` bytes. It stays where it is, or moves to another multiple of 16,
 * with its bytes copied. A refused call answers a null pointer, and the block stays as it was. With
 * a null pointer the call is a tlsf_malloc. For 0 bytes it is a tlsf_free, and answers a null
 * pointer. */
void *tlsf_realloc(tlsf_t tlsf, void *ptr, size_t size);

/* Frees the block. Does nothing where the pointer is null, or no live block has it. */
void tlsf_free(tlsf_t tlsf, void *ptr);

/* Answers the bytes of a live block, and 0 for a null pointer. For any other pointer the call reads
 * the 8 bytes in front. It answers 0 for a freed pointer, but perhaps not for one whose heap is
 * gone. tlsf_live_size is exact. */
size_t tlsf_block_size(void *ptr);

/* Answers the bytes of a live block of this heap, else 0. It reads nothing in front of a pointer
 * that lies in no pool of the heap (this call isn't Conte's). */
size_t tlsf_live_size(tlsf_t tlsf, const void *ptr);

/* What the heap refuses. TLSF_REFUSALS is how many kinds there are. */
enum tlsf_refusal {
    TLSF_REFUSED_NO_FIT = 0,     /* no free block is surely large enough, or none can be */
    TLSF_REFUSED_TABLE_FULL = 1, /* a rest would be left, and no record is vacant */
    TLSF_REFUSED_POINTER = 2,    /* no live block has the pointer, as one in front of which are
                                    zeros */
    TLSF_REFUSED_ALIGNMENT = 3,  /* no power of two, or above 2^21 */
    TLSF_REFUSED_FRONT = 4,      /* the 8 bytes in front are no block's: changed, or none begins
                                    there */
    TLSF_REFUSALS = 5
};

/* The hook is called at each refusal of tlsf_malloc, tlsf_memalign, tlsf_realloc and tlsf_free. It
 * gets the kind of refusal, the pointer or null, the bytes asked for or 0, and the program's own
 * `user`. It runs within the refused call, and must make no call on this heap. */
typedef void (*tlsf_refusal_hook)(enum tlsf_refusal what, const void *ptr, size_t bytes,
                                  void *user);

/* Sets the hook that is told of each refusal from now on. A null pointer ends this (this call isn't
 * Conte's). A request for 0 bytes, and to free a null pointer, are no refusals. */
void tlsf_set_refusal_hook(tlsf_t tlsf, tlsf_refusal_hook hook, void *user);

/* Figures of a heap. The bytes of a block are those that tlsf_block_size tells. */
typedef struct tlsf_figures {
    size_t bytes_live;      /* of the live blocks */
    size_t most_bytes_live; /* the most that they had at once */
    size_t bytes_free;      /* of the pools, without live blocks and the 8 bytes in front of each */
    size_t blocks_live;
    size_t largest_request; /* tlsf_malloc finds a block for this many bytes; 0 if none is free */
    size_t largest_free;    /* no free block serves more: the true number is between the two */
    uint32_t records;       /* of the table */
    uint32_t records_used;  /* one for each block, live or free */
    size_t refusals[TLSF_REFUSALS];
} tlsf_figures;

/* Puts the figures into *figures, in constant time: 3 touches of the table. Answers 0. Where there
 * is no heap it answers -1, and *figures stays as it was (this call isn't Conte's). */
int tlsf_stats(tlsf_t tlsf, tlsf_figures *figures);

/* tlsf_size: the bytes that tlsf_create needs.
 * tlsf_align_size: the address of each block is a multiple of it.
 * tlsf_block_size_min, tlsf_block_size_max: the bytes of the least and of the greatest block.
 * tlsf_pool_overhead: a pool of n bytes and this many serves a block of n bytes. It is a multiple
 * of a pointer's size, for a program that moves an address by it.
 * tlsf_alloc_overhead: the bytes that a block takes beside its own. */
size_t tlsf_size(void);
size_t tlsf_align_size(void);
size_t tlsf_block_size_min(void);
size_t tlsf_block_size_max(void);
size_t tlsf_pool_overhead(void);
size_t tlsf_alloc_overhead(void);

/* The bytes that tlsf_create_records needs in front of a pool, where mem is a multiple of 8, and 4
 * fewer than it needs elsewhere (this call isn't Conte's). */
size_t tlsf_size_records(uint32_t records);

/* Answers the bytes with which tlsf_create_records, for 2 * blocks + 3 records, makes a heap that
 * never answers null. These conditions have to hold. At most `blocks` blocks are live. They have at
 * most `bytes` bytes together, each rounded up to 16. No block is asked for with more than
 * `largest` bytes, or with an alignment above 16. The order of the calls doesn't matter. The law
 * behind it is proved of the calls that tlsf.c stands on: laws::sure_memory_is_enough of tlsf_c.
 * Answers 0 where no heap is enough (this call isn't Conte's). */
size_t tlsf_sure_bytes(uint32_t blocks, size_t bytes, size_t largest);

/* The last two as constant expressions of numbers, for the size of a static array. TLSF_CLASS_SIZE
 * is the lowest size of the first class whose blocks all hold `units` bytes, which is a multiple of
 * 16 (these macros aren't Conte's). */
#define TLSF_SIZE_RECORDS(records) (TLSF_CONTROL_BYTES + 1704u + 16u * (size_t)(records))
#define TLSF_SURE_BYTES(blocks, bytes, largest) \
    ((largest) > 0 && (largest) < 1073741808 && (bytes) < 1073741808 && (blocks) <= 32766 \
             && TLSF_CLASS_SIZE(TLSF_WITH_FRONT(largest)) <= 1056964608u \
             && TLSF_SURE_POOL(blocks, bytes, largest) <= 1073741808u \
         ? TLSF_SIZE_RECORDS(2u * (blocks) + 3u) + 16u \
               + (size_t)TLSF_SURE_POOL(blocks, bytes, largest) \
         : 0u)
#define TLSF_SURE_POOL(blocks, bytes, largest) \
    (((uint64_t)(bytes) + 16u * (uint64_t)(blocks) \
      + ((uint64_t)(blocks) + 1u) * (TLSF_CLASS_SIZE(TLSF_WITH_FRONT(largest)) - 16u)) \
         / 16u * 16u \
     + 16u)
#define TLSF_WITH_FRONT(bytes) (((uint64_t)(bytes) + 23u) / 16u * 16u)
#define TLSF_CLASS_SIZE(units) \
    (((units) + TLSF_CLASS_STEP(units) - 1u) & ~(TLSF_CLASS_STEP(units) - 1u))
/* The distance between two classes around `units` bytes: 16, and twice that for each of the powers
 * of two from 2^10 to 2^29 that they reach. */
#define TLSF_CLASS_STEP(units) \
    ((uint64_t)16 << (TLSF_HAS(units, 10) + TLSF_HAS(units, 11) + TLSF_HAS(units, 12) \
                      + TLSF_HAS(units, 13) + TLSF_HAS(units, 14) + TLSF_HAS(units, 15) \
                      + TLSF_HAS(units, 16) + TLSF_HAS(units, 17) + TLSF_HAS(units, 18) \
                      + TLSF_HAS(units, 19) + TLSF_HAS(units, 20) + TLSF_HAS(units, 21) \
                      + TLSF_HAS(units, 22) + TLSF_HAS(units, 23) + TLSF_HAS(units, 24) \
                      + TLSF_HAS(units, 25) + TLSF_HAS(units, 26) + TLSF_HAS(units, 27) \
                      + TLSF_HAS(units, 28) + TLSF_HAS(units, 29)))
#define TLSF_HAS(units, power) ((units) >= (uint64_t)1 << (power))
/* What a heap takes in front of its table. */
#if UINTPTR_MAX > 0xffffffff
#define TLSF_CONTROL_BYTES ((size_t)368)
#else
#define TLSF_CONTROL_BYTES ((size_t)336)
#endif

/* Calls the walker with each block of the pool, live or free, in order of address. A null pointer
 * stands for a walker that prints. Blocks are read 64 at a time, each time from the end of the
 * block read last. So the walker may allocate and free. For each 64 blocks the pool's whole chain
 * is read, so this call isn't for a path that has to be quick. */
typedef void (*tlsf_walker)(void *ptr, size_t size, int used, void *user);
void tlsf_walk_pool(pool_t pool, tlsf_walker walker, void *user);

/* Checks what the heap keeps at its start, its table, and the 8 bytes in front of each live block,
 * of all pools or of one. Answers 0 where all is whole, else less than 0. At the heap's start each
 * byte that is changed is told. */
int tlsf_check(tlsf_t tlsf);
int tlsf_check_pool(pool_t pool);

/* What tlsf_check_at and tlsf_load_at find wrong. */
enum tlsf_fault_kind {
    TLSF_FAULT_NONE = 0,    /* nothing */
    TLSF_FAULT_NO_HEAP = 1, /* there is no heap, or the first 8 bytes of its start were changed */
    TLSF_FAULT_CONTROL = 2, /* a byte of the heap's start, in front of its table */
    TLSF_FAULT_TABLE = 3,   /* a byte of the table, of no one block: its head, a list's head, a
                               vacant record, a link that means nothing */
    TLSF_FAULT_RECORD = 4,  /* the block's record tells another place, size or state, or there is
                               none */
    TLSF_FAULT_CHAIN = 5,   /* the block's record leads to other neighbours */
    TLSF_FAULT_LIST = 6,    /* the free block's record leads to others in its list, or one of these
                               to others */
    TLSF_FAULT_FIGURES = 7, /* how many blocks are live, their bytes, or the most that they had */
    TLSF_FAULT_POOL = 8,    /* the table has no such pool */
    TLSF_FAULT_FRONT = 9    /* the 8 bytes in front of the live block: often what the block before
                               wrote past its end */
};

/* The first block that is wrong, by the order of tlsf_get_pool and tlsf_add_pool's pools, and then
 * of addresses. */
typedef struct tlsf_fault {
    enum tlsf_fault_kind what;
    const char *text; /* the same in words */
    void *block;      /* its pointer; null where no block is meant */
    size_t offset;    /* how far it is behind the pointer of its pool's first block, in bytes */
    size_t size;      /* its bytes, as tlsf_block_size tells them, by its record, which may be what
                         is wrong */
    uint32_t pool;    /* the number of its pool, which memory[] of tlsf_load has, from 0 on; 8 where
                         no pool is meant */
} tlsf_fault;

/* As tlsf_check, and *out gets the first fault, or TLSF_FAULT_NONE. A null pointer for it is
 * allowed. Where the table is wrong the call reads the records of all pools. One bit of a record's
 * place, size, state or neighbours that was changed is told of that record's block (this call isn't
 * Conte's). */
int tlsf_check_at(tlsf_t tlsf, tlsf_fault *out);

/* An image of a heap: which blocks are live, and where in their pools. It doesn't keep the bytes of
 * the pools, which the program keeps, nor the hook and the counts of refusals. TLSF_IMAGE_BYTES are
 * the bytes of the image of a heap with that many records. These calls aren't Conte's. */
#define TLSF_IMAGE_BYTES(records) (1800u + 16u * (size_t)(records))

/* Puts an image of the heap into the `room` bytes at `image`, and answers how many bytes it has.
 * Answers 0 where there is no heap, or the image has more bytes than `room`. */
size_t tlsf_save(tlsf_t tlsf, void *image, size_t room);

/* Memory of a pool. */
typedef struct tlsf_memory {
    void *mem;
    size_t bytes;
} tlsf_memory;

/* Why an image isn't loaded: it isn't one, or is cut; its pools aren't those of its table, or their
 * memory overlaps; the 8 bytes in front of a live block aren't what they were. Other numbers are
 * those of tlsf_heap.h: 15 where memory is too small, or is the heap's own, and 101 to 112 where
 * the table of the image breaks a rule. */
#define TLSF_BROKEN_HEAD 113
#define TLSF_BROKEN_ADDRESSES 114
#define TLSF_BROKEN_FRONTS 115

/* Makes the heap of an image again, in the `bytes` bytes at mem, a multiple of 8, which then is a
 * tlsf_t. The image has `length` bytes elsewhere, and need not be trusted. memory[k] is the memory
 * of the k-th of eight pools, in which its bytes are already as they were. The first pool is that
 * of tlsf_get_pool. The next ones are in the order in which they were added, but one that is added
 * takes the number of one that was removed. Where memory is null, or its mem is, the pool is in
 * what mem has behind the table. It may be the memory of before, or other memory. A pool that moved
 * wants as many bytes, at an address that is equal modulo 16. A block moves with its pool, and the
 * call writes the 8 bytes in front of it anew. Where pools moved by no multiple of an alignment,
 * tlsf_memalign refuses that alignment.
 * Answers 0, or else why the image isn't loaded. Then no pool was written. Only memory that is
 * handed in is read. */
int tlsf_load(void *mem, size_t bytes, const void *image, size_t length, const tlsf_memory *memory);

/* As tlsf_load. Where the answer is TLSF_BROKEN_FRONTS *out gets the first block whose front is
 * wrong, in the memory of its pool; else it stays as it was. A null pointer for it is allowed. */
int tlsf_load_at(void *mem, size_t bytes, const void *image, size_t length,
                 const tlsf_memory *memory, tlsf_fault *out);

#ifdef __cplusplus
}
#endif

#endif
