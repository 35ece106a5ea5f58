/* tlsf_parts.h: a pool for programs whose requests differ in size, as up to eight heaps of tlsf.h.
 *
 * A program tells a few sizes, and how many blocks of each it holds at once. Each of these is a
 * part: a heap of its own, all of whose blocks have one size. A request is served by the first part
 * whose size is enough, and is rounded up to that size. So a part's free memory never lies in
 * pieces that are too small. A request is refused exactly where its part holds as many blocks as
 * were told, or where it is larger than the last part's size. The price is that a part's room
 * serves no other size.
 *
 * The numbers of a program stand in a log of it: a part `up to 64: 2130 blocks` is 64 and 2130
 * here. That such parts serve their log is proved: laws::parts_serve_the_log of mtrace_replay. The
 * 8 bytes that tlsf.h puts in front of a block are counted in this header.
 *
 * The law behind its calls is proved: laws::blocks_asked_of_one_size_are_enough of tlsf_c. It is
 * about the calls that tlsf.c stands on, in whatever order, by a program that frees only what it
 * holds. Each block with its front has one size, the lowest of a class. This header isn't proved,
 * nor is the C of tlsf.h around the proved calls.
 *
 * All memory is handed in, and begins at a multiple of 8. Until the parts are gone, the program
 * uses only its blocks in it. Only one call on the parts runs at a time. A call takes the steps of
 * one of tlsf.h, and looks at eight sizes or addresses at most. A realloc that moves its block
 * takes two.
 */
#ifndef TLSF_PARTS_H
#define TLSF_PARTS_H

#include <stdbool.h>
#include <string.h>

#include "tlsf.h"

#ifdef __cplusplus
extern "C" {
#endif

#define TLSF_PARTS_MOST 8u

/* What is told of a part: the most bytes of a request that it serves, and how many blocks it
 * has. */
typedef struct tlsf_part {
    uint32_t largest;
    uint32_t blocks;
} tlsf_part;

/* A part in use: its heap, the address of its first block, its bytes from there on, and the bytes
 * from one block to the next. A program doesn't read or write it. A block's pointer is where it
 * begins, or further on where an alignment was asked for. `further` has a bit for each block: where
 * it is set, the block begins with its pointer. */
struct tlsf_part_heap {
    tlsf_t heap;
    unsigned char *first;
    size_t bytes;
    size_t block;
    unsigned char *further;
    tlsf_part told;
};

/* All parts. It lies at the start of the memory handed in, and a program doesn't read or write
 * it. */
typedef struct tlsf_parts {
    struct tlsf_part_heap parts[TLSF_PARTS_MOST];
    uint32_t count;
    size_t asked;        /* by the call that is under way */
    const void *pointer; /* that it was given, or null */
    tlsf_refusal_hook hook;
    void *user;
    size_t refusals[TLSF_REFUSALS];
} tlsf_parts;

/* The bytes of memory that parts take, as a constant expression. The parts are a list, so that
 * their numbers are written once:
 *
 *     #define PARTS(part) part(64, 2130) part(2048, 41)
 *     _Alignas(8) static unsigned char memory[TLSF_PARTS_BYTES(PARTS)];
 *     static const tlsf_part told[] = {PARTS(TLSF_PART)};
 *     tlsf_parts *parts = tlsf_parts_create(memory, sizeof memory, told, 2);
 */
#define TLSF_PARTS_BYTES(list) (TLSF_PARTS_OWN list(TLSF_PART_ADDED))
#define TLSF_PART(largest, blocks) {largest, blocks},
#define TLSF_PART_ADDED(largest, blocks) +TLSF_PART_BYTES(largest, blocks)
#define TLSF_PARTS_OWN ((sizeof(tlsf_parts) + 7u) / 8u * 8u)
/* Those of one part: its heap with a record for each block, 8 bytes to the next multiple of 16, the
 * blocks, and a bit for each. */
#define TLSF_PART_BYTES(largest, blocks) \
    (TLSF_SIZE_RECORDS(blocks) + 8u + TLSF_PART_BITS(blocks) \
     + (size_t)(TLSF_CLASS_SIZE(TLSF_WITH_FRONT(largest)) * (uint64_t)(blocks)))
#define TLSF_PART_BITS(blocks) (((size_t)(blocks) + 63u) / 64u * 8u)

/* The bytes of memory that these parts take. Answers 0 where they can't be made. There are one to
 * eight, in order of size. Each has from 1 to 65,535 blocks, which have at most 1,073,741,808 bytes
 * together, each rounded up. */
static inline size_t tlsf_parts_bytes(const tlsf_part *told, uint32_t count)
{
    size_t sum = TLSF_PARTS_OWN;
    bool good = count > 0u && count <= TLSF_PARTS_MOST;
    for (uint32_t k = 0; k < count && good; k++) {
        uint64_t units = TLSF_WITH_FRONT(told[k].largest);
        uint64_t bytes = TLSF_CLASS_SIZE(units) * told[k].blocks;
        good = told[k].largest > (k == 0u ? 0u : told[k - 1u].largest) && told[k].blocks > 0u
               && told[k].blocks <= 65535u && TLSF_CLASS_SIZE(units) <= 1056964608u
               && bytes <= 1073741808u && SIZE_MAX - sum >= bytes + TLSF_SIZE_RECORDS(65536);
        sum += good ? TLSF_PART_BYTES(told[k].largest, told[k].blocks) : 0u;
    }
    return good ? sum : 0u;
}

/* Each refusal comes here, whether a part's heap refuses or no part has a call to make. */
static inline void tlsf_parts_tell(enum tlsf_refusal what, const void *ptr, size_t bytes,
                                   void *user)
{
    tlsf_parts *parts = (tlsf_parts *)user;
    (void)ptr;
    (void)bytes;
    parts->refusals[what]++;
    if (parts->hook != NULL) {
        parts->hook(what, parts->pointer, parts->asked, parts->user);
    }
}

/* Makes a part in memory from `at` on, which is a multiple of 8. The blocks begin at a multiple of
 * 16, each with its front before it. */
static inline bool tlsf_parts_add(tlsf_parts *parts, unsigned char *at, tlsf_part told)
{
    struct tlsf_part_heap *part = &parts->parts[parts->count];
    size_t front = tlsf_size_records(told.blocks);
    unsigned char *pool = at + front + ((uintptr_t)(at + front) % 16u == 0u ? 8u : 0u);
    part->told = told;
    part->block = (size_t)TLSF_CLASS_SIZE(TLSF_WITH_FRONT(told.largest));
    part->bytes = part->block * told.blocks;
    part->first = pool + 8;
    part->further = at + front + 8u + part->bytes;
    (void)memset(part->further, 0, TLSF_PART_BITS(told.blocks));
    part->heap = tlsf_create_records(at, front, told.blocks);
    tlsf_set_refusal_hook(part->heap, tlsf_parts_tell, parts);
    parts->count++;
    return part->heap != NULL && tlsf_add_pool(part->heap, pool, part->bytes) != NULL;
}

/* Makes these parts in `bytes` bytes of memory. Answers a null pointer where tlsf_parts_bytes is 0
 * or more than these bytes, or where mem begins at no multiple of 8. */
static inline tlsf_parts *tlsf_parts_create(void *mem, size_t bytes, const tlsf_part *told,
                                            uint32_t count)
{
    tlsf_parts *parts = (tlsf_parts *)mem;
    size_t needed = tlsf_parts_bytes(told, count);
    size_t at = TLSF_PARTS_OWN;
    bool good = needed != 0u && needed <= bytes && mem != NULL && (uintptr_t)mem % 8u == 0u;
    if (good) {
        (void)memset(parts, 0, sizeof *parts);
    }
    for (uint32_t k = 0; k < count && good; k++) {
        good = tlsf_parts_add(parts, (unsigned char *)mem + at, told[k]);
        at += TLSF_PART_BYTES(told[k].largest, told[k].blocks);
    }
    return good ? parts : NULL;
}

/* Ends the parts. From then on no call but tlsf_parts_create takes this memory. */
static inline void tlsf_parts_destroy(tlsf_parts *parts)
{
    for (uint32_t k = 0; parts != NULL && k < parts->count; k++) {
        tlsf_destroy(parts->parts[k].heap);
    }
    if (parts != NULL) {
        (void)memset(parts, 0, sizeof *parts);
    }
}

/* Sets the hook that is told of each refusal from now on, as that of tlsf.h: with the bytes that
 * the program asked for. A request above the last part's size is TLSF_REFUSED_NO_FIT. */
static inline void tlsf_parts_set_refusal_hook(tlsf_parts *parts, tlsf_refusal_hook hook,
                                               void *user)
{
    if (parts != NULL) {
        parts->hook = hook;
        parts->user = user;
    }
}

/* Refuses a call that asks for `bytes` bytes, where no part's heap is asked. */
static inline unsigned char *tlsf_parts_refuse(tlsf_parts *parts, enum tlsf_refusal what,
                                               size_t bytes, const void *ptr)
{
    if (parts != NULL) {
        parts->asked = bytes;
        parts->pointer = ptr;
        tlsf_parts_tell(what, ptr, bytes, parts);
    }
    return NULL;
}

/* The first part whose size is enough, or none. */
static inline struct tlsf_part_heap *tlsf_parts_for(tlsf_parts *parts, size_t bytes)
{
    uint32_t k = 0;
    while (k < parts->count && parts->parts[k].told.largest < bytes) {
        k++;
    }
    return k < parts->count ? &parts->parts[k] : NULL;
}

/* The part that a pointer lies in, or none. *block is where the block at the pointer begins. */
static inline struct tlsf_part_heap *tlsf_parts_of(tlsf_parts *parts, const void *ptr,
                                                   unsigned char **block)
{
    struct tlsf_part_heap *part = parts->parts;
    uint32_t k = 0;
    while (k < parts->count && (uintptr_t)ptr - (uintptr_t)part->first >= part->bytes) {
        k++;
        part++;
    }
    if (k == parts->count) {
        return NULL;
    }
    *block = part->first + ((uintptr_t)ptr - (uintptr_t)part->first) / part->block * part->block;
    return part;
}

/* Which of its part's blocks one is. */
static inline size_t tlsf_parts_number(const struct tlsf_part_heap *part,
                                       const unsigned char *block)
{
    return ((uintptr_t)block - (uintptr_t)part->first) / part->block;
}

/* The one pointer that a live block has: what begins there is no other block's. */
static inline unsigned char *tlsf_parts_pointer(const struct tlsf_part_heap *part,
                                                unsigned char *block)
{
    size_t number = tlsf_parts_number(part, block);
    unsigned char *ptr = block;
    if (((unsigned)part->further[number / 8u] >> (number % 8u) & 1u) != 0u) {
        (void)__builtin_memcpy(&ptr, block, sizeof ptr);
    }
    return ptr;
}

/* The block's pointer is where it begins, from now on. */
static inline void tlsf_parts_at_start(const struct tlsf_part_heap *part,
                                       const unsigned char *block)
{
    size_t number = tlsf_parts_number(part, block);
    part->further[number / 8u] &= (unsigned char)~(1u << (number % 8u));
}

/* The block's pointer is this one further on. In front of it stand zeros, as in front of no
 * block. */
static inline void tlsf_parts_further(const struct tlsf_part_heap *part, unsigned char *block,
                                      unsigned char *ptr)
{
    size_t number = tlsf_parts_number(part, block);
    part->further[number / 8u] |= (unsigned char)(1u << (number % 8u));
    (void)memset(ptr - 8, 0, 8);
    (void)__builtin_memcpy(block, &ptr, sizeof ptr);
}

/* A block for `room` bytes, in a call that asks for `bytes` bytes. */
static inline unsigned char *tlsf_parts_ask(tlsf_parts *parts, size_t room, size_t bytes)
{
    struct tlsf_part_heap *part = parts == NULL ? NULL : tlsf_parts_for(parts, room);
    if (part == NULL) {
        return tlsf_parts_refuse(parts, TLSF_REFUSED_NO_FIT, bytes, NULL);
    }
    parts->asked = bytes;
    parts->pointer = NULL;
    return (unsigned char *)tlsf_malloc(part->heap, part->block - 8u);
}

/* Answers a block of at least `bytes` bytes at a multiple of 16, or a null pointer. For 0 bytes it
 * answers a block of the first part. */
static inline void *tlsf_parts_malloc(tlsf_parts *parts, size_t bytes)
{
    return tlsf_parts_ask(parts, bytes, bytes);
}

/* As tlsf_parts_malloc, but the block begins at a multiple of `align`, which is a power of two.
 * Above 16 it is served by the part for `bytes` + `align` - 16 bytes. */
static inline void *tlsf_parts_aligned_alloc(tlsf_parts *parts, size_t align, size_t bytes)
{
    bool good = align != 0u && (align & (align - 1u)) == 0u;
    size_t more = good && align > 16u ? align - 16u : 0u;
    size_t least = bytes == 0u ? 1u : bytes;
    size_t room = least > SIZE_MAX - more ? SIZE_MAX : least + more;
    unsigned char *block = good ? tlsf_parts_ask(parts, room, bytes)
                                : tlsf_parts_refuse(parts, TLSF_REFUSED_ALIGNMENT, bytes, NULL);
    size_t skip = block == NULL ? 0u : (align - (uintptr_t)block % align) % align;
    struct tlsf_part_heap *part = skip == 0u ? NULL : tlsf_parts_for(parts, room);
    if (part != NULL) {
        tlsf_parts_further(part, block, block + skip);
    }
    return block == NULL ? NULL : block + skip;
}

/* Answers a block of `count` times `size` bytes, all zero. A product above SIZE_MAX is refused. */
static inline void *tlsf_parts_calloc(tlsf_parts *parts, size_t count, size_t size)
{
    size_t bytes = size != 0u && count > SIZE_MAX / size ? SIZE_MAX : count * size;
    void *block = tlsf_parts_malloc(parts, bytes);
    return block == NULL ? NULL : memset(block, 0, count * size);
}

/* Frees the block of a pointer, in a call that asks for `bytes` bytes. A pointer that no live block
 * has is refused. Where a block begins that has its pointer further on, it is stale. */
static inline void tlsf_parts_release(tlsf_parts *parts, void *ptr, size_t bytes)
{
    unsigned char *block = NULL;
    struct tlsf_part_heap *part = tlsf_parts_of(parts, ptr, &block);
    unsigned char *own = part == NULL ? NULL : tlsf_parts_pointer(part, block);
    if (part == NULL || (ptr == block && ptr != own)) {
        (void)tlsf_parts_refuse(parts, TLSF_REFUSED_POINTER, bytes, ptr);
        return;
    }
    parts->asked = bytes;
    parts->pointer = ptr;
    if (ptr == own && own != block && tlsf_live_size(part->heap, block) != 0u) {
        tlsf_parts_at_start(part, block);
    }
    tlsf_free(part->heap, ptr == own ? block : ptr);
}

/* Frees the block. Does nothing where the pointer is null, or no live block has it. */
static inline void tlsf_parts_free(tlsf_parts *parts, void *ptr)
{
    if (parts != NULL && ptr != NULL) {
        tlsf_parts_release(parts, ptr, 0);
    }
}

/* Answers how many bytes of a live block may be used, else 0. */
static inline size_t tlsf_parts_live_size(tlsf_parts *parts, const void *ptr)
{
    unsigned char *block = NULL;
    const struct tlsf_part_heap *part = parts == NULL ? NULL : tlsf_parts_of(parts, ptr, &block);
    bool own = part != NULL && tlsf_parts_pointer(part, block) == ptr;
    size_t size = own ? tlsf_live_size(part->heap, block) : 0u;
    return size == 0u ? 0u : size - ((uintptr_t)ptr - (uintptr_t)block);
}

/* Moves the bytes of an aligned block to where it begins, in pieces that don't overlap. */
static inline void *tlsf_parts_to_start(const struct tlsf_part_heap *part, unsigned char *ptr,
                                        unsigned char *block, size_t bytes)
{
    size_t step = (uintptr_t)ptr - (uintptr_t)block;
    tlsf_parts_at_start(part, block);
    for (size_t at = 0; at < bytes; at += step) {
        (void)memcpy(block + at, ptr + at, bytes - at < step ? bytes - at : step);
    }
    return block;
}

/* Gives a live block room for `bytes` bytes, at a multiple of 16. Where its part is the one for
 * these bytes, it isn't refused. Else it moves to that part, with its bytes copied. A refused call
 * answers a null pointer, and the block stays as it was. With a null pointer the call is a
 * tlsf_parts_malloc. For 0 bytes it is a tlsf_parts_free, and answers a null pointer. */
static inline void *tlsf_parts_realloc(tlsf_parts *parts, void *ptr, size_t bytes)
{
    unsigned char *block = NULL;
    size_t has = tlsf_parts_live_size(parts, ptr);
    if (parts == NULL || ptr == NULL) {
        return tlsf_parts_malloc(parts, bytes);
    }
    if (has == 0u || bytes == 0u) {
        tlsf_parts_release(parts, ptr, bytes);
        return NULL;
    }
    const struct tlsf_part_heap *part = tlsf_parts_of(parts, ptr, &block);
    if (part == tlsf_parts_for(parts, bytes)) {
        return bytes <= has ? ptr : tlsf_parts_to_start(part, (unsigned char *)ptr, block, has);
    }
    void *other = tlsf_parts_malloc(parts, bytes);
    if (other != NULL) {
        (void)memcpy(other, ptr, has < bytes ? has : bytes);
        tlsf_parts_free(parts, ptr);
    }
    return other;
}

/* Figures of a part: what was told of it, how many blocks are live, the most that were at once, and
 * how many requests it refused. */
typedef struct tlsf_part_figures {
    tlsf_part told;
    size_t blocks_live;
    size_t most_blocks_live;
    size_t refused;
} tlsf_part_figures;

/* Puts the figures of the part of this number, from 0 on, into *figures. Answers 0. Where there is
 * no such part it answers -1, and *figures stays as it was. */
static inline int tlsf_parts_stats(const tlsf_parts *parts, uint32_t number,
                                   tlsf_part_figures *figures)
{
    tlsf_figures told;
    if (parts == NULL || number >= parts->count
        || tlsf_stats(parts->parts[number].heap, &told) != 0) {
        return -1;
    }
    figures->told = parts->parts[number].told;
    figures->blocks_live = told.blocks_live;
    figures->most_blocks_live = told.most_bytes_live / (parts->parts[number].block - 8u);
    figures->refused = told.refusals[TLSF_REFUSED_NO_FIT] + told.refusals[TLSF_REFUSED_TABLE_FULL];
    return 0;
}

/* Answers how many refusals of a kind there were, of all parts and of requests above the last. */
static inline size_t tlsf_parts_refusals(const tlsf_parts *parts, enum tlsf_refusal what)
{
    return parts == NULL ? 0u : parts->refusals[what];
}

/* Checks each part as tlsf_check does. Answers 0 where all is whole, else less than 0. */
static inline int tlsf_parts_check(const tlsf_parts *parts)
{
    int faults = 0;
    if (parts == NULL) {
        return -1;
    }
    for (uint32_t k = 0; k < parts->count; k++) {
        faults += tlsf_check(parts->parts[k].heap);
    }
    return faults;
}

#ifdef __cplusplus
}
#endif

#endif
