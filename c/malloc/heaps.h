/* heaps.h: the heaps that malloc.c serves from, each in a stretch of addresses of its own. For no
 * program.
 *
 * All stretches have one length, a power of two, and follow one another. So the heap of an address
 * is found by a shift. A stretch is of a heap of tlsf.h, of a part of tlsf_parts.h, or of a block
 * of the system's pages, which may have several. Each has a lock. `layout`, which is taken before
 * any of them, guards which stretches are used.
 */
#ifndef TLSF_MALLOC_HEAPS_H
#define TLSF_MALLOC_HEAPS_H

#define _GNU_SOURCE
#include <pthread.h>
#include <stdlib.h>

#include "lock.h"
#include "tlsf.h"
#include "tlsf_heap.h"
#include "tlsf_parts.h"

enum { UNIT = TLSF_HEAP_UNIT, PAGE = 4096, STRETCHES_MOST = 1024 };

/* What a stretch is used for. BEHIND is of the block of pages that begins in a stretch before. */
enum use { VACANT, GENERAL, PART, PAGES, BEHIND };

/* What each call needs stands in the first line of a processor's cache, or two. */
struct heap {
    struct lock lock;
    enum use use;
    bool was_full; /* something was refused */
    tlsf_t general;
    size_t live;         /* blocks */
    size_t refusals;     /* of the heap, counted by its hook, and the last kind */
    size_t refused_from; /* the fewest bytes that were refused since a block was given back */
    enum tlsf_refusal refused;
    unsigned stretches; /* of a block of pages */
    tlsf_parts *part;
    struct range *range; /* that the part serves */
    void *pages;         /* the block's pointer */
    size_t bytes;        /* of pages, from the stretch's start on */
    size_t most_before;  /* the most bytes held by heaps that were here */
} __attribute__((aligned(128)));

/* The addresses of all stretches. */
struct reserved {
    unsigned char *base;
    unsigned shift, stretches;
};

/* Requests of up to `largest` bytes, which the parts from `first` on serve. */
struct range {
    uint32_t largest;
    uint32_t blocks;
    unsigned first, parts;
    unsigned served_last;
    size_t live, most_live, spilled;
};

/* What the environment tells. */
struct settings {
    size_t pool;
    size_t greatest; /* bytes, with those for an alignment, that a heap of tlsf.h is asked for */
    uint32_t records;
    bool is_one_heap; /* the pool or the records were told */
    bool reports;     /* a report is asked for, and has a descriptor */
    struct range ranges[TLSF_PARTS_MOST];
    uint32_t count;
};

extern struct heap heaps[STRETCHES_MOST];
extern struct reserved reserved;
extern struct settings settings;
extern struct lock layout;
/* Those up to the last that ever was a heap or a part. Blocks of pages are behind them. */
extern unsigned heaps_used;
extern size_t blocks_of_pages, bytes_of_pages, most_bytes_of_pages;
/* How many heaps of tlsf.h there are, the most that there were, and whether one that is gone was
 * broken. */
extern unsigned general_heaps, most_general_heaps;
extern bool was_broken;

/* Reads the settings, and says what is wrong with them. */
void read_settings(void);
/* A line on a file descriptor, without a stream of the C library. */
void say(int to, const char *format, ...) __attribute__((format(printf, 2, 3)));
/* The parts of a range that have most_blocks_of_part blocks each, but the last. 0 where it has
 * none. */
uint32_t most_blocks_of_part(uint32_t largest);

/* Reserves the stretches, and makes the parts. Answers false where there is no memory for one
 * heap. */
bool reserve_heaps(void);
/* What a thread does that forks. */
void lock_all(void);
void unlock_all(void);

/* Makes a heap, and answers its number; STRETCHES_MOST where there can be no other. Under
 * `layout`. */
unsigned make_general(void);
/* Gives the memory of an empty heap back. Where a report is asked for its table is checked
 * first. */
void give_back_if_empty(struct heap *heap);
/* The heap of the stretch that an address lies in, or a null pointer. */
static inline struct heap *heap_at(const void *address)
{
    size_t number = ((uintptr_t)address - (uintptr_t)reserved.base) >> reserved.shift;
    return number < reserved.stretches ? &heaps[number] : NULL;
}

/* A block of the system's pages, or a null pointer. */
void *take_pages(size_t align, size_t bytes);
/* Whether the block has room for so many bytes where it is. Under the heap's lock, as the next. */
bool resize_pages(struct heap *heap, size_t bytes);
size_t room_of_pages(const struct heap *heap, const void *address);
/* Gives the block back that begins at the address. Answers false where none does. */
bool free_pages(struct heap *heap, const void *address);

#endif
