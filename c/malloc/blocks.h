/* blocks.h: blocks of heaps.h, for malloc.c. Each call takes the locks that it needs. */
#ifndef TLSF_MALLOC_BLOCKS_H
#define TLSF_MALLOC_BLOCKS_H

#include "heaps.h"

/* Requests above the last part that the heaps served. */
extern size_t spilled_above;

/* How many heaps threads may have, by the processors that there are. Before the calls below. */
void count_processors(void);

/* A block at a multiple of UNIT, or of `align`, which is a power of two: of a part, or else of the
 * heaps. A null pointer where none serves it. */
void *allocate(size_t bytes);
void *allocate_at(size_t align, size_t bytes);
/* Gives a block back, and answers whether there was one. errno stays as it was. */
bool release(void *address);
/* Room for so many bytes in a live block, or in another that gets its bytes. A null pointer where
 * there is no such block, or no room: then it stays as it was. */
void *resize(void *address, size_t bytes);
/* The bytes of a live block, else 0. */
size_t room_of(const void *address);

#endif
