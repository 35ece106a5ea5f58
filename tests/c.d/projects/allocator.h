/* An allocator that grows, in the style in which projects write theirs over Conte's tlsf: chunks of
 * the system's memory become pools, and empty ones go back. It is ours, and copied from no project.
 * It names nothing of tlsf but the calls and types of Conte's header. */
#ifndef ALLOCATOR_H
#define ALLOCATOR_H

#include <stddef.h>

#ifdef __cplusplus
extern "C" {
#endif

typedef struct allocator allocator;

typedef struct allocator_stats {
    size_t chunks, reserved;
    size_t used_blocks, used_bytes;
    size_t free_blocks, free_bytes, largest_free;
} allocator_stats;

/* No more than `limit` bytes are taken from the system. */
allocator *allocator_create(size_t limit);
void allocator_destroy(allocator *a);

void *allocator_alloc(allocator *a, size_t size);
void *allocator_alloc_aligned(allocator *a, size_t align, size_t size);
void *allocator_resize(allocator *a, void *ptr, size_t size);
void allocator_free(allocator *a, void *ptr);

/* Gives back the chunks that nothing is in. Returns their bytes. */
size_t allocator_trim(allocator *a);
void allocator_get_stats(allocator *a, allocator_stats *stats);
int allocator_is_intact(allocator *a);

#ifdef __cplusplus
}
#endif

#endif
