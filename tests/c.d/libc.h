/* What a program over c/rtos/libc_malloc.c is tried by: whose a block is, and how many are live. */
#ifndef LIBC_H
#define LIBC_H

#include <stdbool.h>
#include <stddef.h>

#include "tlsf.h"

#ifdef __cplusplus
extern "C" {
#endif

tlsf_t tlsf_libc_heap(void);

static inline bool is_of_heap(const void *block)
{
    return tlsf_live_size(tlsf_libc_heap(), block) > 0;
}

static inline size_t live_blocks(void)
{
    tlsf_figures figures = {};
    return tlsf_stats(tlsf_libc_heap(), &figures) == 0 ? figures.blocks_live : 0;
}

#ifdef __cplusplus
}
#endif

#endif
