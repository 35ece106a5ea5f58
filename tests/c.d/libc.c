/* The calls of malloc's family, and what of C's library takes memory, over c/rtos/libc_malloc.c.
 * Each block is the heap's, and each call of the heap has the lock: newlib's, or for picolibc that
 * of a build of tlsf.h's files. */
#define _GNU_SOURCE
#include <errno.h>
#include <malloc.h>
#include <stdint.h>
#include <stdlib.h>
#include <string.h>

#include "cases.h"
#include "libc.h"

enum { BLOCKS = 80, STEPS = 30000, MOST = 300 };

static int depth;
static size_t locked, unlocked;

#ifdef __PICOLIBC__
void take_lock(void *tlsf);
void give_lock(void *tlsf);
void take_lock(void *tlsf)
{
    unlocked += tlsf == NULL || depth != 0;
    locked++;
    depth++;
}
void give_lock(void *tlsf) { unlocked += tlsf == NULL || --depth != 0; }
#else
struct _reent;
void __malloc_lock(struct _reent *reent);
void __malloc_unlock(struct _reent *reent);
void __malloc_lock(struct _reent *reent)
{
    unlocked += reent == NULL || depth != 0;
    locked++;
    depth++;
}
void __malloc_unlock(struct _reent *reent) { unlocked += reent == NULL || --depth != 0; }

/* The heap is asked with newlib's lock alone: the figures of this test, and a block's size, don't
 * take it. */
static bool asks;
void expect_suspended(const void *tlsf);
void expect_suspended(const void *tlsf)
{
    (void)tlsf;
    unlocked += depth != 1 && asks;
}
#endif

static uint32_t below(uint32_t bound)
{
    static uint32_t state = 1;
    state = state * 1664525u + 1013904223u;
    return (state >> 8) % bound;
}

static struct held {
    unsigned char *at;
    size_t bytes;
    unsigned char value;
} held[BLOCKS];

static bool is_whole(const struct held *one, size_t bytes)
{
    size_t k = 0;
    while (k < bytes && one->at[k] == one->value) {
        k++;
    }
    return k == bytes;
}

static void *ask(size_t bytes, size_t *align)
{
    uint32_t kind = below(4);
    *align = 16;
    if (kind == 0) {
        return malloc(bytes);
    }
    if (kind == 1) {
        unsigned char *zeros = (unsigned char *)calloc(bytes, 1);
        struct held one = {zeros, bytes, 0};
        return zeros == NULL || is_whole(&one, bytes) ? zeros : NULL;
    }
    *align = (size_t)16 << below(4);
    return kind == 2 ? memalign(*align, bytes)
                     : aligned_alloc(*align, (bytes + *align - 1) / *align * *align);
}

/* A block is asked for, or changed, or given back. */
static bool step(struct held *one)
{
    size_t bytes = 1 + below(MOST), align = 16, kept = one->bytes < bytes ? one->bytes : bytes;
    if (one->at == NULL) {
        one->at = (unsigned char *)ask(bytes, &align);
    } else if (below(3) == 0) {
        one->at = (unsigned char *)realloc(one->at, bytes);
        if (one->at == NULL || !is_whole(one, kept)) {
            return false;
        }
    } else {
        bool good = is_whole(one, one->bytes);
        free(one->at);
        *one = (struct held){NULL, 0, 0};
        return good;
    }
    if (one->at == NULL || (uintptr_t)one->at % align != 0 || malloc_usable_size(one->at) < bytes) {
        return false;
    }
    one->bytes = bytes;
    one->value = (unsigned char)below(256);
    memset(one->at, one->value, bytes);
    return true;
}

static void random_calls(void)
{
    size_t live = live_blocks(), count = 0;
    bool good = true, of_heap = true;
    for (int k = 0; k < STEPS && good; k++) {
        good = step(&held[below(BLOCKS)]);
    }
    for (int k = 0; k < BLOCKS; k++) {
        count += held[k].at != NULL;
        of_heap = of_heap && (held[k].at == NULL || is_of_heap(held[k].at));
    }
    expect(good, "random calls: each block has its alignment, its room and its bytes");
    expect(of_heap && count > BLOCKS / 4 && live_blocks() == live + count,
           "each block is the heap's");
    for (int k = 0; k < BLOCKS; k++) {
        free(held[k].at);
    }
    expect(live_blocks() == live, "all are given back");
}

static void refusals(void)
{
    volatile size_t none = 0, most = SIZE_MAX / 2;
    char *one = (char *)malloc(none), *other = (char *)malloc(none), *kept = strdup("kept");
    expect(one != NULL && other != NULL && one != other, "0 bytes get a block");
    free(one);
    errno = 0;
    expect(malloc(most) == NULL && errno == ENOMEM, "what isn't there is refused, with ENOMEM");
    errno = 0;
    one = (char *)realloc(kept, most);
    kept = one == NULL ? kept : one;
    expect(one == NULL && errno == ENOMEM && strcmp(kept, "kept") == 0,
           "a refused realloc leaves the block");
    free(kept);
    errno = 0;
    expect(calloc(most, 3) == NULL && errno == ENOMEM, "so is a product that is too great");
    errno = 0;
    expect(memalign(48, 1) == NULL && errno == EINVAL,
           "an alignment that is no power of two is refused, with EINVAL");
    free(NULL);
    size_t live = live_blocks();
    expect(realloc(other, none) == NULL && live_blocks() == live - 1,
           "a realloc to 0 bytes gives the block back");
    other = (char *)realloc(NULL, 10);
    expect(is_of_heap(other), "a realloc of a null pointer is a malloc");
    free(other);
}

/* C's library takes blocks for texts and, newlib's printf, for its buffer and for numbers. */
static void by_library(size_t before)
{
    char *text = NULL, *copy = strdup("a copy");
    int length = asprintf(&text, "%s %d %.15f", copy, -42, 3.141592653589793);
    expect(is_of_heap(copy) && is_of_heap(text) && length == 28
               && strcmp(text, "a copy -42 3.141592653589793") == 0,
           "strdup and asprintf take blocks of the heap");
    free(text);
    free(copy);
#ifndef __PICOLIBC__
    expect(live_blocks() > before && is_of_heap(stdout->_bf._base),
           "printf's buffer is a block of the heap");
#else
    expect(live_blocks() == before, "printf has no buffer of the heap");
#endif
}

int main(void)
{
    size_t before = live_blocks();
    printf("%s\n", "over the heap");
#ifndef __PICOLIBC__
    asks = true;
#endif
    void *one = malloc(10);
    free(one);
    expect(one != NULL && locked > 0 && depth == 0, "a call has the lock");
#ifndef __PICOLIBC__
    asks = false;
#endif
    random_calls();
    refusals();
    by_library(before);
    expect(tlsf_check(tlsf_libc_heap()) == 0, "the heap is whole at the end");
    expect(unlocked == 0 && depth == 0 && locked > STEPS,
           "the lock is taken once for each call, and given back");
    return cases_end();
}
