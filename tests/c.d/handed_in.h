/* Where memory that is handed in to tlsf.h may begin: at each multiple of a pointer's size it is
 * taken, as by Conte's library, and elsewhere refused. Nothing in front of it or behind it is
 * written. */
#ifndef HANDED_IN_H
#define HANDED_IN_H

#include <stdint.h>
#include <string.h>

#include "cases.h"
#include "tlsf.h"

/* How far behind the memory a heap may begin, where a pointer has four bytes. */
#define MOST_SKIPPED (8 - sizeof(void *))

enum { HANDED = 20480, GUARD = 0xa5 };

/* Memory so far behind a multiple of 32, among bytes that are not handed in. */
static unsigned char *handed_at(size_t skip)
{
    static _Alignas(32) unsigned char memory[HANDED + 64];
    memset(memory, GUARD, sizeof memory);
    return memory + 32 + skip;
}

static bool is_untouched(const unsigned char *at, size_t skip, size_t bytes)
{
    const unsigned char *from = at - skip - 32, *end = from + HANDED + 64;
    for (const unsigned char *byte = from; byte < end; byte++) {
        if ((byte < at || byte >= at + bytes) && *byte != GUARD) {
            return false;
        }
    }
    return true;
}

/* Blocks of greater and greater size, until one is refused: each lies in the memory. */
static bool is_filled(tlsf_t tlsf, const unsigned char *at, size_t bytes)
{
    unsigned char *block = NULL, *last = NULL;
    bool good = tlsf != NULL;
    for (size_t size = 1; good && (block = (unsigned char *)tlsf_malloc(tlsf, size)) != NULL;
         size++) {
        memset(block, (int)size, size);
        good = block >= at && block + size <= at + bytes && (uintptr_t)block % 16 == 0;
        last = block;
    }
    tlsf_free(tlsf, last);
    return good && last != NULL && tlsf_check(tlsf) == 0;
}

/* A heap of just its bytes, one with a pool, one with a pool elsewhere, and one that is always
 * enough. */
static bool is_taken_at(size_t skip)
{
    static _Alignas(8) unsigned char control[4096];
    unsigned char *at = handed_at(skip);
    uintptr_t first = ((uintptr_t)at + 7) / 8 * 8;
    tlsf_t tlsf = tlsf_create(at);
    bool good =
        (uintptr_t)tlsf == first && tlsf_check(tlsf) == 0 && is_untouched(at, skip, tlsf_size());
    at = handed_at(skip);
    good = good && is_filled(tlsf_create_with_pool(at, 4000), at, 4000)
           && is_untouched(at, skip, 4000);
    at = handed_at(skip);
    tlsf = tlsf_create_records(control, tlsf_size_records(9), 9);
    pool_t pool = tlsf_add_pool(tlsf, at, 400 + tlsf_pool_overhead());
    good = good && pool != NULL && tlsf_malloc(tlsf, 400) != NULL
           && is_untouched(at, skip, 400 + tlsf_pool_overhead());
    at = handed_at(skip);
    size_t enough = tlsf_sure_bytes(2, 160, 72);
    tlsf = tlsf_create_records(at, enough, 7);
    return good && tlsf_malloc(tlsf, 72) != NULL && tlsf_malloc(tlsf, 72) != NULL
           && is_untouched(at, skip, enough);
}

/* Nothing is made, and no byte is written. */
static bool is_refused_at(size_t skip)
{
    static _Alignas(8) unsigned char control[4096];
    unsigned char *at = handed_at(skip);
    tlsf_t tlsf = tlsf_create_records(control, tlsf_size_records(9), 9);
    return tlsf_create(at) == NULL && tlsf_create_with_pool(at, 4000) == NULL
           && tlsf_create_records(at, 4000, 9) == NULL && tlsf_add_pool(tlsf, at, 400) == NULL
           && is_untouched(at, skip, 0);
}

/* Of fewer bytes than are skipped nothing is made. */
static bool needs_bytes(size_t skip)
{
    static _Alignas(8) unsigned char control[4096];
    unsigned char *at = handed_at(skip);
    tlsf_t tlsf = tlsf_create_records(control, tlsf_size_records(9), 9);
    bool good = true;
    for (size_t bytes = 0; bytes < 20; bytes++) {
        good = good && tlsf_create_with_pool(at, bytes) == NULL
               && tlsf_create_records(at, bytes, 1) == NULL
               && tlsf_add_pool(tlsf, at, bytes) == NULL && is_untouched(at, skip, 0);
    }
    return good;
}

static inline void handed_in(void)
{
    for (size_t skip = 0; skip < 32; skip++) {
        bool may = skip % sizeof(void *) == 0;
        char what[64];
        snprintf(what, sizeof what, "memory %u bytes behind a multiple of 32 is %s", (unsigned)skip,
                 may ? "taken" : "refused");
        expect(
            (may ? is_taken_at(skip) && (skip % 8 == 0 || needs_bytes(skip)) : is_refused_at(skip)),
            what);
    }
}

#endif
