/* tlsf_check.c: the calls of tlsf.h that look at a whole heap: figures, walk and check. This file
 * isn't proved. What it reckons of blocks is, in the calls of tlsf_front.h. */
#include "tlsf.h"

#include <string.h>
#if __STDC_HOSTED__
#include <stdio.h>
#endif

#include "tlsf_fault.h"
#include "tlsf_front.h"
#include "tlsf_heap.h"

/* What a build may choose: how many blocks a walk reads at once, at 16 bytes of stack each. */
#ifndef TLSF_WALK_ROWS
#define TLSF_WALK_ROWS 64u
#endif

int tlsf_stats(tlsf_t tlsf, tlsf_figures *out)
{
    ON_HEAP(tlsf);
    if (control == NULL) {
        return -1;
    }
    struct free_figures figures;
    tlsf_placed_free_figures(&control->at, &figures);
    *out = (tlsf_figures){.bytes_live = (size_t)control->at.live.bytes,
                          .blocks_live = (size_t)control->at.live.blocks,
                          .most_bytes_live = (size_t)control->at.live.most_bytes,
                          .bytes_free = (size_t)figures.bytes,
                          .largest_request = (size_t)figures.largest_request,
                          .largest_free = (size_t)figures.largest_free,
                          .records = (uint32_t)control->records,
                          .records_used = tlsf_heap_records_used(&control->at.heap)};
    (void)memcpy(out->refusals, control->refusals, sizeof out->refusals);
    return 0;
}

/* The control part of a pool's heap, or a null pointer where the pool isn't there. It isn't read
 * where it doesn't have the entry. */
static struct control *control_of_pool(struct pool *pool)
{
    size_t at = offsetof(struct control, at.pools);
    bool is = pool != NULL && pool->number < POOLS
              && (uintptr_t)pool - (uintptr_t)pool->control == at + pool->number * sizeof *pool;
    return is ? control_of(pool->control) : NULL;
}

static void print(void *ptr, size_t size, int used, void *user)
{
    (void)ptr, (void)size, (void)used, (void)user;
#if __STDC_HOSTED__
    (void)printf("\t%p %s size: %zx\n", ptr, used ? "used" : "free", size);
#endif
}

/* How many rows were read of a pool; none where it or its heap is gone. */
static uint64_t read_rows(struct pool *own, uint64_t *from, struct row *rows)
{
    struct control *control = control_of_pool(own);
    LOCKED(control);
    bool is = control != NULL && control == control_of_pool(own);
    return is ? tlsf_placed_walk(&control->at, own->number, from, rows, TLSF_WALK_ROWS) : 0u;
}

/* The walker may free blocks, and so end the pool: each piece is read from where the last ended. It
 * runs without the lock, unless the caller has it. */
void tlsf_walk_pool(pool_t pool, tlsf_walker walker, void *user)
{
    struct row rows[TLSF_WALK_ROWS];
    uint64_t from = 0;
    uint64_t count = TLSF_WALK_ROWS;
    while (count == TLSF_WALK_ROWS) {
        count = read_rows((struct pool *)pool, &from, rows);
        for (uint64_t k = 0; k < count; k++) {
            void *ptr = (void *)(uintptr_t)rows[k].address;
            (walker == NULL ? print : walker)(ptr, rows[k].bytes, rows[k].used, user);
        }
    }
}

int lost_fronts(struct control *control, uint32_t entry, uint64_t began, bool moves,
                tlsf_fault *out)
{
    struct row rows[TLSF_WALK_ROWS];
    uint64_t from = 0;
    uint64_t count = TLSF_WALK_ROWS;
    uint64_t first = control->at.pools[entry].first;
    int lost = 0;
    while (count == TLSF_WALK_ROWS) {
        count = tlsf_placed_walk(&control->at, entry, &from, rows, TLSF_WALK_ROWS);
        for (uint64_t k = 0; k < count; k++) {
            uintptr_t address = (uintptr_t)rows[k].address;
            uint64_t word = rows[k].used ? front_of((void *)address) : 0u;
            bool whole = rows[k].used
                         && tlsf_placed_moved_front(&control->at, &rows[k], began, first, &word);
            if (rows[k].used && !whole) {
                tell_block(lost == 0 ? out : NULL, TLSF_FAULT_FRONT, control, entry, &rows[k]);
                lost++;
            }
            if (whole && moves) {
                write_front(address, word);
            }
        }
    }
    return lost;
}

/* How many live blocks of an entry's pool have lost their front; 1 where the table has no such
 * pool. */
static int lost_in(struct control *control, uint32_t entry, tlsf_fault *out)
{
    const struct pool *pool = &control->at.pools[entry];
    if (pool->reach != 0u
        && !tlsf_placed_has_pool(&control->at, pool->place, pool->reach + FRONT)) {
        tell(out, TLSF_FAULT_POOL, entry);
        return 1;
    }
    return lost_fronts(control, entry, pool->first, false, out);
}

/* Of one pool, or of all. The table is read where the control part is whole, and the fronts where
 * the table is, and agrees with the control part. */
static int check(struct control *control, uint32_t entry, tlsf_fault *out)
{
    int lost = 0;
    enum tlsf_fault_kind what = start_fault(control);
    tell(out, what, POOLS);
    if (what != TLSF_FAULT_NONE) {
        return -1;
    }
    if (control->at.live.most_again != control->at.live.most_bytes
        || !tlsf_placed_check(&control->at, control->at.live.blocks, control->at.live.bytes)) {
        if (out != NULL) {
            find_fault(control, out);
        }
        return -1;
    }
    for (uint32_t k = 0; k < POOLS; k++) {
        lost += entry == POOLS || entry == k ? lost_in(control, k, lost == 0 ? out : NULL) : 0;
    }
    return -lost;
}

int tlsf_check(tlsf_t tlsf) { return tlsf_check_at(tlsf, NULL); }
int tlsf_check_at(tlsf_t tlsf, tlsf_fault *out)
{
    ON_HEAP(tlsf);
    return check(control, POOLS, out);
}
int tlsf_check_pool(pool_t pool)
{
    struct pool *own = (struct pool *)pool;
    struct control *control = control_of_pool(own);
    LOCKED(control);
    return check(control, control == NULL ? 0u : own->number, NULL);
}
