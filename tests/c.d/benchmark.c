/* Times of pairs of free and malloc: here, on this table design in plain C, and on glibc. Some
 * blocks are live; each step frees one of them and asks for another. All three get equal sizes and
 * choices. It writes the ratios of one run. No test. */
#include <stdio.h>
#include <stdlib.h>
#include <time.h>

#include "plain_heap.h"
#include "tlsf_heap.h"

enum { MOST = 60000, PAIRS = 500000, TIMES = 3 };

static tlsf_heap heap;
static plain_heap plain;
static tlsf_heap_block blocks[MOST];
static void *addresses[MOST];
static uint64_t state;

static uint32_t next(void)
{
    state = state * 6364136223846793005u + 1442695040888963407u;
    return (uint32_t)(state >> 33);
}

static double seconds(void)
{
    struct timespec now;
    clock_gettime(CLOCK_MONOTONIC, &now);
    return (double)now.tv_sec + 1e-9 * (double)now.tv_nsec;
}

static double of_heap(uint32_t live, uint32_t *refused, uint64_t *places)
{
    state = 1;
    *places = 0;
    tlsf_heap_create(65535, &heap);
    tlsf_heap_add_pool(&heap, 0, 1u << 29);
    for (uint32_t k = 0; k < live; k++) {
        *refused += tlsf_heap_malloc(&heap, 1 + next() % 512, &blocks[k]) != TLSF_OK;
    }
    double start = seconds();
    for (uint32_t pair = 0; pair < PAIRS; pair++) {
        uint32_t k = next() % live;
        *refused += tlsf_heap_free(&heap, blocks[k]) != TLSF_OK;
        *refused += tlsf_heap_malloc(&heap, 1 + next() % 512, &blocks[k]) != TLSF_OK;
        *places = *places * 31 + blocks[k].place;
    }
    double taken = seconds() - start;
    tlsf_heap_destroy(&heap);
    return taken;
}

static double of_plain(uint32_t live, uint32_t *refused, uint64_t *places)
{
    state = 1;
    *places = 0;
    plain_create(65535, &plain);
    plain_add_pool(&plain, 0, 1u << 29);
    for (uint32_t k = 0; k < live; k++) {
        *refused += plain_malloc(&plain, 1 + next() % 512, &blocks[k]) != TLSF_OK;
    }
    double start = seconds();
    for (uint32_t pair = 0; pair < PAIRS; pair++) {
        uint32_t k = next() % live;
        *refused += plain_free(&plain, blocks[k]) != TLSF_OK;
        *refused += plain_malloc(&plain, 1 + next() % 512, &blocks[k]) != TLSF_OK;
        *places = *places * 31 + blocks[k].place;
    }
    double taken = seconds() - start;
    plain_destroy(&plain);
    return taken;
}

static double of_glibc(uint32_t live)
{
    state = 1;
    for (uint32_t k = 0; k < live; k++) {
        addresses[k] = malloc(1 + next() % 512);
    }
    double start = seconds();
    for (uint32_t pair = 0; pair < PAIRS; pair++) {
        uint32_t k = next() % live;
        free(addresses[k]);
        addresses[k] = malloc(1 + next() % 512);
    }
    double taken = seconds() - start;
    for (uint32_t k = 0; k < live; k++) {
        free(addresses[k]);
    }
    return taken;
}

static double least(double one, double other) { return one < other ? one : other; }

int main(void)
{
    const uint32_t lives[] = {100, 1000, 30000, 60000};
    puts("| Live blocks | ns a pair | Plain C | Times plain C | glibc | Times glibc | Answers "
         "|\n|---|---|---|---|---|---|---|");
    for (int row = 0; row < 4; row++) {
        uint32_t refused = 0;
        uint64_t ours_at = 0, plain_at = 0;
        double ours = 1e9, other = 1e9, theirs = 1e9;
        for (int time = 0; time < TIMES; time++) {
            ours = least(ours, of_heap(lives[row], &refused, &ours_at));
            other = least(other, of_plain(lives[row], &refused, &plain_at));
            theirs = least(theirs, of_glibc(lives[row]));
        }
        printf("| %u | %.0f | %.0f | %.2f | %.0f | %.2f | %s, %u refused |\n", (unsigned)lives[row],
               1e9 * ours / PAIRS, 1e9 * other / PAIRS, ours / other, 1e9 * theirs / PAIRS,
               ours / theirs, ours_at == plain_at ? "the same" : "not the same", (unsigned)refused);
    }
    return 0;
}
