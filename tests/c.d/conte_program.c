/* A program as one writes it for Conte's library: a heap in an array, a second pool, blocks of a
 * list, a walk. It uses nothing but his header's names, and is C and C++. */
#include <assert.h>
#include <stdio.h>
#include <string.h>

#include "tlsf.h"

struct word {
    struct word *next;
    char *text;
};

struct sums {
    size_t used, unused, blocks;
};

static char memory[64 * 1024];
static char more[16 * 1024 + 256];

static void add_block(void *ptr, size_t size, int used, void *user)
{
    struct sums *sums = (struct sums *)user;
    assert((size_t)ptr % tlsf_align_size() == 0);
    *(used ? &sums->used : &sums->unused) += size;
    sums->blocks++;
}

static struct word *push(tlsf_t tlsf, struct word *list, const char *text)
{
    struct word *word = (struct word *)tlsf_malloc(tlsf, sizeof(struct word));
    word->text = (char *)tlsf_malloc(tlsf, strlen(text) + 1);
    strcpy(word->text, text);
    word->next = list;
    return word;
}

/* The types of his calls, as a program that keeps their addresses has them. */
static const struct {
    void *(*allocate)(tlsf_t, size_t);
    void *(*align)(tlsf_t, size_t, size_t);
    void *(*resize)(tlsf_t, void *, size_t);
    void (*release)(tlsf_t, void *);
    size_t (*size)(void *);
    pool_t (*pool)(tlsf_t);
    int (*check)(tlsf_t);
} calls = {tlsf_malloc,     tlsf_memalign, tlsf_realloc, tlsf_free,
           tlsf_block_size, tlsf_get_pool, tlsf_check};

int main(void)
{
    tlsf_t tlsf = tlsf_create_with_pool(memory, sizeof(memory));
    /* At a multiple of 256, so that its blocks lie alike wherever the array is. */
    char *second = more + (256 - (size_t)more % 256) % 256;
    pool_t pool = tlsf_add_pool(tlsf, second, sizeof(more) - 256);
    struct word *list = NULL;
    char *line = NULL;
    size_t length = 0;
    struct sums sums = {0, 0, 0};
    if (!tlsf || !pool) {
        return 1;
    }
    list = push(tlsf, push(tlsf, push(tlsf, list, "three"), "two"), "one");
    while (list) {
        struct word *next = list->next;
        size_t grown = length + strlen(list->text) + 2;
        line = (char *)tlsf_realloc(tlsf, line, grown);
        sprintf(line + length, "%s ", list->text);
        length = grown - 1;
        tlsf_free(tlsf, list->text);
        tlsf_free(tlsf, list);
        list = next;
    }
    puts(line);
    printf("at least 256 bytes: %d\n", tlsf_block_size(tlsf_memalign(tlsf, 256, 256)) >= 256);
    tlsf_walk_pool(tlsf_get_pool(tlsf), add_block, &sums);
    tlsf_walk_pool(pool, add_block, &sums);
    printf("used: %d, free: %d\n", sums.used > 256, sums.unused > sizeof(more));
    tlsf_walk_pool(pool, NULL, NULL);
    printf("check: %d, pools: %d %d\n", tlsf_check(tlsf), tlsf_check_pool(tlsf_get_pool(tlsf)),
           tlsf_check_pool(pool));
    line = (char *)calls.resize(tlsf, line, 0);
    calls.release(tlsf, calls.align(tlsf, 64, calls.size(calls.allocate(tlsf, 40))));
    printf("check: %d\n", calls.check(tlsf) + (calls.pool(tlsf) == NULL));
    tlsf_remove_pool(tlsf, pool);
    tlsf_destroy(tlsf);
    printf("limits: %d\n", tlsf_block_size_min() <= 64 && tlsf_block_size_max() >= 1 << 20
                               && tlsf_size() < 64 * 1024 && tlsf_pool_overhead() <= 64
                               && tlsf_alloc_overhead() <= 16);
    return line != NULL;
}
