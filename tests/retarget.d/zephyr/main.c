/* The heap as Zephyr's module makes it: each call is locked once, and each key is given back. */
#include <stdbool.h>
#include <stdio.h>
#include <zephyr/irq.h>

#include "tlsf.h"
#include "tlsf_heap.h"

static _Alignas(16) unsigned char memory[8192], table[TLSF_HEAP_TABLE_BYTES(16)];
static unsigned int locks, unlocks, next_key = 5;
static bool wrong;

unsigned int irq_lock(void)
{
    wrong = wrong || locks != unlocks;
    locks++;
    return ++next_key;
}

void irq_unlock(unsigned int key)
{
    wrong = wrong || key != next_key || locks != unlocks + 1;
    unlocks++;
}

int main(void)
{
    tlsf_heap places = {0};
    tlsf_heap_block block;
    tlsf_t heap = tlsf_create_with_pool(memory, sizeof memory);
    unsigned int made = locks;
    void *one = tlsf_malloc(heap, 100);
    tlsf_free(heap, one);
    bool good =
        one != NULL && locks == made + 2 && tlsf_check(heap) == 0 && locks == unlocks && !wrong;
    good = good && tlsf_heap_create_in(table, sizeof table, 16, &places) == TLSF_OK
           && tlsf_heap_add_pool(&places, 0, 4096) == TLSF_OK
           && tlsf_heap_malloc(&places, 10, &block) == TLSF_OK;
    printf("%u bytes for tlsf_create, %s\n", (unsigned)tlsf_size(), good ? "ok" : "not ok");
    return 0;
}
