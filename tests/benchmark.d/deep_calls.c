/* A million calls of malloc and free, five functions deep, with 1,000 blocks held. */
#include <stdlib.h>

enum { HELD = 1000, BLOCKS = 500000 };

static void *held[HELD];

/* The empty instruction behind the call keeps it from being the function's last. */
#define DEEPER(name, next) \
    __attribute__((noinline)) static void *name(size_t bytes) \
    { \
        void *block = next(bytes); \
        __asm__ volatile("" : : : "memory"); \
        return block; \
    }

DEEPER(first, malloc)
DEEPER(second, first)
DEEPER(third, second)
DEEPER(fourth, third)

int main(void)
{
    for (size_t k = 0; k < BLOCKS; k++) {
        free(held[k % HELD]);
        held[k % HELD] = fourth(k % 200);
    }
    return 0;
}
