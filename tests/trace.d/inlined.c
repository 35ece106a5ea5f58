/* A wrapper that is inlined, in a library's function and in main. */
#include <stdlib.h>

static inline __attribute__((always_inline)) void *inner(void)
{
    return malloc(10); // its caller inlines it
}

__attribute__((noinline)) void *outer(void)
{
    void *block = inner();
    __asm__ volatile("" : : "r"(block) : "memory");
    return block;
}

int main(void) { return outer() == NULL; }
