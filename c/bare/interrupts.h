/* Interrupts off and on, for Cortex-M. Not proved. */
#ifndef INTERRUPTS_H
#define INTERRUPTS_H

#include <stdint.h>

/* Turns interrupts off. Answers what interrupts_as_before takes. */
static inline uint32_t interrupts_off(void)
{
    uint32_t before;
    __asm__ volatile("mrs %0, primask\n\tcpsid i" : "=r"(before) : : "memory");
    return before;
}

/* Has them as they were: so a handler, or a program that turned them off before, may call this,
 * too. */
static inline void interrupts_as_before(uint32_t before)
{
    __asm__ volatile("msr primask, %0" : : "r"(before) : "memory");
}

#endif
