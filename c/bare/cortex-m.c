/* The start of a program without a system, for Cortex-M: what the processor reads first, and what C
 * wants before main. What is marked BOARD is of QEMU's machines `mps2-an385` and `mps2-an386`:
 * here, in console.h, and in cortex-m.ld. Not proved. */
#include <stdint.h>

#include "console.h"

extern uint32_t data[], data_end[], data_from[], zeros[], zeros_end[];
int main(void);
void trapped(uint64_t kind, uint64_t instruction);
void caught(const uint32_t *frame);
void reset(void);

/* The machine's end: a call that QEMU takes where it is told -semihosting. */
static void off(int status)
{
    register uint32_t call __asm__("r0") = 0x18;
    register uint32_t why __asm__("r1") = status == 0 ? 0x20026 : 0x20023;
    __asm__ volatile("bkpt 0xab" : : "r"(call), "r"(why)); /* BOARD: nothing takes it */
    for (;;) {
    }
}

void reset(void)
{
#ifdef __ARM_FP /* the floating-point unit is on: CPACR */
    *(volatile uint32_t *)0xe000ed88 |= 0xf00000;
    __asm__ volatile("dsb\n\tisb");
#endif
    const uint32_t *from = data_from;
    for (uint32_t *at = data; at < data_end; at++) {
        *at = *from++;
    }
    for (uint32_t *at = zeros; at < zeros_end; at++) {
        *at = 0;
    }
    console_begin();
    off(main());
}

/* Any exception: which it is, and of which instruction. The processor has put this on the stack. */
void caught(const uint32_t *frame)
{
    trapped(*(volatile uint32_t *)0xe000ed04 & 511u, frame[6]);
    off(1);
}
__attribute__((naked)) static void trap(void) { __asm__("mov r0, sp\n\tb caught"); }
/* SysTick's handler, where a program has one. */
void tick(void) __attribute__((weak, alias("trap")));

/* Behind the stack's end, which cortex-m.ld puts in front. */
__attribute__((section(".vectors"), used)) static void (*const vectors[15])(void) = {
    reset, trap, trap, trap, trap, trap, 0, 0, 0, 0, trap, trap, 0, trap, tick,
};
