/* The start of a program without a system, for 32-bit RISC-V: what the processor runs first, and
 * what C wants before main. What is marked BOARD is of QEMU's machine `virt`: here, in console.h,
 * and in riscv.ld. Not proved. */
#include <stdint.h>

#include "console.h"

extern uint32_t data[], data_end[], data_from[], zeros[], zeros_end[];
int main(void);
void trapped(uint64_t kind, uint64_t instruction);
void start(void);
void begin(void);
void caught(uint32_t kind, uint32_t instruction);

/* Any exception: which it is, and of which instruction. */
__attribute__((naked, aligned(4))) static void trap(void)
{
    __asm__(".option arch, +zicsr\n\tcsrr a0, mcause\n\tcsrr a1, mepc\n\tj caught");
}

__attribute__((naked, section(".text.start"))) void start(void)
{
    __asm__(".option arch, +zicsr\n\tla sp, stack_end\n\tla t0, %0\n\tcsrw mtvec, t0\n\tj begin"
            :
            : "i"(trap));
}

/* The machine's end. */
static void off(int status)
{
    *(volatile uint32_t *)0x100000 = status == 0 ? 0x5555 : 0x13333; /* BOARD: nothing takes it */
    for (;;) {
    }
}

void begin(void)
{
    const uint32_t *from = data_from;
    for (uint32_t *at = data; at < data_end; at++) {
        *at = *from++;
    }
    for (uint32_t *at = zeros; at < zeros_end; at++) {
        *at = 0;
    }
    console_begin();
    off(main());
}

void caught(uint32_t kind, uint32_t instruction)
{
    trapped(kind, instruction);
    off(1);
}
