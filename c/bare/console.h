/* The console of the board. What is marked BOARD is of QEMU's machine `virt` for 64-bit ARM and for
 * RISC-V, of `mps2-an385` and `mps2-an386` for Cortex-M, and of `microbit`. Not proved.
 *
 * For another board these have to be changed:
 *
 * - here: the address of its serial line, the words that it has there, how it is turned on, and how
 *   it tells that it has room
 * - cortex-m.ld, riscv.ld or bare.ld: where its flash and its RAM begin, and how large they are
 * - cortex-m.c, riscv.c or start.S: how the machine ends, and what a clock or memory needs first
 * - cortex-m.c: its own interrupts, whose handlers stand behind the 15 that each Cortex-M has
 * - main.c: the sizes of heap, pool and image, with some 6 KB of stack above them
 * - c/Makefile: the processor's flags, where the compiler is to know more of it */
#ifndef CONSOLE_H
#define CONSOLE_H

#include <stdint.h>

#ifdef __aarch64__
#define CONSOLE ((volatile uint32_t *)0x09000000) /* BOARD: where its serial line is */
enum { DATA = 0, FLAGS = 6, FULL = 1 << 5 };      /* BOARD: its words, and the flag of no room */
static inline void console_begin(void) {}
static inline int console_is_full(void) { return (CONSOLE[FLAGS] & FULL) != 0; }
#elif defined(__riscv)
#define CONSOLE ((volatile uint8_t *)0x10000000) /* BOARD */
enum { DATA = 0, FLAGS = 5, EMPTY = 1 << 5 }; /* BOARD: its bytes, and the flag of room */
static inline void console_begin(void) {}
static inline int console_is_full(void) { return (CONSOLE[FLAGS] & EMPTY) == 0; }
#elif defined(MICROBIT)
#define CONSOLE ((volatile uint32_t *)0x40002000) /* BOARD */
enum { DATA = 0x51c / 4, SENT = 0x11c / 4, ON = 0x500 / 4, START = 0x8 / 4 }; /* BOARD */
static inline void console_begin(void)
{
    CONSOLE[ON] = 4;    /* BOARD */
    CONSOLE[START] = 1; /* BOARD: it sends */
    CONSOLE[SENT] = 1;
}
static inline int console_is_full(void)
{
    int is_sent = CONSOLE[SENT] != 0;
    CONSOLE[SENT] = 0;
    return !is_sent;
}
#else
#define CONSOLE ((volatile uint32_t *)0x40004000) /* BOARD */
enum { DATA = 0, FLAGS = 1, CONTROL = 2, BAUD = 4, FULL = 1 }; /* BOARD */
static inline void console_begin(void)
{
    CONSOLE[BAUD] = 16;   /* BOARD: how fast */
    CONSOLE[CONTROL] = 1; /* BOARD: it sends */
}
static inline int console_is_full(void) { return (CONSOLE[FLAGS] & FULL) != 0; }
#endif

static inline void console_put(char byte)
{
    while (console_is_full()) {
    }
    CONSOLE[DATA] = (unsigned char)byte;
}

#endif
