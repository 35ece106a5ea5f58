/* The start of a program without a system, for 64-bit ARM: as QEMU's machine `virt` begins it, in
 * EL1 and with the MMU off. It makes what the heap's code wants, and calls main. Not proved.
 *
 * - The vector registers may be used: CPACR_EL1.FPEN. Else the first copy of a record traps.
 * - Memory is Normal memory, with the MMU and the caches on, and accesses that aren't aligned are
 *   allowed: SCTLR_EL1.A is 0. With the MMU off all memory is Device memory, where they trap.
 * - The stack's end is a multiple of 16, and zeros stand where C wants them.
 */
        .section .text.start, "ax"
        .global start
start:
        adrp    x0, stack_end
        add     sp, x0, :lo12:stack_end
        mov     x0, #(3 << 20)              /* FPEN: no trap */
        msr     cpacr_el1, x0
        adr     x0, vectors
        msr     vbar_el1, x0

        adrp    x0, zeros
        add     x0, x0, :lo12:zeros
        adrp    x1, zeros_end
        add     x1, x1, :lo12:zeros_end
1:      cmp     x0, x1
        b.hs    2f
        str     xzr, [x0], #8
        b       1b

2:      ldr     x0, =0xff00                 /* attribute 0 is Device memory, 1 is Normal memory */
        msr     mair_el1, x0
        ldr     x0, =0x803519               /* addresses of 39 bits, pages of 4 KB, by TTBR0 alone */
        msr     tcr_el1, x0
        adrp    x0, table
        add     x0, x0, :lo12:table
        msr     ttbr0_el1, x0
        dsb     sy
        tlbi    vmalle1
        dsb     sy
        isb
        mrs     x0, sctlr_el1
        bic     x0, x0, #2                  /* A */
        mov     x1, #0x1005                 /* M, C, I */
        orr     x0, x0, x1
        msr     sctlr_el1, x0
        isb

        bl      main
        b       off

/* Any exception: main's `trapped` says so. */
        .balign 2048
vectors:
        .rept   16
        b       trap
        .balign 128
        .endr
trap:
        adrp    x0, stack_end
        add     sp, x0, :lo12:stack_end
        mrs     x0, esr_el1
        mrs     x1, elr_el1
        bl      trapped

/* The machine's end, by PSCI. */
off:
        ldr     x0, =0x84000008
        hvc     #0
        b       off

/* The first gigabyte, with the console, is Device memory; the second, with the RAM, Normal memory. */
        .section .rodata
        .balign 4096
table:
        .quad   0x0060000000000401          /* never executed; accessed; attribute 0 */
        .quad   0x0000000040000705          /* accessed, shared by processors; attribute 1 */
        .fill   510, 8, 0
