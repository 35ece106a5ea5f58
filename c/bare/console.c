/* The C library writes on the console of the board, where a program takes its printf. Not
 * proved. */
#include "console.h"

int _write(int file, const char *text, int length);
void trapped(uint64_t kind, uint64_t instruction);

int _write(int file, const char *text, int length)
{
    for (int k = 0; k < length; k++) {
        console_put(text[k]);
    }
    return file < 0 ? -1 : length;
}

void trapped(uint64_t kind, uint64_t instruction)
{
    static const char digits[] = "0123456789abcdef";
    for (int shift = 28; shift >= 0; shift -= 4) {
        console_put(digits[instruction >> shift & 15]);
    }
    console_put(digits[kind & 15]);
}
