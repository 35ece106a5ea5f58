/* text.c: numbers as text. Each call returns where the text ends. */
#include "trace.h"

char *put_digits(char *to, uintptr_t number)
{
    static const char digits[] = "0123456789abcdef";
    int bits = 64 - __builtin_clzl(number | 1);
    int shift = (bits + 3) / 4 * 4;
    while (shift > 0) {
        shift -= 4;
        *to++ = digits[number >> shift & 15];
    }
    return to;
}

char *put_hex(char *to, uintptr_t number)
{
    *to++ = '0';
    *to++ = 'x';
    return put_digits(to, number);
}

char *put_decimal(char *to, size_t number)
{
    char digits[20];
    size_t length = 0;
    do {
        digits[length++] = (char)('0' + number % 10);
        number /= 10;
    } while (number > 0);
    while (length > 0) {
        *to++ = digits[--length];
    }
    return to;
}
