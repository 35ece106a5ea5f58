/* A program that passes numbers of floating point in registers, and keeps them in blocks of the
 * heap. */
#include "cases.h"
#include "tlsf.h"

static _Alignas(16) unsigned char memory[65536];

__attribute__((noinline)) static float halves(volatile float *numbers, int count, float more)
{
    float sum = more;
    for (int k = 0; k < count; k++) {
        numbers[k] = (float)k / 2;
        sum += numbers[k];
    }
    return sum;
}

int main(void)
{
    tlsf_t heap = tlsf_create_with_pool(memory, sizeof memory);
    float *numbers = tlsf_malloc(heap, 100 * sizeof *numbers);
    expect(numbers != NULL && halves(numbers, 100, 0.25f) == 2475.25f,
           "the sum of a hundred halves, and a quarter");
    tlsf_free(heap, numbers);
    expect(tlsf_check(heap) == 0, "the heap is whole");
    return cases_end();
}
