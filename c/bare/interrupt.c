/* A heap that an interrupt's handler calls, on Cortex-M: a timer's handler puts readings into
 * blocks, and main takes them, frees them, and has blocks of its own that come and go. Interrupts
 * are off around one call of the heap at a time, never around the bytes of a block. How long they
 * are off is told in ticks of SysTick, which are the processor's cycles on a board. QEMU doesn't
 * count cycles. The last line written is `ok`. Not proved. */
#include <stdbool.h>
#include <stddef.h>
#include <stdint.h>

#include "console.h"
#include "interrupts.h"
#include "tlsf_heap.h"

enum { RECORDS = 200, POOL = 1 << 14, QUEUE = 16, OWN = 30, READINGS = 1000, PERIOD = 200000 };

/* SysTick: it counts down from PERIOD - 1 to 0. */
#define TIMER ((volatile uint32_t *)0xe000e010)
enum { CONTROL_OF_TIMER = 0, LAST = 1, NOW = 2, RUNS = 7 };

/* A block with its bytes, which all have one value. */
struct filled {
    tlsf_heap_block block;
    uint32_t bytes;
    unsigned char value;
};

void tick(void);
void trapped(uint64_t kind, uint64_t instruction);

static _Alignas(16) unsigned char array[POOL], table[TLSF_HEAP_TABLE_BYTES(RECORDS)];
static tlsf_heap heap;
static struct filled queue[QUEUE], own[OWN];
static volatile uint32_t put, taken, late, refused;
static uint32_t state = 1, longest_malloc, longest_free, longest_realloc;

static void say(const char *text)
{
    for (; *text != 0; text++) {
        console_put(*text);
    }
}

static void say_number(const char *text, uint32_t number)
{
    char digits[12] = {0};
    char *at = digits + sizeof digits - 1;
    do {
        *--at = (char)('0' + number % 10);
        number /= 10;
    } while (number > 0);
    say(text);
    say(at);
    say("\n");
}

void trapped(uint64_t kind, uint64_t instruction)
{
    (void)kind;
    say_number("FAILED: an exception at ", (uint32_t)instruction);
}

static uint32_t below(uint32_t bound)
{
    state = state * 1664525u + 1013904223u;
    return (state >> 8) % bound;
}

/* ---- the heap's calls, with interrupts off */

#ifdef WITHOUT_LOCK /* for a test that misses it */
#define interrupts_off() 0
#define interrupts_as_before(before) (void)(before)
#endif

static void note(uint32_t start, uint32_t *longest)
{
    uint32_t now = TIMER[NOW];
    uint32_t ticks = start >= now ? start - now : start + PERIOD - now;
    *longest = *longest < ticks ? ticks : *longest;
}

static bool locked_malloc(uint32_t bytes, tlsf_heap_block *out)
{
    uint32_t before = interrupts_off();
    uint32_t start = TIMER[NOW];
    enum tlsf_status status = tlsf_heap_malloc(&heap, bytes, out);
    note(start, &longest_malloc);
    interrupts_as_before(before);
    return status == TLSF_OK;
}

static bool locked_free(tlsf_heap_block block)
{
    uint32_t before = interrupts_off();
    uint32_t start = TIMER[NOW];
    enum tlsf_status status = tlsf_heap_free(&heap, block);
    note(start, &longest_free);
    interrupts_as_before(before);
    return status == TLSF_OK;
}

/* A block that is to move is moved by malloc, a copy, and free: while interrupts are on its old
 * bytes could be another's as soon as realloc ended. So this call only shrinks a block, which
 * stays. */
static bool locked_shrink(tlsf_heap_block *block, uint32_t bytes)
{
    uint32_t before = interrupts_off();
    uint32_t start = TIMER[NOW];
    enum tlsf_status status = tlsf_heap_realloc(&heap, *block, bytes, block);
    note(start, &longest_realloc);
    interrupts_as_before(before);
    return status == TLSF_OK;
}

/* ---- blocks */

static bool fill(struct filled *filled, uint32_t bytes, uint32_t value)
{
    if (!locked_malloc(bytes, &filled->block)) {
        return false;
    }
    unsigned char *at = (unsigned char *)tlsf_heap_address(array, filled->block);
    filled->bytes = bytes;
    filled->value = (unsigned char)value;
    for (uint32_t k = 0; k < bytes; k++) {
        at[k] = filled->value;
    }
    return true;
}

static bool is_whole(const struct filled *filled)
{
    const unsigned char *at = (const unsigned char *)tlsf_heap_address(array, filled->block);
    uint32_t k = 0;
    while (k < filled->bytes && at[k] == filled->value) {
        k++;
    }
    return k == filled->bytes;
}

/* The timer's handler: a reading goes into the queue, where that and the heap have room. */
void tick(void)
{
    static uint32_t number;
    number++;
    if (put - taken == QUEUE) {
        late++;
    } else if (!fill(&queue[put % QUEUE], 1 + number * 37 % 300, number)) {
        refused++;
    } else {
        put++;
    }
}

/* Main takes a reading, where one is there. */
static bool take(void)
{
    if (put == taken) {
        return true;
    }
    struct filled reading = queue[taken % QUEUE];
    bool good = is_whole(&reading) && locked_free(reading.block);
    taken++;
    return good;
}

/* And changes a block of its own. */
static bool change(struct filled *filled)
{
    bool good = true;
    if (filled->bytes == 0) {
        good = fill(filled, 1 + below(400), below(256));
    } else if (filled->bytes > 1 && below(2) == 0) {
        good = is_whole(filled) && locked_shrink(&filled->block, filled->bytes / 2);
        filled->bytes /= 2;
    } else {
        good = is_whole(filled) && locked_free(filled->block);
        filled->bytes = 0;
    }
    return good;
}

static bool are_off(void)
{
    uint32_t mask;
    __asm__ volatile("mrs %0, primask" : "=r"(mask));
    return (mask & 1u) != 0u;
}

/* Interrupts are as they were: off where the program had them off, and on else. */
static bool are_as_before(void)
{
    uint32_t outer = interrupts_off();
    uint32_t inner = interrupts_off();
    interrupts_as_before(inner);
    bool stay_off = are_off();
    interrupts_as_before(outer);
    return stay_off && !are_off();
}

static bool runs(void)
{
    bool good = true;
    TIMER[LAST] = PERIOD - 1;
    TIMER[NOW] = 0;
    TIMER[CONTROL_OF_TIMER] = RUNS;
    while (good && taken < READINGS) {
        good = take() && change(&own[below(OWN)]) && !are_off();
    }
    TIMER[CONTROL_OF_TIMER] = 0;
    return good;
}

/* All blocks are given back, and the pool is one free block again. */
static bool ends(void)
{
    bool good = true;
    while (good && put != taken) {
        good = take();
    }
    for (int k = 0; k < OWN && good; k++) {
        good = own[k].bytes == 0 || locked_free(own[k].block);
    }
    return good && tlsf_heap_check(&heap) && tlsf_heap_records_used(&heap) == 1;
}

int main(void)
{
    bool good = tlsf_heap_create_in(table, sizeof table, RECORDS, &heap) == TLSF_OK
                && tlsf_heap_add_pool(&heap, 0, POOL) == TLSF_OK && are_as_before() && runs()
                && ends();
    say_number("readings: ", taken);
    say_number("late: ", late);
    say_number("refused: ", refused);
    say_number("ticks with interrupts off, at most: malloc ", longest_malloc);
    say_number("ticks with interrupts off, at most: free ", longest_free);
    say_number("ticks with interrupts off, at most: realloc ", longest_realloc);
    say(good ? "ok\n" : "not ok\n");
    return good ? 0 : 1;
}
