/* A log by c/tlsf_log.c: random calls, whose lines are written where this program is told, beside
 * those that it reckons itself, and a ring that is too small. The word, where there is one, is a
 * file that gets the lines. */
#include <stdarg.h>
#include <stdint.h>
#include <stdio.h>
#include <stdlib.h>
#include <string.h>

#include "cases.h"
#include "tlsf_log.h"

enum { HELD = 60, CALLS = 1500, MOST = 1 << 17 };

static _Alignas(16) unsigned char memory[1 << 16];
static char told[MOST], wanted[MOST];
static size_t told_bytes, wanted_bytes;

static void put(const char *text, size_t bytes, void *user)
{
    *(unsigned *)user += 1;
    memcpy(told + told_bytes, text, bytes);
    told_bytes += bytes;
}

static void want(const char *format, ...)
{
    va_list values;
    va_start(values, format);
    wanted_bytes += (size_t)vsnprintf(wanted + wanted_bytes, MOST - wanted_bytes, format, values);
    va_end(values);
}

static unsigned long below(unsigned long bound)
{
    static uint32_t state = 1;
    state = state * 1664525u + 1013904223u;
    return (state >> 8) % bound;
}

/* The lines without the addresses of code, which the test can't know: each is `[..]` in both. */
static bool same_lines(void)
{
    size_t at = 0, other = 0;
    while (at < told_bytes && other < wanted_bytes) {
        if (told[at] != wanted[other]) {
            return false;
        }
        if (told[at] == '[') {
            at += strcspn(told + at, "]");
            other += strcspn(wanted + other, "]");
        }
        at++;
        other++;
    }
    return at == told_bytes && other == wanted_bytes;
}

static void *held[HELD];

/* A pointer as the grammar has it. */
static const char *shown(const void *ptr)
{
    static char text[2][24];
    static int turn;
    turn = !turn;
    snprintf(text[turn], sizeof text[turn], ptr == NULL ? "(nil)" : "0x%lx",
             (unsigned long)(uintptr_t)ptr);
    return text[turn];
}

static void step(tlsf_t heap)
{
    void **block = &held[below(HELD)], *old = *block;
    size_t bytes = below(20) == 0 ? 1000000 : below(900);
    char size[24];
    snprintf(size, sizeof size, bytes == 0 ? "0" : "0x%lx", (unsigned long)bytes);
    switch (below(4)) {
    case 0:
        tlsf_free(heap, old);
        *block = NULL;
        if (old != NULL) {
            want("@ fw.elf:[] - %s\n", shown(old));
        }
        break;
    case 1:
        *block = tlsf_realloc(heap, old, bytes);
        if (old == NULL) {
            want("@ fw.elf:[] + %s %s\n", shown(*block), size);
        } else if (bytes == 0) {
            want("@ fw.elf:[] - %s\n", shown(old));
        } else if (*block == NULL) {
            want("@ fw.elf:[] ! %s %s\n", shown(old), size);
            *block = old;
        } else {
            want("@ fw.elf:[] < %s\n@ fw.elf:[] > %s %s\n", shown(old), shown(*block), size);
        }
        break;
    case 2:
        if (old == NULL) {
            *block = tlsf_malloc(heap, bytes);
            want("@ fw.elf:[] + %s %s\n", shown(*block), size);
        }
        break;
    default:
        if (old != NULL) {
            break;
        }
        *block = tlsf_memalign(heap, 64, bytes);
        if (*block == NULL) {
            want("@ fw.elf:[] + (nil) %s\n", size);
        } else {
            want("@ fw.elf:[] * %s 0x40 %s\n", shown(*block), size);
        }
    }
}

static void random_calls(tlsf_t heap)
{
    unsigned puts = 0;
    tlsf_free(heap, tlsf_malloc(heap, 10));
    tlsf_log_begin("fw.elf", put, &puts);
    want("= Start\n");
    for (int k = 0; k < CALLS; k++) {
        step(heap);
    }
    tlsf_log_end();
    want("= End\n");
    expect(same_lines() && puts > CALLS / 3,
           "each call's lines, in the words of mtrace(3), and each call's at once");
    size_t before = told_bytes;
    tlsf_free(heap, tlsf_malloc(heap, 10));
    expect(told_bytes == before, "none before the log begins, nor behind its end");
    for (int k = 0; k < HELD; k++) {
        tlsf_free(heap, held[k]);
    }
}

/* Bytes of the ring, taken a few at a time. */
static size_t taken_into(tlsf_log_ring *ring, char *text)
{
    size_t length = 0;
    for (size_t count = tlsf_log_take(ring, text, 7); count > 0;
         count = tlsf_log_take(ring, text + length, 7)) {
        length += count;
    }
    text[length] = 0;
    return length;
}

static void ring(tlsf_t heap)
{
    static char bytes[200], text[4096];
    tlsf_log_ring own = {.memory = bytes, .bytes = sizeof bytes};
    bool whole = true;
    tlsf_log_begin("fw.elf", tlsf_log_into_ring, &own);
    for (int k = 0; k < 50; k++) {
        void *block = tlsf_malloc(heap, 100);
        tlsf_free(heap, block);
        size_t length = taken_into(&own, text);
        whole = whole && length > 0 && text[length - 1] == '\n' && strstr(text, " + 0x") != NULL
                && strstr(text, " - 0x") != NULL;
    }
    expect(whole && own.lost == 0,
           "a ring that is emptied in time loses nothing, and lines go round its end");
    for (int k = 0; k < 50; k++) {
        tlsf_free(heap, tlsf_malloc(heap, 100));
    }
    size_t lost = own.lost;
    taken_into(&own, text);
    expect(lost > 0 && lost < 100 && strstr(text, "lost") == NULL && text[strlen(text) - 1] == '\n',
           "a full ring keeps whole lines, and counts what it loses");
    tlsf_free(heap, tlsf_malloc(heap, 100));
    tlsf_log_end();
    char end[80];
    snprintf(end, sizeof end, "@ lost ! (nil) 0x%lx\n@ cut ! (nil) 0\n", (unsigned long)(lost + 1));
    taken_into(&own, text);
    expect(strcmp(text, end) == 0 && own.lost == lost + 3,
           "then the log ends with how many were lost, and as one that is cut");
}

int main(int count, char **words)
{
    tlsf_t heap = tlsf_create_with_pool(memory, sizeof memory);
    random_calls(heap);
    ring(heap);
#ifdef __linux__
    if (count > 1) {
        FILE *file = fopen(words[1], "w");
        expect(file != NULL && fwrite(told, 1, told_bytes, file) == told_bytes && fclose(file) == 0,
               "the log is written");
    }
#else
    (void)count, (void)words;
#endif
    return cases_end();
}
