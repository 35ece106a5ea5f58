/* A board's program, whose calls of the heap go to the console as a log: names that stay, readings
 * that grow, and one that is forgotten. docs/C.md, "A log from a board", runs it. */
#include <string.h>

#include "console.h"
#include "tlsf_log.h"

static _Alignas(16) unsigned char memory[8192];
static tlsf_t heap;

static void put(const char *text, size_t bytes, void *user)
{
    (void)user;
    for (size_t k = 0; k < bytes; k++) {
        console_put(text[k]);
    }
}

__attribute__((noinline)) static char *copy_name(const char *name)
{
    char *copy = (char *)tlsf_malloc(heap, strlen(name) + 1);
    return copy == NULL ? NULL : strcpy(copy, name);
}

__attribute__((noinline)) static int *more_readings(int *readings, size_t count)
{
    int *more = (int *)tlsf_realloc(heap, readings, count * sizeof *readings);
    return more == NULL ? readings : more;
}

int main(void)
{
    int *readings = NULL;
    heap = tlsf_create_with_pool(memory, sizeof memory);
    tlsf_log_begin("fw.elf", put, NULL);
    char *name = copy_name("sensor-7"), *other = copy_name("sensor-12");
    for (size_t count = 10; count <= 80; count *= 2) {
        readings = more_readings(readings, count);
    }
    tlsf_free(heap, readings);
    tlsf_free(heap, other);
    tlsf_log_end();
    return name == NULL;
}
