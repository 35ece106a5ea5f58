// What host.c loads.
#include <stdlib.h>

static void *volatile kept;

static void prepare(void)
{
    kept = malloc(61); // planted 61 in 1: prepare
}

void begin(void)
{
    prepare();
    kept = realloc(malloc(10), 77); // planted 77 in 1: begin
}
