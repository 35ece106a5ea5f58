#include "util.h"

#include <stdio.h>
#include <stdlib.h>
#include <string.h>

static void *checked(void *given)
{
    if (given == NULL) {
        fputs("out of memory\n", stderr);
        exit(1);
    }
    return given;
}

void *xmalloc(size_t bytes) { return checked(malloc(bytes)); }

void *xrealloc(void *old, size_t bytes) { return checked(realloc(old, bytes)); }

char *xstrdup(const char *text)
{
    char *copy = xmalloc(strlen(text) + 1);
    return strcpy(copy, text);
}
