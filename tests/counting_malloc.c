/* The calls of the C library that take memory, which also append the bytes asked for, one number a
   line, to the file that MALLOC_LIST names, and refuse the call whose number is MALLOC_REFUSE. At
   the end they write the most bytes that were taken at once to the file that MALLOC_MOST names.
   tests/program preloads them. */
#include <errno.h>
#include <fcntl.h>
#include <malloc.h>
#include <stddef.h>
#include <stdlib.h>
#include <unistd.h>

void *__libc_malloc(size_t size);
void *__libc_calloc(size_t count, size_t size);
void *__libc_realloc(void *block, size_t size);
void *__libc_memalign(size_t alignment, size_t size);
void __libc_free(void *block);

static int list = -1;
static long refused;
static long calls;
static size_t taken;
static size_t most;

__attribute__((constructor)) static void read_environment(void)
{
    const char *name = getenv("MALLOC_LIST");
    const char *number = getenv("MALLOC_REFUSE");
    if (name != NULL)
        list = open(name, O_WRONLY | O_CREAT | O_APPEND, 0600);
    if (number != NULL)
        refused = strtol(number, NULL, 10);
    calls = 0;
}

static void append(int to, size_t number)
{
    char text[24];
    char *first = text + sizeof text;
    *--first = '\n';
    do
        *--first = '0' + number % 10;
    while ((number /= 10) > 0);
    if (write(to, first, text + sizeof text - first) < 0)
        abort();
}

__attribute__((destructor)) static void write_most(void)
{
    const char *name = getenv("MALLOC_MOST");
    if (name != NULL)
        append(open(name, O_WRONLY | O_CREAT | O_TRUNC, 0600), most);
}

/* A block that was taken. */
static void *noted(void *block)
{
    taken += block == NULL ? 0 : malloc_usable_size(block);
    most = most < taken ? taken : most;
    return block;
}

/* Notes a call for so many bytes, and answers whether it is refused. */
static int is_refused(size_t size)
{
    calls++;
    if (list >= 0)
        append(list, size);
    if (calls == refused)
        errno = ENOMEM;
    return calls == refused;
}

void *malloc(size_t size) { return is_refused(size) ? NULL : noted(__libc_malloc(size)); }

void *calloc(size_t count, size_t size)
{
    return is_refused(count * size) ? NULL : noted(__libc_calloc(count, size));
}

void *realloc(void *block, size_t size)
{
    if (is_refused(size))
        return NULL;
    taken -= block == NULL ? 0 : malloc_usable_size(block);
    return noted(__libc_realloc(block, size));
}

void free(void *block)
{
    taken -= block == NULL ? 0 : malloc_usable_size(block);
    __libc_free(block);
}

void *aligned_alloc(size_t alignment, size_t size)
{
    return is_refused(size) ? NULL : noted(__libc_memalign(alignment, size));
}

int posix_memalign(void **block, size_t alignment, size_t size)
{
    *block = is_refused(size) ? NULL : noted(__libc_memalign(alignment, size));
    return *block == NULL ? ENOMEM : 0;
}
