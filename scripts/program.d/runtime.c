/* What a proved program takes from C, for a processor for which the kit has no C library: its
 * words, its environment, errno, and memory. scripts/program links it. Not proved. */
#include <errno.h>
#include <stdbool.h>
#include <stdint.h>
#include <stdlib.h>

/* Memory, or none; then p still points to some byte. */
struct tried {
    bool is;
    void *p;
};

int64_t rattle_arg(uint64_t number, char *to, uint64_t room);
int64_t rattle_env(const char *name, char *to, uint64_t room);
int64_t rattle_env_at(uint64_t number, char *to, uint64_t room);
int rattle_errno(void);
void rattle_set_errno(int number);
struct tried rattle_alloc(size_t bytes, size_t align);
struct tried rattle_realloc(void *old, size_t had, size_t bytes, size_t align);
void rattle_dealloc(void *p);

extern char **environ;
static int count;
static char **words;
static char nothing;

/* The words are there before main runs. */
__attribute__((constructor)) static void keep_words(int number, char **first)
{
    count = number;
    words = first;
}

/* Copies a text without its last zero. Answers its bytes, or -1 where there is none, or -2 where it
 * has more bytes than there is room for. */
static int64_t copied(const char *text, char *to, uint64_t room)
{
    uint64_t length = 0;
    if (text == NULL) {
        return -1;
    }
    for (; text[length] != 0; length++) {
        if (length == room) {
            return -2;
        }
        to[length] = text[length];
    }
    return (int64_t)length;
}

/* Copies the word of this number, the value of a variable of the environment, and its variable of a
 * number. */
int64_t rattle_arg(uint64_t number, char *to, uint64_t room)
{
    return copied(number < (uint64_t)count ? words[number] : NULL, to, room);
}

int64_t rattle_env(const char *name, char *to, uint64_t room)
{
    return copied(getenv(name), to, room);
}

int64_t rattle_env_at(uint64_t number, char *to, uint64_t room)
{
    char **variable = environ;
    for (; number > 0 && *variable != NULL; number--) {
        variable++;
    }
    return copied(*variable, to, room);
}

int rattle_errno(void) { return errno; }

void rattle_set_errno(int number) { errno = number; }

static struct tried tried(void *p) { return (struct tried){p != NULL, p == NULL ? &nothing : p}; }

/* malloc's memory begins at a multiple of 16, and the program asks for no more. */
struct tried rattle_alloc(size_t bytes, size_t align)
{
    return tried(align > 16 ? NULL : malloc(bytes == 0 ? align : bytes));
}

struct tried rattle_realloc(void *old, size_t had, size_t bytes, size_t align)
{
    (void)had;
    return tried(align > 16 ? NULL : realloc(old, bytes == 0 ? align : bytes));
}

void rattle_dealloc(void *p) { free(p); }
