// A program with wrappers of malloc, as most have.
#define _GNU_SOURCE
#include <stdarg.h>
#include <stdio.h>
#include <stdlib.h>
#include <string.h>

static void *checked(void *given)
{
    if (given == NULL)
        abort();
    return given;
}

static void *xmalloc(size_t size)
{
    void *given = malloc(size); // wraps
    return checked(given);
}

static void *xrealloc(void *old, size_t size)
{
    void *given = realloc(old, size); // wraps
    return checked(given);
}

static char *xstrdup(const char *text)
{
    return strcpy(xmalloc(strlen(text) + 1), text); // wraps
}

static char *xformat(const char *form, ...)
{
    char *text = NULL;
    va_list words;
    va_start(words, form);
    int length = vasprintf(&text, form, words); // wraps
    va_end(words);
    return checked(length < 0 ? NULL : text);
}

struct note {
    char *title, *text;
    struct note *next;
};

static struct note *add(struct note *all, const char *title, int number)
{
    struct note *note = xmalloc(sizeof *note);      // planted 144 in 6: add
    note->title = xstrdup(title);                   // planted 36 in 6: add
    note->text = xrealloc(xrealloc(NULL, 10), 110); // planted 660 in 6: add
    snprintf(note->text, 110, "%d", number);
    note->next = all;
    return note;
}

static void *volatile last;

static void line_of(FILE *file)
{
    char *line = NULL;
    size_t room = 0;
    if (getline(&line, &room, file) > 0) // planted 120 in 1: line_of
        last = line;
}

int main(int count, char **words)
{
    (void)words;
    struct note *all = NULL;
    for (int k = 0; k < 6; k++)
        all = add(all, "title", k);
    last = xformat("%045d", count); // planted 46 in 1: main
    last = aligned_alloc(64, 128);  // planted 128 in 1: main
    FILE *file = fmemopen("one line\n", 9, "r");
    if (file != NULL) {
        line_of(file);
        fclose(file);
    }
    last = all;
    return 0;
}
