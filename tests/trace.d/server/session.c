#include "server.h"
#include "util.h"

#include <stdio.h>
#include <stdlib.h>
#include <string.h>

static char **lines;
static size_t count;

void log_request(const struct request *request)
{
    char *line = xmalloc(strlen(request->verb) + 20);
    sprintf(line, "%s was asked", request->verb);
    lines = xrealloc(lines, (count + 1) * sizeof *lines);
    lines[count++] = line;
}

void close_session(char *user)
{
    char *greeting = xmalloc(40); /* leak */
    sprintf(greeting, "good bye, %.20s", user);
    while (count > 0) {
        free(lines[--count]);
    }
    free(lines);
    lines = NULL;
    free(user);
}
