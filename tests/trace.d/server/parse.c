#include "server.h"
#include "util.h"

#include <stdlib.h>
#include <string.h>

struct request *parse_request(const char *line)
{
    struct request *request = xmalloc(sizeof *request);
    const char *space = strchr(line, ' ');
    request->verb = xstrdup(line);
    if (space != NULL) {
        request->verb[space - line] = 0;
    }
    request->path = xstrdup(space == NULL ? "/" : space + 1); /* leak: of free_request */
    return request;
}

void free_request(struct request *request)
{
    free(request->verb);
    free(request);
}
