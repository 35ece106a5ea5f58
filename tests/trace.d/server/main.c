/* A server with a wrapper of malloc, and three leaks. */
#include "server.h"
#include "util.h"

static void serve(const char *const *asked)
{
    char *user = xstrdup("anna");
    xmalloc(100); /* leak */
    for (; *asked != 0; asked++) {
        struct request *request = parse_request(*asked);
        log_request(request);
        free_request(request);
    }
    close_session(user);
}

int main(void)
{
    static const char *const asked[] = {"GET /index", "PUT /a/b", "GET /index", 0};
    serve(asked);
    return 0;
}
