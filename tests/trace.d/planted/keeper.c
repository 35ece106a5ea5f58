// A server that becomes a daemon, takes signals, and ends by SIGTERM.
#define _DEFAULT_SOURCE
#include <signal.h>
#include <stdlib.h>
#include <stdio.h>
#include <string.h>
#include <unistd.h>

static volatile sig_atomic_t ends, hangs;
static void *volatile last;

static void on_signal(int number)
{
    if (number == SIGTERM)
        ends = 1;
    else
        hangs = 1;
}

static void reload(void)
{
    last = calloc(3, 70); // planted 210 in 1: reload
}

static void serve(void)
{
    last = malloc(88); // planted 88 in 1: serve
    while (!ends) {
        if (hangs) {
            hangs = 0;
            reload();
        }
        usleep(1000);
    }
}

int main(int count, char **words)
{
    signal(SIGTERM, on_signal);
    signal(SIGHUP, on_signal);
    if (count > 1 && strcmp(words[1], "daemon") == 0 && daemon(1, 1) != 0)
        return 1;
    printf("ready %d\n", (int)getpid());
    fflush(stdout);
    serve();
    return 0;
}
