// A program that another one starts.
#include <stdlib.h>
#include <string.h>

static void *volatile last;

static void by_exec(void)
{
    last = malloc(601); // planted 601 in 1: by_exec
}

static void by_spawn(void)
{
    last = malloc(602); // planted 602 in 1: by_spawn
}

int main(int count, char **words)
{
    if (count > 1 && strcmp(words[1], "exec") == 0)
        by_exec();
    else
        by_spawn();
    return 0;
}
