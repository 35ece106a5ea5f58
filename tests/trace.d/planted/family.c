// Children by fork, exec and posix_spawn, which leak as their parent does.
#include <spawn.h>
#include <stdlib.h>
#include <sys/wait.h>
#include <unistd.h>

extern char **environ;
static void *volatile last;

static void inherit(void)
{
    last = malloc(501); // planted 501 in 1: inherit
}

static int wait_for(pid_t child)
{
    int status = 1;
    waitpid(child, &status, 0);
    return status;
}

int main(int count, char **words)
{
    char *heir = words[count - 1];
    char *exec_words[] = {heir, "exec", NULL}, *spawn_words[] = {heir, "spawn", NULL};
    last = malloc(500); // planted 500 in 1: main
    pid_t child = fork();
    if (child == 0) {
        inherit();
        exit(0);
    }
    int failed = wait_for(child);
    child = fork();
    if (child == 0) {
        execv(heir, exec_words);
        _exit(127);
    }
    failed |= wait_for(child);
    if (posix_spawn(&child, heir, NULL, NULL, spawn_words, environ) != 0)
        return 1;
    return failed | wait_for(child);
}
