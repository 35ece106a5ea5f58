/* Processes that limit themselves, and then ask for memory 200,000 times and give all of it back.
 * The word says how they do. */
#define _GNU_SOURCE
#include <errno.h>
#include <linux/filter.h>
#include <linux/seccomp.h>
#include <stddef.h>
#include <stdio.h>
#include <stdlib.h>
#include <string.h>
#include <sys/mman.h>
#include <sys/prctl.h>
#include <sys/resource.h>
#include <sys/syscall.h>
#include <sys/wait.h>
#include <unistd.h>

/* A filter that ends the process at a call that opens a file, or changes its length. */
static struct sock_filter no_files[] = {
    BPF_STMT(BPF_LD | BPF_W | BPF_ABS, offsetof(struct seccomp_data, nr)),
    BPF_JUMP(BPF_JMP | BPF_JEQ | BPF_K, SYS_openat, 4, 0),
    BPF_JUMP(BPF_JMP | BPF_JEQ | BPF_K, SYS_truncate, 3, 0),
    BPF_JUMP(BPF_JMP | BPF_JEQ | BPF_K, SYS_ftruncate, 2, 0),
    BPF_JUMP(BPF_JMP | BPF_JEQ | BPF_K, SYS_newfstatat, 1, 0),
    BPF_STMT(BPF_RET | BPF_K, SECCOMP_RET_ALLOW),
    BPF_STMT(BPF_RET | BPF_K, SECCOMP_RET_KILL_PROCESS),
};

static int filter_calls(int by_call)
{
    struct sock_fprog filter = {sizeof no_files / sizeof *no_files, no_files};
    prctl(PR_SET_NO_NEW_PRIVS, 1, 0, 0, 0);
    return by_call ? (int)syscall(SYS_seccomp, SECCOMP_SET_MODE_FILTER, 0, &filter)
                   : prctl(PR_SET_SECCOMP, SECCOMP_MODE_FILTER, &filter, 0, 0);
}

static int take_limit(int which, rlim_t most)
{
    struct rlimit limit = {most, most};
    return setrlimit(which, &limit);
}

/* Another root, which has no file of the log's name. */
static int go_away(void)
{
    char folder[] = "root-XXXXXX";
    return mkdtemp(folder) == NULL || chroot(folder) != 0 || chdir("/") != 0 || rmdir(folder) == 0;
}

/* Resident pages, in KB. */
static long resident(void)
{
    FILE *status = fopen("/proc/self/status", "r");
    char line[200];
    long found = 0;
    while (status != NULL && fgets(line, sizeof line, status) != NULL)
        sscanf(line, "VmRSS: %ld", &found);
    if (status != NULL)
        fclose(status);
    return found;
}

static int limit(const char *word)
{
    if (strcmp(word, "chroot") == 0)
        return go_away();
    if (strcmp(word, "setuid") == 0)
        return setgid(65534) != 0 || setuid(65534) != 0;
    if (strcmp(word, "descriptors") == 0)
        return take_limit(RLIMIT_NOFILE, 3);
    if (strcmp(word, "filter") == 0 || strcmp(word, "filter by call") == 0)
        return filter_calls(word[6] != 0);
    if (strcmp(word, "memory") == 0)
        return take_limit(RLIMIT_AS, 256 << 20);
    return strcmp(word, "locked") == 0 ? mlockall(MCL_CURRENT) : 0;
}

/* The same size again and again: an address is given that was just given back. */
static void work(int count)
{
    for (int k = 0; k < count; k++)
        free(malloc(50));
}

/* A child behind the filter, which asks for memory and ends well. */
static int in_child(void)
{
    int status = 0;
    pid_t child = fork();
    if (child == 0) {
        work(10);
        _exit(5);
    }
    return waitpid(child, &status, 0) != child || !WIFEXITED(status) || WEXITSTATUS(status) != 5;
}

int main(int count, char **words)
{
    const char *word = count > 1 ? words[1] : "";
    void *kept[100];
    for (int k = 0; k < 100; k++)
        kept[k] = malloc(70);
    if (strcmp(word, "waits") == 0) {
        char byte;
        filter_calls(0);
        return write(1, "ready\n", 6) < 6 || read(0, &byte, 1) < 1 || write(1, "ended\n", 6) < 6;
    }
    if (limit(word) != 0)
        return 9;
    work(100000);
    if (strcmp(word, "filter") == 0 && in_child())
        return 8;
    if (strcmp(word, "memory") == 0
        && mmap(NULL, 100 << 20, PROT_READ, MAP_PRIVATE | MAP_ANONYMOUS, -1, 0) == MAP_FAILED)
        return 7;
    if (strcmp(word, "locked") == 0 && resident() > 200000)
        return 6;
    for (int k = 0; k < 100; k++)
        free(kept[k]);
    return 0;
}
