/* Runs a program where the kernel refuses membarrier: without_barriers PROGRAM WORD... Without
 * words it is a program on libtlsf_malloc.so itself that refuses it later, once a lock leans to a
 * thread. What another thread then frees can't be taken from under that lock, so the process
 * ends. */
#define _GNU_SOURCE
#include <errno.h>
#include <linux/filter.h>
#include <linux/seccomp.h>
#include <pthread.h>
#include <stddef.h>
#include <stdio.h>
#include <stdlib.h>
#include <sys/prctl.h>
#include <sys/syscall.h>
#include <unistd.h>

enum { CALLS = 2000 };

static int refuse_barriers(void)
{
    struct sock_filter lines[] = {
        BPF_STMT(BPF_LD | BPF_W | BPF_ABS, offsetof(struct seccomp_data, nr)),
        BPF_JUMP(BPF_JMP | BPF_JEQ | BPF_K, SYS_membarrier, 0, 1),
        BPF_STMT(BPF_RET | BPF_K, SECCOMP_RET_ERRNO | ENOSYS),
        BPF_STMT(BPF_RET | BPF_K, SECCOMP_RET_ALLOW),
    };
    struct sock_fprog filter = {sizeof lines / sizeof lines[0], lines};
    return prctl(PR_SET_NO_NEW_PRIVS, 1, 0, 0, 0) != 0
           || prctl(PR_SET_SECCOMP, SECCOMP_MODE_FILTER, &filter) != 0;
}

static void *give_back(void *block)
{
    free(block);
    return NULL;
}

static int refuse_late(void)
{
    pthread_t thread;
    for (int k = 0; k < CALLS; k++) {
        void *volatile block = malloc(100);
        free(block);
    }
    void *block = malloc(100);
    if (refuse_barriers() != 0 || pthread_create(&thread, NULL, give_back, block) != 0) {
        return 2;
    }
    pthread_join(thread, NULL);
    return 0;
}

int main(int count, char **words)
{
    if (count == 1) {
        return refuse_late();
    }
    if (refuse_barriers() == 0) {
        execvp(words[1], words + 1);
    }
    perror(words[1]);
    return 2;
}
