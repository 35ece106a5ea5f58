/* consumer.c: the program that takes the lines of a ring, by a pipe, and writes its report into a
 * file. */
#define _GNU_SOURCE
#include "follow.h"

#include <errno.h>
#include <fcntl.h>
#include <poll.h>
#include <signal.h>
#include <stdio.h>
#include <sys/wait.h>
#include <time.h>
#include <unistd.h>

/* A pipe's bytes; and how long is waited until it is said that no lines are taken, and in between,
 * in milliseconds. */
enum { PIPE_BYTES = 1 << 20, HUNG_AFTER = 10000, LOOK_EACH = 500 };

/* In the child. Exit status 127 is what a shell gives. */
static void become(const struct consumer *consumer, int lines)
{
    int report = open(consumer->report, O_WRONLY | O_CREAT | O_TRUNC | O_APPEND | O_CLOEXEC, 0666);
    sigset_t none;
    sigemptyset(&none);
    sigprocmask(SIG_SETMASK, &none, NULL);
    signal(SIGPIPE, SIG_DFL);
    if (report >= 0 && dup2(lines, STDIN_FILENO) >= 0 && dup2(report, STDOUT_FILENO) >= 0) {
        execv(asked.words[0], asked.words);
    }
    perror(report < 0 ? consumer->report : asked.words[0]);
    _exit(127);
}

bool consumer_start(struct consumer *consumer)
{
    int ends[2];
    if (pipe2(ends, O_CLOEXEC) != 0) {
        return false;
    }
    consumer->process = fork();
    if (consumer->process == 0) {
        become(consumer, ends[0]);
    }
    close(ends[0]);
    consumer->pipe = ends[1];
    fcntl(consumer->pipe, F_SETPIPE_SZ, PIPE_BYTES);
    fcntl(consumer->pipe, F_SETFL, O_NONBLOCK);
    return consumer->process > 0;
}

static long milliseconds(void)
{
    struct timespec now;
    clock_gettime(CLOCK_MONOTONIC, &now);
    return now.tv_sec * 1000 + now.tv_nsec / 1000000;
}

static void say_hung(const struct consumer *consumer)
{
    say(consumer->report, asked.gives_up
                              ? "tlsf took no line for 10 s, so its process isn't traced any more"
                              : "tlsf took no line for 10 s, so its process may have to wait");
}

/* Whether no more is waited for, behind HUNG_AFTER. */
static bool is_given_up(const struct consumer *consumer)
{
    return asked.gives_up || __atomic_load_n(consumer->is_stopped, __ATOMIC_ACQUIRE) != 0;
}

/* Waits until the pipe has room, or nobody has its other end. Returns false where no more is to be
 * given. */
static bool wait_for_room(const struct consumer *consumer)
{
    struct pollfd pipe = {consumer->pipe, POLLOUT, 0};
    long begun = milliseconds();
    bool is_told = false;
    while (poll(&pipe, 1, LOOK_EACH) <= 0) {
        bool is_hung = milliseconds() - begun >= HUNG_AFTER;
        if (is_hung && !is_told) {
            is_told = true;
            say_hung(consumer);
        }
        if (is_hung && is_given_up(consumer)) {
            return false;
        }
    }
    if (is_told) {
        say(consumer->report, "tlsf takes lines again");
    }
    return true;
}

bool consumer_give(struct consumer *consumer, const char *lines, size_t length)
{
    while (length > 0) {
        ssize_t gave = write(consumer->pipe, lines, length);
        if (gave > 0) {
            lines += gave;
            length -= (size_t)gave;
        } else if (gave < 0 && errno != EINTR && (errno != EAGAIN || !wait_for_room(consumer))) {
            return false;
        }
    }
    return true;
}

/* Statuses above 1 tell of a fault: 0 and 1 are of a report. */
bool consumer_end(struct consumer *consumer, bool took_all)
{
    int status = 0;
    char why[64] = "tlsf was ended by a signal, so its report isn't whole";
    close(consumer->pipe);
    if (!took_all) {
        kill(consumer->process, SIGKILL);
    }
    long begun = milliseconds();
    for (bool is_told = false; waitpid(consumer->process, &status, WNOHANG) == 0;
         poll(NULL, 0, 2)) {
        if (!is_told && milliseconds() - begun >= HUNG_AFTER) {
            is_told = true;
            say(consumer->report, "tlsf writes its report for 10 s already");
        }
    }
    if (WIFEXITED(status) && WEXITSTATUS(status) <= 1) {
        return true;
    }
    if (WIFEXITED(status)) {
        snprintf(why, sizeof why, "tlsf ended with status %d, so its report isn't whole",
                 WEXITSTATUS(status));
    }
    say(consumer->report, why);
    return false;
}
