/* follow.h: the parts of tlsf-follow, which gives the lines of traced processes to tlsf while they
 * run. Not proved.
 *
 *     main.c      the folder of rings: each that comes gets a follower, a process of its own
 *     ring.c      the follower of one ring: reads its lines
 *     consumer.c  the program that takes the lines, as `tlsf sites -`
 */
#ifndef TLSF_FOLLOW_H
#define TLSF_FOLLOW_H

#include "../ring.h"

#include <stdbool.h>
#include <stddef.h>
#include <sys/types.h>

/* What was asked for: the folder of rings and that of reports; the consumer's words; milliseconds
 * from report to report, or 0; the most bytes of lines that are kept; whether lines are kept, too;
 * and whether a process goes on untraced where the consumer takes no lines. */
struct asked {
    const char *rings, *folder;
    char **words;
    unsigned long every, keep_most;
    bool keeps_lines, gives_up;
};
extern struct asked asked;

/* How a follower ended, by its status: no line of its ring was lost, or some were. */
enum { KEPT_ALL = 0, LOST_SOME = 3 };

/* The name of a file of a process in the folder of reports, by its ring's name, which ends with
 * `.ring`, and another end. */
const char *file_of(const char *ring, const char *end);

/* A line on standard error. */
void say(const char *what, const char *why);

void wake(uint32_t *word);

/* ring.c: follows the ring of an open file until its process ends. Returns the status. */
int follow_ring(int file, const char *name);

/* consumer.c */

/* A running consumer, its end of the pipe, the name of its report, and a word that isn't 0 once it
 * is to be left alone. */
struct consumer {
    pid_t process;
    int pipe;
    const char *report;
    const uint32_t *is_stopped;
};

/* Starts it. Returns whether it could. */
bool consumer_start(struct consumer *consumer);

/* Gives it lines, which it may take its time for. Returns whether it took them. */
bool consumer_give(struct consumer *consumer, const char *lines, size_t length);

/* Waits for its end; where it took not all it is ended. Returns whether its report is written. */
bool consumer_end(struct consumer *consumer, bool took_all);

#endif
