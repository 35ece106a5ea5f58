/* The lock of libtlsf_malloc.so alone, with c/malloc/lock.c: when it leans to a thread, what that
 * thread and others do then, and what happens between the two looks at the lock. */
#define _GNU_SOURCE
#include <pthread.h>
#include <stdlib.h>
#include <unistd.h>

#include "cases.h"

/* It stands between a thread's word that it is inside, and its second look. */
static void between_looks(void);
#define __atomic_signal_fence(order) between_looks()
#include "malloc/lock.h"
#undef __atomic_signal_fence

void say(int to, const char *format, ...);
void say(int to, const char *format, ...)
{
    (void)to, (void)format;
    abort();
}

enum { TURNS = 300, WAIT = 100000 };

static struct lock lock;
static bool takes_away;
static volatile bool is_in;

/* Once, as if another thread took the lock's leaning away just then. */
static void between_looks(void)
{
    if (takes_away) {
        takes_away = false;
        lock.leans_to = NULL;
    }
}

static void take_turns(void)
{
    for (int k = 0; k < TURNS; k++) {
        unlock_it(&lock, lock_it(&lock));
    }
}

static void *come_in(void *none)
{
    struct seat *seat = lock_it(&lock);
    is_in = true;
    unlock_it(&lock, seat);
    return none;
}

static void *turns_of_another(void *none)
{
    take_turns();
    return lock.leans_to == own_seat ? &lock : none;
}

static void leans_to_one(void)
{
    unlock_it(&lock, lock_it(&lock));
    expect(lock.leans_to == NULL, "a lock leans to none at first");
    take_turns();
    expect(own_seat != NULL && lock.leans_to == own_seat, "it leans to a thread that has it often");
    struct seat *seat = lock_it(&lock);
    expect(seat == own_seat && seat->inside == mark_of_lock(&lock) && lock.word == 0,
           "that thread is in by its seat, and not by the word");
    unlock_it(&lock, seat);
    expect(own_seat->inside == 0, "and is out");
}

static void second_look(void)
{
    takes_away = true;
    struct seat *seat = lock_it(&lock);
    expect(seat == NULL && own_seat->inside == 0 && lock.word == 1,
           "what is taken away between its looks it takes by the word");
    unlock_it(&lock, seat);
    expect(lock.word == 0, "and gives it back");
}

static void another_waits(void)
{
    pthread_t thread;
    take_turns();
    struct seat *seat = lock_it(&lock);
    bool good = seat == own_seat && pthread_create(&thread, NULL, come_in, NULL) == 0;
    usleep(WAIT);
    expect(good && !is_in && lock.leans_to == NULL,
           "another thread takes it away, and waits until it is out");
    unlock_it(&lock, seat);
    pthread_join(thread, NULL);
    expect(is_in && lock.word == 0, "then it is in");
}

/* Nested, as by a signal's handler in what another lock guards: by the word. */
static void nested(void)
{
    static struct lock other;
    take_turns();
    for (int k = 0; k < TURNS; k++) {
        unlock_it(&other, lock_it(&other));
    }
    struct seat *outer = lock_it(&other), *inner = lock_it(&lock);
    expect(outer == own_seat && inner == NULL && lock.word == 1
               && own_seat->inside == mark_of_lock(&other),
           "a thread that is in one takes another by the word");
    unlock_it(&lock, inner);
    unlock_it(&other, outer);
    expect(own_seat->inside == 0 && lock.word == 0 && other.word == 0, "and gives both back");
}

/* The lock of a thread that ended serves on. */
static void ended(void)
{
    pthread_t thread;
    void *leaned = NULL;
    bool good = pthread_create(&thread, NULL, turns_of_another, NULL) == 0;
    pthread_join(thread, &leaned);
    expect(good && leaned == &lock && lock.leans_to != own_seat, "it leans to another thread");
    unlock_it(&lock, lock_it(&lock));
    expect(lock.leans_to == NULL && lock.word == 0, "which has ended: it is taken away");
}

/* While a thread forks it has the lock, and may take it. */
static void while_forking(void)
{
    pthread_t thread;
    is_in = false;
    hold_for_fork(&lock);
    begin_fork();
    bool good = pthread_create(&thread, NULL, come_in, NULL) == 0;
    unlock_it(&lock, lock_it(&lock));
    usleep(WAIT);
    expect(good && !is_in, "while a thread forks it takes the lock, and no other does");
    end_fork();
    leave_after_fork(&lock);
    pthread_join(thread, NULL);
    expect(is_in && lock.word == 0, "behind the fork the other is in");
}

int main(void)
{
    alarm(60);
    begin_locks();
    leans_to_one();
    second_look();
    another_waits();
    nested();
    ended();
    while_forking();
    return cases_end();
}
