/* lock.c: what a lock does that doesn't lean to the thread, or no more. */
#define _GNU_SOURCE
#include "lock.h"

#include <errno.h>
#include <linux/futex.h>
#include <linux/membarrier.h>
#include <stdlib.h>
#include <sys/syscall.h>
#include <unistd.h>

#include "heaps.h"

/* A lock leans to a thread that had it so many times in a row: by then a barrier is paid for. */
enum { TURNS_TO_LEAN = 256, SEATS = 1024, LOOKS = 100 };

__thread struct seat *own_seat;

static struct seat seats[SEATS];
static bool may_lean;
static __thread bool forks;

static long barriers(int command) { return syscall(SYS_membarrier, command, 0, 0); }

/* A system call changes errno, which a free has to leave. */
static void wait_at(uint32_t *word, uint32_t value)
{
    int before = errno;
    (void)syscall(SYS_futex, word, FUTEX_WAIT_PRIVATE, value, NULL, NULL, 0);
    errno = before;
}

static void wake_at(uint32_t *word, int count)
{
    int before = errno;
    (void)syscall(SYS_futex, word, FUTEX_WAKE_PRIVATE, count, NULL, NULL, 0);
    errno = before;
}

void begin_locks(void)
{
    int before = errno;
    long known = barriers(MEMBARRIER_CMD_QUERY);
    may_lean = known > 0 && (known & MEMBARRIER_CMD_PRIVATE_EXPEDITED) != 0
               && barriers(MEMBARRIER_CMD_REGISTER_PRIVATE_EXPEDITED) == 0;
    errno = before;
}

/* A process that filters its own calls may have lost this one: it can't go on. */
static void run_barriers(void)
{
    int before = errno;
    if (barriers(MEMBARRIER_CMD_PRIVATE_EXPEDITED) != 0
        && (barriers(MEMBARRIER_CMD_REGISTER_PRIVATE_EXPEDITED) != 0
            || barriers(MEMBARRIER_CMD_PRIVATE_EXPEDITED) != 0)) {
        say(STDERR_FILENO, "membarrier is refused, after it was granted\n");
        abort();
    }
    errno = before;
}

static void take_word(uint32_t *word)
{
    uint32_t seen = 0;
    if (__atomic_compare_exchange_n(word, &seen, 1, false, __ATOMIC_ACQUIRE, __ATOMIC_RELAXED)) {
        return;
    }
    while (__atomic_exchange_n(word, 2, __ATOMIC_ACQUIRE) != 0) {
        wait_at(word, 2);
    }
}

static void give_word(uint32_t *word)
{
    if (__atomic_exchange_n(word, 0, __ATOMIC_RELEASE) == 2) {
        wake_at(word, 1);
    }
}

void wake_seat(struct seat *seat) { wake_at(&seat->inside, INT32_MAX); }

/* With the lock's word: it leans to none, and no thread is in it. */
static void take_away(struct lock *lock)
{
    struct seat *other = lock->leans_to;
    uint32_t mark = mark_of_lock(lock);
    __atomic_store_n(&lock->leans_to, NULL, __ATOMIC_RELAXED);
    run_barriers();
    for (int k = 0; __atomic_load_n(&other->inside, __ATOMIC_ACQUIRE) == mark; k++) {
        if (k >= LOOKS) {
            wait_at(&other->inside, mark);
        }
    }
}

/* A thread is told by where its own variables lie. */
static uintptr_t this_thread(void) { return (uintptr_t)&own_seat; }

/* The thread's seat. Where all are taken it has none, and no lock leans to it. */
static struct seat *find_seat(void)
{
    for (unsigned k = 0; own_seat == NULL && k < SEATS; k++) {
        uintptr_t seen = 0;
        bool is_own = __atomic_compare_exchange_n(&seats[k].thread, &seen, this_thread(), false,
                                                  __ATOMIC_ACQ_REL, __ATOMIC_ACQUIRE);
        own_seat = is_own || seen == this_thread() ? &seats[k] : NULL;
    }
    return own_seat;
}

void lock_slowly(struct lock *lock)
{
    if (forks) {
        return;
    }
    take_word(&lock->word);
    if (lock->leans_to != NULL) {
        take_away(lock);
    }
    lock->turns = lock->last == this_thread() ? lock->turns + 1 : 0;
    lock->last = this_thread();
}

/* It leans from the last turn's end on: what the lock guards is whole then. */
void unlock_slowly(struct lock *lock)
{
    if (forks) {
        return;
    }
    if (lock->turns >= TURNS_TO_LEAN && may_lean) {
        lock->turns = 0;
        __atomic_store_n(&lock->leans_to, find_seat(), __ATOMIC_RELAXED);
    }
    give_word(&lock->word);
}

/* What leans to this thread may stay so. */
void hold_for_fork(struct lock *lock)
{
    take_word(&lock->word);
    if (lock->leans_to != NULL && lock->leans_to != own_seat) {
        take_away(lock);
    }
}

void leave_after_fork(struct lock *lock) { give_word(&lock->word); }
void begin_fork(void) { forks = true; }
void end_fork(void) { forks = false; }
