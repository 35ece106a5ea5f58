/* lock.h: a lock that leans to the thread that took it last, many times in a row. For no program.
 *
 * That thread then takes it by a store to its own seat, without an atomic operation, and looks once
 * more whether the lock still leans to it. Each other thread takes the lock's word, writes that it
 * leans to none, and has the kernel run a barrier on all processors of the process. From then on
 * the first thread sees that, or the other one sees it inside, and waits until it is out. Where the
 * kernel has no such barrier a lock leans to none. In a signal's handler a thread never enters what
 * it is in: it waits for ever, as at a mutex.
 */
#ifndef TLSF_MALLOC_LOCK_H
#define TLSF_MALLOC_LOCK_H

#include <stdbool.h>
#include <stddef.h>
#include <stdint.h>

/* What a thread is in by a lock that leans to it: mark_of_lock, or 0. A thread that begins where
 * one was before, which has ended, has its seat. */
struct seat {
    uint32_t inside;
    uintptr_t thread;
} __attribute__((aligned(64)));

struct lock {
    struct seat *leans_to;
    uint32_t word;  /* 0 where it is free, 1 where a thread has it, and 2 where another waits,
                       too */
    uint32_t turns; /* that the same thread had it in a row, without leaning */
    uintptr_t last; /* that thread */
};

/* Before the first lock. */
void begin_locks(void);
/* While a thread forks it has all locks. It may call meanwhile: to take one does nothing then. */
void hold_for_fork(struct lock *lock);
void leave_after_fork(struct lock *lock);
void begin_fork(void);
void end_fork(void);

/* Where the lock doesn't lean to the thread. */
void lock_slowly(struct lock *lock);
void unlock_slowly(struct lock *lock);
/* Tells one that waits for the seat. */
void wake_seat(struct seat *seat);

extern __thread struct seat *own_seat;

static inline uint32_t mark_of_lock(const struct lock *lock)
{
    return (uint32_t)(uintptr_t)lock | 1u;
}

static inline bool leans(struct lock *lock, const struct seat *seat)
{
    return __atomic_load_n(&lock->leans_to, __ATOMIC_RELAXED) == seat;
}

/* The fence keeps the compiler from moving what stands on its sides; the processor's is the
 * kernel's. */
static inline void leave_seat(struct lock *lock, struct seat *seat)
{
    __atomic_store_n(&seat->inside, 0, __ATOMIC_RELEASE);
    __atomic_signal_fence(__ATOMIC_SEQ_CST);
    if (__builtin_expect(!leans(lock, seat), false)) {
        wake_seat(seat);
    }
}

/* Answers the seat by which the thread is in, for unlock_it: a null pointer where it has the
 * word. */
static inline struct seat *lock_it(struct lock *lock)
{
    struct seat *seat = own_seat;
    if (__builtin_expect(seat != NULL && leans(lock, seat) && seat->inside == 0, true)) {
        __atomic_store_n(&seat->inside, mark_of_lock(lock), __ATOMIC_RELAXED);
        __atomic_signal_fence(__ATOMIC_SEQ_CST);
        if (__builtin_expect(leans(lock, seat), true)) {
            return seat;
        }
        leave_seat(lock, seat);
    }
    lock_slowly(lock);
    return NULL;
}

static inline void unlock_it(struct lock *lock, struct seat *seat)
{
    if (__builtin_expect(seat != NULL, true)) {
        leave_seat(lock, seat);
    } else {
        unlock_slowly(lock);
    }
}

#endif
