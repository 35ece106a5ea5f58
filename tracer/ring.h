/* ring.h: a log without a file: a ring in memory between a traced process (ring.c) and its follower
 * (follow/).
 *
 * It is a file of the follower's folder, below /dev/shm. Its first page is this head; behind it
 * stand the bytes of lines, of which byte k of the log is at k modulo their number. Both map these
 * bytes twice, one behind the other, so that each write and read is in one piece. What is below
 * `written` is whole lines, whatever ends the process. A ring has its name once it is ready. Not
 * proved.
 */
#ifndef TLSF_RING_H
#define TLSF_RING_H

#include <stdint.h>

/* What the kernel puts into the word of a robust futex whose owner died. */
enum { OWNER_DIED = 0x40000000 };

struct ring {
    /* The bytes of lines, a power of two; and when the log began, by CLOCK_MONOTONIC_COARSE, in
     * milliseconds. */
    uint64_t bytes, begun;
    /* By the process: its log has its end; and that it gave the log up, so goes on without. */
    uint32_t is_ended, is_cut;
    /* By the follower: it reads no more; and the process maps the ring no more: it ended, or became
     * another program. */
    uint32_t is_dropped, is_closed;
    /* By the process. News changes with each wake of the follower, which waits for it. */
    _Alignas(64) uint64_t written;
    uint32_t news, process_waits;
    /* The same by the follower. */
    _Alignas(64) uint64_t read;
    uint32_t room, follower_waits;
};

/* The file `session` of the folder: the follower, as the owner of a robust futex; how many names of
 * rings and programs were given; how many processes could make no ring; and the bytes that a ring
 * is to have.
 *
 * A program has a file of its own there, NUMBER.here, and maps it. Its children have that mapping,
 * too, until they become another program. So the follower knows by the kernel whether there is a
 * process that may yet make a ring. */
struct session {
    void *next;
    uint32_t owner, rings, programs, untraced;
    uint64_t ring_bytes;
};

#endif
