/* The lock that tests/c.d/lock.c has, for a build of tlsf.c with -include lock.h. */
#ifndef LOCK_H
#define LOCK_H

void take_lock(void *tlsf);
void give_lock(void *tlsf);
#define TLSF_LOCK(tlsf) take_lock(tlsf)
#define TLSF_UNLOCK(tlsf) give_lock(tlsf)

#endif
