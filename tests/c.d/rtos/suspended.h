/* For a build of tlsf.h's files: each call of the heap asks whether the scheduler is suspended. */
#ifndef SUSPENDED_H
#define SUSPENDED_H

void expect_suspended(const void *tlsf);
#define TLSF_LOCK(tlsf) expect_suspended(tlsf)
#define TLSF_UNLOCK(tlsf) expect_suspended(tlsf)

#endif
