/* The lock of tlsf.h's files under Zephyr, by irq_lock. */
#ifndef TLSF_ZEPHYR_LOCK_H
#define TLSF_ZEPHYR_LOCK_H

void tlsf_zephyr_lock(void *tlsf);
void tlsf_zephyr_unlock(void *tlsf);
#define TLSF_LOCK(tlsf) tlsf_zephyr_lock(tlsf)
#define TLSF_UNLOCK(tlsf) tlsf_zephyr_unlock(tlsf)

#endif
