/* Interrupts are off during each call of the heap, and then as they were. No call takes the lock
 * twice at once, so one key is enough: it is written with interrupts off. */
#include <zephyr/irq.h>

#include "tlsf_lock.h"

static unsigned int key;

void tlsf_zephyr_lock(void *tlsf)
{
    unsigned int before = irq_lock();
    (void)tlsf;
    key = before;
}

void tlsf_zephyr_unlock(void *tlsf)
{
    unsigned int before = key;
    (void)tlsf;
    irq_unlock(before);
}
