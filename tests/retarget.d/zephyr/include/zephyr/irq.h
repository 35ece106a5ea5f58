/* The two calls of Zephyr's irq.h that the module takes. */
#ifndef ZEPHYR_INCLUDE_IRQ_H_
#define ZEPHYR_INCLUDE_IRQ_H_

unsigned int irq_lock(void);
void irq_unlock(unsigned int key);

#endif
