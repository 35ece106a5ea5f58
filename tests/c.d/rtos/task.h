/* What c/rtos/heap_tlsf.c takes of FreeRTOS's task.h. */
#ifndef INC_TASK_H
#define INC_TASK_H

void vTaskSuspendAll(void);
BaseType_t xTaskResumeAll(void);
void vApplicationMallocFailedHook(void);

#endif
