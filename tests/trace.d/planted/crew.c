// Threads that leak: some end before the program, one goes on, and one is cancelled.
#include <pthread.h>
#include <stdlib.h>
#include <unistd.h>

static void *volatile last;

static void take(int count)
{
    for (int k = 0; k < count; k++)
        last = malloc(40); // planted 4000 in 100: take
}

static void *work(void *unused)
{
    (void)unused;
    take(25);
    last = malloc(17); // planted 68 in 4: work
    return NULL;
}

static void *wait_on(void *turn)
{
    last = malloc(91); // planted 182 in 2: wait_on
    *(volatile int *)turn = 1;
    for (;;)
        pause();
    return NULL;
}

int main(void)
{
    pthread_t workers[4], waiting[2];
    static volatile int turns[2];
    for (int k = 0; k < 4; k++)
        pthread_create(&workers[k], NULL, work, NULL);
    for (int k = 0; k < 2; k++)
        pthread_create(&waiting[k], NULL, wait_on, (void *)&turns[k]);
    for (int k = 0; k < 4; k++)
        pthread_join(workers[k], NULL);
    while (!turns[0] || !turns[1])
        usleep(1000);
    pthread_cancel(waiting[0]);
    pthread_join(waiting[0], NULL);
    return 0;
}
