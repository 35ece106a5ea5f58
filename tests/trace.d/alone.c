/* One thread that never waits: it takes and frees memory until SIGUSR2 ends it. SIGUSR1 plants
 * seven blocks of 6,000 to 6,006 bytes. Behind SIGHUP it computes alone, and asks for no memory
 * until SIGHUP comes again. */
#include <signal.h>
#include <stdio.h>
#include <stdlib.h>
#include <string.h>

static volatile sig_atomic_t plants, ends, computes;
static void *planted[7];

static void on_signal(int number)
{
    plants = plants || number == SIGUSR1;
    ends = ends || number == SIGUSR2;
    computes = number == SIGHUP ? !computes : computes;
}

static void plant(void)
{
    for (int k = 0; k < 7; k++) {
        planted[k] = malloc(6000 + k);
    }
    plants = 0;
    printf("planted\n");
    fflush(stdout);
}

int main(void)
{
    signal(SIGUSR1, on_signal);
    signal(SIGUSR2, on_signal);
    signal(SIGHUP, on_signal);
    printf("ready\n");
    fflush(stdout);
    for (int k = 0; !ends; k++) {
        if (!computes) {
            free(malloc(1 + k % 500));
        }
        if (plants) {
            plant();
        }
    }
    printf("ended\n");
    return 6;
}
