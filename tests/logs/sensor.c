/* Gathers readings in an array that grows, and forgets a name. */
#include <mcheck.h>
#include <stdio.h>
#include <stdlib.h>
#include <string.h>

int main(void)
{
    mtrace();
    char *name = strdup("sensor-7");
    int *readings = malloc(10 * sizeof *readings);
    char *line = malloc(40);
    for (int count = 10; count <= 40; count *= 2)
        readings = realloc(readings, 2 * count * sizeof *readings);
    free(line);
    char *report = malloc(100);
    free(readings);
    free(report);
    return name[0] == 0;
}
