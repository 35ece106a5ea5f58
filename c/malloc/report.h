/* report.h: what malloc.c tells at the end. */
#ifndef TLSF_MALLOC_REPORT_H
#define TLSF_MALLOC_REPORT_H

#include <stddef.h>

/* Writes on a file descriptor a line of the heaps where there were several, one of each part, and
 * one of all, with how many requests and pointers were refused. */
void report(int to, size_t refused);

#endif
