/* What the hosts and the desk's programs need of <stdlib.h>: the kit has the C library, and its compiler no headers. */
#ifndef HOSTS_STDLIB_H
#define HOSTS_STDLIB_H

#include <stddef.h>

_Noreturn void exit(int status);
void *malloc(size_t size);
void *calloc(size_t count, size_t size);
void *realloc(void *memory, size_t size);
void free(void *memory);
void qsort(void *first, size_t count, size_t size, int (*compare)(const void *, const void *));

#endif
