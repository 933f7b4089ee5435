/* What the hosts and the desk's programs need of <string.h>: the kit has the C library, and its compiler no headers. */
#ifndef HOSTS_STRING_H
#define HOSTS_STRING_H

#include <stddef.h>

void *memcpy(void *to, const void *from, size_t length);
void *memset(void *to, int byte, size_t length);
int memcmp(const void *one, const void *other, size_t length);
size_t strlen(const char *text);
int strcmp(const char *one, const char *other);
char *strerror(int number);

#endif
