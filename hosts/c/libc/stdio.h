/* What the hosts and the desk's programs need of <stdio.h>: the kit has the C library, and its compiler no headers. */
#ifndef HOSTS_STDIO_H
#define HOSTS_STDIO_H

#include <stddef.h>

typedef struct _IO_FILE FILE;
extern FILE *stdin, *stdout, *stderr;

int printf(const char *format, ...) __attribute__((format(printf, 1, 2)));
int fprintf(FILE *to, const char *format, ...) __attribute__((format(printf, 2, 3)));
int sprintf(char *to, const char *format, ...) __attribute__((format(printf, 2, 3)));
int snprintf(char *to, size_t size, const char *format, ...) __attribute__((format(printf, 3, 4)));
FILE *fopen(const char *path, const char *mode);
size_t fread(void *to, size_t size, size_t count, FILE *from);
size_t fwrite(const void *from, size_t size, size_t count, FILE *to);
int ferror(FILE *file);
int fflush(FILE *file);
int fclose(FILE *file);
int rename(const char *from, const char *to);
int remove(const char *path);

#endif
