/* What the desk's programs need of <errno.h>, as the C library for x86-64 Linux has it: the kit's compiler comes without headers. */
#ifndef HOSTS_ERRNO_H
#define HOSTS_ERRNO_H

int *__errno_location(void);
#define errno (*__errno_location())

#endif
