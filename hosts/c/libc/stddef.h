/* What the hosts need of <stddef.h>, for x86-64: the kit's compiler comes without headers. */
#ifndef HOSTS_STDDEF_H
#define HOSTS_STDDEF_H

typedef unsigned long size_t;
#define NULL ((void *)0)
#define offsetof(type, member) __builtin_offsetof(type, member)

#endif
