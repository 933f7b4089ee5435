/* What the hosts need of <stdint.h>, for x86-64: the kit's compiler comes without headers. */
#ifndef HOSTS_STDINT_H
#define HOSTS_STDINT_H

typedef unsigned char uint8_t;
typedef unsigned short uint16_t;
typedef unsigned int uint32_t;
typedef unsigned long uint64_t;
#define UINT32_MAX 4294967295U
#define UINT64_MAX 18446744073709551615UL

#endif
