/* Stand-ins for the C library's headers, which the kit doesn't have: what the programs here use, and what a program over
   files commonly calls, as glibc has it on x86-64 Linux. All are plain declarations, for C and for C++. */
#ifndef HEADERS_STDDEF_H
#define HEADERS_STDDEF_H

typedef __SIZE_TYPE__ size_t;
#ifdef __cplusplus
#define NULL __null
#else
#define NULL ((void *)0)
#endif
#define offsetof(type, member) __builtin_offsetof(type, member)

#endif
