/* <stddef.h>, as gcc has it on x86-64; there is no offsetof. */
#ifndef CREDUCE_STDDEF_H
#define CREDUCE_STDDEF_H
typedef unsigned long size_t;
typedef long ptrdiff_t;
typedef int wchar_t;
#ifndef NULL
#define NULL ((void *)0)
#endif
#endif
