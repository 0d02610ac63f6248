/* What the subset knows of <stdio.h>, and two more. These have names of their own, as all functions in C of these headers: a compiler
   takes a function puts for its own one, and makes its printf("%s\n") a call of puts. A program has no input. */
#ifndef CREDUCE_STDIO_H
#define CREDUCE_STDIO_H
#define EOF (-1)
#ifndef NULL
#define NULL ((void *)0)
#endif
int printf(const char *format, ...);
int putchar(int character);
static inline int creduce_puts(const char *text) { printf("%s\n", text); return 0; }
static inline int creduce_getchar(void) { return EOF; }
#define puts(text) creduce_puts(text)
#define getchar() creduce_getchar()
#endif
