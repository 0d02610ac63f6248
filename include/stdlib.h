/* What the subset knows of <stdlib.h>, and small functions in C. There is no memory to be had at run time. */
#ifndef CREDUCE_STDLIB_H
#define CREDUCE_STDLIB_H
#include <stddef.h>
#define EXIT_SUCCESS 0
#define EXIT_FAILURE 1
#define RAND_MAX 32767
void abort(void);
void exit(int status);
static inline int creduce_abs(int value) { return value < 0 ? -value : value; }
static inline long creduce_labs(long value) { return value < 0 ? -value : value; }
static inline long long creduce_llabs(long long value) { return value < 0 ? -value : value; }
static unsigned long creduce_seed = 1;
static inline void creduce_srand(unsigned seed) { creduce_seed = seed; }
static inline int creduce_rand(void) { creduce_seed = creduce_seed * 1103515245 + 12345; return (int)((unsigned)(creduce_seed / 65536) % 32768); }
static inline int creduce_atoi(const char *text)
{
    int sign = 1, value = 0;
    while (*text == ' ' || (*text >= '\t' && *text <= '\r')) text++;
    if (*text == '-') { sign = -1; text++; } else if (*text == '+') text++;
    while (*text >= '0' && *text <= '9') value = value * 10 + sign * (*text++ - '0');
    return value;
}
#define abs(value) creduce_abs(value)
#define labs(value) creduce_labs(value)
#define llabs(value) creduce_llabs(value)
#define srand(seed) creduce_srand(seed)
#define rand() creduce_rand()
#define atoi(text) creduce_atoi(text)
#endif
