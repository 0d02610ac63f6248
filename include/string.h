/* Small functions of <string.h> in C. Those on memory are for characters: the subset follows no access to other objects through pointers to
   characters (N5). */
#ifndef CREDUCE_STRING_H
#define CREDUCE_STRING_H
#include <stddef.h>
static inline size_t creduce_strlen(const char *text)
{
    size_t n = 0;
    while (text[n]) n++;
    return n;
}
static inline int creduce_strncmp(const char *left, const char *right, size_t most)
{
    for (; most; most--, left++, right++) {
        int l = *left & 255, r = *right & 255;
        if (l != r) return l - r;
        if (!l) return 0;
    }
    return 0;
}
static inline int creduce_strcmp(const char *left, const char *right) { return creduce_strncmp(left, right, -1ul); }
static inline char *creduce_strncpy(char *to, const char *from, size_t most)
{
    size_t n = 0;
    for (; n < most && from[n]; n++) to[n] = from[n];
    for (; n < most; n++) to[n] = 0;
    return to;
}
static inline char *creduce_strcpy(char *to, const char *from)
{
    size_t n = 0;
    do to[n] = from[n]; while (from[n++]);
    return to;
}
static inline char *creduce_strcat(char *to, const char *from)
{
    creduce_strcpy(to + creduce_strlen(to), from);
    return to;
}
static inline char *creduce_strchr(const char *text, int character)
{
    for (;; text++) {
        if (*text == (char)character) return (char *)text;
        if (!*text) return NULL;
    }
}
static inline char *creduce_strrchr(const char *text, int character)
{
    char *found = NULL;
    do if (*text == (char)character) found = (char *)text; while (*text++);
    return found;
}
static inline void *creduce_memcpy(void *to, const void *from, size_t count)
{
    char *t = to;
    const char *f = from;
    while (count--) *t++ = *f++;
    return to;
}
static inline void *creduce_memmove(void *to, const void *from, size_t count)
{
    char *t = to;
    const char *f = from;
    size_t n = 0;
    while (n < count && t + n != f) n++;
    if (n < count) { while (count--) *t++ = *f++; }
    else { while (count--) t[count] = f[count]; }
    return to;
}
static inline void *creduce_memset(void *to, int value, size_t count)
{
    char *t = to;
    while (count--) *t++ = (char)value;
    return to;
}
static inline int creduce_memcmp(const void *left, const void *right, size_t count)
{
    const char *l = left, *r = right;
    for (; count; count--, l++, r++) {
        if (*l != *r) return (*l & 255) - (*r & 255);
    }
    return 0;
}
#define strlen(text) creduce_strlen(text)
#define strncmp(left, right, most) creduce_strncmp(left, right, most)
#define strcmp(left, right) creduce_strcmp(left, right)
#define strncpy(to, from, most) creduce_strncpy(to, from, most)
#define strcpy(to, from) creduce_strcpy(to, from)
#define strcat(to, from) creduce_strcat(to, from)
#define strchr(text, character) creduce_strchr(text, character)
#define strrchr(text, character) creduce_strrchr(text, character)
#define memcpy(to, from, count) creduce_memcpy(to, from, count)
#define memmove(to, from, count) creduce_memmove(to, from, count)
#define memset(to, value, count) creduce_memset(to, value, count)
#define memcmp(left, right, count) creduce_memcmp(left, right, count)
#endif
