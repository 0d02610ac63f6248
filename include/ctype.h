/* <ctype.h> in the C locale. */
#ifndef CREDUCE_CTYPE_H
#define CREDUCE_CTYPE_H
static inline int creduce_isdigit(int c) { return c >= '0' && c <= '9'; }
static inline int creduce_islower(int c) { return c >= 'a' && c <= 'z'; }
static inline int creduce_isupper(int c) { return c >= 'A' && c <= 'Z'; }
static inline int creduce_isalpha(int c) { return creduce_islower(c) || creduce_isupper(c); }
static inline int creduce_isalnum(int c) { return creduce_isalpha(c) || creduce_isdigit(c); }
static inline int creduce_isxdigit(int c) { return creduce_isdigit(c) || (c >= 'a' && c <= 'f') || (c >= 'A' && c <= 'F'); }
static inline int creduce_isspace(int c) { return c == ' ' || (c >= '\t' && c <= '\r'); }
static inline int creduce_isblank(int c) { return c == ' ' || c == '\t'; }
static inline int creduce_iscntrl(int c) { return (c >= 0 && c < 32) || c == 127; }
static inline int creduce_isprint(int c) { return c >= 32 && c < 127; }
static inline int creduce_isgraph(int c) { return c > 32 && c < 127; }
static inline int creduce_ispunct(int c) { return creduce_isgraph(c) && !creduce_isalnum(c); }
static inline int creduce_tolower(int c) { return creduce_isupper(c) ? c - 'A' + 'a' : c; }
static inline int creduce_toupper(int c) { return creduce_islower(c) ? c - 'a' + 'A' : c; }
#define isdigit(c) creduce_isdigit(c)
#define islower(c) creduce_islower(c)
#define isupper(c) creduce_isupper(c)
#define isalpha(c) creduce_isalpha(c)
#define isalnum(c) creduce_isalnum(c)
#define isxdigit(c) creduce_isxdigit(c)
#define isspace(c) creduce_isspace(c)
#define isblank(c) creduce_isblank(c)
#define iscntrl(c) creduce_iscntrl(c)
#define isprint(c) creduce_isprint(c)
#define isgraph(c) creduce_isgraph(c)
#define ispunct(c) creduce_ispunct(c)
#define tolower(c) creduce_tolower(c)
#define toupper(c) creduce_toupper(c)
#endif
