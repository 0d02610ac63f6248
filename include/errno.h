/* What the subset knows of <errno.h>: a variable of the program's own, which no function here sets. The numbers are Linux's. */
#ifndef CREDUCE_ERRNO_H
#define CREDUCE_ERRNO_H
#define ENOENT 2
#define ENOMEM 12
#define EINVAL 22
#define EDOM 33
#define ERANGE 34
int creduce_errno;
#define errno creduce_errno
#endif
