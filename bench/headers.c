#include <assert.h>
#include <ctype.h>
#include <errno.h>
#include <inttypes.h>
#include <limits.h>
#include <stdbool.h>
#include <stddef.h>
#include <stdint.h>
#include <stdio.h>
#include <stdlib.h>
#include <string.h>

static int sign(int value) { return (value > 0) - (value < 0); }

static void characters(void)
{
    for (int c = -1; c < 128; c++)
        printf("%d: %d%d%d%d%d%d%d%d%d%d%d%d %d %d\n", c, !isdigit(c), !islower(c), !isupper(c), !isalpha(c), !isalnum(c), !isxdigit(c),
               !isspace(c), !isblank(c), !iscntrl(c), !isprint(c), !isgraph(c), !ispunct(c), tolower(c), toupper(c));
}

static void texts(void)
{
    char text[32] = "one", other[32];
    const char *const pairs[4][2] = { { "a", "b" }, { "abc", "ab" }, { "", "" }, { "\377", "a" } };
    for (int k = 0; k < 4; k++)
        printf("%d %d %d\n", sign(strcmp(pairs[k][0], pairs[k][1])), sign(strncmp(pairs[k][0], pairs[k][1], 2)), sign(memcmp(pairs[k][0], pairs[k][1], 1)));
    strcat(text, " two one");
    strcpy(other, text);
    printf("%s %lu %s\n", text, strlen(text), other);
    strncpy(other, "xy", 5);
    printf("%s%s %d\n", other, other + 5, strchr(text, 'z') == NULL);
    printf("%s %s %s\n", strchr(text, 'o'), strrchr(text, 'o'), strchr(text, 0));
    memmove(text + 2, text, 6);
    puts(text);
    memmove(text, text + 2, 6);
    puts(text);
    memcpy(other, text, 4);
    memset(other + 1, '-', 2);
    puts(other);
}

static void numbers(void)
{
    printf("%d %ld %lld %d %d\n", abs(-3), labs(-4L), llabs(5LL), atoi(" \t-12x"), atoi("+7"));
    printf("%" PRId8 " %" PRIu16 " %" PRId32 " %" PRIx64 " %" PRIdMAX "\n", (int8_t)-1, (uint16_t)65535, INT32_MIN, UINT64_MAX, INTMAX_MIN);
    printf("%lu %lu %lu %lu\n", sizeof(int_fast16_t), sizeof(int_least16_t), sizeof(uintptr_t), sizeof(size_t));
    printf("%d %d %d %d %d %d %d\n", CHAR_BIT, SCHAR_MIN, CHAR_MIN, SHRT_MIN, INT_MIN, SHRT_MAX, INT_MAX);
    printf("%u %lu %ld %lld %llu\n", UINT_MAX, ULONG_MAX, LONG_MIN, LLONG_MAX, ULLONG_MAX);
    printf("%ld %lu %ld\n", INT64_C(1) << 40, UINT64_C(1) << 63, PTRDIFF_MAX);
}

int main(void)
{
    bool is_well = true;
    assert(is_well);
    characters();
    texts();
    numbers();
    printf("%d %d\n", EOF, rand() <= RAND_MAX);
    errno = ERANGE;
    printf("%d %d %d %d %d\n", EDOM, errno, EINVAL, ENOMEM, ENOENT);
    exit(EXIT_SUCCESS);
}
