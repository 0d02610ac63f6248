#include <stdio.h>
#include "part.h"

#define COUNT 4

uint32_t mix(const uint32_t *restrict first, int count)
{
    uint32_t sum = 0u;
    for (int i = 0; i < count; i++)
        sum = sum * 31u + half(first[i]);
    return sum;
}

int main(void)
{
    uint32_t numbers[COUNT] = { 2u, 7u, 1u, 8u };
    printf("%u\n", mix(numbers, COUNT));
    return 0;
}
