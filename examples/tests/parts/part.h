#include <stdint.h>

extern uint32_t mix(const uint32_t *restrict first, int count) __attribute__((pure));

static inline uint32_t half(uint32_t value)
{
    return value / 2u;
}
