/* Words that only a compiler knows, and what creduce-prepare puts in their place. Of two the meaning is another one, which it tells:
   __builtin_unreachable and __builtin_constant_p. */
#define __attribute__(words)
#define __attribute(words)
#define __extension__
#define __inline__ inline
#define __inline inline
#define __const const
#define __const__ const
#define __signed__ signed
#define __signed signed
#define __volatile__ volatile
#define __volatile volatile
#define __restrict
#define __restrict__
#define restrict
#define _Noreturn
#define _Static_assert(...) extern int creduce_asserted
#define __builtin_abort abort
#define __builtin_trap abort
#define __builtin_unreachable abort
#define __builtin_exit exit
#define __builtin_printf printf
#define __builtin_putchar putchar
#define __builtin_expect(value, likely) (value)
#define __builtin_prefetch(...) ((void)0)
#define __builtin_constant_p(value) 0
#define __builtin_memcpy memcpy
#define __builtin_memset memset
#define __builtin_memcmp memcmp
#define __builtin_memmove memmove
#define __builtin_strlen strlen
#define __builtin_strcmp strcmp
#define __builtin_strcpy strcpy
#define __builtin_abs abs
#define __builtin_labs labs
