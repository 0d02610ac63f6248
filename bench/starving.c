// To be preloaded by bench/starving.sh: the call for memory with the number STARVE_AT, from 1, is refused. The file STARVE_COUNT counts
// the calls, in 8 bytes that are shared with it, so the count is there however the program ends.
#include <errno.h>
#include <fcntl.h>
#include <stdatomic.h>
#include <stddef.h>
#include <stdlib.h>
#include <sys/mman.h>
#include <unistd.h>

void *__libc_malloc(size_t);
void *__libc_calloc(size_t, size_t);
void *__libc_realloc(void *, size_t);
void *__libc_memalign(size_t, size_t);

static _Atomic unsigned long before_start, *calls = &before_start;
static unsigned long refused;

__attribute__((constructor)) static void start(void) {
    const char *at = getenv("STARVE_AT"), *count = getenv("STARVE_COUNT");
    int file = count ? open(count, O_RDWR) : -1;
    void *shared = file < 0 ? MAP_FAILED : mmap(NULL, sizeof *calls, PROT_READ | PROT_WRITE, MAP_SHARED, file, 0);
    if (!at || shared == MAP_FAILED) abort();
    close(file);
    calls = shared;
    refused = strtoul(at, NULL, 10);
}

static int is_refused(void) {
    if (atomic_fetch_add(calls, 1) + 1 != refused) return 0;
    errno = ENOMEM;
    return 1;
}

void *malloc(size_t size) { return is_refused() ? NULL : __libc_malloc(size); }
void *calloc(size_t count, size_t size) { return is_refused() ? NULL : __libc_calloc(count, size); }
void *realloc(void *old, size_t size) { return is_refused() ? NULL : __libc_realloc(old, size); }
void *memalign(size_t alignment, size_t size) { return is_refused() ? NULL : __libc_memalign(alignment, size); }
void *aligned_alloc(size_t alignment, size_t size) { return memalign(alignment, size); }

int posix_memalign(void **made, size_t alignment, size_t size) {
    void *block = memalign(alignment, size);
    if (block) *made = block;
    return block ? 0 : ENOMEM;
}
