/* Refuses all memory from a request on, the first of which has the number 0: NO_MEMORY_FROM. Preloaded beside a program,
   and not beside those that it starts. */
#define _GNU_SOURCE
#include <errno.h>
#include <stdatomic.h>
#include <stdlib.h>

void *__libc_malloc(size_t size);
void *__libc_calloc(size_t count, size_t size);
void *__libc_realloc(void *old, size_t size);
void *__libc_memalign(size_t alignment, size_t size);

static long from = -1;
static atomic_long requests;

__attribute__((constructor)) static void begin(void) {
    const char *number = getenv("NO_MEMORY_FROM");
    long first = number ? atol(number) : -1;
    unsetenv("LD_PRELOAD");
    unsetenv("NO_MEMORY_FROM");
    from = first;
}

static int is_refused(void) {
    if (from < 0 || atomic_fetch_add(&requests, 1) < from) return 0;
    errno = ENOMEM;
    return 1;
}

void *malloc(size_t size) { return is_refused() ? NULL : __libc_malloc(size); }

void *calloc(size_t count, size_t size) { return is_refused() ? NULL : __libc_calloc(count, size); }

void *realloc(void *old, size_t size) { return is_refused() ? NULL : __libc_realloc(old, size); }

void *aligned_alloc(size_t alignment, size_t size) { return is_refused() ? NULL : __libc_memalign(alignment, size); }

int posix_memalign(void **block, size_t alignment, size_t size) {
    if (is_refused()) return ENOMEM;
    *block = __libc_memalign(alignment, size);
    return *block ? 0 : ENOMEM;
}
