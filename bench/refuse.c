/* A library to load before the C library's: it refuses the allocation of the number REFUSE, counted from 1,
   and each one after it where REFUSE_ON is set. */
#define _GNU_SOURCE
#include <dlfcn.h>
#include <errno.h>
#include <stdatomic.h>
#include <stdlib.h>

/* The threads of a run count together. */
static atomic_long made;

static int is_refused(void)
{
    const char *refused = getenv("REFUSE");
    long number = refused ? atol(refused) : 0;
    long count = atomic_fetch_add(&made, 1) + 1;
    return number != 0 && (count == number || (count > number && getenv("REFUSE_ON") != NULL));
}

void *malloc(size_t size)
{
    static void *(*real)(size_t);
    if (!real)
        real = (void *(*)(size_t))dlsym(RTLD_NEXT, "malloc");
    if (is_refused()) {
        errno = ENOMEM;
        return NULL;
    }
    return real(size);
}

void *realloc(void *block, size_t size)
{
    static void *(*real)(void *, size_t);
    if (!real)
        real = (void *(*)(void *, size_t))dlsym(RTLD_NEXT, "realloc");
    if (is_refused()) {
        errno = ENOMEM;
        return NULL;
    }
    return real(block, size);
}

int posix_memalign(void **block, size_t alignment, size_t size)
{
    static int (*real)(void **, size_t, size_t);
    if (!real)
        real = (int (*)(void **, size_t, size_t))dlsym(RTLD_NEXT, "posix_memalign");
    return is_refused() ? ENOMEM : real(block, alignment, size);
}
