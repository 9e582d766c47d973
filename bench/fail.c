/* A library to load before the C library's. It counts from 1 the reads from standard input and from other files, and
   the writes to standard output and to standard error, and lets one of them fail with the error FAIL_ERROR: that of the
   number FAIL_INPUT, FAIL_FILE, FAIL_OUTPUT or FAIL_TOLD. A read from standard input returns at most PIECE bytes, and
   one space where ENDLESS is set. As it ends, a run writes to the file COUNTS how many reads from standard input and
   writes to standard output it made. */
#define _GNU_SOURCE
#include <dlfcn.h>
#include <errno.h>
#include <stdatomic.h>
#include <stdio.h>
#include <stdlib.h>
#include <unistd.h>

/* The calls of one kind: how many were made, and the number of the one that fails, or 0. */
struct calls {
    atomic_long made;
    long failing;
};

static struct calls input, file, output, told;
static long error, piece, endless;

static long number_of(const char *name)
{
    const char *number = getenv(name);
    return number ? atol(number) : 0;
}

__attribute__((constructor)) static void begin(void)
{
    input.failing = number_of("FAIL_INPUT");
    file.failing = number_of("FAIL_FILE");
    output.failing = number_of("FAIL_OUTPUT");
    told.failing = number_of("FAIL_TOLD");
    error = number_of("FAIL_ERROR");
    piece = number_of("PIECE");
    endless = number_of("ENDLESS");
}

static int fails(struct calls *calls)
{
    if (atomic_fetch_add(&calls->made, 1) + 1 != calls->failing)
        return 0;
    errno = (int)error;
    return 1;
}

ssize_t read(int from, void *bytes, size_t size)
{
    static ssize_t (*real)(int, void *, size_t);
    if (!real)
        real = (ssize_t (*)(int, void *, size_t))dlsym(RTLD_NEXT, "read");
    if (fails(from == 0 ? &input : &file))
        return -1;
    if (from != 0)
        return real(from, bytes, size);
    if (endless && size > 0) {
        *(char *)bytes = ' ';
        return 1;
    }
    return real(from, bytes, piece && (size_t)piece < size ? (size_t)piece : size);
}

ssize_t write(int to, const void *bytes, size_t size)
{
    static ssize_t (*real)(int, const void *, size_t);
    if (!real)
        real = (ssize_t (*)(int, const void *, size_t))dlsym(RTLD_NEXT, "write");
    if ((to == 1 && fails(&output)) || (to == 2 && fails(&told)))
        return -1;
    return real(to, bytes, size);
}

void _exit(int status)
{
    const char *name = getenv("COUNTS");
    FILE *counts = name ? fopen(name, "w") : NULL;
    if (counts) {
        fprintf(counts, "%ld %ld\n", (long)input.made, (long)output.made);
        fclose(counts);
    }
    ((void (*)(int))dlsym(RTLD_NEXT, "_exit"))(status);
    abort();
}
