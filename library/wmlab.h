/* The checker of wmlab as a library: a log is completed against its module and checked, as `wmlab verify` does.
 *
 * The answer is proved for each call that meets the requirements of this header. The library keeps nothing from call to
 * call, starts no thread, and reads no file: its calls may run on several threads at the same time, also with the same
 * module. It allocates with the program's malloc, realloc and free. These have to belong to one allocator, which aligns
 * each block to the powers of two up to 16 that divide its size (glibc's does). Do not call the library in a signal
 * handler, nor in the child of a fork of a process with threads. */
#ifndef WMLAB_H
#define WMLAB_H

#include <stddef.h>

#ifdef __cplusplus
extern "C" {
#endif

/* The statuses of the program. */
enum wmlab_status {
    WMLAB_ALLOWED = 0,  /* the module and the memory rules permit the run */
    WMLAB_BROKEN = 1,   /* they do not: the line names the first step or rule that is broken */
    WMLAB_REFUSED = 2,  /* the module or the log is malformed, not supported, or past a limit */
    WMLAB_NO_ANSWER = 3 /* an allocation failed */
};

/* Room for the line of any answer, with its final zero. */
#define WMLAB_LINE_MAX 512

/* The bytes of a module, kept for many logs. */
typedef struct wmlab_module wmlab_module;

/* Keeps a copy of the `n` bytes at `bytes`, which may be null if `n` is 0. They are not checked here: each
 * answer over them reports if they are not a module. Returns null if an allocation fails. */
wmlab_module *wmlab_module_new(const void *bytes, size_t n);

/* Checks a log, the `n` bytes at `document`, over a module. Writes the line that `wmlab verify` prints, without a
 * newline and cut to `capacity` bytes with its final zero, to `line`, which may be null if `capacity` is 0. Returns the
 * status; at WMLAB_NO_ANSWER the line is empty. */
enum wmlab_status wmlab_verify(const wmlab_module *module, const void *document, size_t n, char *line, size_t capacity);

/* Frees a module, or does nothing for null. No call may be using it. */
void wmlab_module_free(wmlab_module *module);

#ifdef __cplusplus
}
#endif

#endif
