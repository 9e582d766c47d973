/* A harness for a fuzzer of an engine, in the manner of libFuzzer: the bytes are a log over a fixed module, as an engine
 * under test would write it. A broken log is a find; a refused one is an input that is no log. A module that is refused
 * ends the harness with status 2, and an answer that needs more memory than there is with status 3.
 *   clang -fsanitize=fuzzer -I LIBRARY fuzz.c LIBRARY/libwmlab.a -lm -o fuzz && MODULE=store-buffering.wasm ./fuzz logs/ */
#include "wmlab.h"

#include <stdint.h>
#include <stdio.h>
#include <stdlib.h>
#include <string.h>

/* No module is longer. */
enum { MODULE_BYTES = 1048576 };

static void end_without_memory(void)
{
    fprintf(stderr, "out of memory\n");
    exit(3);
}

static wmlab_module *read_module(const char *name)
{
    /* One byte more than a module has, so that a longer file is refused. */
    static unsigned char bytes[MODULE_BYTES + 1];
    FILE *file = name ? fopen(name, "rb") : NULL;
    size_t length;
    if (file == NULL) {
        fprintf(stderr, "name a module in MODULE\n");
        exit(2);
    }
    length = fread(bytes, 1, sizeof bytes, file);
    fclose(file);
    return wmlab_module_new(bytes, length);
}

/* Ends the harness if each log over the module would be refused: an empty log is refused as a document if the module
 * is not. */
static void check_module(const wmlab_module *module)
{
    char line[WMLAB_LINE_MAX];
    if (module == NULL || wmlab_verify(module, NULL, 0, line, sizeof line) == WMLAB_NO_ANSWER)
        end_without_memory();
    if (strncmp(line, "refused document", strlen("refused document")) != 0) {
        fprintf(stderr, "%s\n", line);
        exit(2);
    }
}

int LLVMFuzzerTestOneInput(const uint8_t *data, size_t size)
{
    static wmlab_module *module;
    char line[WMLAB_LINE_MAX];
    enum wmlab_status status;
    if (module == NULL) {
        module = read_module(getenv("MODULE"));
        check_module(module);
    }
    status = wmlab_verify(module, data, size, line, sizeof line);
    if (status == WMLAB_NO_ANSWER)
        end_without_memory();
    if (status == WMLAB_BROKEN) {
        fprintf(stderr, "%s\n", line);
        abort();
    }
    return 0;
}
