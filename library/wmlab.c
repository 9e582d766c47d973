/* The calls of wmlab.h over the one proved call, `wmlab_answer`. */
#include "wmlab.h"

#include <stdint.h>
#include <stdlib.h>
#include <string.h>

/* Of crates/wm_library: writes the line over the first bytes of `room`, as far as it fits, and its length to `size`.
 * A slice is a pointer, which is not null, and a length. */
uint8_t wmlab_answer(const uint8_t *module_bytes, size_t module_length, const uint8_t *document_bytes,
                     size_t document_length, uint8_t *room, size_t room_length, size_t *size);

struct wmlab_module {
    size_t length;
    uint8_t bytes[];
};

wmlab_module *wmlab_module_new(const void *bytes, size_t n)
{
    wmlab_module *module;
    if (n > SIZE_MAX - sizeof *module - 1)
        return NULL;
    module = malloc(sizeof *module + n + 1);
    if (module == NULL)
        return NULL;
    module->length = n;
    if (n > 0)
        memcpy(module->bytes, bytes, n);
    return module;
}

enum wmlab_status wmlab_verify(const wmlab_module *module, const void *document, size_t n, char *line, size_t capacity)
{
    static const uint8_t nothing[1];
    uint8_t unused;
    uint8_t *room = capacity > 1 ? (uint8_t *)line : &unused;
    size_t room_length = capacity > 1 ? capacity - 1 : 0;
    size_t size = 0;
    uint8_t status = wmlab_answer(module->bytes, module->length, n > 0 ? document : nothing, n, room, room_length, &size);
    if (capacity > 0)
        line[status == WMLAB_NO_ANSWER ? 0 : size < room_length ? size : room_length] = 0;
    return (enum wmlab_status)status;
}

void wmlab_module_free(wmlab_module *module)
{
    free(module);
}
