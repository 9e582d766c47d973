/* Calls the library as programs do: test MODULE LOG.. prints the status and the line of each log, and then asks for the
 * same on four threads at the same time, into lines of each length. It ends with status 0 if all answers agree. */
#include "wmlab.h"

#include <pthread.h>
#include <stdio.h>
#include <stdlib.h>
#include <string.h>

enum { THREADS = 4 };

struct bytes {
    unsigned char *at;
    size_t length;
};

struct task {
    const wmlab_module *module;
    const struct bytes *logs;
    char (*lines)[WMLAB_LINE_MAX];
    enum wmlab_status *statuses;
    int count;
    int wrong;
};

static struct bytes read_file(const char *name)
{
    struct bytes file = {NULL, 0};
    FILE *stream = fopen(name, "rb");
    long length;
    if (stream == NULL || fseek(stream, 0, SEEK_END) != 0 || (length = ftell(stream)) < 0) {
        fprintf(stderr, "cannot read %s\n", name);
        exit(2);
    }
    rewind(stream);
    /* Of the exact size, so that the address sanitizer sees a read past the end. */
    file.at = malloc(length > 0 ? (size_t)length : 1);
    if (file.at != NULL)
        file.length = fread(file.at, 1, (size_t)length, stream);
    fclose(stream);
    return file;
}

/* Whether a line of this capacity gets the front of the whole line, and nothing past it. */
static int is_cut(const struct task *task, int log, size_t capacity)
{
    char *line = malloc(capacity + 1);
    const char *whole = task->lines[log];
    size_t wanted = strlen(whole) < capacity ? strlen(whole) : capacity - 1;
    int right;
    line[capacity] = 'x';
    right = wmlab_verify(task->module, task->logs[log].at, task->logs[log].length, line, capacity) == task->statuses[log]
            && strlen(line) == wanted && memcmp(line, whole, wanted) == 0 && line[capacity] == 'x';
    free(line);
    return right;
}

static void *ask_again(void *given)
{
    struct task *task = given;
    int log;
    size_t capacity;
    for (log = 0; log < task->count; log++) {
        for (capacity = 1; capacity <= strlen(task->lines[log]) + 2; capacity++)
            task->wrong += !is_cut(task, log, capacity);
        task->wrong += wmlab_verify(task->module, task->logs[log].at, task->logs[log].length, NULL, 0) != task->statuses[log];
    }
    return NULL;
}

static int ask_on_threads(const struct task *task)
{
    pthread_t threads[THREADS];
    struct task tasks[THREADS];
    int number, wrong = 0;
    for (number = 0; number < THREADS; number++) {
        tasks[number] = *task;
        if (pthread_create(&threads[number], NULL, ask_again, &tasks[number]) != 0)
            exit(2);
    }
    for (number = 0; number < THREADS; number++) {
        pthread_join(threads[number], NULL);
        wrong += tasks[number].wrong;
    }
    return wrong;
}

int main(int argc, char **argv)
{
    int count = argc - 2, log, wrong = 0;
    struct bytes module_bytes, *logs;
    struct task task = {NULL, NULL, NULL, NULL, 0, 0};
    char line[WMLAB_LINE_MAX];
    wmlab_module *module, *empty;
    if (count < 1)
        return 2;
    module_bytes = read_file(argv[1]);
    module = wmlab_module_new(module_bytes.at, module_bytes.length);
    free(module_bytes.at);
    logs = calloc((size_t)count, sizeof *logs);
    task.lines = calloc((size_t)count, sizeof *task.lines);
    task.statuses = calloc((size_t)count, sizeof *task.statuses);
    for (log = 0; log < count; log++) {
        logs[log] = read_file(argv[log + 2]);
        task.statuses[log] = wmlab_verify(module, logs[log].at, logs[log].length, task.lines[log], WMLAB_LINE_MAX);
        printf("%d %s\n", (int)task.statuses[log], task.lines[log]);
    }
    task.module = module;
    task.logs = logs;
    task.count = count;
    wrong += ask_on_threads(&task);
    empty = wmlab_module_new(NULL, 0);
    wrong += wmlab_verify(empty, NULL, 0, line, sizeof line) != WMLAB_REFUSED || strcmp(line, "refused decode Truncated at 0") != 0;
    /* An empty log is not a log, unless the module is refused first. */
    wrong += wmlab_verify(module, NULL, 0, line, sizeof line) != WMLAB_REFUSED;
    wrong += strcmp(line, "refused document NotJson") != 0 && strncmp(line, "refused decode ", 15) != 0;
    wmlab_module_free(empty);
    wmlab_module_free(module);
    wmlab_module_free(NULL);
    for (log = 0; log < count; log++)
        free(logs[log].at);
    free(logs);
    free(task.lines);
    free(task.statuses);
    return wrong != 0;
}
