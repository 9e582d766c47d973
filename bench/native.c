// SB and R on the processor, without an engine, as litmus/run makes them: what weak outcomes a second it can give.
//
//     cc -O2 -pthread bench/native.c -o native && ./native ITERATIONS CHUNK PROCESSOR PROCESSOR
//
// For each test it prints its name, the iterations, the weak outcomes and the seconds.
#define _GNU_SOURCE
#include <pthread.h>
#include <sched.h>
#include <stdatomic.h>
#include <stdio.h>
#include <stdlib.h>
#include <string.h>
#include <time.h>

enum { BATCH = 4096, STRIDE = 64, THREADS = 2 };

typedef volatile int *Cell;

static struct { _Alignas(128) _Atomic int turn; } places[THREADS];
static char *x, *y;
static unsigned char columns[THREADS][BATCH];
static pthread_barrier_t barrier;
static long batches, chunk, processors[THREADS], weak;
static int is_r;

static void meet(int thread, int turn) {
    atomic_store(&places[thread].turn, turn);
    while (atomic_load(&places[1 - thread].turn) < turn) {
    }
}

static Cell at(char *location, int i) { return (Cell)(location + i * STRIDE); }

static void iteration(int thread, int i) {
    if (!is_r) {
        *at(thread ? y : x, i) = 1;
        columns[thread][i] = (unsigned char)*at(thread ? x : y, i);
    } else if (thread == 0) {
        *at(x, i) = 1;
        *at(y, i) = 1;
    } else {
        *at(y, i) = 2;
        columns[1][i] = (unsigned char)*at(x, i);
    }
}

static void count(void) {
    for (int i = 0; i < BATCH; i++) {
        weak += is_r ? columns[1][i] == 0 && *at(y, i) == 2 : columns[0][i] == 0 && columns[1][i] == 0;
    }
    memset(x, 0, (size_t)BATCH * STRIDE);
    memset(y, 0, (size_t)BATCH * STRIDE);
}

static void *run(void *number) {
    int thread = (int)(long)number, turn = 0;
    cpu_set_t set;
    CPU_ZERO(&set);
    CPU_SET(processors[thread], &set);
    pthread_setaffinity_np(pthread_self(), sizeof set, &set);
    for (long batch = 0; batch < batches; batch++) {
        pthread_barrier_wait(&barrier);
        for (int i = 0; i < BATCH; i++) {
            if (i % chunk == 0) meet(thread, ++turn);
            iteration(thread, i);
        }
        pthread_barrier_wait(&barrier);
        if (thread == 0) count();
    }
    return NULL;
}

static double seconds(void) {
    struct timespec now;
    clock_gettime(CLOCK_MONOTONIC, &now);
    return (double)now.tv_sec + 1e-9 * (double)now.tv_nsec;
}

static void test(const char *name, int is_test_r) {
    is_r = is_test_r;
    weak = 0;
    for (int k = 0; k < THREADS; k++) atomic_store(&places[k].turn, 0);
    pthread_t threads[THREADS];
    double start = seconds();
    for (long k = 0; k < THREADS; k++) pthread_create(&threads[k], NULL, run, (void *)k);
    for (int k = 0; k < THREADS; k++) pthread_join(threads[k], NULL);
    printf("%s %ld %ld %.6f\n", name, batches * BATCH, weak, seconds() - start);
}

int main(int count_of_words, char **words) {
    if (count_of_words != 5) return 2;
    batches = (atol(words[1]) + BATCH - 1) / BATCH;
    chunk = atol(words[2]);
    for (int k = 0; k < THREADS; k++) processors[k] = atol(words[3 + k]);
    x = aligned_alloc(4096, (size_t)BATCH * STRIDE);
    y = aligned_alloc(4096, (size_t)BATCH * STRIDE);
    if (!x || !y || chunk < 1) return 2;
    memset(x, 0, (size_t)BATCH * STRIDE);
    memset(y, 0, (size_t)BATCH * STRIDE);
    pthread_barrier_init(&barrier, NULL, THREADS);
    test("SB", 0);
    test("R", 1);
    return 0;
}
