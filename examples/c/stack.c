// Pointers to locals. Such a local lives on the stack that the compiler keeps in the shared memory, and every thread starts
// with the same one. So a function that a thread starts with first moves to a stack of the thread's own.
// lower: --stacks none
#include <stdatomic.h>

static _Atomic int mail[2];
static _Alignas(16) char stacks[2][1024];

__attribute__((noinline)) static void fill(int *numbers, int count) {
  for (int i = 0; i < count; i++) numbers[i] = count * 10 + i;
}

static inline int exchange(int me, int count) {
  int numbers[4];
  fill(numbers, count);
  int sum = 0;
  for (int i = 0; i < count; i++) sum += numbers[i];
  mail[me] = sum;
  return mail[1 - me];
}

// Both threads on one stack: a mistake, and a log shows how they write over each other's locals.
__attribute__((export_name("one_stack"))) int one_stack(int me, int count) { return exchange(me, count); }

__attribute__((noinline)) static int moved(int me, int count) { return exchange(me, count); }

__attribute__((export_name("own_stack"))) int own_stack(int me, int count) {
  __asm__ volatile(".globaltype __stack_pointer, i32\n"
                   "local.get %0\n"
                   "global.set __stack_pointer" ::"r"(stacks[me] + sizeof stacks[me]));
  return moved(me, count);
}
