// Treiber's stack. Its head is the number of a node with a count above it, so that a node that returns is not taken for the
// one that left. Two threads push a number and pop one; a result is a number that was pushed, or 0 if the stack was empty.
#include <stdatomic.h>

struct node {
  int number;
  _Atomic unsigned next;
};

static struct node nodes[3];
static _Atomic unsigned head;

static unsigned counted(unsigned seen, unsigned node) { return ((seen >> 16) + 1) << 16 | node; }

static void push(unsigned node, int number) {
  nodes[node].number = number;
  unsigned seen = atomic_load_explicit(&head, memory_order_relaxed);
  do {
    atomic_store_explicit(&nodes[node].next, seen & 0xffff, memory_order_relaxed);
  } while (!atomic_compare_exchange_weak_explicit(&head, &seen, counted(seen, node), memory_order_release,
                                                  memory_order_relaxed));
}

static int pop(void) {
  unsigned seen = atomic_load_explicit(&head, memory_order_acquire), next;
  do {
    if ((seen & 0xffff) == 0) return 0;
    next = atomic_load_explicit(&nodes[seen & 0xffff].next, memory_order_relaxed);
  } while (!atomic_compare_exchange_weak_explicit(&head, &seen, counted(seen, next), memory_order_acquire,
                                                  memory_order_acquire));
  return nodes[seen & 0xffff].number;
}

__attribute__((export_name("first"))) int first(void) {
  push(1, 11);
  return pop();
}

__attribute__((export_name("second"))) int second(void) {
  push(2, 22);
  return pop();
}
