// Hazard pointers: a reader announces the node that it reads, and the writer does not reuse a node that is announced. The
// reader's result is what it read: 10, 11 or 12, and never the 99 of a node that is reused. The writer's is how often it reused
// the node that it had replaced: 0 to 2.
#include <stdatomic.h>

struct node {
  int number;
};

static struct node nodes[3] = {{10}, {11}, {12}};
static _Atomic(struct node *) current = &nodes[0];
static _Atomic(struct node *) hazard;

__attribute__((export_name("reader"))) int reader(void) {
  struct node *seen;
  do {
    seen = atomic_load_explicit(&current, memory_order_relaxed);
    atomic_store_explicit(&hazard, seen, memory_order_relaxed);
    atomic_thread_fence(memory_order_seq_cst);
  } while (atomic_load_explicit(&current, memory_order_acquire) != seen);
  int number = seen->number;
  atomic_store_explicit(&hazard, 0, memory_order_release);
  return number;
}

static int replace(struct node *node) {
  struct node *retired = atomic_exchange_explicit(&current, node, memory_order_acq_rel);
  atomic_thread_fence(memory_order_seq_cst);
  if (atomic_load_explicit(&hazard, memory_order_acquire) == retired) return 0;
  retired->number = 99;
  return 1;
}

__attribute__((export_name("writer"))) int writer(void) {
  int reused = replace(&nodes[1]);
  return reused + replace(&nodes[2]);
}
