// The lock of Craig, Landin and Hagersten: each thread spins on the node of the one before it, and takes that node over.
// Each thread enters twice, and its result has the counts that it saw as digits: 1 to 4, each once.
#include <stdatomic.h>

struct node {
  _Atomic int is_held;
};

static struct node nodes[3];
static _Atomic(struct node *) tail = &nodes[2];
static int count;

static int enter(struct node **mine) {
  struct node *own = *mine;
  atomic_store_explicit(&own->is_held, 1, memory_order_relaxed);
  struct node *before = atomic_exchange_explicit(&tail, own, memory_order_acq_rel);
  while (atomic_load_explicit(&before->is_held, memory_order_acquire)) {
  }
  int seen = ++count;
  atomic_store_explicit(&own->is_held, 0, memory_order_release);
  *mine = before;
  return seen;
}

static int enter_twice(int me) {
  struct node *mine = &nodes[me];
  int seen = enter(&mine);
  return seen * 10 + enter(&mine);
}

__attribute__((export_name("first"))) int first(void) { return enter_twice(0); }
__attribute__((export_name("second"))) int second(void) { return enter_twice(1); }
