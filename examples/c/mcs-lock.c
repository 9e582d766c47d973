// The lock of Mellor-Crummey and Scott: each thread spins on a node of its own, and is woken by the one before it in the
// queue. Each thread's result is the count that it saw: 1 to 3, each once.
#include <stdatomic.h>
#include <stddef.h>

struct node {
  _Atomic(struct node *) next;
  _Atomic int must_wait;
};

static struct node nodes[3];
static _Atomic(struct node *) tail;
static int count;

static void lock(struct node *mine) {
  atomic_store_explicit(&mine->next, NULL, memory_order_relaxed);
  atomic_store_explicit(&mine->must_wait, 1, memory_order_relaxed);
  struct node *before = atomic_exchange_explicit(&tail, mine, memory_order_acq_rel);
  if (!before) return;
  atomic_store_explicit(&before->next, mine, memory_order_release);
  while (atomic_load_explicit(&mine->must_wait, memory_order_acquire)) {
  }
}

static void unlock(struct node *mine) {
  struct node *next = atomic_load_explicit(&mine->next, memory_order_acquire);
  if (!next) {
    struct node *expected = mine;
    if (atomic_compare_exchange_strong_explicit(&tail, &expected, NULL, memory_order_release, memory_order_relaxed)) return;
    while (!(next = atomic_load_explicit(&mine->next, memory_order_acquire))) {
    }
  }
  atomic_store_explicit(&next->must_wait, 0, memory_order_release);
}

static int enter(int me) {
  lock(&nodes[me]);
  int seen = ++count;
  unlock(&nodes[me]);
  return seen;
}

__attribute__((export_name("first"))) int first(void) { return enter(0); }
__attribute__((export_name("second"))) int second(void) { return enter(1); }
__attribute__((export_name("third"))) int third(void) { return enter(2); }
