// Vyukov's queue of many producers and one consumer: a producer exchanges the head and then links its node. The consumer's
// result has what it took in three tries as digits, 0 for none: 1 and 2 are from one producer, and come in this order.
#include <stdatomic.h>
#include <stddef.h>

struct node {
  _Atomic(struct node *) next;
  int number;
};

static struct node nodes[4];
static _Atomic(struct node *) head = &nodes[0];
static struct node *tail = &nodes[0];

static void put(struct node *node, int number) {
  node->number = number;
  atomic_store_explicit(&node->next, NULL, memory_order_relaxed);
  struct node *before = atomic_exchange_explicit(&head, node, memory_order_acq_rel);
  atomic_store_explicit(&before->next, node, memory_order_release);
}

static int take(void) {
  struct node *next = atomic_load_explicit(&tail->next, memory_order_acquire);
  if (!next) return 0;
  tail = next;
  return next->number;
}

__attribute__((export_name("producer"))) void producer(void) {
  put(&nodes[1], 1);
  put(&nodes[2], 2);
}

__attribute__((export_name("other_producer"))) void other_producer(void) { put(&nodes[3], 3); }

__attribute__((export_name("consumer"))) int consumer(void) {
  int taken = 0;
  for (int tries = 3; tries > 0; tries--) taken = taken * 10 + take();
  return taken;
}
