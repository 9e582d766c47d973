// The queue of Michael and Scott with counted pointers: 64 bits with the number of a node and a count, exchanged at once. Node
// 1 is the dummy at first. The producer puts 7 and 8 in; the consumer's result has what it took out of it in two tries as
// digits, 0 for none.
#include <stdatomic.h>
#include <stdint.h>

struct node {
  int number;
  _Atomic uint64_t next;
};

static struct node nodes[4];
static _Atomic uint64_t head = 1, tail = 1;

static uint64_t counted(uint64_t seen, uint32_t node) { return ((seen >> 32) + 1) << 32 | node; }
static struct node *node_of(uint64_t pointer) { return &nodes[(uint32_t)pointer]; }

static void put(uint32_t node, int number) {
  nodes[node].number = number;
  for (;;) {
    uint64_t last = tail, next = node_of(last)->next;
    if (last != tail) continue;
    if ((uint32_t)next) {
      atomic_compare_exchange_strong(&tail, &last, counted(last, (uint32_t)next));
    } else if (atomic_compare_exchange_strong(&node_of(last)->next, &next, counted(next, node))) {
      atomic_compare_exchange_strong(&tail, &last, counted(last, node));
      return;
    }
  }
}

static int take(void) {
  for (;;) {
    uint64_t first = head, last = tail, next = node_of(first)->next;
    if (first != head) continue;
    if ((uint32_t)first == (uint32_t)last) {
      if (!(uint32_t)next) return 0;
      atomic_compare_exchange_strong(&tail, &last, counted(last, (uint32_t)next));
      continue;
    }
    int number = node_of(next)->number;
    if (atomic_compare_exchange_strong(&head, &first, counted(first, (uint32_t)next))) return number;
  }
}

__attribute__((export_name("producer"))) void producer(void) {
  put(2, 7);
  put(3, 8);
}

__attribute__((export_name("consumer"))) int consumer(void) {
  int first = take();
  return first * 10 + take();
}
