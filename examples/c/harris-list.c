// Harris's sorted list: a node is marked, by bit 0 of its link, before it is unlinked. One thread inserts 5 between 2 and 8, one
// removes 2; their results are 1. The third thread's has the numbers that it sees as digits: 28, 258, 58 or 8.
// lower: --stacks each
#include <stdatomic.h>
#include <stdint.h>

struct node {
  int number;
  _Atomic uintptr_t next;
};

static struct node end = {99, 0};
static struct node eight = {8, (uintptr_t)&end}, two = {2, (uintptr_t)&eight}, begin = {0, (uintptr_t)&two};
static struct node five = {5, 0};

static struct node *node_of(uintptr_t link) { return (struct node *)(link & ~(uintptr_t)1); }

/* The first node of at least this number, and the node before it. Marked nodes are unlinked on the way. */
__attribute__((noinline)) static struct node *find(int number, struct node **before) {
  for (;;) {
    *before = &begin;
    struct node *node = node_of(begin.next);
    for (;;) {
      uintptr_t next = node->next;
      if (next & 1) {
        uintptr_t expected = (uintptr_t)node;
        if (!atomic_compare_exchange_strong(&(*before)->next, &expected, next & ~(uintptr_t)1)) break;
      } else {
        if (node->number >= number) return node;
        *before = node;
      }
      node = node_of(next);
    }
  }
}

__attribute__((export_name("insert"))) int insert(void) {
  for (;;) {
    struct node *before, *after = find(5, &before);
    five.next = (uintptr_t)after;
    uintptr_t expected = (uintptr_t)after;
    if (atomic_compare_exchange_strong(&before->next, &expected, (uintptr_t)&five)) return 1;
  }
}

__attribute__((export_name("remove"))) int remove(void) {
  for (;;) {
    struct node *before, *node = find(2, &before);
    uintptr_t next = node->next;
    if (node->number == 2 && !(next & 1) && atomic_compare_exchange_strong(&node->next, &next, next | 1)) return 1;
  }
}

__attribute__((export_name("look"))) int look(void) {
  int seen = 0;
  for (struct node *node = node_of(begin.next); node != &end; node = node_of(node->next)) {
    if (!(node->next & 1)) seen = seen * 10 + node->number;
  }
  return seen;
}
