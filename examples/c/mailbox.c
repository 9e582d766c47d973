// A mailbox for one message that is too large to be copied inline: the compiler calls memset and memcpy of mem.c.
#include <stdatomic.h>

struct message {
  int numbers[20];
};

static struct message draft, box, taken;
static _Atomic int is_full;

__attribute__((export_name("put"))) void put(int number) {
  draft = (struct message){{0}};
  draft.numbers[1] = number;
  draft.numbers[19] = number + 1;
  box = draft;
  atomic_store_explicit(&is_full, 1, memory_order_release);
}

// The first and the last number of the message, or -1 if there is none yet.
__attribute__((export_name("get"))) int get(int tries) {
  while (!atomic_load_explicit(&is_full, memory_order_acquire)) {
    if (--tries <= 0) return -1;
  }
  taken = box;
  return taken.numbers[1] * 100 + taken.numbers[19];
}
