// Thread-local variables: each thread has a number of its own, 100 at first, and adds the two places that it takes in a shared
// counter. The results add up to 206, since the places are 0 to 3; a thread that saw the number of the other would add more.
#include <stdatomic.h>

static _Thread_local int number = 100;
static _Thread_local int turns;
static _Atomic int shared;

static int add_twice(void) {
  while (turns < 2) {
    number += atomic_fetch_add(&shared, 1);
    turns++;
  }
  return number;
}

__attribute__((export_name("first"))) int first(void) { return add_twice(); }
__attribute__((export_name("second"))) int second(void) { return add_twice(); }
