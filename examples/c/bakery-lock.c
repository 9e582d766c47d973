// Lamport's bakery lock: a thread draws a number larger than those that it sees, and lets smaller ones go first. Each
// thread's result is the count that it saw: 1 to 3, each once.
#include <stdatomic.h>

#define THREADS 3

static _Atomic int chooses[THREADS], number[THREADS];
static int count;

static void lock(int me) {
  chooses[me] = 1;
  int largest = 0;
  for (int k = 0; k < THREADS; k++) {
    int seen = number[k];
    if (seen > largest) largest = seen;
  }
  number[me] = largest + 1;
  chooses[me] = 0;
  for (int k = 0; k < THREADS; k++) {
    if (k == me) continue;
    while (chooses[k]) {
    }
    for (int other = number[k]; other && (other < largest + 1 || (other == largest + 1 && k < me)); other = number[k]) {
    }
  }
}

static int enter(int me) {
  lock(me);
  int seen = ++count;
  number[me] = 0;
  return seen;
}

__attribute__((export_name("first"))) int first(void) { return enter(0); }
__attribute__((export_name("second"))) int second(void) { return enter(1); }
__attribute__((export_name("third"))) int third(void) { return enter(2); }
