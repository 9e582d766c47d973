// Jobs of several kinds, as functions in a table, that workers take by a shared counter. Each job runs once. A worker's result
// is the sum of what its jobs gave; both together give 1 + 4 + 9 + 32 = 46.
#include <stdatomic.h>

struct job {
  int (*run)(int);
  int argument;
};

static int square(int number) { return number * number; }
static int power(int number) { return 1 << number; }
static int same(int number) { return number; }

static const struct job jobs[] = {{same, 1}, {square, 2}, {square, 3}, {power, 5}};
static _Atomic unsigned next_job;
static int results[4];

static int work(void) {
  int sum = 0;
  for (;;) {
    unsigned mine = atomic_fetch_add_explicit(&next_job, 1, memory_order_relaxed);
    if (mine >= sizeof jobs / sizeof jobs[0]) return sum;
    results[mine] = jobs[mine].run(jobs[mine].argument);
    sum += results[mine];
  }
}

__attribute__((export_name("first"))) int first(void) { return work(); }
__attribute__((export_name("second"))) int second(void) { return work(); }
