// A master hands out numbers, and workers give back their squares.
#include <stdio.h>
#define TASKS 3

void worker(int name) {
  int n;
  in("task", ?n);
  out("done", (n * n));
}

real_main() {
  int i, n;
  long sum = 0;
  for (i = 0; i < TASKS; i++) { eval("worker", worker(i)); out("task", i + 1); }
  i = 0;
  while (i < TASKS) {
    in("done", ?n);
    sum += n;
    ++i;
  }
  if (sum != (1 + 4 + 9)) printf("wrong: ");
  else if (rdp("task", ?n)) printf("left\t");
  printf("%d\n", sum);
}
