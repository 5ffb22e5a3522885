// Collatz lengths. An even number is halved, and of an odd one three times the number and one more is taken: how many
// steps lead from a number to 1, and from which number below a limit are they most?
#include <stdio.h>
#define LIMIT 1000

int length_from(long n) {
  int steps = 0;
  while (n != 1) {
    if (n % 2 == 0) n = n / 2;
    else n = 3 * n + 1;
    steps++;
  }
  return steps;
}

real_main() {
  int i, length, best = 1, most = 0;
  for (i = 1; i < LIMIT; i++) {
    length = length_from(i);
    if (i <= 10) printf("%d: %d\n", i, length);
    if (length > most) {
      best = i;
      most = length;
    }
  }
  printf("below %d the longest way is from %d: %d steps\n", LIMIT, best, most);
}
