// A histogram: how often two dice show each sum in 100 throws. A small generator makes the throws up.
#include <stdio.h>
#define THROWS 100
#define SIDES 6

long state = 1;
int counts[13];

// One die: 1 to 6.
int die() {
  state = (state * 1103515245 + 12345) % 2147483648;
  return state / 65536 % SIDES + 1;
}

// So many stars.
void bar(int length) {
  while (length > 0) {
    printf("*");
    length--;
  }
}

real_main() {
  int i;
  for (i = 0; i < THROWS; i++) counts[die() + die()]++;
  for (i = 2; i <= 2 * SIDES; i++) {
    if (i < 10) printf(" ");
    printf("%d ", i);
    bar(counts[i]);
    printf(" %d\n", counts[i]);
  }
}
