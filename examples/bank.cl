// A bank whose accounts are tuples. Who changes an account takes it out and puts it back changed, so that nobody
// else has it in between.
#include <stdio.h>

void open_account(int number, long balance) {
  out("account", number, balance);
}

void deposit(int number, long amount) {
  long balance;
  in("account", number, ?balance);
  out("account", number, balance + amount);
}

// Draws so much, if the account has it: 1, or else 0.
int withdraw(int number, long amount) {
  long balance;
  in("account", number, ?balance);
  if (balance < amount) {
    out("account", number, balance);
    return 0;
  }
  out("account", number, balance - amount);
  return 1;
}

void transfer(int from, int to, long amount) {
  if (withdraw(from, amount)) deposit(to, amount);
  else printf("account %d has less than %ld\n", from, amount);
}

void show(int number) {
  long balance;
  if (rdp("account", number, ?balance)) printf("account %d: %ld\n", number, balance);
  else printf("account %d: none\n", number);
}

real_main() {
  int number;
  long balance, total = 0;
  open_account(1, 100);
  open_account(2, 50);
  transfer(1, 2, 30);
  transfer(2, 1, 500);
  show(1);
  show(2);
  show(3);
  while (inp("account", ?number, ?balance)) total += balance;
  printf("all accounts: %ld\n", total);
}
