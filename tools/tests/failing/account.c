// A withdrawal is checked against the balance before the fee.
int balance = 100;

void take(int amount) {
  assume(amount >= 0);
  if (amount <= balance) {
    balance = balance - amount;
    balance = balance - 1;
  }
}

int main(void) {
  int first = __VERIFIER_nondet_int();
  int second = __VERIFIER_nondet_int();
  take(first);
  take(second);
  assert(balance >= 0);
}
