int balance = 100;

void pay(int amount) {
  if (amount >= 0 && amount <= balance) {
    balance = balance - amount;
  }
}

int main(void) {
  pay(30);
  pay(__VERIFIER_nondet_int());
  assert(balance >= 0);
  assert(balance <= 70);
}
