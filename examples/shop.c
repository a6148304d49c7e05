int stock = 10;

void sell(int amount) {
  assume(amount >= 0);
  if (amount <= stock) {
    stock = stock - amount;
  }
}

void order(int amount) {
  stock = stock + amount;
}

int main(void) {
  int days = __VERIFIER_nondet_int();
  sell(days);
  assert(stock >= 0);
  int shelf = 0;
  while (days > 0) {
    if (shelf < 10) {
      shelf = shelf + 3;
    } else {
      shelf = shelf - 10;
    }
    days = days - 1;
  }
  assert(shelf <= 12);
  order(__VERIFIER_nondet_int());
  assert(stock >= 0);
}
