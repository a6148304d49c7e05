// The recursion goes past zero where it begins with an odd number.
int down(int n) {
  if (n <= 0) return n;
  return down(n - 2);
}

int main(void) {
  int n = __VERIFIER_nondet_int();
  assume(n >= 0);
  assume(n < 1000);
  int r = down(n);
  assert(r == 0);
}
