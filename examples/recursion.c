int sum(int n) {
  if (n <= 0) {
    return 0;
  }
  return n + sum(n - 1);
}

int main(void) {
  int n = __VERIFIER_nondet_int();
  assume(n >= 0);
  int s = sum(n);
  assert(2 * s == n * n + n);
}
