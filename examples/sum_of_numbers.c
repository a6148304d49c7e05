int main(void) {
  int n = __VERIFIER_nondet_int();
  int i = 0;
  int s = 0;
  assume(n >= 0);
  while (i < n) {
    s += i;
    i++;
  }
  assert(2 * s == n * n - n);
}
