// The loop turns once too often.
int main(void) {
  int n = __VERIFIER_nondet_int();
  assume(n >= 0);
  assume(n <= 20);
  int i = 0;
  int s = 0;
  while (i <= n) {
    s = s + 1;
    i = i + 1;
  }
  assert(s == n);
}
