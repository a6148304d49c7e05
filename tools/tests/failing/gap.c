// The guess that two loops turn equally often is wrong for one value.
int main(void) {
  int n = __VERIFIER_nondet_int();
  assume(n > 0);
  assume(n < 50);
  int up = 0;
  int down = n;
  while (down > 0) {
    down = down - 3;
    up = up + 1;
  }
  assert(up < 16);
}
