int main(void) {
  int x = __VERIFIER_nondet_int();
  int y = 10 / x;
  assert(x != 0);
  assume(x > 100);
  assume(x < 100);
  assert(y == 77);
}
