// Some squares are greater than twice their number and some are not.
int main(void) {
  int x = __VERIFIER_nondet_int();
  assume(x >= 0);
  assert(x * x <= 2 * x + 3);
}
