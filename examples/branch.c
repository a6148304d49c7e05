int main(void) {
  int x = __VERIFIER_nondet_int();
  int size = x;
  if (x < 0) {
    size = -x;
  }
  assert(size >= 0);
  assert(size >= x);
}
