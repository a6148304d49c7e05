int main(void) {
  int x = __VERIFIER_nondet_int();
  int y = x + 2;
  assert(x <= y - 1);
}
