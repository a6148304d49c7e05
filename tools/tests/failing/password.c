// Two values have to fit together.
int main(void) {
  int a = __VERIFIER_nondet_int();
  int b = __VERIFIER_nondet_int();
  int open = 0;
  if (a == 1234) {
    if (b == a + 1) {
      open = 1;
    }
  }
  assert(open == 0);
}
