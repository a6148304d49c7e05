// Nothing orders the two values.
int main(void) {
  int a = __VERIFIER_nondet_int();
  int b = __VERIFIER_nondet_int();
  assert(a <= b);
}
