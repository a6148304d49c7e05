/* The product of two facts: `./cra prove examples/product.c` asks once more with what they say of a*b. */
int main(void) {
  int a = __VERIFIER_nondet_int();
  int b = __VERIFIER_nondet_int();
  assume(a >= 3);
  assume(b >= 0);
  assert(a * b >= 3 * b);
  assert(a * b >= 1);
}
