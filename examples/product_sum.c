/* Each turn adds the product of a column that stays and one that counts. `./cra prove examples/product_sum.c` takes that product
   for a term of the loop, and knows the sum by its closed form. */
int main(void) {
  int w = __VERIFIER_nondet_int();
  int n = __VERIFIER_nondet_int();
  int i = 0;
  int a = 0;
  assume(n >= 1);
  while (i < n) {
    a = a + w * i;
    i = i + 1;
  }
  assert(2 * a == w * n * n - w * n);
}
