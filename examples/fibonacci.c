/* A recursion by two calls: `./cra prove examples/fibonacci.c` tells it by its last round, which has a
   case for each way through the procedure. */
int f(int n) {
  if (n <= 1) return 1;
  int a = f(n - 1);
  int b = f(n - 2);
  return a + b;
}
int main(void) {
  int n = __VERIFIER_nondet_int();
  int r = f(n);
  assert(r >= n);
}
