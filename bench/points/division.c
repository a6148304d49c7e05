/* A division by repeated subtraction. That a = b*q + r holds at the head of the loop is no sum of changes;
   `./cra prove examples/division.c` tries it there, since the assertion says it. */
int main(void) {
  int a = __VERIFIER_nondet_int();
  int b = __VERIFIER_nondet_int();
  int q = 0;
  int r = a;
  assume(b >= 1);
  while (r >= b) {
    int t = __VERIFIER_nondet_int();
    assume(t >= 1);
    r = r - t * b;
    q = q + t;
  }
  assert(a == b * q + r);
}
