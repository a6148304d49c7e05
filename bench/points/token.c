/* A ring of three stations and one token: who holds it is told by three flags, of which one is set. */
int main(void) {
  int a = 1;
  int b = 0;
  int c = 0;
  int rounds = 0;
  while (__VERIFIER_nondet_int()) {
    if (a == 1) {
      a = 0;
      b = 1;
    } else {
      if (b == 1) {
        b = 0;
        c = 1;
      } else {
        c = 0;
        a = 1;
        rounds = rounds + 1;
      }
    }
  }
  assert(a + b + c == 1);
  assert(rounds >= 0);
}
