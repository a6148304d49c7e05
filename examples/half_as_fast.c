/* y grows at most half as fast as x, which no column or difference of columns says;
   `./cra facets examples/half_as_fast.c` bounds the loop along the facets of its changes. */
int main(void) {
  int n = __VERIFIER_nondet_int();
  int i = 0;
  int x = 0;
  int y = 0;
  while (i < n) {
    int c = __VERIFIER_nondet_int();
    if (c > 0) {
      x = x + 2;
      y = y + 1;
    } else {
      if (c < 0) x = x + 1;
    }
    i = i + 1;
  }
  int z = 2 * y - x;
  assert(z <= 0);
}
