/* What does a procedure cost? The global `steps` counts, and `./cra cost steps examples/cost.c` bounds
   by how much each procedure changes it. */
int steps;

void pairs(int n) {
  int i = 0;
  while (i < n) {
    int j = 0;
    assert(i >= 0);
    while (j < i) {
      steps = steps + 1;
      j = j + 1;
    }
    i = i + 1;
  }
}

void countdown(int n) {
  if (n <= 0) return;
  steps = steps + n;
  countdown(n - 1);
}

void some(int n) {
  while (n > 0) {
    if (__VERIFIER_nondet_int()) steps = steps + 1;
    n = n - 1;
  }
}

int main(void) {
  pairs(5);
  countdown(3);
}
