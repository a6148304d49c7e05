/* A lift between ten floors with a door: two procedures over three globals, called in a loop. */
int floor = 0; int open = 0; int moves = 0;
void step(int up) {
  if (open == 0) {
    if (up == 1) { if (floor < 9) { floor = floor + 1; moves = moves + 1; } }
    else { if (floor > 0) { floor = floor - 1; moves = moves + 1; } }
  }
}
void door(int want) { if (want == 1) open = 1; else open = 0; }
int main(void) {
  int t = 0;
  while (t < 1000) {
    int up = __VERIFIER_nondet_int();
    int want = __VERIFIER_nondet_int();
    step(up);
    door(want);
    assert(floor >= 0);
    assert(floor <= 9);
    t = t + 1;
  }
  assert(moves <= 1000);
}
