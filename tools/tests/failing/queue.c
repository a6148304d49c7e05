// Requests may come faster than they are answered.
int main(void) {
  int waiting = 0;
  int turn = 0;
  while (turn < 10) {
    int come = __VERIFIER_nondet_int();
    assume(come >= 0);
    assume(come <= 2);
    waiting = waiting + come;
    if (waiting > 0) waiting = waiting - 1;
    turn = turn + 1;
  }
  assert(waiting <= 4);
}
