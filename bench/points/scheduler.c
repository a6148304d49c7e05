/* Three tasks of one processor: a task is started, stopped, or hands over, and one runs at most. */
int running = 0;
int ready = 3;
int done = 0;
void start(void) {
  assume(running == 0);
  assume(ready > 0);
  ready = ready - 1;
  running = 1;
}
void stop(void) {
  assume(running == 1);
  running = 0;
  ready = ready + 1;
}
void finish(void) {
  assume(running == 1);
  running = 0;
  done = done + 1;
}
int main(void) {
  int clock = 0;
  while (clock < 1000) {
    int what = __VERIFIER_nondet_int();
    if (what == 0) start();
    if (what == 1) stop();
    if (what == 2) finish();
    assert(running <= 1);
    assert(ready >= 0);
    assert(done + ready + running == 3);
    clock = clock + 1;
  }
}
