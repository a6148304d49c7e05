// One value alone fails.
int main(void) {
  int x = __VERIFIER_nondet_int();
  if (x == 4711) {
    x = x - 1;
  }
  assert(x != 4710);
}
