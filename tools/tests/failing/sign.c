// A remainder of C has the sign of the dividend.
int main(void) {
  int x = __VERIFIER_nondet_int();
  int r = x % 3;
  assert(r >= 0);
}
