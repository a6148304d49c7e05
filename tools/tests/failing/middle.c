// A middle that is rounded towards zero is no lower bound.
int main(void) {
  int low = __VERIFIER_nondet_int();
  int high = __VERIFIER_nondet_int();
  assume(low < high);
  int middle = (low + high) / 2;
  assert(middle < high);
  assert(low <= middle);
}
