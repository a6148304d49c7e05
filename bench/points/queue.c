/* A queue of at most ten places whose length stays within its size, whatever comes and goes; what is known
   at the head of the loop is a row that holds there in every run. */
int main(void) {
  int size = __VERIFIER_nondet_int();
  int length = 0;
  int lost = 0;
  assume(size >= 1);
  assume(size <= 10);
  while (__VERIFIER_nondet_int()) {
    if (__VERIFIER_nondet_int()) {
      if (length < size) length = length + 1;
      else lost = lost + 1;
    } else {
      if (length > 0) length = length - 1;
    }
  }
  assert(length <= size);
  assert(length >= 0);
}
