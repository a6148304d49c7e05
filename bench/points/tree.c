/* A walk of a binary tree: there is one tip more than there are inner nodes. */
int inner = 0;
int tips = 0;
void walk(int depth) {
  if (depth <= 0) {
    tips = tips + 1;
    return;
  }
  inner = inner + 1;
  walk(depth - 1);
  walk(depth - 2);
}
int main(void) {
  int depth = __VERIFIER_nondet_int();
  walk(depth);
  assert(tips == inner + 1);
}
