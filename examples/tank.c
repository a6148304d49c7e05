int main(void) {
  int turns = __VERIFIER_nondet_int();
  int level = 0;
  while (turns > 0) {
    if (level < 10) {
      level = level + 3;
    } else {
      level = level - 10;
    }
    turns = turns - 1;
  }
  assert(level <= 12);
}
