int count = 0;

int next(void) {
  count = count + 1;
  return count;
}

int difference(int a, int b) {
  return a - b;
}

int main(void) {
  int d = difference(next(), next());
  assert(d == -1);
}
