// refused main at 5:1
int f(int x) {
  return x;
}
