// refused place at 7:15
int f(int x) {
  return x;
}

int main(void) {
  return 1 && f(2);
}
