// refused many parameters at 2:67
int f(int a, int b, int c, int d, int e, int f, int g, int h, int i) {
  return a;
}

int main(void) {
}
