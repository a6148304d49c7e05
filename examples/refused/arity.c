// refused arity at 7:10
int f(int x) {
  return x;
}

int main(void) {
  return f(1, 2);
}
