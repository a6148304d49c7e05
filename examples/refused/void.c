// refused void at 6:10
void f(void) {
}

int main(void) {
  return f();
}
