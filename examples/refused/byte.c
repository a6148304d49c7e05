// refused byte at 3:13
int main(void) {
  int x = 1 @ 2;
}
