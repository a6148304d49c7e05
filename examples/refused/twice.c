// refused twice at 4:7
int main(void) {
  int x = 1;
  int x = 2;
}
