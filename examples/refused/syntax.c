// refused syntax at 4:1
int main(void) {
  int x = 1
}
