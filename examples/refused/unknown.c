// refused unknown at 3:3
int main(void) {
  x = 1;
}
