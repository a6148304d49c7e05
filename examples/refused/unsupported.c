// refused unsupported at 3:8
int main(void) {
  int a[2];
}
