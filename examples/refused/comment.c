// refused comment at 3:14
int main(void) {
  int x = 1; /* no end
}
