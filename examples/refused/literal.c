// refused literal at 3:11
int main(void) {
  int x = 017;
}
