// refused many cases at 3:10
int main(void) {
  return (1 < 2) + (1 < 2) + (1 < 2) + (1 < 2) + (1 < 2) + (1 < 2) + (1 < 2) + (1 < 2) + (1 < 2);
}
