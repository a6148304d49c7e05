// left.c:15: `unsigned`: the numbers have no width
// left.c:15: `1u`: a number has no suffix
// left.c:16: pointers are not in the language
// left.c:17: `true` is no name here: write 1
// left.c:18: arrays are not in the language
// left.c:19: casts are not in the language
// left.c:20: there is no output
// left.c:21: `switch` is not in the language
// left.c:24: `static` is not in the language
// not prepared
#include <stdbool.h>
#include <stdio.h>

int main(void) {
  unsigned int a = 1u;
  int *p = &a;
  int yes = true;
  int x[10];
  x[0] = (int) a;
  printf("%d\n", a);
  switch (yes) {
  case 1: yes = 2;
  case 2: yes = 3; }
  static int count = 0;
  return a << 2 | 1;
}
