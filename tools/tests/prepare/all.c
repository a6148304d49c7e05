// #define and conditional lines are expanded
// the names of an enum became numbers: RED = 0, GREEN = 5, BLUE = 6
// `static` is left out
// `const` is left out
// `switch` became ifs
// `?:` became an if
#include <assert.h>
#define N 10
#ifdef BIG
#define STEP 5
#else
#define STEP 1
#endif

enum color { RED, GREEN = 5, BLUE };
static const int limit = N;

static int pick(int c) {
  int r = c > 3
      ? c
      : -c;
  switch (c) {
  case RED:
    r = 1;
    break;
  case GREEN:
  case BLUE: {
    r = r + 2;
    break;
  }
  default:
    return 7;
  }
  return (r > 0 ? r : r < -5 ? 2 : 3);
}

int main(void) {
  const int n = __VERIFIER_nondet_int();
  int i, s = 0;
  for (i = 0; i < N; i += STEP)
    s = n > i ? s + 1 : s;
  assert(s <= limit);
  assert(pick(BLUE) >= 0);
}
