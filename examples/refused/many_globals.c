// refused many globals at 2:53
int a, b, c, d, e, f, g, h, i, j, k, l, m, n, o, p, q;

int main(void) {
}
