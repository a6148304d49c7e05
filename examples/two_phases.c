/* A tank fills for twenty minutes and then drains. What bounds all turns of the loop at once says too
   little; `./cra prove examples/two_phases.c` repeats the turns of each phase by themselves. */
int main(void) {
  int minute = 0;
  int level = 0;
  while (minute < 60) {
    if (minute < 20) level = level + 3;
    else level = level - 1;
    minute = minute + 1;
  }
  assert(level == 20);
}
