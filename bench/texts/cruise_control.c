/* A cruise control: speed in tenths of km/h, throttle and brake in percent,
   one call of `tick` for each tenth of a second. */

extern int __VERIFIER_nondet_int(void);
extern void assume(int);
extern void assert(int);

int mode;          /* 0 off, 1 standby, 2 holding, 3 resuming */
int speed;         /* measured speed */
int target;        /* speed to hold */
int throttle;      /* what goes to the engine */
int brake;         /* what the driver does with the pedal */
int integral;      /* sum of past deviations */
int faults;        /* readings in a row that make no sense */
int ticks;         /* time since the start */

int clamp(int value, int low, int high) {
  if (value < low) return low;
  if (value > high) return high;
  return value;
}

/* A reading of the sensor is taken where it makes sense. */
void measure(int reading) {
  int change = reading - speed;
  if (reading < 0 || reading > 2500 || change > 60 || change < -60) {
    faults++;
  } else {
    faults = 0;
    speed = reading;
  }
}

/* Whether a speed can be held. */
int holdable(int v) {
  if (v < 400) return 0;
  if (v > 1800) return 0;
  return 1;
}

void switch_off(void) {
  mode = 0;
  throttle = 0;
  integral = 0;
}

void stand_by(void) {
  if (mode != 0) mode = 1;
  throttle = 0;
  integral = 0;
}

/* The buttons: 1 on or off, 2 set, 3 resume, 4 faster, 5 slower. */
void button(int pressed) {
  int possible = holdable(speed);
  if (pressed == 1) {
    if (mode == 0) mode = 1;
    else switch_off();
  } else if (pressed == 2 && mode != 0 && possible == 1) {
    target = speed;
    mode = 2;
  } else if (pressed == 3 && mode == 1 && target >= 400) {
    mode = 3;
  } else if (pressed == 4 && mode == 2) {
    target = clamp(target + 10, 400, 1800);
  } else if (pressed == 5 && mode == 2) {
    target = clamp(target - 10, 400, 1800);
  }
}

/* Proportional and integral part, in percent. */
int control(int wanted) {
  int deviation = wanted - speed;
  int part = 0;
  integral = clamp(integral + deviation, -2000, 2000);
  part = deviation / 4 + integral / 50;
  part = clamp(part, 0, 100);
  assert(part >= 0 && part <= 100);
  return part;
}

/* The throttle moves by at most 5 for each tick. */
void move_throttle(int wanted) {
  int steps = 0;
  while (throttle < wanted && steps < 5) {
    throttle++;
    steps++;
  }
  while (throttle > wanted && steps < 5) {
    throttle--;
    steps++;
  }
  assert(steps <= 5);
}

/* While resuming the wanted speed comes near the target in small steps. */
int approach(void) {
  if (speed + 30 < target) return speed + 30;
  mode = 2;
  return target;
}

void watch(void) {
  if (brake > 0 && mode > 1) stand_by();
  if (faults >= 3) switch_off();
  if (mode == 2 && speed < 300) stand_by();
}

void tick(int reading, int pedal, int pressed) {
  int wanted = 0;
  ticks++;
  measure(reading);
  brake = clamp(pedal, 0, 100);
  button(pressed);
  watch();
  if (mode == 3) wanted = approach();
  else wanted = target;
  if (mode >= 2) {
    int percent = control(wanted);
    move_throttle(percent);
  }
}

int main(void) {
  int duration = __VERIFIER_nondet_int();
  assume(duration >= 0);
  while (ticks < duration) {
    int reading = __VERIFIER_nondet_int();
    int pedal = __VERIFIER_nondet_int();
    int pressed = __VERIFIER_nondet_int();
    tick(reading, pedal, pressed);
    assert(brake >= 0 && brake <= 100);
  }
  assert(ticks >= 0);
  assert(speed >= 0);
  assert(throttle <= 100);
  return 0;
}
