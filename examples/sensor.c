/* Samples a sensor 100 times, keeps the last eight levels and their mean, and counts the high means. */
/*@ ensures 0 <= \result <= 4095; */
int read_adc(void);

int window[8];
unsigned alarms;

/*@ requires 0 <= raw <= 4095;
    ensures 0 <= \result <= 1000; */
int scaled(int raw) {
  return raw * 1000 / 4095;
}

int mean(void) {
  int sum = 0;
  /*@ loop invariant index: 0 <= i <= 8;
      loop invariant bounded: 0 <= sum <= 1000 * i;
      loop assigns i, sum; */
  for (int i = 0; i < 8; i++)
    sum += window[i];
  return sum / 8;
}

int main(void) {
  unsigned char next = 0;
  int ticks = 100;
  while (ticks > 0) {
    int raw = read_adc();
    window[next & 7] = scaled(raw);
    next++;
    int level = mean();
    //@ assert in_range: 0 <= level <= 1000;
    if (level > 900) alarms++;
    ticks--;
  }
  //@ check quiet: alarms == 0;
  return 0;
}
