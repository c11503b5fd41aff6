/* What the gadgets and an evaluation cost on N shares. */
#include "plain-gadgets.h"

static void AT(time_products)(void) {
  word *coins = draw(PRODUCTS * AT(PAIRS)), least = ~(word)0, x[N];
  const word y[N] = {RIGHT};
  for (int sample = 0; sample < SAMPLES; sample++) {
    struct timespec from, to;
    const word *next = coins;
    x[0] = LEFT;
    for (int i = 1; i < N; i++) x[i] = 0;
    clock_gettime(CLOCK_MONOTONIC, &from);
    for (int k = 0; k < PRODUCTS; k++) AT(and_gadget)(x, y, &next, x);
    clock_gettime(CLOCK_MONOTONIC, &to);
    word nanos = nanos_between(from, to);
    if (nanos < least) least = nanos;
  }
  printf("product %d %.2f %016llx\n", N, (double)least / PRODUCTS, (unsigned long long)checksum(x, N));
  free(coins);
}

static void AT(time_evaluations)(void) {
  struct circuit chain = rounds();
  word *coins = draw(2 * ROUNDS * AT(PAIRS)), least = ~(word)0;
  word(*values)[N] = room((2 + 3 * ROUNDS) * sizeof *values);
  for (int i = 0; i < N; i++) values[0][i] = i ? 0 : LEFT, values[1][i] = i ? 0 : RIGHT;
  for (int sample = 0; sample < SAMPLES; sample++) {
    struct timespec from, to;
    clock_gettime(CLOCK_MONOTONIC, &from);
    AT(evaluate)(&chain, coins, values);
    clock_gettime(CLOCK_MONOTONIC, &to);
    word nanos = nanos_between(from, to);
    if (nanos < least) least = nanos;
  }
  printf("evaluation %d %.2f %016llx\n", N, (double)least, (unsigned long long)checksum(values[1 + 3 * ROUNDS], N));
  free(chain.gates), free(coins), free(values);
}
#undef AT
#undef NAMED
#undef JOIN
