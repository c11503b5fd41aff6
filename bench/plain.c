/* What one product and one evaluation of a large circuit cost in plain C: the same gates on the same shares and coins as the
 * program in bench/program, which keep each operation in its place.
 *
 * It prints a line for each: `product SHARES NANOS CHECKSUM` or `evaluation SHARES NANOS CHECKSUM`. The checksum is of the shares
 * that come out, so that the two programs can be compared. */
#include <stdio.h>
#include <time.h>
#include "plain-words.h"

/* The same numbers stand in program/src/costs.rt.in. */
enum { PRODUCTS = 1000, ROUNDS = 8000, SAMPLES = 200, LANES = 64 };
static const word LEFT = 0x0123456789abcdef, RIGHT = 0xfedcba9876543210;

/* A tape that looks random, by Knuth's multiplier. */
static word tape_byte(size_t place) { return place * 2654435761 >> 16 & 0xff; }

/* Coin k has in lane l bit l * count + k of the tape, the lowest bit of a byte first. */
static word *draw(size_t count) {
  word *coins = room(count * sizeof *coins);
  for (size_t k = 0; k < count; k++) {
    coins[k] = 0;
    for (size_t l = 0; l < LANES; l++) {
      size_t bit = l * count + k;
      coins[k] |= (tape_byte(bit / 8) >> bit % 8 & 1) << l;
    }
  }
  return coins;
}

static word nanos_between(struct timespec from, struct timespec to) {
  return (word)(to.tv_sec - from.tv_sec) * 1000000000 + (word)to.tv_nsec - (word)from.tv_nsec;
}

static word checksum(const word *shares, int count) {
  word sum = 0;
  for (int i = 0; i < count; i++) sum = sum * 31 ^ shares[i];
  return sum;
}

static struct circuit rounds(void) {
  struct gate *gates = room(3 * ROUNDS * sizeof *gates);
  uint32_t latest_sum = 0, latest_product = 1, next = 2;
  for (int round = 0; round < ROUNDS; round++, next += 3) {
    gates[3 * round] = (struct gate){XOR, latest_sum, latest_product};
    gates[3 * round + 1] = (struct gate){REF, next, 0};
    gates[3 * round + 2] = (struct gate){AND, latest_sum, next + 1};
    latest_sum = next, latest_product = next + 2;
  }
  return (struct circuit){.inputs = 2, .count = 3 * ROUNDS, .gates = gates};
}

#define EACH "plain-times.h"
#include "plain-each.h"

int main(void) {
  time_products_2(), time_evaluations_2();
  time_products_4(), time_evaluations_4();
  time_products_8(), time_evaluations_8();
  return 0;
}
