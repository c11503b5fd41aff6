/* Words of which each bit is a lane, operations on them that stay in their place, and circuits. */
#include <stdint.h>
#include <stdlib.h>

typedef uint64_t word;
enum kind { XOR, NOT, REF, AND, ZERO, ONE };
struct gate { enum kind kind; uint32_t left, right; };
/* `random` says how many of the gates draw coins. */
struct circuit { int inputs, count, random, outputs; struct gate *gates; uint32_t *output; };

/* No compiler may move an operation, or merge it with another, across this. */
#define KEEP(x) __asm__ volatile("" : "+r"(x))

static inline word sum(word a, word b) { word c = a ^ b; KEEP(c); return c; }
static inline word product(word a, word b) { word c = a & b; KEEP(c); return c; }
static inline word flipped(word a) { word c = ~a; KEEP(c); return c; }
static inline word same(word a) { KEEP(a); return a; }
static inline word fresh(const word **coins) { word c = *(*coins)++; KEEP(c); return c; }

static inline void *room(size_t bytes) {
  void *at = malloc(bytes ? bytes : 1);
  if (!at) exit(2);
  return at;
}
