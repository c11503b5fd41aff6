/* Trivium, LightMAC over PRESENT and Chaskey-12 in plain C: the same circuits on the same shares and coins as `mask` evaluates, in one
 * lane, which keep each operation in its place.
 *
 *   plain-run NAME ORDER WORD KEYS TAPE CIRCUIT.. < message > output
 *
 * These are the names, their words, and their circuits, which are files that `emit` wrote:
 *   trivium      the IV               trivium-start, trivium-step
 *   lightmac-80  a counter's bytes    refresh-80, lightmac-step-80, lightmac-end-80
 *   chaskey-12   any                  chaskey-start, chaskey-step, chaskey-end-whole
 * ORDER is 1, 3 or 7, and KEYS and TAPE are files. The message has 16 bytes to a MiB, in whole pieces: of 8 bytes, of 8 less a
 * counter's, and of 16. A tag is written whole. Status 2 says that something is wrong. */
#include "plain-circuits.h"

/* The most bits of a key and of a state, and the most bytes of a message. */
enum { KEY = 160, STATE = 352, MESSAGE = 1048576 };

enum { TRIVIUM, LIGHTMAC, CHASKEY };

/* The bytes of a key, and of each number in it: these are big-endian. */
struct code { const char *name; int circuits, key, number; };
static const struct code codes[] = {{"trivium", 2, 10, 1}, {"lightmac-80", 3, 20, 10}, {"chaskey-12", 3, 16, 1}};

struct message { unsigned char bytes[MESSAGE]; int length; };
static struct message message;

/* A tape, of whose last byte, which stands in front, so many bits were drawn. */
struct tape { FILE *file; unsigned char *bytes; size_t drawn; };

/* The next coins, in lane 0: the bits of the tape, the lowest of a byte first. */
static void draw(struct tape *tape, size_t count, word *coins) {
  size_t end = tape->drawn + count, last = (end - 1) / 8;
  read_bytes(tape->file, tape->bytes + 1, last);
  for (size_t k = 0; k < count; k++) coins[k] = tape->bytes[(tape->drawn + k) / 8] >> (tape->drawn + k) % 8 & 1;
  tape->bytes[0] = tape->bytes[last];
  tape->drawn = end - 8 * last;
}

/* Bit j of these bytes, the lowest of a byte first. */
static word bit_of(const unsigned char *bytes, int j) { return bytes[j / 8] >> j % 8 & 1; }

/* A big-endian number has its lowest byte first then. */
static void reverse(unsigned char *bytes, int count) {
  for (int k = 0; k < count / 2; k++) {
    unsigned char byte = bytes[k];
    bytes[k] = bytes[count - 1 - k], bytes[count - 1 - k] = byte;
  }
}

static void read_hexadecimal(const char *digits, unsigned char *bytes, int count) {
  for (int k = 0; k < count; k++)
    if (sscanf(digits + 2 * k, "%2hhx", bytes + k) != 1) exit(2);
}

static void write_bytes(const unsigned char *bytes, size_t count) {
  if (fwrite(bytes, 1, count, stdout) != count) exit(2);
}

#define EACH "plain-runs.h"
#include "plain-each.h"

int main(int count, char **words) {
  struct circuit circuits[3];
  int code = TRIVIUM;
  if (count < 6) return 2;
  while (strcmp(words[1], codes[code].name)) if (code++ == CHASKEY) return 2;
  if (count != 6 + codes[code].circuits) return 2;
  for (int k = 0; k < codes[code].circuits; k++) circuits[k] = read_circuit(words[6 + k]);
  FILE *keys = open_file(words[4]), *tape = open_file(words[5]);
  message.length = fread(message.bytes, 1, MESSAGE, stdin);
  if (message.length < 16) return 2;
  switch (atoi(words[2])) {
  case 1: run_2(code, words[3], keys, tape, circuits); return 0;
  case 3: run_4(code, words[3], keys, tape, circuits); return 0;
  case 7: run_8(code, words[3], keys, tape, circuits); return 0;
  }
  return 2;
}
