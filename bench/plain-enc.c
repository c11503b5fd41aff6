/* A block cipher in counter mode, in plain C: the same circuits on the same shares and coins as `mask` evaluates, which keep each
 * operation in its place.
 *
 *   plain-enc CIPHER ORDER IV KEYS TAPE CIRCUIT REFRESH < message > ciphertext
 *
 * CIPHER is present-80 or lea-128, ORDER is 1, 3 or 7, KEYS and TAPE are files, and CIRCUIT and REFRESH are what `emit` writes for the
 * cipher and for a refresh of its key. The message has whole batches of 64 blocks. Status 2 says that something is wrong. */
#include "plain-circuits.h"

/* The most bits of a key and of a block, and the most bytes of a batch. */
enum { KEY = 128, BLOCK = 128, LANES = 64, BATCH = 1024 };

typedef unsigned __int128 counter;

/* The bits of a key and of a block. Bytes are read from the first one on, or from the last one on, and of each the lowest bit first. */
struct cipher { const char *name; int key, block, first_byte_first; };
static const struct cipher ciphers[] = {{"present-80", 80, 64, 0}, {"lea-128", 128, 128, 1}};

static size_t batch(const struct cipher *cipher) { return LANES * cipher->block / 8; }

/* Which byte of so many bits this one is, in the order of reading. */
static int place(const struct cipher *cipher, int bits, int byte) { return cipher->first_byte_first ? byte : bits / 8 - 1 - byte; }

/* Bit j of row i becomes bit i of row j (Warren, Hacker's Delight, section 7-3). */
static void transpose(word rows[64]) {
  word mask = 0x00000000ffffffff;
  for (int half = 32; half; half >>= 1, mask ^= mask << half)
    for (int k = 0; k < 64; k = (k + half + 1) & ~half) {
      word swapped = (rows[k] >> half ^ rows[k + half]) & mask;
      rows[k] ^= swapped << half;
      rows[k + half] ^= swapped;
    }
}

/* Row j has bit j of 64 blocks. */
static void read_blocks(const struct cipher *cipher, const unsigned char *bytes, word *rows) {
  int count = cipher->block / 8;
  memset(rows, 0, cipher->block * sizeof *rows);
  for (int l = 0; l < LANES; l++)
    for (int byte = 0; byte < count; byte++) {
      int at = place(cipher, cipher->block, byte);
      rows[at / 8 * 64 + l] |= (word)bytes[count * l + byte] << at % 8 * 8;
    }
  for (int part = 0; part < cipher->block; part += 64) transpose(rows + part);
}

static void write_blocks(const struct cipher *cipher, word *rows, unsigned char *bytes) {
  int count = cipher->block / 8;
  for (int part = 0; part < cipher->block; part += 64) transpose(rows + part);
  for (int l = 0; l < LANES; l++)
    for (int byte = 0; byte < count; byte++) {
      int at = place(cipher, cipher->block, byte);
      bytes[count * l + byte] = rows[at / 8 * 64 + l] >> at % 8 * 8;
    }
}

/* 64 counters in a row, as big-endian numbers. */
static void write_counters(const struct cipher *cipher, counter first, unsigned char *bytes) {
  int count = cipher->block / 8;
  for (int l = 0; l < LANES; l++)
    for (int byte = 0; byte < count; byte++) bytes[count * l + byte] = (first + l) >> 8 * (count - 1 - byte);
}

/* The next coins of the tape for so many lanes: lane l owns the bits from l * count on, the lowest bit of a byte first. A batch and a
 * refresh of the key take whole bytes. */
static void draw(FILE *tape, unsigned char *bytes, int lanes, size_t count, word *coins) {
  read_bytes(tape, bytes, lanes * count / 8);
  for (size_t first = 0; first < count; first += 64) {
    word rows[64] = {0};
    for (int l = 0; l < lanes; l++) {
      size_t bit = l * count + first;
      word low;
      memcpy(&low, bytes + bit / 8, 8);
      rows[l] = bit % 8 ? low >> bit % 8 | (word)bytes[bit / 8 + 8] << (64 - bit % 8) : low;
    }
    transpose(rows);
    memcpy(coins + first, rows, (count - first < 64 ? count - first : 64) * sizeof *coins);
  }
}

#define EACH "plain-blocks.h"
#include "plain-each.h"

static counter hexadecimal(const char *digits) {
  counter number = 0;
  unsigned digit;
  for (; sscanf(digits, "%1x", &digit) == 1; digits++) number = number << 4 | digit;
  return number;
}

int main(int count, char **words) {
  if (count != 8) return 2;
  const struct cipher *cipher = ciphers;
  if (strcmp(words[1], cipher->name)) cipher++;
  struct circuit circuit = read_circuit(words[6]), refresh = read_circuit(words[7]);
  FILE *keys = open_file(words[4]), *tape = open_file(words[5]);
  counter iv = hexadecimal(words[3]);
  switch (atoi(words[2])) {
  case 1: encrypt_2(cipher, &circuit, &refresh, keys, tape, iv); return 0;
  case 3: encrypt_4(cipher, &circuit, &refresh, keys, tape, iv); return 0;
  case 7: encrypt_8(cipher, &circuit, &refresh, keys, tape, iv); return 0;
  }
  return 2;
}
