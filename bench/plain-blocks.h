/* Encryption on N shares. */
#include "plain-gadgets.h"

/* Share i of the key is line i, in hexadecimal. */
static void AT(read_key)(const struct cipher *cipher, FILE *keys, word (*key)[N]) {
  for (int i = 0; i < N; i++)
    for (int byte = 0; byte < cipher->key / 8; byte++) {
      unsigned value;
      if (fscanf(keys, "%2x", &value) != 1) exit(2);
      for (int j = 0; j < 8; j++) key[8 * place(cipher, cipher->key, byte) + j][i] = -(word)(value >> j & 1);
    }
}

/* Fresh shares of the key, in one lane, which are then spread over all. */
static void AT(renew)(const struct circuit *refresh, FILE *tape, unsigned char *bytes, word *coins, word (*key)[N], word (*values)[N]) {
  draw(tape, bytes, 1, coin_count(refresh, AT(PAIRS)), coins);
  memcpy(values, key, refresh->inputs * sizeof *key);
  AT(evaluate)(refresh, coins, values);
  for (int j = 0; j < refresh->inputs; j++)
    for (int i = 0; i < N; i++) key[j][i] = -(values[refresh->output[j]][i] & 1);
}

/* The counters, which are public, and the message, each bit of which is shared with the next N - 1 coins. */
static const word *AT(set_blocks)(const struct cipher *cipher, const unsigned char *message, counter first, const word *coins,
                                  word (*counters)[N], word (*blocks)[N]) {
  unsigned char bytes[BATCH];
  word rows[BLOCK], bits[BLOCK];
  write_counters(cipher, first, bytes);
  read_blocks(cipher, bytes, rows), read_blocks(cipher, message, bits);
  for (int j = 0; j < cipher->block; j++) {
    word rest = bits[j];
    for (int i = 1; i < N; i++) rest = sum(rest, blocks[j][i] = fresh(&coins));
    blocks[j][0] = rest;
    for (int i = 0; i < N; i++) counters[j][i] = i ? 0 : rows[j];
  }
  return coins;
}

static void AT(write_out)(const struct cipher *cipher, const struct circuit *circuit, word (*values)[N]) {
  unsigned char bytes[BATCH];
  word bits[BLOCK];
  for (int j = 0; j < cipher->block; j++) {
    bits[j] = 0;
    for (int i = 0; i < N; i++) bits[j] ^= values[circuit->output[j]][i];
  }
  write_blocks(cipher, bits, bytes);
  if (fwrite(bytes, 1, batch(cipher), stdout) != batch(cipher)) exit(2);
}

static void AT(encrypt)(const struct cipher *cipher, const struct circuit *circuit, const struct circuit *refresh, FILE *keys, FILE *tape,
                        counter iv) {
  size_t count = (N - 1) * cipher->block + coin_count(circuit, AT(PAIRS));
  unsigned char message[BATCH], *bytes = room(LANES * count / 8 + 16);
  word *coins = room((count + 64) * sizeof *coins), key[KEY][N];
  word(*values)[N] = room((circuit->inputs + circuit->count) * sizeof *values);
  AT(read_key)(cipher, keys, key);
  for (counter done = 0; fread(message, 1, batch(cipher), stdin) == batch(cipher); done += LANES) {
    if (done) AT(renew)(refresh, tape, bytes, coins, key, values);
    draw(tape, bytes, LANES, count, coins);
    memcpy(values, key, cipher->key * sizeof *key);
    const word *rest =
        AT(set_blocks)(cipher, message, iv + done, coins, values + cipher->key, values + cipher->key + cipher->block);
    AT(evaluate)(circuit, rest, values);
    AT(write_out)(cipher, circuit, values);
  }
  free(bytes), free(coins), free(values);
}
#undef AT
#undef NAMED
#undef JOIN
