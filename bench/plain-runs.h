/* Runs on N shares, whose bits stand in lane 0. */
#include "plain-gadgets.h"

struct AT(run) {
  struct tape tape;
  word *coins, (*values)[N], key[KEY][N], state[STATE][N];
};

/* Share i of the key is line i, in hexadecimal. */
static void AT(read_key)(const struct code *code, FILE *keys, word (*key)[N]) {
  char line[KEY / 4 + 1];
  unsigned char bytes[KEY / 8];
  for (int i = 0; i < N; i++) {
    if (fscanf(keys, "%40s", line) != 1) exit(2);
    read_hexadecimal(line, bytes, code->key);
    for (int at = 0; at < code->key; at += code->number) reverse(bytes + at, code->number);
    for (int j = 0; j < 8 * code->key; j++) key[j][i] = bit_of(bytes, j);
  }
}

/* Puts shared bits, or bits that all may know, among the inputs. */
static void AT(put)(struct AT(run) *run, int at, word (*bits)[N], int count) { memcpy(run->values + at, bits, count * sizeof *bits); }

static void AT(put_public)(struct AT(run) *run, int at, const unsigned char *bytes, int count) {
  for (int j = 0; j < count; j++)
    for (int i = 0; i < N; i++) run->values[at + j][i] = i ? 0 : bit_of(bytes, j);
}

/* Evaluates a circuit, whose other inputs were put. Those from this place on are so many bits of the message, each of which is shared
 * with the next N - 1 coins. */
static void AT(take)(struct AT(run) *run, const struct circuit *circuit, int at, const unsigned char *bytes, int count, word (*out)[N]) {
  const word *coins = run->coins;
  draw(&run->tape, (N - 1) * count + coin_count(circuit, AT(PAIRS)), run->coins);
  for (int j = 0; j < count; j++) {
    word rest = bit_of(bytes, j), *input = run->values[at + j];
    for (int i = 1; i < N; i++) rest = sum(rest, input[i] = fresh(&coins));
    input[0] = rest;
  }
  AT(evaluate)(circuit, coins, run->values);
  for (int j = 0; j < circuit->outputs; j++) memcpy(out[j], run->values[circuit->output[j]], sizeof *out);
}

/* The bytes of these bits. */
static void AT(unmask)(word (*bits)[N], unsigned char *bytes, int count) {
  memset(bytes, 0, count);
  for (int j = 0; j < 8 * count; j++)
    for (int i = 0; i < N; i++) bytes[j / 8] ^= (bits[j][i] & 1) << j % 8;
}

/* The inputs are the key and the IV, and then the state and a piece. */
static void AT(trivium)(struct AT(run) *run, const char *digits, const struct circuit *start, const struct circuit *step) {
  unsigned char iv[10], bytes[8];
  read_hexadecimal(digits, iv, 10);
  AT(put)(run, 0, run->key, 80), AT(put_public)(run, 80, iv, 80);
  AT(take)(run, start, 0, 0, 0, run->state);
  for (int at = 0; at < message.length; at += 8) {
    AT(put)(run, 0, run->state, 288);
    AT(take)(run, step, 288, message.bytes + at, 64, run->state);
    AT(unmask)(run->state + 288, bytes, 8);
    write_bytes(bytes, 8);
  }
}

/* The inputs are K1, a counter and a piece, and V; and at last K2, V and the padded piece. K1 gets fresh shares ahead of each piece but
 * the first and the last. V begins as 0. */
static void AT(lightmac)(struct AT(run) *run, int counter, const struct circuit *refresh, const struct circuit *step,
                         const struct circuit *end) {
  unsigned char block[8];
  int piece = 8 - counter, last = message.length - piece, number = 1;
  for (int at = 0; at < last; at += piece, number++) {
    for (int k = 0; k < counter; k++) block[k] = number >> 8 * (counter - 1 - k);
    memcpy(block + counter, message.bytes + at, piece), reverse(block, 8);
    AT(put)(run, 0, run->key, 80);
    if (at) AT(take)(run, refresh, 0, 0, 0, run->key);
    AT(put)(run, 0, run->key, 80), AT(put)(run, 144, run->state, 64);
    AT(take)(run, step, 80, block, 64, run->state);
  }
  memset(block, 0, 8), memcpy(block, message.bytes + last, piece), block[piece] = 0x80, reverse(block, 8);
  AT(put)(run, 0, run->key + 80, 80), AT(put)(run, 80, run->state, 64);
  AT(take)(run, end, 144, block, 64, run->state);
  AT(unmask)(run->state, block, 8), reverse(block, 8), write_bytes(block, 8);
}

/* The inputs are the key, of which the state is made, and then the state and a block; at last the state, the key and the block. */
static void AT(chaskey)(struct AT(run) *run, const struct circuit *start, const struct circuit *step, const struct circuit *end) {
  unsigned char tag[16];
  int last = message.length - 16;
  AT(put)(run, 0, run->key, 128);
  AT(take)(run, start, 0, 0, 0, run->state);
  for (int at = 0; at < last; at += 16) {
    AT(put)(run, 0, run->state, 128);
    AT(take)(run, step, 128, message.bytes + at, 128, run->state);
  }
  AT(put)(run, 0, run->state, 128), AT(put)(run, 128, run->key, 128);
  AT(take)(run, end, 256, message.bytes + last, 128, run->state);
  AT(unmask)(run->state, tag, 16), write_bytes(tag, 16);
}

static void AT(run)(int code, const char *word_3, FILE *keys, FILE *tape, const struct circuit *circuits) {
  static struct AT(run) run;
  size_t coins = 0, values = 0;
  for (int k = 0; k < codes[code].circuits; k++) {
    size_t inputs = circuits[k].inputs, count = coin_count(circuits + k, AT(PAIRS)) + (N - 1) * inputs;
    if (coins < count) coins = count;
    if (values < inputs + circuits[k].count) values = inputs + circuits[k].count;
  }
  run.tape = (struct tape){tape, room(coins / 8 + 2), 8};
  run.coins = room(coins * sizeof *run.coins), run.values = room(values * sizeof *run.values);
  AT(read_key)(codes + code, keys, run.key);
  switch (code) {
  case TRIVIUM: AT(trivium)(&run, word_3, circuits, circuits + 1); break;
  case LIGHTMAC: AT(lightmac)(&run, atoi(word_3), circuits, circuits + 1, circuits + 2); break;
  case CHASKEY: AT(chaskey)(&run, circuits, circuits + 1, circuits + 2); break;
  }
  free(run.tape.bytes), free(run.coins), free(run.values);
}
#undef AT
#undef NAMED
#undef JOIN
