/* The gadgets on N shares, and the evaluation of a circuit. */
#define JOIN(name, n) name##_##n
#define NAMED(name, n) JOIN(name, n)
#define AT(name) NAMED(name, N)
enum { AT(PAIRS) = N * (N - 1) / 2 };

/* All a_i b_j; a coin for each pair, to which a_i b_j and then a_j b_i is added; and the sum of each row. */
static __attribute__((noinline)) void AT(and_gadget)(const word *x, const word *y, const word **coins, word *out) {
  word terms[N][N];
  for (int i = 0; i < N; i++)
    for (int j = 0; j < N; j++) terms[i][j] = product(x[i], y[j]);
  for (int i = 0; i < N; i++)
    for (int j = i + 1; j < N; j++) {
      word coin = fresh(coins), left = sum(coin, terms[i][j]);
      terms[j][i] = sum(left, terms[j][i]);
      terms[i][j] = coin;
    }
  for (int i = 0; i < N; i++) {
    word row = terms[i][i];
    for (int k = 0; k < N; k++)
      if (k != i) row = sum(row, terms[i][k]);
    out[i] = row;
  }
}

/* A coin for each pair, added to both. */
static __attribute__((noinline)) void AT(ref_gadget)(const word *x, const word **coins, word *out) {
  for (int i = 0; i < N; i++) out[i] = x[i];
  for (int i = 0; i < N; i++)
    for (int j = i + 1; j < N; j++) {
      word coin = fresh(coins);
      out[i] = sum(out[i], coin);
      out[j] = sum(out[j], coin);
    }
}

/* The inputs stand at the front of the values, and the gates draw from these coins. */
static __attribute__((noinline)) void AT(evaluate)(const struct circuit *circuit, const word *coins, word (*values)[N]) {
  word(*out)[N] = values + circuit->inputs;
  const struct gate *gates = circuit->gates;
  for (int k = 0; k < circuit->count; k++, out++) {
    const word *left = values[gates[k].left], *right = values[gates[k].right];
    switch (gates[k].kind) {
    case XOR:
      for (int i = 0; i < N; i++) (*out)[i] = sum(left[i], right[i]);
      break;
    case NOT:
      (*out)[0] = flipped(left[0]);
      for (int i = 1; i < N; i++) (*out)[i] = same(left[i]);
      break;
    case ZERO:
    case ONE:
      for (int i = 0; i < N; i++) (*out)[i] = i || gates[k].kind == ZERO ? 0 : ~(word)0;
      break;
    case REF: AT(ref_gadget)(left, &coins, *out); break;
    case AND: AT(and_gadget)(left, right, &coins, *out); break;
    }
  }
}
