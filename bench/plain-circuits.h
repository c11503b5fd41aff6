/* Files, and the circuits that `emit` writes. */
#include <stdio.h>
#include <string.h>
#include "plain-words.h"

static FILE *open_file(const char *path) {
  FILE *file = fopen(path, "rb");
  if (!file) exit(2);
  return file;
}

static void read_bytes(FILE *file, unsigned char *bytes, size_t count) {
  if (fread(bytes, 1, count, file) != count) exit(2);
}

/* The circuit of a text of version 1 that has no comments. */
static struct circuit read_circuit(const char *path) {
  static const char *names[] = {"xor", "not", "ref", "and", "zero", "one"};
  FILE *file = open_file(path);
  struct circuit c = {.gates = room(40000 * sizeof *c.gates), .output = room(40000 * sizeof *c.output)};
  char line[64], name[8];
  uint32_t u, v;
  if (!fgets(line, sizeof line, file) || !fgets(line, sizeof line, file) || sscanf(line, "inputs %d", &c.inputs) != 1) exit(2);
  while (fgets(line, sizeof line, file) && strcmp(line, "end\n")) {
    u = v = 0;
    if (sscanf(line, "%7s %u %u", name, &u, &v) < 1 || c.count == 40000) exit(2);
    if (!strcmp(name, "out")) { c.output[c.outputs++] = u; continue; }
    enum kind kind = XOR;
    while (strcmp(name, names[kind])) if (kind++ == ONE) exit(2);
    c.gates[c.count++] = (struct gate){kind, u, v};
    c.random += kind == REF || kind == AND;
  }
  fclose(file);
  return c;
}

static size_t coin_count(const struct circuit *c, int pairs) { return (size_t)c->random * pairs; }
