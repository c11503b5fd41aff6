/* Reads the records of runs that take the same way through a program, and prints each list of values that a register or a place of
 * memory takes in these runs, once: a line with `steady`, the place of the first instruction that made it, where it stood, the
 * steps at which it was made, apart by commas, and the values, one for each run. A list that is the same in all runs is left out.
 * Where runs 0 and 1, which are the same run twice, differ, the line begins with `unsteady`. What the registers hold as the records
 * begin is no value of theirs. The first line says how many steps there are.
 *   collect PATHS      a file that names the records, a line for each run */
#include <fcntl.h>
#include <stdint.h>
#include <stdio.h>
#include <stdlib.h>
#include <string.h>
#include <sys/mman.h>
#include <sys/stat.h>
#include <unistd.h>

enum { GENERAL = 16, HALVES = 32, BUCKETS = 1 << 20 };
#define BACK (1ull << 63)

struct list {
  uint64_t place, count, room, *steps;
  int where;
  struct list *next;
  uint64_t values[];
};

static const char *names[GENERAL] = {"rax", "rbx", "rcx", "rdx", "rsi", "rdi", "rbp", "rsp",
                                     "r8",  "r9",  "r10", "r11", "r12", "r13", "r14", "r15"};
static const uint64_t **runs;
static uint64_t run_count, word_count, *gathered, *states;
static struct list *buckets[BUCKETS];

static void fail(const char *why, const char *what) {
  fprintf(stderr, "collect: %s%s\n", why, what);
  exit(1);
}

static void open_run(uint64_t run, const char *path) {
  struct stat status;
  int file = open(path, O_RDONLY);
  if (file < 0 || fstat(file, &status) || !status.st_size) fail("no records in ", path);
  if (!run) word_count = status.st_size / 8;
  if ((uint64_t)status.st_size / 8 != word_count) fail("a run takes another way: ", path);
  runs[run] = mmap(0, status.st_size, PROT_READ, MAP_PRIVATE, file, 0);
  if (runs[run] == MAP_FAILED) fail("no memory for ", path);
  close(file);
}

/* Gathers word `at` of all runs; whether it is the same in all. */
static int gather(uint64_t at) {
  uint64_t differs = 0;
  for (uint64_t run = 0; run < run_count; run++) {
    gathered[run] = runs[run][at];
    differs |= gathered[run] ^ gathered[0];
  }
  return !differs;
}

static void add_step(struct list *list, uint64_t step) {
  if (list->count == list->room) {
    list->room = 2 * list->room + 1;
    list->steps = realloc(list->steps, list->room * sizeof *list->steps);
    if (!list->steps) fail("no memory", "");
  }
  list->steps[list->count++] = step;
}

/* Notes that the gathered list is made at this step. */
static void keep(uint64_t step, uint64_t place, int where) {
  uint64_t hash = 14695981039346656037ull;
  for (uint64_t run = 0; run < run_count; run++) hash = (hash ^ gathered[run]) * 1099511628211ull, hash ^= hash >> 29;
  struct list **slot = &buckets[hash % BUCKETS];
  while (*slot && memcmp((*slot)->values, gathered, run_count * 8)) slot = &(*slot)->next;
  if (!*slot) {
    struct list *made = malloc(sizeof *made + run_count * 8);
    if (!made) fail("no memory", "");
    *made = (struct list){.place = place, .where = where};
    memcpy(made->values, gathered, run_count * 8);
    *slot = made;
  }
  add_step(*slot, step);
}

/* Keeps what word `at` is in all runs, where the register isn't as it was before. */
static void look(uint64_t at, uint64_t step, uint64_t place, int where) {
  int same = gather(at);
  if (where < GENERAL + HALVES) {
    uint64_t *state = states + where * run_count;
    if (!memcmp(state, gathered, run_count * 8)) return;
    memcpy(state, gathered, run_count * 8);
  }
  if (!same && step) keep(step, place, where);
}

static void walk(void) {
  uint64_t step = 0;
  for (uint64_t at = 0; at < word_count; step++) {
    if (!gather(at) || !gather(at + 1)) fail("the runs part: control flow depends on inputs or tape", "");
    uint64_t place = runs[0][at], count = runs[0][at + 1];
    int vector = count >= GENERAL + HALVES;
    for (uint64_t k = 0; k < count; k++)
      look(at + 2 + k, step, place & ~BACK, k < GENERAL || vector ? (int)k : GENERAL + HALVES + (int)k - GENERAL);
    at += 2 + count;
  }
  printf("steps %lu\n", step);
}

static void print_name(int where) {
  if (where < GENERAL) printf("%s", names[where]);
  else if (where < GENERAL + HALVES) printf("xmm%d.%s", (where - GENERAL) / 2, where % 2 ? "high" : "low");
  else printf("memory");
}

static void print(const struct list *list) {
  printf("%s %lx ", list->values[0] == list->values[1] ? "steady" : "unsteady", list->place);
  print_name(list->where);
  for (uint64_t k = 0; k < list->count; k++) printf("%c%lu", k ? ',' : ' ', list->steps[k]);
  for (uint64_t run = 0; run < run_count; run++) printf(" %lx", list->values[run]);
  putchar('\n');
}

/* Opens the records that the lines of a file name. */
static void open_runs(const char *path) {
  static char line[4096];
  FILE *file = fopen(path, "r");
  if (!file) fail("cannot read ", path);
  while (fgets(line, sizeof line, file)) run_count++;
  rewind(file);
  runs = malloc(run_count * sizeof *runs);
  gathered = malloc(run_count * 8);
  states = calloc((GENERAL + HALVES) * run_count, 8);
  if (run_count < 2 || !runs || !gathered || !states) fail("two runs are wanted, and memory", "");
  for (uint64_t run = 0; run < run_count && fgets(line, sizeof line, file); run++) {
    line[strcspn(line, "\n")] = 0;
    open_run(run, line);
  }
  fclose(file);
}

int main(int argc, char **argv) {
  if (argc != 2) fail("one file is wanted", "");
  open_runs(argv[1]);
  walk();
  for (uint64_t bucket = 0; bucket < BUCKETS; bucket++)
    for (const struct list *list = buckets[bucket]; list; list = list->next) print(list);
  return 0;
}
