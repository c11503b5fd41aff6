/* A stepper, preloaded into a program. It runs the program one instruction at a time and records what registers and memory then
 * hold: from the end of a write of just the text MACHINE_WRITE on, or from a read of just MACHINE_READ bytes on, and up to the next
 * read or write. Each such stretch replaces the one before in the file MACHINE_OUT.
 *
 * MACHINE_TABLE names a file with a `struct instruction` for each place in the program itself: whether an instruction begins there,
 * whether it uses vector registers, and the memory that it names: how many bytes (0: none), base and index (registers by the numbers
 * below, 16: none), scale and displacement. Instructions of libraries are run but not recorded; what they leave in the registers is.
 *
 * A record is a list of words of 64 bits: the place (bit 63 set: a return from a library), how many words follow, and these: the
 * general registers, the halves of the vector registers where they are used, and the memory. */
#define _GNU_SOURCE
#include <errno.h>
#include <fcntl.h>
#include <link.h>
#include <signal.h>
#include <stdint.h>
#include <stdio.h>
#include <stdlib.h>
#include <string.h>
#include <sys/mman.h>
#include <sys/stat.h>
#include <sys/syscall.h>
#include <ucontext.h>
#include <unistd.h>

enum { GENERAL = 16, HALVES = 32, NONE = 16, MOST_WORDS = 1 << 27 };
#define BACK (1ull << 63)

struct instruction {
  int64_t displacement;
  uint8_t known, vector, bytes, base, index, scale, unused[2];
};

/* The number of a register is its place here. */
static const int registers[GENERAL] = {REG_RAX, REG_RBX, REG_RCX, REG_RDX, REG_RSI, REG_RDI, REG_RBP, REG_RSP,
                                       REG_R8,  REG_R9,  REG_R10, REG_R11, REG_R12, REG_R13, REG_R14, REG_R15};

static const struct instruction *table;
static uint64_t places, *words, count, base, latest_general[GENERAL];
static uint64_t latest = BACK; /* the place of the instruction that runs now; BACK: it is a library's */
static int is_stepping, was_outside;
static const char *write_text, *out_path;
static long read_bytes;

static void fail(const char *why) {
  dprintf(2, "step: %s\n", why);
  _exit(9);
}

static int find_base(struct dl_phdr_info *info, size_t size, void *data) {
  (void)size, (void)data;
  base = info->dlpi_addr;
  return 1; /* the program itself comes first */
}

static void put(uint64_t word) {
  if (count == MOST_WORDS) fail("too many instructions");
  words[count++] = word;
}

static void put_memory(const struct instruction *now) {
  uint64_t at = now->displacement, halves[2] = {0, 0};
  if (now->base != NONE) at += latest_general[now->base];
  if (now->base == NONE && now->index == NONE) at += base;
  if (now->index != NONE) at += latest_general[now->index] * now->scale;
  memcpy(halves, (const void *)at, now->bytes);
  put(halves[0]);
  if (now->bytes > 8) put(halves[1]);
}

static void record(uint64_t place, const ucontext_t *context, const struct instruction *now) {
  int vector = now->vector || place & BACK;
  put(place);
  put(GENERAL + (vector ? HALVES : 0) + (now->bytes > 8) + (now->bytes > 0));
  for (int i = 0; i < GENERAL; i++) put(context->uc_mcontext.gregs[registers[i]]);
  if (vector) {
    uint64_t halves[HALVES];
    memcpy(halves, context->uc_mcontext.fpregs->_xmm, sizeof halves);
    for (int i = 0; i < HALVES; i++) put(halves[i]);
  }
  if (now->bytes) put_memory(now);
}

/* Called after each instruction: rip is at the next one. */
static void on_step(int signal, siginfo_t *info, void *raw) {
  (void)signal, (void)info;
  static const struct instruction nothing;
  ucontext_t *context = raw;
  uint64_t next = context->uc_mcontext.gregs[REG_RIP] - base;
  int is_own = next < places && table[next].known;
  if (is_stepping) {
    if (!(latest & BACK)) record(latest, context, &table[latest]);
    if (is_own && was_outside) record(next | BACK, context, &nothing);
  }
  for (int i = 0; i < GENERAL; i++) latest_general[i] = context->uc_mcontext.gregs[registers[i]];
  was_outside = !is_own;
  latest = is_own ? next : BACK;
}

__attribute__((noinline)) static void start(void) {
  count = 0;
  latest = BACK;
  was_outside = 1;
  is_stepping = 1;
  asm volatile("pushfq; orq $0x100, (%%rsp); popfq" ::: "cc", "memory");
}

__attribute__((noinline)) static void stop(void) {
  if (!is_stepping) return;
  asm volatile("pushfq; andq $~0x100, (%%rsp); popfq" ::: "cc", "memory");
  is_stepping = 0;
  int out = syscall(SYS_open, out_path, O_WRONLY | O_CREAT | O_TRUNC, 0644);
  const char *from = (const char *)words;
  for (uint64_t left = count * sizeof *words; out >= 0 && left > 0;) {
    long done = syscall(SYS_write, out, from, left);
    if (done <= 0) fail("cannot write the records");
    from += done, left -= done;
  }
  if (out < 0) fail("cannot open the file of records");
  syscall(SYS_close, out);
}

ssize_t read(int file, void *buffer, size_t length) {
  stop();
  ssize_t done = syscall(SYS_read, file, buffer, length);
  int error = errno;
  if (done > 0 && done == read_bytes) start();
  errno = error;
  return done;
}

ssize_t write(int file, const void *buffer, size_t length) {
  stop();
  ssize_t done = syscall(SYS_write, file, buffer, length);
  int error = errno;
  if (length && length == strlen(write_text) && !memcmp(buffer, write_text, length)) start();
  errno = error;
  return done;
}

ssize_t __write(int file, const void *buffer, size_t length) { return write(file, buffer, length); }

static void *room(uint64_t bytes) {
  void *at = mmap(0, bytes, PROT_READ | PROT_WRITE, MAP_PRIVATE | MAP_ANONYMOUS | MAP_NORESERVE, -1, 0);
  if (at == MAP_FAILED) fail("no memory");
  return at;
}

static void open_table(const char *path) {
  struct stat status;
  int file = path ? open(path, O_RDONLY) : -1;
  if (file < 0 || fstat(file, &status)) fail("no table");
  places = status.st_size / sizeof *table;
  table = mmap(0, status.st_size, PROT_READ, MAP_PRIVATE, file, 0);
  if (table == MAP_FAILED) fail("no memory for the table");
  close(file);
}

__attribute__((constructor)) static void begin(void) {
  const char *bytes = getenv("MACHINE_READ");
  write_text = getenv("MACHINE_WRITE"), out_path = getenv("MACHINE_OUT");
  if (!bytes || !write_text || !out_path) fail("MACHINE_READ, MACHINE_WRITE and MACHINE_OUT are wanted");
  read_bytes = atol(bytes);
  words = room(MOST_WORDS * sizeof *words);
  open_table(getenv("MACHINE_TABLE"));
  dl_iterate_phdr(find_base, 0);
  stack_t stack = {.ss_sp = room(1 << 20), .ss_size = 1 << 20};
  struct sigaction action = {.sa_sigaction = on_step, .sa_flags = SA_SIGINFO | SA_ONSTACK};
  if (sigaltstack(&stack, 0) || sigaction(SIGTRAP, &action, 0)) fail("no signals");
}
