/* Preloaded into the built program: refuses a request for memory, a read of standard input or a write to standard output.
 *
 *   REFUSE_MEMORY=N    the Nth request for memory fails
 *   REFUSE_ONE_IN=N    each request fails with a chance of one in N, drawn from REFUSE_SEED
 *   REFUSE_WITHIN=1    only requests between the marks < and > on standard error count, which are not written then; and the
 *                      signal SIGUSR1 has none refused any more
 *   REFUSE_READ=N      the Nth read fails; REFUSE_WRITE=N, the Nth write
 *   REFUSE_BY=E        with this errno (EIO if unset; with 0 a write answers that it took no byte)
 *   SHORT_READ=K       no read gives more than K bytes; SHORT_WRITE=K, no write takes more
 *   REFUSED_FD=F       a byte is written there at each refusal, x, and at each short read or write, s
 */
#define _GNU_SOURCE
#include <dlfcn.h>
#include <errno.h>
#include <signal.h>
#include <stddef.h>
#include <stdlib.h>
#include <sys/syscall.h>
#include <unistd.h>

static long setting(const char *name) {
  const char *text = getenv(name);
  return text ? atol(text) : -1;
}

static void note(const char *what) {
  long to = setting("REFUSED_FD");
  if (to >= 0) syscall(SYS_write, to, what, 1);
}

/* Whether this is the call whose number the setting has; *count counts them. */
static int is_refused(const char *name, long *count) {
  if (++*count != setting(name)) return 0;
  note("x");
  return 1;
}

static int is_within;

static volatile sig_atomic_t is_over;

static void end_refusals(int number) {
  (void)number;
  is_over = 1;
}

__attribute__((constructor)) static void watch(void) {
  struct sigaction action = {.sa_handler = end_refusals, .sa_flags = SA_RESTART};
  if (setting("REFUSE_WITHIN") > 0) sigaction(SIGUSR1, &action, NULL);
}

/* Whether a number that is drawn anew is the one in so many. */
static int is_drawn(long one_in) {
  static unsigned long state;
  if (!state) state = 2 * (unsigned long)setting("REFUSE_SEED") + 1;
  state ^= state << 13;
  state ^= state >> 7;
  state ^= state << 17;
  return (state >> 11) % (unsigned long)one_in == 0;
}

static int memory_is_refused(void) {
  static long count;
  long one_in = setting("REFUSE_ONE_IN");
  if (is_over || (setting("REFUSE_WITHIN") > 0 && !is_within)) return 0;
  if (one_in > 0 && is_drawn(one_in)) {
    note("x");
  } else if (!is_refused("REFUSE_MEMORY", &count)) {
    return 0;
  }
  errno = ENOMEM;
  return 1;
}

void *malloc(size_t size) {
  static void *(*next)(size_t);
  if (!next) next = dlsym(RTLD_NEXT, "malloc");
  return memory_is_refused() ? NULL : next(size);
}

void *calloc(size_t count, size_t size) {
  static void *(*next)(size_t, size_t);
  if (!next) next = dlsym(RTLD_NEXT, "calloc");
  return memory_is_refused() ? NULL : next(count, size);
}

void *realloc(void *old, size_t size) {
  static void *(*next)(void *, size_t);
  if (!next) next = dlsym(RTLD_NEXT, "realloc");
  return memory_is_refused() ? NULL : next(old, size);
}

int posix_memalign(void **to, size_t alignment, size_t size) {
  static int (*next)(void **, size_t, size_t);
  if (!next) next = dlsym(RTLD_NEXT, "posix_memalign");
  return memory_is_refused() ? ENOMEM : next(to, alignment, size);
}

void *aligned_alloc(size_t alignment, size_t size) {
  static void *(*next)(size_t, size_t);
  if (!next) next = dlsym(RTLD_NEXT, "aligned_alloc");
  return memory_is_refused() ? NULL : next(alignment, size);
}

static ssize_t refusal(void) {
  long by = setting("REFUSE_BY");
  errno = by < 0 ? EIO : (int)by;
  return by == 0 ? 0 : -1;
}

static size_t cut(size_t size, const char *name) {
  long most = setting(name);
  if (most <= 0 || size <= (size_t)most) return size;
  note("s");
  return (size_t)most;
}

ssize_t read(int from, void *to, size_t size) {
  static long count;
  if (from == 0 && is_refused("REFUSE_READ", &count)) return refusal();
  return syscall(SYS_read, from, to, from == 0 ? cut(size, "SHORT_READ") : size);
}

/* Whether it is a mark; takes it. */
static int is_mark(int to, const char *from, size_t size) {
  if (to != 2 || size == 0 || setting("REFUSE_WITHIN") <= 0) return 0;
  if (*from == '<' || *from == '>') is_within = *from == '<';
  return *from == '<' || *from == '>' || *from == '\n';
}

ssize_t write(int to, const void *from, size_t size) {
  static long count;
  if (is_mark(to, from, size)) return (ssize_t)size;
  if (to == 1 && is_refused("REFUSE_WRITE", &count)) return refusal();
  return syscall(SYS_write, to, from, to == 1 ? cut(size, "SHORT_WRITE") : size);
}
