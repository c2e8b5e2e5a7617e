/* Preloaded into a program, this library logs each call that changes files below a folder, and refuses one of them, as a disk does.
 *
 *   DISK_BELOW     the folder
 *   DISK_LOG       the file of the log, which is appended to: a line a call that succeeded
 *   DISK_REFUSES   "CALL FILE NTH ERROR": the Nth call of the kind CALL whose file, relative to the folder, fits the pattern FILE, fails
 *                  with the number ERROR. Of a disk that is full (28) the Nth write takes half of its bytes, and all later ones fail
 *   DISK_DELAYS    "FILE MILLISECONDS": a sync of such a file takes so long
 *   DISK_KILLS     the process is killed at its call of this number, of all that change files; a write takes half of its bytes first
 *
 * The lines: `make FILE`, `folder FILE`, `write FILE`, `sync FILE LENGTH`, `rename FROM TO`, `remove FILE`. */
#define _GNU_SOURCE
#include <dlfcn.h>
#include <errno.h>
#include <fcntl.h>
#include <fnmatch.h>
#include <limits.h>
#include <signal.h>
#include <stdarg.h>
#include <stdatomic.h>
#include <stdio.h>
#include <stdlib.h>
#include <string.h>
#include <sys/stat.h>
#include <sys/syscall.h>
#include <sys/types.h>
#include <unistd.h>

#define NEXT(name) \
  static __typeof__(&name) next; \
  if (!next) next = (__typeof__(&name))dlsym(RTLD_NEXT, #name)

enum { TAKEN, HALVED, REFUSED, LAST };

static const char *below;
static int log_file = -1;
static char call_refused[16], file_refused[256];
static long nth_refused;
static int error_refused;
static atomic_long seen;
static char file_delayed[256];
static long milliseconds_delayed;
static long nth_killed;
static atomic_long changes;

__attribute__((constructor)) static void begin(void) {
  const char *log = getenv("DISK_LOG"), *refuses = getenv("DISK_REFUSES"), *delays = getenv("DISK_DELAYS");
  const char *kills = getenv("DISK_KILLS");
  if (log) log_file = (int)syscall(SYS_openat, AT_FDCWD, log, O_WRONLY | O_CREAT | O_APPEND | O_CLOEXEC, 0600);
  if (refuses && sscanf(refuses, "%15s %255s %ld %d", call_refused, file_refused, &nth_refused, &error_refused) != 4) abort();
  if (delays && sscanf(delays, "%255s %ld", file_delayed, &milliseconds_delayed) != 2) abort();
  if (kills && sscanf(kills, "%ld", &nth_killed) != 1) abort();
  below = getenv("DISK_BELOW");
}

/* A file's name relative to the folder, "." for the folder itself; null of another file. */
static const char *inside(const char *path) {
  if (!below || !path) return 0;
  size_t length = strlen(below);
  if (strncmp(path, below, length) || (path[length] && path[length] != '/')) return 0;
  return path[length] && path[length + 1] ? path + length + 1 : ".";
}

/* The name of an open file, in a buffer of PATH_MAX; null of one that is not below the folder. */
static const char *opened(int fd, char *path) {
  char link[64];
  if (!below) return 0;
  snprintf(link, sizeof link, "/proc/self/fd/%d", fd);
  ssize_t length = readlink(link, path, PATH_MAX - 1);
  if (length <= 0) return 0;
  path[length] = 0;
  return inside(path);
}

static int verdict(const char *call, const char *file) {
  if (nth_killed && atomic_fetch_add(&changes, 1) + 1 == nth_killed) {
    if (strcmp(call, "write")) raise(SIGKILL);
    return LAST;
  }
  if (!error_refused || strcmp(call, call_refused) || fnmatch(file_refused, file, 0)) return TAKEN;
  long count = atomic_fetch_add(&seen, 1) + 1;
  if (error_refused == ENOSPC && count > nth_refused) return REFUSED;
  if (count != nth_refused) return TAKEN;
  return error_refused == ENOSPC && !strcmp(call, "write") ? HALVED : REFUSED;
}

static int refused(void) {
  errno = error_refused;
  return -1;
}

__attribute__((format(printf, 1, 2))) static void note(const char *format, ...) {
  char line[2 * PATH_MAX + 64];
  int error = errno;
  va_list arguments;
  va_start(arguments, format);
  int length = vsnprintf(line, sizeof line, format, arguments);
  va_end(arguments);
  if (log_file >= 0 && length > 0) syscall(SYS_write, log_file, line, (size_t)length);
  errno = error;
}

static int open_by(int (*next)(const char *, int, ...), const char *path, int flags, mode_t mode) {
  const char *file = inside(path);
  struct stat there;
  int is_new = file && (flags & O_CREAT) && stat(path, &there) != 0;
  if (is_new && verdict("make", file) != TAKEN) return refused();
  int fd = next(path, flags, mode);
  if (fd >= 0 && is_new) note("make %s\n", file);
  return fd;
}

static mode_t mode_of(int flags, va_list arguments) {
  return flags & (O_CREAT | O_TMPFILE) ? va_arg(arguments, mode_t) : 0;
}

int open(const char *path, int flags, ...) {
  NEXT(open);
  va_list arguments;
  va_start(arguments, flags);
  mode_t mode = mode_of(flags, arguments);
  va_end(arguments);
  return open_by(next, path, flags, mode);
}

int open64(const char *path, int flags, ...) {
  NEXT(open64);
  va_list arguments;
  va_start(arguments, flags);
  mode_t mode = mode_of(flags, arguments);
  va_end(arguments);
  return open_by(next, path, flags, mode);
}

int mkdir(const char *path, mode_t mode) {
  NEXT(mkdir);
  const char *file = inside(path);
  if (file && verdict("folder", file) != TAKEN) return refused();
  int done = next(path, mode);
  if (!done && file) note("folder %s\n", file);
  return done;
}

ssize_t write(int fd, const void *bytes, size_t length) {
  NEXT(write);
  char path[PATH_MAX];
  const char *file = opened(fd, path);
  if (!file) return next(fd, bytes, length);
  int found = verdict("write", file);
  if (found == REFUSED || (found == HALVED && length < 2)) return refused();
  ssize_t written = next(fd, bytes, found == TAKEN ? length : length / 2);
  if (written >= 0) note("write %s\n", file);
  if (found == LAST) raise(SIGKILL);
  return written;
}

static int sync_by(int (*next)(int), int fd) {
  char path[PATH_MAX];
  struct stat there;
  const char *file = opened(fd, path);
  if (file && verdict("sync", file) != TAKEN) return refused();
  if (file && milliseconds_delayed && !fnmatch(file_delayed, file, 0)) usleep((useconds_t)(milliseconds_delayed * 1000));
  int done = next(fd);
  if (!done && file && !fstat(fd, &there)) note("sync %s %lld\n", file, (long long)there.st_size);
  return done;
}

int fsync(int fd) {
  NEXT(fsync);
  return sync_by(next, fd);
}

int fdatasync(int fd) {
  NEXT(fdatasync);
  return sync_by(next, fd);
}

int rename(const char *from, const char *to) {
  NEXT(rename);
  const char *file = inside(from), *other = inside(to);
  if (file && verdict("rename", file) != TAKEN) return refused();
  int done = next(from, to);
  if (!done && file && other) note("rename %s %s\n", file, other);
  return done;
}

int unlink(const char *path) {
  NEXT(unlink);
  const char *file = inside(path);
  if (file && verdict("remove", file) != TAKEN) return refused();
  int done = next(path);
  if (!done && file) note("remove %s\n", file);
  return done;
}
