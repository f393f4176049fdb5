/* Stands before those calls of the C library by which files are changed (LD_PRELOAD), and counts them.

   CALLS_KILL=k      the process is killed on entry to the k-th call from the start on
   CALLS_STOP=NAME   the process is stopped on entry to each call of that name
   CALLS_TELL=FILE   each call is written there as a line: its name, and the path that it names or `-`
   CALLS_KEEP=FOLDER the file that a rename is about to take the place of is linked into that folder before, under the
                     time in nanoseconds, so that nothing of it is lost; none where it is empty

   What is written for CALLS_TELL and CALLS_KEEP is not counted. */
#define _GNU_SOURCE
#include <dlfcn.h>
#include <fcntl.h>
#include <signal.h>
#include <stdarg.h>
#include <stdio.h>
#include <stdlib.h>
#include <string.h>
#include <sys/file.h>
#include <sys/stat.h>
#include <sys/syscall.h>
#include <sys/types.h>
#include <time.h>
#include <unistd.h>

#define MOST 4096

static unsigned long counted, last;
static const char *kept, *stopping;
static int told = -1;

__attribute__((constructor)) static void start(void) {
  const char *number = getenv("CALLS_KILL"), *name = getenv("CALLS_TELL");
  last = number ? strtoul(number, 0, 10) : 0;
  stopping = getenv("CALLS_STOP");
  kept = getenv("CALLS_KEEP");
  if (kept && !*kept) kept = 0;
  if (name) told = (int)syscall(SYS_openat, AT_FDCWD, name, O_WRONLY | O_CREAT | O_APPEND | O_CLOEXEC, 0600);
}

/* Counts a call, and kills the process where it is its last one. */
static void count(const char *name, const char *path) {
  char line[MOST];
  int length = snprintf(line, sizeof line, "%s %s\n", name, path ? path : "-");
  if (told >= 0 && length > 0 && length < MOST) syscall(SYS_write, told, line, (size_t)length);
  if (__atomic_add_fetch(&counted, 1, __ATOMIC_SEQ_CST) == last) raise(SIGKILL);
  if (stopping && !strcmp(name, stopping)) raise(SIGSTOP);
}

/* Keeps the file of a path. */
static void keep(const char *path) {
  char name[MOST];
  struct timespec now;
  if (!kept || clock_gettime(CLOCK_MONOTONIC, &now)) return;
  int length = snprintf(name, sizeof name, "%s/%010ld%09ld", kept, (long)now.tv_sec, now.tv_nsec);
  if (length > 0 && length < MOST) syscall(SYS_linkat, AT_FDCWD, path, AT_FDCWD, name, 0);
}

#define NEXT(result, name, ...) \
  static result (*next)(__VA_ARGS__); \
  if (!next) next = (result (*)(__VA_ARGS__))dlsym(RTLD_NEXT, #name)

/* A call with these parameters and arguments, of which one is told as its path. */
#define CALL(result, name, path, parameters, arguments, ...) \
  result name parameters { \
    NEXT(result, name, __VA_ARGS__); \
    count(#name, path); \
    return next arguments; \
  }

#define OPEN(name) \
  int name(const char *path, int flags, ...) { \
    va_list rest; \
    va_start(rest, flags); \
    mode_t mode = flags & (O_CREAT | O_TMPFILE) ? va_arg(rest, mode_t) : 0; \
    va_end(rest); \
    NEXT(int, name, const char *, int, ...); \
    count(#name, path); \
    return next(path, flags, mode); \
  }

#define OPENAT(name) \
  int name(int folder, const char *path, int flags, ...) { \
    va_list rest; \
    va_start(rest, flags); \
    mode_t mode = flags & (O_CREAT | O_TMPFILE) ? va_arg(rest, mode_t) : 0; \
    va_end(rest); \
    NEXT(int, name, int, const char *, int, ...); \
    count(#name, path); \
    return next(folder, path, flags, mode); \
  }

OPEN(open)
OPEN(open64)
OPENAT(openat)
OPENAT(openat64)
CALL(ssize_t, write, 0, (int file, const void *bytes, size_t length), (file, bytes, length), int, const void *, size_t)
CALL(ssize_t, pwrite, 0, (int file, const void *bytes, size_t length, off_t at), (file, bytes, length, at), int,
     const void *, size_t, off_t)
CALL(ssize_t, pwrite64, 0, (int file, const void *bytes, size_t length, off64_t at), (file, bytes, length, at), int,
     const void *, size_t, off64_t)
CALL(int, ftruncate, 0, (int file, off_t length), (file, length), int, off_t)
CALL(int, ftruncate64, 0, (int file, off64_t length), (file, length), int, off64_t)
CALL(int, fsync, 0, (int file), (file), int)
CALL(int, fdatasync, 0, (int file), (file), int)
CALL(int, flock, 0, (int file, int what), (file, what), int, int)
CALL(int, fchmod, 0, (int file, mode_t mode), (file, mode), int, mode_t)
CALL(int, chmod, path, (const char *path, mode_t mode), (path, mode), const char *, mode_t)
CALL(int, unlink, path, (const char *path), (path), const char *)
CALL(int, unlinkat, path, (int folder, const char *path, int flags), (folder, path, flags), int, const char *, int)
CALL(int, link, to, (const char *from, const char *to), (from, to), const char *, const char *)
CALL(int, linkat, to, (int folder, const char *from, int other, const char *to, int flags),
     (folder, from, other, to, flags), int, const char *, int, const char *, int)
CALL(int, close, 0, (int file), (file), int)

int rename(const char *from, const char *to) {
  NEXT(int, rename, const char *, const char *);
  count("rename", to);
  keep(to);
  return next(from, to);
}

int renameat(int folder, const char *from, int other, const char *to) {
  NEXT(int, renameat, int, const char *, int, const char *);
  count("renameat", to);
  keep(to);
  return next(folder, from, other, to);
}

int renameat2(int folder, const char *from, int other, const char *to, unsigned int flags) {
  NEXT(int, renameat2, int, const char *, int, const char *, unsigned int);
  count("renameat2", to);
  keep(to);
  return next(folder, from, other, to, flags);
}
