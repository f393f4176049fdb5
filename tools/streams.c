/* Stands before the C library's read, write and nanosleep (LD_PRELOAD), so that the standard streams of a program fail,
   give or take few bytes, or are interrupted.

   STREAMS_GIVE=n         a read of the standard input gives at most n bytes
   STREAMS_LINES=1        it gives none behind the end of a line
   STREAMS_FAULT=e        at the end of the input it fails by this number of an error
   STREAMS_TAKE=n         a write to the standard output or the standard error takes at most n bytes
   STREAMS_ROOM=n         the standard output is full when it has taken n bytes
   STREAMS_ERROR_ROOM=n   the same of the standard error
   STREAMS_HALTS=k        each of these calls is interrupted k times before it is carried out
   STREAMS_STOP=1         a pause stops the process, and takes no time once the process goes on
   STREAMS_TELL=FILE      for each read of the standard input that is carried out a line is written there: how many bytes
                          the standard output had taken before. At the end comes a line `halts`, with how many there were.

   Calls with other files are carried out as they are. */
#define _GNU_SOURCE
#include <errno.h>
#include <fcntl.h>
#include <signal.h>
#include <stdio.h>
#include <stdlib.h>
#include <sys/syscall.h>
#include <time.h>
#include <unistd.h>

#define MOST 64

static size_t give, take, room[3], taken[3];
static unsigned long halts, halted, all_halted;
static int by_lines, stops, fault, told = -1;

/* The number of an order, or another one if there is none. */
static unsigned long number_of(const char *name, unsigned long other) {
  const char *text = getenv(name);
  return text ? strtoul(text, 0, 10) : other;
}

__attribute__((constructor)) static void start(void) {
  const char *name = getenv("STREAMS_TELL");
  give = number_of("STREAMS_GIVE", (size_t)-1);
  take = number_of("STREAMS_TAKE", (size_t)-1);
  room[STDOUT_FILENO] = number_of("STREAMS_ROOM", (size_t)-1);
  room[STDERR_FILENO] = number_of("STREAMS_ERROR_ROOM", (size_t)-1);
  halts = number_of("STREAMS_HALTS", 0);
  by_lines = (int)number_of("STREAMS_LINES", 0);
  stops = (int)number_of("STREAMS_STOP", 0);
  fault = (int)number_of("STREAMS_FAULT", 0);
  if (name) told = (int)syscall(SYS_openat, AT_FDCWD, name, O_WRONLY | O_CREAT | O_TRUNC | O_CLOEXEC, 0600);
}

/* Tells a line. */
static void tell(const char *form, unsigned long number) {
  char line[MOST];
  int length = snprintf(line, sizeof line, form, number);
  if (told >= 0 && length > 0 && length < MOST) syscall(SYS_write, told, line, (size_t)length);
}

static ssize_t fails(int error) {
  errno = error;
  return -1;
}

/* Whether the call is interrupted, of which it has no more after so many. */
static int is_interrupted(void) {
  if (halted == halts) {
    halted = 0;
    return 0;
  }
  halted++;
  all_halted++;
  return 1;
}

static size_t smaller(size_t one, size_t other) { return one < other ? one : other; }

/* Reads up to the end of a line. */
static ssize_t read_line(char *bytes, size_t length) {
  size_t count = 0;
  while (count < length) {
    ssize_t found = syscall(SYS_read, STDIN_FILENO, bytes + count, (size_t)1);
    if (found < 0 && !count) return found;
    if (found <= 0 || bytes[count++] == '\n') break;
  }
  return (ssize_t)count;
}

ssize_t read(int file, void *bytes, size_t length) {
  if (file != STDIN_FILENO) return syscall(SYS_read, file, bytes, length);
  if (is_interrupted()) return fails(EINTR);
  tell("%lu\n", taken[STDOUT_FILENO]);
  length = smaller(length, give);
  ssize_t count = by_lines ? read_line(bytes, length) : syscall(SYS_read, file, bytes, length);
  return count || !fault ? count : fails(fault);
}

ssize_t write(int file, const void *bytes, size_t length) {
  if (file != STDOUT_FILENO && file != STDERR_FILENO) return syscall(SYS_write, file, bytes, length);
  if (is_interrupted()) return fails(EINTR);
  length = smaller(length, take);
  if (length && taken[file] == room[file]) return fails(ENOSPC);
  ssize_t count = syscall(SYS_write, file, bytes, smaller(length, room[file] - taken[file]));
  if (count > 0) taken[file] += (size_t)count;
  return count;
}

int nanosleep(const struct timespec *asked, struct timespec *left) {
  if (!stops) return (int)syscall(SYS_nanosleep, asked, left);
  raise(SIGSTOP);
  return 0;
}

__attribute__((destructor)) static void end(void) { tell("halts %lu\n", all_halted); }
