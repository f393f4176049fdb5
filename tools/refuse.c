/* Stands before the C library's malloc, calloc and realloc (LD_PRELOAD), and refuses requests for memory.

   A program gives orders by requests of reserved sizes, of which none is counted:

     ORDERS + k               the k-th request from here on is refused
     ORDERS + SPAN + k        the k-th and each later one
     ORDERS + 2 * SPAN        none any more
     ORDERS + 3 * SPAN + n    answered only if n or more were refused since the last order to refuse

   REFUSE_ONE=k or REFUSE_FROM=k in the environment order so from the start. At its end the process writes
   how many requests there were and how many of them were refused to the file that REFUSE_TELL names. */
#define _GNU_SOURCE
#include <dlfcn.h>
#include <errno.h>
#include <fcntl.h>
#include <stdio.h>
#include <stdlib.h>
#include <unistd.h>

#define ORDERS 0x140000ul
#define SPAN 0x1000ul

enum order { REFUSE_ONE, REFUSE_FROM, REFUSE_NONE, WERE_REFUSED, ORDER_COUNT };

static void *(*real_malloc)(size_t);
static void *(*real_calloc)(size_t, size_t);
static void *(*real_realloc)(void *, size_t);

/* The number of the only request that is refused, and that of the first one from which all are; 0 is none. */
static unsigned long one, from;
/* How many there were since the last order to refuse, and since the start. */
static unsigned long counted, refused, all_counted, all_refused;

static unsigned long number_of(const char *name) {
  const char *text = getenv(name);
  return text ? strtoul(text, 0, 10) : 0;
}

__attribute__((constructor)) static void start(void) {
  if (real_malloc) return;
  real_malloc = (void *(*)(size_t))dlsym(RTLD_NEXT, "malloc");
  real_calloc = (void *(*)(size_t, size_t))dlsym(RTLD_NEXT, "calloc");
  real_realloc = (void *(*)(void *, size_t))dlsym(RTLD_NEXT, "realloc");
  one = number_of("REFUSE_ONE");
  from = number_of("REFUSE_FROM");
}

/* Counts a request, and tells whether it is refused. */
static int refuses(void) {
  counted++;
  all_counted++;
  if (counted != one && !(from && counted >= from)) return 0;
  refused++;
  all_refused++;
  errno = ENOMEM;
  return 1;
}

/* Carries out an order, and tells whether its request is answered. */
static int obey(enum order order, unsigned long number) {
  if (order == WERE_REFUSED) return refused >= number;
  one = order == REFUSE_ONE ? number : 0;
  from = order == REFUSE_FROM ? number : 0;
  if (order != REFUSE_NONE) counted = refused = 0;
  return 1;
}

void *malloc(size_t size) {
  start();
  if (size >= ORDERS && size < ORDERS + ORDER_COUNT * SPAN)
    return obey((size - ORDERS) / SPAN, (size - ORDERS) % SPAN) ? real_malloc(size) : 0;
  return refuses() ? 0 : real_malloc(size);
}

void *calloc(size_t count, size_t size) {
  start();
  return refuses() ? 0 : real_calloc(count, size);
}

void *realloc(void *block, size_t size) {
  start();
  return refuses() ? 0 : real_realloc(block, size);
}

__attribute__((destructor)) static void end(void) {
  const char *name = getenv("REFUSE_TELL");
  int file = name ? open(name, O_WRONLY | O_CREAT | O_TRUNC, 0644) : -1;
  if (file < 0) return;
  dprintf(file, "%lu %lu\n", all_counted, all_refused);
  close(file);
}
