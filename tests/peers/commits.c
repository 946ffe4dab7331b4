/* Preloaded before `syslogbox serve`: writes to the file COMMITS, for each record `mark NNNNNNNN` in a batch of a
   journal, a line NNNNNNNN NANOSECONDS with the time, by the system's monotonic clock, at which the call returned that
   made the batch committed: the sync behind the write of the octet that opens it. A checkpoint writes records again, so
   the first line on each counts.

   Build: gcc -shared -fPIC -O1 -o commits.so commits.c -ldl */
#define _GNU_SOURCE
#include <dlfcn.h>
#include <fcntl.h>
#include <stdio.h>
#include <stdlib.h>
#include <string.h>
#include <sys/types.h>
#include <time.h>
#include <unistd.h>

enum { MARKS = 1 << 16, DIGITS = 8 };
static char marks[MARKS][DIGITS];
static size_t count;
static int is_open; /* one octet was written behind the marks */

typedef void function(void);

static function *next_of(const char *name) {
  void *object = dlsym(RTLD_NEXT, name);
  function *next;
  memcpy(&next, &object, sizeof next); /* ISO C has no other way from one to the other */
  return next;
}

/* A write of one octet opens a batch, another may have marks. */
static void look(const char *octets, ssize_t size) {
  if (size == 1) is_open = count > 0;
  for (const char *at = octets, *end = octets + (size > 1 ? size : 0); count < MARKS;) {
    at = memmem(at, (size_t)(end - at), "mark ", 5);
    if (!at || end - at < 5 + DIGITS) return;
    memcpy(marks[count++], at + 5, DIGITS);
    at += 5;
    is_open = 0;
  }
}

static void tell(void) {
  static FILE *out;
  struct timespec t;
  clock_gettime(CLOCK_MONOTONIC, &t);
  long long moment = t.tv_sec * 1000000000LL + t.tv_nsec;
  if (!is_open) return;
  if (!out) out = fopen(getenv("COMMITS"), "a");
  for (size_t n = 0; out && n < count; n++) fprintf(out, "%.*s %lld\n", DIGITS, marks[n], moment);
  if (out) fflush(out);
  count = 0;
  is_open = 0;
}

ssize_t write(int fd, const void *octets, size_t size) {
  static ssize_t (*next)(int, const void *, size_t);
  if (!next) next = (ssize_t (*)(int, const void *, size_t))next_of("write");
  ssize_t written = next(fd, octets, size);
  if (fd > 2) look(octets, written);
  return written;
}

int fdatasync(int fd) {
  static int (*next)(int);
  if (!next) next = (int (*)(int))next_of("fdatasync");
  int status = next(fd);
  tell();
  return status;
}
