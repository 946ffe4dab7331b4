/* Preloaded before a program that opens files: just before the first open of one path, another file takes its name.

     EXCHANGE_PATH=PATH  the path, as the program names it
     EXCHANGE_BY=OTHER   what is renamed to it

   Build: gcc -shared -fPIC -O1 -o exchange.so exchange.c -ldl */
#define _GNU_SOURCE
#include <dlfcn.h>
#include <fcntl.h>
#include <stdarg.h>
#include <stdio.h>
#include <stdlib.h>
#include <string.h>

typedef int opening(const char *, int, ...);

static void exchange(const char *path) {
  static int done;
  const char *chosen = getenv("EXCHANGE_PATH"), *other = getenv("EXCHANGE_BY");
  if (done || !chosen || !other || strcmp(path, chosen) != 0) return;
  done = 1;
  if (rename(other, path) != 0) abort();
}

static int opened(const char *name, const char *path, int flags, va_list rest) {
  opening *next;
  *(void **)&next = dlsym(RTLD_NEXT, name);
  exchange(path);
  return next(path, flags, flags & (O_CREAT | O_TMPFILE) ? va_arg(rest, mode_t) : 0);
}

int open(const char *path, int flags, ...) {
  va_list rest;
  va_start(rest, flags);
  int fd = opened("open", path, flags, rest);
  va_end(rest);
  return fd;
}

int open64(const char *path, int flags, ...) {
  va_list rest;
  va_start(rest, flags);
  int fd = opened("open64", path, flags, rest);
  va_end(rest);
  return fd;
}
