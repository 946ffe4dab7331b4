/* Preloaded before a program: its main runs again and again in one process.

   RESIDENT has the numbers of two descriptors, "ASKS ANSWERS". From ASKS come the words of each run, its own name
   first: their length as a size_t, and then each with a null octet behind it. Its status goes to ANSWERS as an int. At
   the end of ASKS the process ends. What main has freed stays in the process, so that it finds memory that is not zero.

   The program may keep the array of words that it was started with, so those of each run are put there: it is started
   with as many as a run has at most.

   Build: gcc -shared -fPIC -O1 -o resident.so resident.c -ldl */
#define _GNU_SOURCE
#include <dlfcn.h>
#include <malloc.h>
#include <stdio.h>
#include <stdlib.h>
#include <string.h>
#include <unistd.h>

enum { TEXT = 1 << 20 };

typedef int entry(int, char **, char **);

static entry *first;

static int whole(int from, void *to, size_t size) {
  for (size_t got = 0; got < size;) {
    ssize_t count = read(from, (char *)to + got, size - got);
    if (count <= 0) return 0;
    got += (size_t)count;
  }
  return 1;
}

static int again(int argc, char **argv, char **environment) {
  static char text[TEXT + 1];
  int asks, answers;
  size_t size;
  const char *numbers = getenv("RESIDENT");
  if (!numbers || sscanf(numbers, "%d %d", &asks, &answers) != 2) return 125;
  /* memory is kept, and not given back to the system */
  mallopt(M_MMAP_THRESHOLD, 32 << 20);
  mallopt(M_TRIM_THRESHOLD, 1 << 30);
  while (whole(asks, &size, sizeof size)) {
    int count = 0, status;
    if (size > TEXT || !whole(asks, text, size)) return 125;
    for (char *at = text; at < text + size && count < argc; at += strlen(at) + 1) argv[count++] = at;
    argv[count] = NULL;
    status = first(count, argv, environment) & 255;
    if (write(answers, &status, sizeof status) != sizeof status) return 125;
  }
  return 0;
}

typedef void hook(void);
typedef int starting(entry *, int, char **, hook *, hook *, hook *, void *);

int __libc_start_main(entry *main, int argc, char **argv, hook *init, hook *fini, hook *unload, void *stack) {
  void *object = dlsym(RTLD_NEXT, "__libc_start_main");
  starting *next;
  memcpy(&next, &object, sizeof next); /* ISO C has no other way from one to the other */
  first = main;
  return next(again, argc, argv, init, fini, unload, stack);
}
