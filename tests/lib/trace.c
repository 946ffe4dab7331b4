/* Preloaded before a program that keeps a store: writes down each call that changes the files of one folder or syncs them,
   and what the program tells on standard output. It can also let one of these calls fail, be short or be left out, or end
   the process at it.

     TRACE_FOLDER=PATH    the folder, as the program names it; its files alone are counted
     TRACE_LOG=FILE       where the calls are written down
     TRACE_FAIL=KIND N E M  the Nth call of a kind, from 1, to the Mth fail with the error E and do nothing; the Nth alone
                          where there is no M. More of them may follow, each behind a comma. KIND@NAME counts the calls
                          on files whose names begin so alone
     TRACE_SPOIL=O        at a sync of a file that fails so, what was written to the file since the last one is gone: where
                          an octet was before there is that one again, elsewhere O. A system may drop what it could not write
     TRACE_FULL=N M       N octets are written, and then M calls that write fail with ENOSPC
     TRACE_SHORT=N        the Nth write takes at most one octet
     TRACE_DROP=KIND N M  of each M calls of a kind the Nth is left out, from 0, and answers as if it were done
     TRACE_READ=N         a read of standard input gives at most N octets
     TRACE_KILL=N         the process is killed at the Nth call of any kind, from 1; a write has written half by then

   KIND is create, write, cut, sync (of a file), rename, remove or names (the sync of the folder).

   The log has for each call a line, KIND FILE AT LENGTH NAME, and behind it LENGTH octets: those of a write or of what
   was told, or the new name of a rename. FILE is the number of the file (its inode), AT the offset of a write, the length
   after a cut or the octets that standard input gave, NAME the name in the folder, or `-`. `open` is a call that opens a
   file that is there, `told` a write on standard output, `given` a read of standard input. A call that failed is not
   written down, but a sync that failed is, as `lost`, and what is spoiled is as writes. A folder in the folder has a name that
   ends in `/`.

   Build: gcc -shared -fPIC -O1 -o trace.so trace.c -ldl */
#define _GNU_SOURCE
#include <dlfcn.h>
#include <errno.h>
#include <fcntl.h>
#include <signal.h>
#include <stdarg.h>
#include <stdio.h>
#include <stdlib.h>
#include <string.h>
#include <sys/stat.h>
#include <unistd.h>

enum { CREATE, WRITE, CUT, SYNC, RENAME, REMOVE, NAMES, KINDS };
static const char *const KIND_NAMES[KINDS] = {"create", "write", "cut", "sync", "rename", "remove", "names"};
static unsigned long made[KINDS], all, written;

enum { FILES = 4096 };
static char *names[FILES]; /* of each descriptor of a file of the folder, its name */

typedef void function(void);

static function *next_of(const char *name) {
  void *object = dlsym(RTLD_NEXT, name);
  function *next;
  memcpy(&next, &object, sizeof next); /* ISO C has no other way from one to the other */
  return next;
}

static int log_of(void) {
  static int fd = -1;
  static int (*next)(const char *, int, ...);
  const char *path = getenv("TRACE_LOG");
  if (fd >= 0 || !path) return fd;
  if (!next) next = (int (*)(const char *, int, ...))next_of("open");
  fd = next(path, O_WRONLY | O_CREAT | O_APPEND | O_CLOEXEC, 0600);
  if (fd >= 0 && fd < 1000) { /* out of the way of the program's own */
    int high = fcntl(fd, F_DUPFD_CLOEXEC, 1000);
    if (high >= 0) { close(fd); fd = high; }
  }
  return fd;
}

static ssize_t put(int fd, const void *octets, size_t size) {
  static ssize_t (*next)(int, const void *, size_t);
  if (!next) next = (ssize_t (*)(int, const void *, size_t))next_of("write");
  return next(fd, octets, size);
}

static void note(const char *kind, unsigned long file, unsigned long at, const char *name, const void *octets, size_t size) {
  int error = errno, fd = log_of();
  if (fd < 0) return;
  char head[512];
  int n = snprintf(head, sizeof head, "%s %lu %lu %zu %s\n", kind, file, at, size, name);
  char *whole = malloc((size_t)n + size);
  memcpy(whole, head, (size_t)n);
  if (size) memcpy(whole + n, octets, size);
  if (put(fd, whole, (size_t)n + size) != n + (ssize_t)size) _exit(99);
  free(whole);
  errno = error;
}

/* the name of a file of the folder, or NULL */
static const char *within(const char *path) {
  const char *folder = getenv("TRACE_FOLDER");
  if (!folder) return NULL;
  size_t n = strlen(folder);
  if (strncmp(path, folder, n) != 0) return NULL;
  if (path[n] == 0) return "";
  if (path[n] != '/') return NULL;
  return path + n + 1;
}

static int is_folder(const char *name) { return *name == 0 || name[strlen(name) - 1] == '/'; }

static unsigned long file_of(int fd) {
  struct stat seen;
  return fstat(fd, &seen) == 0 ? (unsigned long)seen.st_ino : 0;
}

static const char *name_of(int fd) { return fd >= 0 && fd < FILES ? names[fd] : NULL; }

static void keep(int fd, const char *name) {
  if (fd < 0 || fd >= FILES) return;
  free(names[fd]);
  names[fd] = name ? strdup(name) : NULL;
}

enum { GOES_ON, FAILS, IS_LEFT_OUT, IS_KILLED };

/* whether a word, KIND or KIND@NAME, means calls of a kind on a file of this name */
static int means(const char *word, int kind, const char *name) {
  size_t size = strlen(KIND_NAMES[kind]);
  if (strncmp(word, KIND_NAMES[kind], size) != 0) return 0;
  return word[size] == 0 || (word[size] == '@' && strncmp(name, word + size + 1, strlen(word + size + 1)) == 0);
}

/* the error with which a call fails, or 0; it is counted among those that each fault means */
static int fault_of(int kind, const char *name) {
  enum { FAULTS = 16 };
  static unsigned long counts[FAULTS];
  const char *text = getenv("TRACE_FAIL");
  int found = 0;
  for (int i = 0; text && i < FAULTS; i++, text = strchr(text, ',') ? strchr(text, ',') + 1 : NULL) {
    unsigned long first = 0, last = 0;
    char word[64];
    int error = 0, read = sscanf(text, "%63s %lu %d %lu", word, &first, &error, &last);
    if (read < 3 || !means(word, kind, name)) continue;
    counts[i]++;
    if (first <= counts[i] && counts[i] <= (read > 3 ? last : first)) found = error;
  }
  return found;
}

/* what becomes of the next call of a kind, on a file of this name */
static int fate(int kind, const char *name) {
  unsigned long n = ++made[kind], number = 0, of = 0;
  char word[16];
  int error = fault_of(kind, name);
  const char *text = getenv("TRACE_KILL");
  if (text && strtoul(text, NULL, 10) == ++all) return IS_KILLED;
  if (error) {
    errno = error;
    return FAILS;
  }
  text = getenv("TRACE_DROP");
  if (text && sscanf(text, "%15s %lu %lu", word, &number, &of) == 3 && strcmp(word, KIND_NAMES[kind]) == 0 && of
      && (n - 1) % of == number)
    return IS_LEFT_OUT;
  return GOES_ON;
}

static void end(void) {
  kill(getpid(), SIGKILL);
  for (;;) pause();
}

/* what was written to a file since its last sync: where, and what was there before */
struct piece {
  struct piece *before;
  unsigned long file;
  off_t at;
  size_t size, old_size;
  unsigned char old[];
};
static struct piece *pieces;

/* octets of a file are about to be written */
static void keep_old(int fd, off_t at, size_t size) {
  if (!getenv("TRACE_SPOIL")) return;
  struct piece *one = malloc(sizeof *one + size);
  ssize_t n = pread(fd, one->old, size, at);
  *one = (struct piece){pieces, file_of(fd), at, size, n > 0 ? (size_t)n : 0};
  pieces = one;
}

/* puts back what was in a piece before it was written, as far as the file reaches */
static void spoil_piece(int fd, const char *name, const struct piece *one) {
  struct stat seen;
  if (fstat(fd, &seen) != 0 || seen.st_size <= one->at) return;
  size_t size = one->size;
  if ((off_t)size > seen.st_size - one->at) size = (size_t)(seen.st_size - one->at);
  unsigned char *octets = malloc(size ? size : 1);
  memset(octets, (int)strtoul(getenv("TRACE_SPOIL"), NULL, 10), size);
  memcpy(octets, one->old, one->old_size < size ? one->old_size : size);
  if (pwrite(fd, octets, size, one->at) != (ssize_t)size) _exit(99);
  note("write", one->file, (unsigned long)one->at, name, octets, size);
  free(octets);
}

/* all that was written to a file is on the disk, or gone; or there is another file of its number */
static void settle(unsigned long file, int fd, const char *spoiled) {
  struct piece **place = &pieces;
  while (*place) {
    struct piece *one = *place;
    if (one->file != file) { place = &one->before; continue; }
    if (spoiled) spoil_piece(fd, spoiled, one);
    *place = one->before;
    free(one);
  }
}

typedef int opening(const char *, int, ...);

static int opened(opening *next, const char *path, int flags, mode_t mode) {
  const char *name = within(path);
  if (!name) return next(path, flags, mode);
  int creates = 0;
  if (flags & O_CREAT) {
    struct stat seen;
    creates = stat(path, &seen) != 0;
  }
  if (creates) {
    int what = fate(CREATE, name);
    if (what == FAILS) return -1;
    if (what == IS_KILLED) end();
  }
  int fd = next(path, flags, mode);
  keep(fd, fd >= 0 ? name : NULL);
  if (fd >= 0 && creates) settle(file_of(fd), fd, NULL);
  if (fd >= 0 && !is_folder(name)) note(creates ? "create" : "open", file_of(fd), 0, name, "", 0);
  return fd;
}

int open(const char *path, int flags, ...) {
  static opening *next;
  va_list rest;
  va_start(rest, flags);
  mode_t mode = flags & (O_CREAT | O_TMPFILE) ? va_arg(rest, mode_t) : 0;
  va_end(rest);
  if (!next) next = (opening *)next_of("open");
  return opened(next, path, flags, mode);
}

int openat(int folder, const char *path, int flags, ...) {
  static opening *next;
  va_list rest;
  va_start(rest, flags);
  mode_t mode = flags & (O_CREAT | O_TMPFILE) ? va_arg(rest, mode_t) : 0;
  va_end(rest);
  if (folder != AT_FDCWD && path[0] != '/') {
    static int (*there)(int, const char *, int, ...);
    if (!there) there = (int (*)(int, const char *, int, ...))next_of("openat");
    return there(folder, path, flags, mode);
  }
  if (!next) next = (opening *)next_of("open");
  return opened(next, path, flags, mode);
}

int close(int fd) {
  static int (*next)(int);
  if (!next) next = (int (*)(int))next_of("close");
  keep(fd, NULL);
  return next(fd);
}

/* how many of so many octets there is room for, -1 where there is none */
static ssize_t room_for(size_t size) {
  unsigned long room = 0, times = 0;
  static unsigned long failed;
  const char *text = getenv("TRACE_FULL");
  if (!text || sscanf(text, "%lu %lu", &room, &times) != 2 || failed >= times || written + size <= room) return (ssize_t)size;
  if (written < room) return (ssize_t)(room - written);
  failed++;
  errno = ENOSPC;
  return -1;
}

ssize_t read(int fd, void *octets, size_t size) {
  static ssize_t (*next)(int, void *, size_t);
  if (!next) next = (ssize_t (*)(int, void *, size_t))next_of("read");
  const char *text = getenv("TRACE_READ");
  if (fd != 0) return next(fd, octets, size);
  if (text && size > strtoul(text, NULL, 10)) size = strtoul(text, NULL, 10);
  ssize_t n = next(fd, octets, size);
  if (n > 0) note("given", 0, (unsigned long)n, "-", "", 0);
  return n;
}

ssize_t write(int fd, const void *octets, size_t size) {
  const char *name = name_of(fd);
  if (!name) {
    if (fd != 1) return put(fd, octets, size);
    note("told", 0, 0, "-", octets, size); /* before it is: what is told later is promised no less */
    return put(fd, octets, size);
  }
  int what = fate(WRITE, name);
  if (what == FAILS) return -1;
  ssize_t room = room_for(size);
  if (room < 0) return -1;
  size = (size_t)room;
  const char *text = getenv("TRACE_SHORT");
  if (text && strtoul(text, NULL, 10) == made[WRITE] && size > 1) size = 1;
  if (what == IS_KILLED) size /= 2;
  off_t at = lseek(fd, 0, SEEK_CUR);
  keep_old(fd, at, size);
  ssize_t n = put(fd, octets, size);
  if (n >= 0) {
    written += (size_t)n;
    note("write", file_of(fd), (unsigned long)at, name, octets, (size_t)n);
  }
  if (what == IS_KILLED) end();
  return n;
}

static int cut(const char *called, int fd, off_t size) {
  int (*next)(int, off_t) = (int (*)(int, off_t))next_of(called);
  const char *name = name_of(fd);
  if (!name) return next(fd, size);
  int what = fate(CUT, name);
  if (what == FAILS) return -1;
  if (what == IS_KILLED) end();
  int answer = next(fd, size);
  if (answer == 0) note("cut", file_of(fd), (unsigned long)size, name, "", 0);
  return answer;
}

int ftruncate(int fd, off_t size) { return cut("ftruncate", fd, size); }

int ftruncate64(int fd, off_t size) { return cut("ftruncate64", fd, size); }

static int synced(const char *called, int fd) {
  int (*next)(int) = (int (*)(int))next_of(called);
  const char *name = name_of(fd);
  if (!name) return next(fd);
  int what = fate(is_folder(name) ? NAMES : SYNC, name);
  if (what == IS_LEFT_OUT) return 0;
  if (what == IS_KILLED) end();
  int answer = what == FAILS ? -1 : next(fd), error = errno;
  note(answer ? "lost" : is_folder(name) ? "names" : "sync", file_of(fd), 0, *name ? name : "-", "", 0);
  if (answer == 0) settle(file_of(fd), fd, NULL);
  else if (what == FAILS && getenv("TRACE_SPOIL") && !is_folder(name)) settle(file_of(fd), fd, name);
  errno = error;
  return answer;
}

int fsync(int fd) { return synced("fsync", fd); }

int fdatasync(int fd) { return synced("fdatasync", fd); }

int rename(const char *from, const char *to) {
  static int (*next)(const char *, const char *);
  if (!next) next = (int (*)(const char *, const char *))next_of("rename");
  const char *old = within(from), *new = within(to);
  if (!old || !new) return next(from, to);
  int what = fate(RENAME, old);
  if (what == FAILS) return -1;
  if (what == IS_KILLED) end();
  int answer = next(from, to);
  for (int fd = 0; answer == 0 && fd < FILES; fd++)
    if (names[fd] && strcmp(names[fd], old) == 0) keep(fd, new);
  if (answer == 0) note("rename", 0, 0, old, new, strlen(new));
  return answer;
}

int unlink(const char *path) {
  static int (*next)(const char *);
  if (!next) next = (int (*)(const char *))next_of("unlink");
  const char *name = within(path);
  struct stat seen;
  if (!name || stat(path, &seen) != 0) return next(path);
  int what = fate(REMOVE, name);
  if (what == FAILS) return -1;
  if (what == IS_KILLED) end();
  int answer = next(path);
  if (answer == 0) note("remove", (unsigned long)seen.st_ino, 0, name, "", 0);
  return answer;
}
