/* Preloaded before the program: lets one allocation, open, read, write or call of a socket fail, or one read or write
   be short. Each is chosen by a number counted from 1:

     SHIM_MALLOC=N        the Nth call of malloc, realloc or calloc returns a null pointer
     SHIM_OPEN=N          the Nth open fails with EACCES; those of /dev/null are not counted
     SHIM_OPEN_ERROR=E    it fails with the error E
     SHIM_NULL=N          the Nth open of /dev/null fails with EACCES
     SHIM_READ=N          the Nth read fails with EIO
     SHIM_READ_SHORT=N    the Nth read gives at most one octet
     SHIM_READ_AGAIN=N    the Nth read is interrupted (EINTR)
     SHIM_WRITE=N         the Nth write fails with EIO
     SHIM_WRITE_SHORT=N   the Nth write takes at most one octet
     SHIM_FD=F            reads and writes are counted of this descriptor alone
     SHIM_BIND=N          the Nth call of socket, bind or listen fails with EACCES
     SHIM_ACCEPT=N        the Nth accept fails with ECONNABORTED
     SHIM_ACCEPT_AGAIN=N  the Nth accept is interrupted (EINTR)
     SHIM_RECEIVE=N       the Nth recv, recvfrom or read of a socket fails with ECONNRESET
     SHIM_RECEIVE_AGAIN=N the same is interrupted (EINTR)
     SHIM_RECEIVE_SHORT=N the same gives at most one octet, if it is of a connection
     SHIM_COUNTS=FILE     how many of each were made, written at the end
     SHIM_SPEED=N         the clock that no one sets goes N times as fast, and waits for sockets end so much earlier
     SHIM_STILL=1         that clock stands still

   Others make each call of a socket answer as a wrong source would, where they are set to a number that is not 0:

     SHIM_HALF=1          half of the octets of each datagram, or of each piece of a connection, are dropped
     SHIM_CUT=N           a datagram is cut after N octets
     SHIM_EMPTY_PASSED=1  an empty datagram is passed over
     SHIM_RESET_IS_END=1  a connection that is reset has ended
     SHIM_END_IS_RESET=1  a connection that has ended is reset

   Build: gcc -shared -fPIC -O1 -o shim.so shim.c -ldl */
#define _GNU_SOURCE
#include <dlfcn.h>
#include <errno.h>
#include <fcntl.h>
#include <stdarg.h>
#include <stdio.h>
#include <stdlib.h>
#include <string.h>
#include <sys/epoll.h>
#include <sys/socket.h>
#include <time.h>
#include <unistd.h>

static unsigned long allocations, opens, nulls, reads, writes, binds, accepts, receives;
static int quiet;

static unsigned long chosen(const char *name) {
  const char *text = getenv(name);
  return text ? strtoul(text, NULL, 10) : 0;
}

static int counted(int fd) {
  const char *text = getenv("SHIM_FD");
  return !text || atoi(text) == fd;
}

typedef void function(void);

static function *next_of(const char *name) {
  quiet++;
  void *object = dlsym(RTLD_NEXT, name);
  quiet--;
  function *next;
  memcpy(&next, &object, sizeof next); /* ISO C has no other way from one to the other */
  return next;
}

static int refused(void) {
  if (quiet) return 0;
  allocations++;
  return allocations == chosen("SHIM_MALLOC");
}

void *malloc(size_t size) {
  static void *(*next)(size_t);
  if (!next) next = (void *(*)(size_t))next_of("malloc");
  if (refused()) { errno = ENOMEM; return NULL; }
  return next(size);
}

void *realloc(void *old, size_t size) {
  static void *(*next)(void *, size_t);
  if (!next) next = (void *(*)(void *, size_t))next_of("realloc");
  if (refused()) { errno = ENOMEM; return NULL; }
  return next(old, size);
}

static int kept(const char *path) {
  if (quiet) return 0;
  if (strcmp(path, "/dev/null") == 0) return ++nulls == chosen("SHIM_NULL");
  return ++opens == chosen("SHIM_OPEN");
}

typedef int opening(const char *, int, ...);

static int opened(opening **next, const char *name, const char *path, int flags, va_list rest) {
  if (!*next) *next = (opening *)next_of(name);
  if (kept(path)) { errno = chosen("SHIM_OPEN_ERROR") ? (int)chosen("SHIM_OPEN_ERROR") : EACCES; return -1; }
  return (*next)(path, flags, flags & (O_CREAT | O_TMPFILE) ? va_arg(rest, mode_t) : 0);
}

int open(const char *path, int flags, ...) {
  static opening *next;
  va_list rest;
  va_start(rest, flags);
  int fd = opened(&next, "open", path, flags, rest);
  va_end(rest);
  return fd;
}

int open64(const char *path, int flags, ...) {
  static opening *next;
  va_list rest;
  va_start(rest, flags);
  int fd = opened(&next, "open64", path, flags, rest);
  va_end(rest);
  return fd;
}

/* the Nth call of a kind: whether it fails with the error, or is interrupted */
static int stopped(unsigned long n, const char *name, int error, const char *again) {
  if (n == chosen(name)) { errno = error; return 1; }
  if (again && n == chosen(again)) { errno = EINTR; return 1; }
  return 0;
}

int socket(int domain, int type, int protocol) {
  static int (*next)(int, int, int);
  if (!next) next = (int (*)(int, int, int))next_of("socket");
  return stopped(++binds, "SHIM_BIND", EACCES, NULL) ? -1 : next(domain, type, protocol);
}

/* the headers of glibc have unions in the place of these addresses */
__extension__ int bind(int fd, const struct sockaddr *address, socklen_t length) {
  static int (*next)(int, const struct sockaddr *, socklen_t);
  if (!next) next = (int (*)(int, const struct sockaddr *, socklen_t))next_of("bind");
  return stopped(++binds, "SHIM_BIND", EACCES, NULL) ? -1 : next(fd, address, length);
}

int listen(int fd, int waiting) {
  static int (*next)(int, int);
  if (!next) next = (int (*)(int, int))next_of("listen");
  return stopped(++binds, "SHIM_BIND", EACCES, NULL) ? -1 : next(fd, waiting);
}

static int not_accepted(void) { return stopped(++accepts, "SHIM_ACCEPT", ECONNABORTED, "SHIM_ACCEPT_AGAIN"); }

__extension__ int accept(int fd, struct sockaddr *address, socklen_t *length) {
  static int (*next)(int, struct sockaddr *, socklen_t *);
  if (!next) next = (int (*)(int, struct sockaddr *, socklen_t *))next_of("accept");
  return not_accepted() ? -1 : next(fd, address, length);
}

__extension__ int accept4(int fd, struct sockaddr *address, socklen_t *length, int flags) {
  static int (*next)(int, struct sockaddr *, socklen_t *, int);
  if (!next) next = (int (*)(int, struct sockaddr *, socklen_t *, int))next_of("accept4");
  return not_accepted() ? -1 : next(fd, address, length, flags);
}

/* the type of a socket, or 0 */
static int kind_of(int fd) {
  int kind = 0, error = errno;
  socklen_t length = sizeof kind;
  if (getsockopt(fd, SOL_SOCKET, SO_TYPE, &kind, &length) != 0) kind = 0;
  errno = error;
  return kind;
}

/* whether the call fails; a connection may give less than was asked for, a datagram may not */
static int not_received(int fd, size_t *size) {
  if (stopped(++receives, "SHIM_RECEIVE", ECONNRESET, "SHIM_RECEIVE_AGAIN")) return 1;
  if (receives == chosen("SHIM_RECEIVE_SHORT") && kind_of(fd) == SOCK_STREAM && *size > 1) *size = 1;
  return 0;
}

/* what a wrong source would make of what a call of a socket gave */
static ssize_t misread(int fd, ssize_t n) {
  int kind = kind_of(fd);
  if (kind == SOCK_STREAM && n < 0 && errno == ECONNRESET && chosen("SHIM_RESET_IS_END")) return 0;
  if (kind == SOCK_STREAM && n == 0 && chosen("SHIM_END_IS_RESET")) { errno = ECONNRESET; return -1; }
  if (kind == SOCK_DGRAM && chosen("SHIM_CUT") && n > (ssize_t)chosen("SHIM_CUT")) return (ssize_t)chosen("SHIM_CUT");
  return n > 0 && chosen("SHIM_HALF") ? n / 2 : n;
}

static int is_passed(int fd, ssize_t n) { return n == 0 && chosen("SHIM_EMPTY_PASSED") && kind_of(fd) == SOCK_DGRAM; }

ssize_t recv(int fd, void *room, size_t size, int flags) {
  static ssize_t (*next)(int, void *, size_t, int);
  if (!next) next = (ssize_t (*)(int, void *, size_t, int))next_of("recv");
  if (not_received(fd, &size)) return -1;
  ssize_t n = next(fd, room, size, flags);
  return misread(fd, is_passed(fd, n) ? next(fd, room, size, flags) : n);
}

__extension__ ssize_t recvfrom(int fd, void *room, size_t size, int flags, struct sockaddr *address, socklen_t *length) {
  static ssize_t (*next)(int, void *, size_t, int, struct sockaddr *, socklen_t *);
  if (!next) next = (ssize_t (*)(int, void *, size_t, int, struct sockaddr *, socklen_t *))next_of("recvfrom");
  if (not_received(fd, &size)) return -1;
  ssize_t n = next(fd, room, size, flags, address, length);
  return misread(fd, is_passed(fd, n) ? next(fd, room, size, flags, address, length) : n);
}

ssize_t read(int fd, void *room, size_t size) {
  static ssize_t (*next)(int, void *, size_t);
  if (!next) next = (ssize_t (*)(int, void *, size_t))next_of("read");
  if (kind_of(fd)) {
    if (not_received(fd, &size)) return -1;
    ssize_t n = next(fd, room, size);
    return misread(fd, is_passed(fd, n) ? next(fd, room, size) : n);
  }
  if (!counted(fd)) return next(fd, room, size);
  reads++;
  if (reads == chosen("SHIM_READ")) { errno = EIO; return -1; }
  if (reads == chosen("SHIM_READ_AGAIN")) { errno = EINTR; return -1; }
  if (reads == chosen("SHIM_READ_SHORT") && size > 1) size = 1;
  return next(fd, room, size);
}

ssize_t write(int fd, const void *octets, size_t size) {
  static ssize_t (*next)(int, const void *, size_t);
  if (!next) next = (ssize_t (*)(int, const void *, size_t))next_of("write");
  if (!counted(fd)) return next(fd, octets, size);
  writes++;
  if (writes == chosen("SHIM_WRITE")) { errno = EIO; return -1; }
  if (writes == chosen("SHIM_WRITE_SHORT") && size > 1) size = 1;
  return next(fd, octets, size);
}

int clock_gettime(clockid_t clock, struct timespec *time) {
  static int (*next)(clockid_t, struct timespec *);
  static struct timespec first;
  if (!next) next = (int (*)(clockid_t, struct timespec *))next_of("clock_gettime");
  int status = next(clock, time);
  long long speed = (long long)chosen("SHIM_SPEED");
  int still = chosen("SHIM_STILL") != 0;
  if (status != 0 || (speed == 0 && !still) || clock != CLOCK_MONOTONIC) return status;
  if (first.tv_sec == 0) first = *time;
  if (still) { *time = first; return 0; }
  long long passed = speed * ((time->tv_sec - first.tv_sec) * 1000000000LL + time->tv_nsec - first.tv_nsec);
  time->tv_sec = first.tv_sec + (first.tv_nsec + passed) / 1000000000;
  time->tv_nsec = (first.tv_nsec + passed) % 1000000000;
  return 0;
}

int epoll_wait(int fd, struct epoll_event *events, int most, int millis) {
  static int (*next)(int, struct epoll_event *, int, int);
  if (!next) next = (int (*)(int, struct epoll_event *, int, int))next_of("epoll_wait");
  int speed = (int)chosen("SHIM_SPEED");
  return next(fd, events, most, millis > 0 && speed ? (millis + speed - 1) / speed : millis);
}

__attribute__((destructor)) static void report(void) {
  const char *name = getenv("SHIM_COUNTS");
  if (!name) return;
  quiet++;
  int fd = open(name, O_WRONLY | O_CREAT | O_TRUNC, 0644);
  if (fd < 0) return;
  char text[192];
  int n = snprintf(text, sizeof text, "%lu %lu %lu %lu %lu %lu %lu\n", allocations, reads, writes, opens, binds, accepts,
                   receives);
  ssize_t (*next)(int, const void *, size_t) = (ssize_t (*)(int, const void *, size_t))next_of("write");
  if (next(fd, text, (size_t)n) != n) _exit(99);
  close(fd);
}
