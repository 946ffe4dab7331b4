/* sender tcp|burst|paced PORT FILE [CONNECTIONS]: sends the counted records of a file as datagrams, or by TCP all its
   octets, counted or lines, in parts of whole records over so many connections at once (1 by default), each as fast as
   it is taken. Prints when it began, once all connections stood, and when it ended, in nanoseconds of the system's
   monotonic clock. */
#include <arpa/inet.h>
#include <errno.h>
#include <fcntl.h>
#include <poll.h>
#include <stdio.h>
#include <stdlib.h>
#include <string.h>
#include <sys/socket.h>
#include <time.h>
#include <unistd.h>

struct part {
  const char *at, *end;
};

static long long now(void) {
  struct timespec t;
  clock_gettime(CLOCK_MONOTONIC, &t);
  return t.tv_sec * 1000000000LL + t.tv_nsec;
}

/* The octets in the queue of the UDP socket with this port. */
static unsigned long queued(int port) {
  char line[256], wanted[16];
  unsigned long in = 0;
  FILE *table = fopen("/proc/net/udp", "r");
  snprintf(wanted, sizeof wanted, "0100007F:%04X", port);
  while (table && fgets(line, sizeof line, table)) {
    char local[64];
    unsigned long out, seen;
    int fields = sscanf(line, " %*[^:]: %63s %*s %*s %lx:%lx", local, &out, &seen);
    if (fields == 3 && strcmp(local, wanted) == 0) in = seen;
  }
  if (table) fclose(table);
  return in;
}

/* The end of the record that begins here: a line, or a counted one. */
static const char *record_end(const char *at, const char *end) {
  char *front;
  if (*at == '<') {
    const char *feed = memchr(at, '\n', end - at);
    return feed ? feed + 1 : end;
  }
  size_t length = strtoul(at, &front, 10);
  return front + 1 + length;
}

static int opened(int kind, int port) {
  int one = socket(AF_INET, kind, 0);
  struct sockaddr_in to = {
      .sin_family = AF_INET, .sin_port = htons(port), .sin_addr.s_addr = htonl(INADDR_LOOPBACK)};
  if (one < 0 || connect(one, (struct sockaddr *)&to, sizeof to) != 0) exit(98);
  return one;
}

static void send_datagrams(int one, int port, int paced, const char *at, const char *end) {
  for (long n = 1; at < end; n++) {
    const char *behind = record_end(at, end), *record = (const char *)memchr(at, ' ', behind - at) + 1;
    send(one, record, behind - record, 0);
    at = behind;
    if (paced && n % 32 == 0) while (queued(port) > 65536) {}
  }
}

/* The octets in parts of nearly one size. */
static void cut(struct part *parts, int count, const char *octets, size_t size) {
  const char *at = octets, *end = octets + size;
  for (int n = 0; n < count; n++) {
    const char *most = octets + size / count * (n + 1);
    parts[n].at = at;
    while (at < end && (at < most || n == count - 1)) at = record_end(at, end);
    parts[n].end = at;
  }
}

/* Each connection in turn gives at most 4,096 octets, or 65,536 if it is the only one. */
static void send_streams(struct pollfd *streams, struct part *parts, int count) {
  size_t most = count == 1 ? 65536 : 4096;
  for (int left = count; left > 0;) {
    if (poll(streams, count, -1) < 0) exit(97);
    for (int n = 0; n < count; n++) {
      if (!(streams[n].revents & (POLLOUT | POLLERR | POLLHUP))) continue;
      size_t size = parts[n].end - parts[n].at;
      ssize_t sent = send(streams[n].fd, parts[n].at, size < most ? size : most, MSG_NOSIGNAL);
      if (sent < 0 && errno != EAGAIN) exit(97);
      if (sent > 0) parts[n].at += sent;
      if (parts[n].at < parts[n].end) continue;
      close(streams[n].fd);
      streams[n].fd = -1;
      left--;
    }
  }
}

int main(int argc, char **argv) {
  if (argc != 4 && argc != 5) return 99;
  int tcp = strcmp(argv[1], "tcp") == 0, port = atoi(argv[2]), count = argc == 5 ? atoi(argv[4]) : 1;
  FILE *file = fopen(argv[3], "rb");
  if (!file || count < 1) return 99;
  fseek(file, 0, SEEK_END);
  size_t size = ftell(file);
  char *octets = malloc(size + 1);
  struct pollfd *streams = calloc(count, sizeof *streams);
  struct part *parts = calloc(count, sizeof *parts);
  rewind(file);
  if (!octets || !streams || !parts || fread(octets, 1, size, file) != size) return 99;
  octets[size] = 0;
  long long begun;
  if (tcp) {
    cut(parts, count, octets, size);
    for (int n = 0; n < count; n++) {
      streams[n] = (struct pollfd){.fd = opened(SOCK_STREAM, port), .events = POLLOUT};
      fcntl(streams[n].fd, F_SETFL, O_NONBLOCK);
    }
    begun = now();
    send_streams(streams, parts, count);
  } else {
    int one = opened(SOCK_DGRAM, port);
    begun = now();
    send_datagrams(one, port, strcmp(argv[1], "paced") == 0, octets, octets + size);
  }
  printf("%lld %lld\n", begun, now());
  return 0;
}
