/* pace send COUNTED LINES CONNECTIONS RATE SECONDS START: sends so many records a second, in turn over the connections,
   of which every other one has lines, to the second port. Each second it prints how many it has sent, at the end how
   many, in how many seconds, by how many milliseconds it was late at most, and its processor seconds.
   pace write COUNT RATE START: writes the same records counted, from the first on, which is their archive.

   Record n says n and the microsecond START + n * 1,000,000 / RATE since 1970, so all differ and their times ascend. */
#include <arpa/inet.h>
#include <netinet/tcp.h>
#include <poll.h>
#include <stdio.h>
#include <stdlib.h>
#include <string.h>
#include <sys/resource.h>
#include <sys/socket.h>
#include <time.h>
#include <unistd.h>

enum { STEP = 10000000, ROOM = 1 << 20 }; /* nanoseconds between two turns; octets that one send has at most */

static const char TEXT[] = " host.example.com app 4711 ID47 - record 000000000000 accepted connection for user from "
                           "port 22, request served in 12 ms, cache miss";
static const int DIGITS_AT = 41; /* the place of the number in the text */

static long long now(void) {
  struct timespec t;
  clock_gettime(CLOCK_MONOTONIC, &t);
  return t.tv_sec * 1000000000LL + t.tv_nsec;
}

static void put_digits(char *at, int count, long long value) {
  while (count-- > 0) {
    at[count] = (char)('0' + value % 10);
    value /= 10;
  }
}

/* The date and time of a second, as `2026-11-26T12:00:00`; the last one is kept. */
static const char *clock_of(long long second) {
  static long long kept = -1;
  static char text[32];
  if (second != kept) {
    time_t at = (time_t)second;
    strftime(text, sizeof text, "%Y-%m-%dT%H:%M:%S", gmtime(&at));
    kept = second;
  }
  return text;
}

/* Puts record n in its framing, and gives its length. */
static size_t put_record(char *out, int counted, long long n, long long rate, long long start) {
  long long micros = start + n * 1000000 / rate;
  char *at = out;
  size_t length = 7 + 27 + sizeof TEXT - 1;
  if (counted) at += sprintf(at, "%zu ", length);
  memcpy(at, "<134>1 ", 7);
  memcpy(at + 7, clock_of(micros / 1000000), 19);
  at[26] = '.';
  put_digits(at + 27, 6, micros % 1000000);
  at[33] = 'Z';
  memcpy(at + 34, TEXT, sizeof TEXT - 1);
  put_digits(at + 34 + DIGITS_AT, 12, n);
  at += length;
  if (!counted) *at++ = '\n';
  return (size_t)(at - out);
}

static int opened(int port) {
  int one = socket(AF_INET, SOCK_STREAM, 0), on = 1;
  struct sockaddr_in to = {
      .sin_family = AF_INET, .sin_port = htons(port), .sin_addr.s_addr = htonl(INADDR_LOOPBACK)};
  if (one < 0 || connect(one, (struct sockaddr *)&to, sizeof to) != 0) exit(98);
  setsockopt(one, IPPROTO_TCP, TCP_NODELAY, &on, sizeof on);
  return one;
}

static void send_all(int one, const char *octets, size_t size) {
  for (size_t at = 0; at < size;) {
    ssize_t sent = send(one, octets + at, size - at, MSG_NOSIGNAL);
    if (sent < 0) exit(97);
    at += (size_t)sent;
  }
}

static int write_records(long long count, long long rate, long long start) {
  static char room[ROOM];
  for (long long n = 0; n < count; n++) {
    size_t size = put_record(room, 1, n, rate, start);
    if (fwrite(room, 1, size, stdout) != size) return 97;
  }
  return fflush(stdout) == 0 ? 0 : 97;
}

/* Sends records from one on up to another, a share of them over each connection. */
static void send_shares(const int *streams, int count, long long from, long long to, long long rate, long long start) {
  static char room[ROOM];
  for (int c = 0; c < count; c++) {
    size_t size = 0;
    for (long long n = from + c; n < to; n += count) {
      size += put_record(room + size, c % 2 == 0, n, rate, start);
      if (size > ROOM - 1024) {
        send_all(streams[c], room, size);
        size = 0;
      }
    }
    if (size) send_all(streams[c], room, size);
  }
}

static int send_records(int counted, int lines, int count, long long rate, long long seconds,
                        long long start) {
  int *streams = calloc((size_t)count, sizeof *streams);
  long long whole = rate * seconds, sent = 0, latest = 0, told = 0;
  if (!streams) return 99;
  for (int c = 0; c < count; c++) streams[c] = opened(c % 2 == 0 ? counted : lines);
  long long begun = now();
  for (long long due = begun + STEP; sent < whole; due += STEP) {
    struct timespec at = {due / 1000000000, due % 1000000000};
    while (clock_nanosleep(CLOCK_MONOTONIC, TIMER_ABSTIME, &at, NULL) != 0) {}
    long long to = (due - begun) / 1000000 * rate / 1000;
    if (to > whole) to = whole;
    send_shares(streams, count, sent, to, rate, start);
    sent = to;
    if (now() - due > latest) latest = now() - due;
    if (sent / rate > told && sent < whole) {
      told = sent / rate;
      printf("%lld\n", sent);
      fflush(stdout);
    }
  }
  long long ended = now();
  struct rusage used;
  for (int c = 0; c < count; c++) close(streams[c]);
  getrusage(RUSAGE_SELF, &used);
  printf("%lld %.3f %.1f %.3f\n", sent, (ended - begun) / 1e9, latest / 1e6,
         used.ru_utime.tv_sec + used.ru_stime.tv_sec + (used.ru_utime.tv_usec + used.ru_stime.tv_usec) / 1e6);
  return 0;
}

int main(int argc, char **argv) {
  long long numbers[7] = {0};
  for (int n = 2; n < argc && n < 8; n++) numbers[n - 2] = atoll(argv[n]);
  if (argc == 5 && strcmp(argv[1], "write") == 0) return write_records(numbers[0], numbers[1], numbers[2]);
  if (argc != 8 || strcmp(argv[1], "send") != 0 || numbers[2] < 1 || numbers[3] < 1) return 99;
  return send_records((int)numbers[0], (int)numbers[1], (int)numbers[2], numbers[3], numbers[4], numbers[5]);
}
