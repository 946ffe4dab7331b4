/* The floor of a store: counted frames of standard input are written to the file journal.1 of a folder in the same batches
   of the same octets as a store's journal, with the same syncs. It looks at nothing in a record and keeps nothing.

     floor DIR BATCH

   Build: gcc -O2 -o floor floor.c */
#define _GNU_SOURCE
#include <fcntl.h>
#include <stdint.h>
#include <stdio.h>
#include <stdlib.h>
#include <string.h>
#include <unistd.h>

static int file;
static off_t end;
static unsigned char *batch;
static size_t used = 4, room = 1 << 20;
static unsigned long received, waiting;

static void fail(const char *what) {
  perror(what);
  exit(2);
}

static void all(int fd, const void *octets, size_t size) {
  for (const char *at = octets; size;) {
    ssize_t n = write(fd, at, size);
    if (n < 0) fail("write");
    at += n;
    size -= (size_t)n;
  }
}

static void commit(void) {
  uint32_t size = (uint32_t)(used - 4);
  memcpy(batch, &size, 4);
  batch[used] = 0;
  if (lseek(file, 0, SEEK_END) < 0) fail("lseek");
  all(file, batch, used + 1);
  if (fdatasync(file)) fail("sync");
  if (lseek(file, end, SEEK_SET) < 0) fail("lseek");
  all(file, "\1", 1);
  if (fdatasync(file)) fail("sync");
  end += (off_t)used + 1;
  used = 4;
  waiting = 0;
  char line[40];
  all(1, line, (size_t)snprintf(line, sizeof line, "committed %lu\n", received));
}

int main(int argc, char **argv) {
  if (argc != 3) return 2;
  unsigned long each = strtoul(argv[2], NULL, 10);
  int folder = open(argv[1], O_RDONLY | O_DIRECTORY);
  if (folder < 0) fail(argv[1]);
  file = openat(folder, "journal.1", O_RDWR | O_CREAT | O_EXCL, 0600);
  if (file < 0) fail("journal.1");
  all(file, "", 1);
  if (fdatasync(file) || fsync(folder)) fail("sync");
  static unsigned char piece[65536];
  batch = malloc(room);
  size_t count = 0, left = 0; /* of the frame: its count as far as it was read, and its octets that are to come */
  ssize_t n;
  while ((n = read(0, piece, sizeof piece)) > 0) {
    for (unsigned char *at = piece, *stop = piece + n; at < stop;) {
      size_t take = 1;
      if (left) {
        take = (size_t)(stop - at) < left ? (size_t)(stop - at) : left;
        left -= take;
      } else if (*at == ' ') {
        left = count;
        count = 0;
      } else {
        count = count * 10 + (size_t)(*at - '0');
      }
      while (used + take + 1 > room) batch = realloc(batch, room *= 2);
      memcpy(batch + used, at, take);
      used += take;
      at += take;
      if (count == 0 && left == 0) {
        received++;
        if (++waiting == each) commit();
      }
    }
  }
  if (waiting) commit();
  return 0;
}
