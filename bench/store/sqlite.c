/* The same records in SQLite: counted frames of standard input are inserted into a table, in transactions of so many, each
   of which is on the disk before the next begins (synchronous=FULL).

     sqlite FILE BATCH log|set JOURNAL

   `log` is a table that takes each record, `set` one that takes equal records once. JOURNAL is wal or delete.

   Build: gcc -O2 -o sqlite sqlite.c -lsqlite3 */
#include <sqlite3.h>
#include <stdio.h>
#include <stdlib.h>
#include <string.h>
#include <unistd.h>

static sqlite3 *base;
static unsigned long received, waiting;

static void run(const char *text) {
  char *fault = NULL;
  if (sqlite3_exec(base, text, NULL, NULL, &fault) != SQLITE_OK) {
    fprintf(stderr, "%s: %s\n", text, fault);
    exit(2);
  }
}

static void commit(void) {
  run("commit");
  waiting = 0;
  char line[40];
  int n = snprintf(line, sizeof line, "committed %lu\n", received);
  if (write(1, line, (size_t)n) != n) exit(2);
}

int main(int argc, char **argv) {
  if (argc != 5) return 2;
  unsigned long each = strtoul(argv[2], NULL, 10);
  int is_set = strcmp(argv[3], "set") == 0;
  char text[80];
  if (sqlite3_open(argv[1], &base) != SQLITE_OK) return 2;
  snprintf(text, sizeof text, "pragma journal_mode=%s", argv[4]);
  run(text);
  run("pragma synchronous=full");
  run(is_set ? "create table records(octets blob primary key) without rowid" : "create table records(octets blob)");
  sqlite3_stmt *insert;
  if (sqlite3_prepare_v2(base, "insert or ignore into records values(?)", -1, &insert, NULL) != SQLITE_OK) return 2;
  static unsigned char piece[65536], record[1 << 20];
  size_t count = 0, left = 0, used = 0;
  ssize_t n;
  while ((n = read(0, piece, sizeof piece)) > 0) {
    for (unsigned char *at = piece, *stop = piece + n; at < stop;) {
      if (!left) {
        if (*at == ' ') {
          left = count;
          count = used = 0;
        } else {
          count = count * 10 + (size_t)(*at - '0');
        }
        at++;
        continue;
      }
      size_t take = (size_t)(stop - at) < left ? (size_t)(stop - at) : left;
      memcpy(record + used, at, take);
      used += take;
      left -= take;
      at += take;
      if (left) continue;
      if (!waiting) run("begin");
      sqlite3_bind_blob(insert, 1, record, (int)used, SQLITE_STATIC);
      if (sqlite3_step(insert) != SQLITE_DONE) return 2;
      sqlite3_reset(insert);
      received++;
      if (++waiting == each) commit();
    }
  }
  if (waiting) commit();
  sqlite3_finalize(insert);
  return sqlite3_close(base) == SQLITE_OK ? 0 : 2;
}
