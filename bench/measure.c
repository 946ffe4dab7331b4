/* Runs a program and tells what it took: user and system microseconds, peak memory in KiB (ru_maxrss),
   its status. One line, appended to a file.

     measure FILE PROGRAM ARGUMENT..

   A process keeps in ru_maxrss what it held before it became another program, so a large parent would
   be counted; this one is small.

   Build: gcc -O2 -o measure measure.c */
#include <stdio.h>
#include <sys/resource.h>
#include <sys/time.h>
#include <sys/wait.h>
#include <unistd.h>

static long micros(struct timeval t) { return t.tv_sec * 1000000L + t.tv_usec; }

int main(int argc, char **argv) {
  if (argc < 3) return 99;
  pid_t child = fork();
  if (child < 0) return 99;
  if (child == 0) {
    execvp(argv[2], argv + 2);
    _exit(99);
  }
  close(0);
  close(1);
  int status;
  struct rusage used;
  if (wait4(child, &status, 0, &used) != child) return 99;
  int code = WIFEXITED(status) ? WEXITSTATUS(status) : 128 + WTERMSIG(status);
  FILE *out = fopen(argv[1], "a");
  if (!out) return 99;
  fprintf(out, "%ld %ld %ld %d\n", micros(used.ru_utime), micros(used.ru_stime), used.ru_maxrss, code);
  return fclose(out) == 0 ? code : 99;
}
