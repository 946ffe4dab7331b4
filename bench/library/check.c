/* Reads a counted stream from standard input, as the program reads it; `check` checks its records too, by a loop over
   syslogbox_frame and syslogbox_check, and prints how many are records. */
#include <stdio.h>
#include <string.h>
#include <syslogbox.h>
#include <unistd.h>

enum { PIECE = 4096 };

static uint8_t held[SYSLOGBOX_FRAME_MAX + PIECE];

/* How many octets of whole frames there are; *good grows by those that are records. */
static size_t check(size_t len, unsigned long *good)
{
    size_t at = 0, start, end;
    int64_t taken;

    while ((taken = syslogbox_frame(SYSLOGBOX_COUNTED, held + at, len - at, &start, &end)) > 0) {
        *good += (unsigned long)syslogbox_check(held + at + start, end - start, NULL);
        at += (size_t)taken;
    }
    return at;
}

int main(int argc, char **argv)
{
    int checks = argc > 1 && !strcmp(argv[1], "check");
    unsigned long good = 0;
    size_t len = 0;
    ssize_t count;

    while ((count = read(0, held + len, PIECE)) > 0) {
        size_t taken = checks ? check(len += (size_t)count, &good) : 0;
        memmove(held, held + taken, len -= taken);
    }
    printf("%lu\n", good);
    return count < 0 || len;
}
