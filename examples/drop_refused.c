/*
 * Passes on the frames of a stream that are records, and drops the others.
 *
 * usage: drop_refused [counted|lf] < IN > OUT
 *
 * Standard error has a line for each frame that was dropped: its number from 1 on, the kind, the field and the octet.
 * The status is 0 where none was, 1 where one was or the stream ends inside a frame, 2 where a device fails or the
 * arguments are wrong.
 *
 *     gcc -o drop_refused drop_refused.c -lsyslogbox
 */
#include <stdio.h>
#include <string.h>
#include <syslogbox.h>
#include <unistd.h>

/* Room for a frame of the greatest length, its count, and what is read behind it. */
enum { ROOM = SYSLOGBOX_FRAME_MAX + 65536 };

static uint8_t held[ROOM];

/* Passes on the whole frames that are held, and drops those that are no records; gives how many octets they took. */
static size_t pass_on(int framing, size_t len, int *status, unsigned long *number)
{
    size_t at = 0, start, end;
    int64_t taken;
    struct syslogbox_fault fault;

    while ((taken = syslogbox_frame(framing, held + at, len - at, &start, &end)) > 0) {
        ++*number;
        if (syslogbox_check(held + at + start, end - start, &fault)) {
            if (!fwrite(held + at, (size_t)taken, 1, stdout))
                *status = 2;
        } else {
            fprintf(stderr, "%lu kind %u field %u octet %llu\n", *number, fault.kind, fault.field,
                    (unsigned long long)fault.offset);
            *status = *status == 2 ? 2 : 1;
        }
        at += (size_t)taken;
    }
    if (taken < 0) {
        fprintf(stderr, "a bad count\n");
        *status = *status == 2 ? 2 : 1;
        return len + 1;
    }
    return at;
}

/* The framing that the arguments name, or 0. */
static int framing_of(int argc, char **argv)
{
    if (argc < 2)
        return SYSLOGBOX_COUNTED;
    if (argc > 2)
        return 0;
    return !strcmp(argv[1], "counted") ? SYSLOGBOX_COUNTED : !strcmp(argv[1], "lf") ? SYSLOGBOX_LF : 0;
}

int main(int argc, char **argv)
{
    int framing = framing_of(argc, argv);
    int status = 0;
    unsigned long number = 0;
    size_t len = 0;
    ssize_t count;

    if (!framing) {
        fprintf(stderr, "usage: drop_refused [counted|lf] < IN > OUT\n");
        return 2;
    }
    while ((count = read(0, held + len, sizeof held - len)) > 0) {
        size_t taken = pass_on(framing, len += (size_t)count, &status, &number);
        if (status == 2 || taken > len)
            return fflush(stdout) ? 2 : status;
        memmove(held, held + taken, len -= taken);
        if (len == sizeof held) {
            fprintf(stderr, "a frame is too long\n");
            return fflush(stdout) ? 2 : 1;
        }
    }
    if (count < 0 || fflush(stdout))
        return 2;
    if (len) {
        fprintf(stderr, "the stream ends inside a frame\n");
        return 1;
    }
    return status;
}
