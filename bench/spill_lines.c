/* Writes canonical records as lines, so many octets of them: usage: spill_lines OCTETS SEED.
   About one in ten stands there twice. They come in random order over a year, of about 200 octets each. */
#include <stdint.h>
#include <stdio.h>
#include <stdlib.h>

static uint64_t state;

static uint64_t mixed(uint64_t n)
{
    n += 0x9e3779b97f4a7c15u;
    n = (n ^ (n >> 30)) * 0xbf58476d1ce4e5b9u;
    n = (n ^ (n >> 27)) * 0x94d049bb133111ebu;
    return n ^ (n >> 31);
}

static void number(char *to, int digits, uint64_t n)
{
    while (digits-- > 0) {
        to[digits] = '0' + n % 10;
        n /= 10;
    }
}

int main(int argc, char **argv)
{
    static const char words[] = "connection accepted from 10.0.0.1 port 5514; session opened for user root by (uid=0); "
                                "request served in 17 ms, cache miss, queue depth 42, upstream reset by peer ";
    static const char *hosts[] = {"host007", "web-17", "db.example.com", "gateway"};
    static const char *apps[] = {"sshd", "nginx", "kernel", "cron"};
    uint64_t octets = argc > 1 ? strtoull(argv[1], NULL, 10) : 0, written = 0, many = 0;
    char line[512];

    state = argc > 2 ? strtoull(argv[2], NULL, 10) << 40 : 0;
    while (written < octets) {
        /* each tenth is one of those before */
        uint64_t n = many % 10 == 9 ? state + mixed(many) % many : state + many;
        uint64_t draw = mixed(n), more = mixed(draw);
        int length = sprintf(line, "<%d>1 2026-01-01T00:00:00.000000Z %s %s ", (int)(draw % 192), hosts[draw >> 8 & 3],
                             apps[draw >> 10 & 3]);
        char *time = line + (draw % 192 < 10 ? 5 : draw % 192 < 100 ? 6 : 7);
        number(time + 5, 2, more % 12 + 1);
        number(time + 8, 2, more / 12 % 28 + 1);
        number(time + 11, 2, more / 336 % 24);
        number(time + 14, 2, more / 8064 % 60);
        number(time + 17, 2, more / 483840 % 60);
        number(time + 20, 6, more / 29030400 % 1000000);
        length += sprintf(line + length, "%d - - %016llx %.*s\n", (int)(draw >> 20 & 16383), (unsigned long long)draw,
                          60 + (int)(draw >> 40 & 63), words + (draw >> 50 & 31));
        if (fwrite(line, 1, length, stdout) != (size_t)length)
            return 1;
        written += length;
        many++;
    }
    return fflush(stdout) != 0;
}
