/* Goes over the lines of a file, a record each, again and again for half a second, and prints the processor time a record in
   nanoseconds, the least of all turns:

     peers check|view|json FILE               by a call of syslogbox for each record; `view` with syslogbox_spans
     peers lognorm|objects FILE RULEBASE      by ln_normalize of liblognorm; `objects` prints what it makes of each record, and no time

   Where a record is refused, the status is 1. Build: with -DLOGNORM and liblognorm, or without the second form. */
#include <stdio.h>
#include <stdlib.h>
#include <string.h>
#include <syslogbox.h>
#include <time.h>
#ifdef LOGNORM
#include <json.h>
#include <liblognorm.h>

static ln_ctx rules;
#endif

struct line {
    const uint8_t *at;
    size_t len;
};

static int check(struct line line)
{
    return syslogbox_check(line.at, line.len, NULL);
}

static int view(struct line line)
{
    static struct syslogbox_part_span spans[256];
    struct syslogbox_parts parts;

    return syslogbox_view(line.at, line.len, &parts, NULL) && syslogbox_spans(line.at, line.len, spans, 256, NULL) >= 8;
}

static int json(struct line line)
{
    static uint8_t out[65536];

    return syslogbox_json(line.at, line.len, out, sizeof out, NULL) > 0;
}

#ifdef LOGNORM
static int lognorm(struct line line)
{
    struct json_object *object = NULL;
    int read = !ln_normalize(rules, (const char *)line.at, line.len, &object);

    json_object_put(object);
    return read;
}

static int objects(struct line line)
{
    struct json_object *object = NULL;
    int read = !ln_normalize(rules, (const char *)line.at, line.len, &object);

    puts(json_object_to_json_string(object));
    json_object_put(object);
    return read;
}
#endif

static const struct {
    const char *name;
    int (*call)(struct line);
} calls[] = {{"check", check}, {"view", view}, {"json", json},
#ifdef LOGNORM
             {"lognorm", lognorm}, {"objects", objects},
#endif
};

/* All of a file, which ends with a line feed; its octets are kept until the end. */
static uint8_t *read_all(const char *name, size_t *len)
{
    FILE *file = fopen(name, "rb");
    uint8_t *octets;

    if (!file || fseek(file, 0, SEEK_END))
        return NULL;
    *len = (size_t)ftell(file);
    rewind(file);
    octets = malloc(*len + 1);
    return octets && fread(octets, 1, *len, file) == *len ? octets : NULL;
}

static double seconds(void)
{
    struct timespec now;

    clock_gettime(CLOCK_PROCESS_CPUTIME_ID, &now);
    return (double)now.tv_sec + (double)now.tv_nsec / 1e9;
}

int main(int argc, char **argv)
{
    int (*call)(struct line) = NULL;
    int told = argc > 1 && !strcmp(argv[1], "objects");
    size_t len = 0, count = 0, bad = 0;
    uint8_t *octets = argc > 2 ? read_all(argv[2], &len) : NULL;
    struct line *lines = octets ? malloc((len / 2 + 1) * sizeof *lines) : NULL;
    double begin, took, all = 0, least = 1e9;

    for (size_t i = 0; i < sizeof calls / sizeof *calls; i++)
        if (argc > 1 && !strcmp(argv[1], calls[i].name))
            call = calls[i].call;
    if (!call || !lines)
        return 2;
#ifdef LOGNORM
    rules = ln_initCtx();
    if (argc > 3 && ln_loadSamples(rules, argv[3]))
        return 2;
#endif
    for (uint8_t *at = octets, *end; (end = memchr(at, '\n', len - (size_t)(at - octets))); at = end + 1)
        lines[count++] = (struct line){at, (size_t)(end - at)};
    do {
        begin = seconds();
        for (size_t i = 0; i < count; i++)
            bad += !call(lines[i]);
        took = seconds() - begin;
        all += took;
        if (took < least)
            least = took;
    } while (!told && all < 0.5);
    if (!told)
        printf("%.1f\n", least * 1e9 / (double)count);
    return bad != 0;
}
