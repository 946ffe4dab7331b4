/*
 * Prints the lines of `syslogbox show --json` by the calls of libsyslogbox alone:
 *
 *   lines records FILE               of each frame of a counted stream that is a record
 *   lines legacy YEAR MINUTES FILE   of what each frame of such a stream is read as, as a packet under a clock
 *   lines union LEFT RIGHT           of each record in the union of two archives
 *
 * A line is made of the octets as they are, by all of their spans, and once more of their canonical form, by each element and
 * parameter on its own: if the two differ, or syslogbox_json gives another, the number of the frame is told, and the status
 * is 1. So it is if syslogbox_pass counts other records than are printed.
 */
#define _GNU_SOURCE
#include <stdio.h>
#include <stdlib.h>
#include <string.h>
#include <syslogbox.h>

struct octets {
    uint8_t *at;
    size_t len;
};

static void *room(size_t len)
{
    void *at = malloc(len ? len : 1);
    if (!at)
        abort();
    return at;
}

static struct octets of_file(const char *name)
{
    FILE *file = fopen(name, "rb");
    long len;

    if (!file || fseek(file, 0, SEEK_END) || (len = ftell(file)) < 0 || fseek(file, 0, SEEK_SET))
        abort();
    struct octets o = {room((size_t)len), (size_t)len};
    if (fread(o.at, 1, o.len, file) != o.len)
        abort();
    fclose(file);
    return o;
}

static struct octets cut(struct octets record, struct syslogbox_span span)
{
    return (struct octets){record.at + span.offset, span.len};
}

/* How many octets a character at the front takes (RFC 3629, section 4), or 0. */
static size_t character(struct octets text)
{
    const uint8_t *at = text.at;
    size_t len = at[0] < 0x80 ? 1 : at[0] < 0xc2 ? 0 : at[0] < 0xe0 ? 2 : at[0] < 0xf0 ? 3 : at[0] < 0xf5 ? 4 : 0;

    if (len > text.len)
        return 0;
    for (size_t i = 1; i < len; i++)
        if ((at[i] & 0xc0) != 0x80)
            return 0;
    if ((at[0] == 0xe0 && at[1] < 0xa0) || (at[0] == 0xed && at[1] > 0x9f) || (at[0] == 0xf0 && at[1] < 0x90)
        || (at[0] == 0xf4 && at[1] > 0x8f))
        return 0;
    return len;
}

static int is_utf8(struct octets text)
{
    while (text.len) {
        size_t len = character(text);
        if (!len)
            return 0;
        text.at += len;
        text.len -= len;
    }
    return 1;
}

/* A string of JSON (RFC 8259, section 7). */
static void put_string(FILE *line, struct octets text)
{
    static const char marked[] = "\"\\\b\f\n\r\t", escapes[] = "\"\\bfnrt";

    fputc('"', line);
    for (size_t i = 0; i < text.len; i++) {
        const char *mark = text.at[i] ? strchr(marked, text.at[i]) : NULL;
        if (mark)
            fprintf(line, "\\%c", escapes[mark - marked]);
        else if (text.at[i] < ' ')
            fprintf(line, "\\u%04x", text.at[i]);
        else
            fputc(text.at[i], line);
    }
    fputc('"', line);
}

/* A string of Base64 (RFC 4648, section 4). */
static void put_base64(FILE *line, struct octets text)
{
    static const char digits[] = "ABCDEFGHIJKLMNOPQRSTUVWXYZabcdefghijklmnopqrstuvwxyz0123456789+/";

    fputc('"', line);
    for (size_t i = 0; i < text.len; i += 3) {
        size_t left = text.len - i;
        unsigned bits = (unsigned)text.at[i] << 16 | (left > 1 ? (unsigned)text.at[i + 1] << 8 : 0) | (left > 2 ? text.at[i + 2] : 0);
        fputc(digits[bits >> 18], line);
        fputc(digits[bits >> 12 & 63], line);
        fputc(left > 1 ? digits[bits >> 6 & 63] : '=', line);
        fputc(left > 2 ? digits[bits & 63] : '=', line);
    }
    fputc('"', line);
}

static void put_word(FILE *line, const char *key, struct octets word)
{
    fprintf(line, ",\"%s\":", key);
    if (word.len)
        put_string(line, word);
    else
        fputs("null", line);
}

/* What the spelling of a value means. */
static void put_value(FILE *line, struct octets raw)
{
    struct octets meant = {room(raw.len), 0};
    int64_t len = syslogbox_value(raw.at, raw.len, meant.at, raw.len, NULL);

    if (len < 0)
        abort();
    meant.len = (size_t)len;
    put_string(line, meant);
    free(meant.at);
}

/* An element, from its id up to the next part that is not its own. */
static void put_element(FILE *line, struct octets record, const struct syslogbox_part_span *part)
{
    put_string(line, cut(record, part->span));
    fputs(":[", line);
    for (int later = 0; (++part)->part == SYSLOGBOX_PART_PARAM_NAME; later = 1) {
        fputs(later ? ",[" : "[", line);
        put_string(line, cut(record, part->span));
        fputc(',', line);
        put_value(line, cut(record, (++part)->span));
        fputc(']', line);
    }
    fputc(']', line);
}

static struct octets sorted;

static int by_id(const void *left, const void *right)
{
    const struct syslogbox_part_span *const *l = left, *const *r = right;
    struct octets one = cut(sorted, (*l)->span), other = cut(sorted, (*r)->span);
    int order = memcmp(one.at, other.at, one.len < other.len ? one.len : other.len);

    return order ? order : (one.len > other.len) - (one.len < other.len);
}

/* The elements by their ids, as the canonical form has them. */
static void put_data(FILE *line, struct octets record, const struct syslogbox_part_span *spans, size_t count)
{
    const struct syslogbox_part_span **ids = room(count * sizeof *ids);
    size_t elements = 0;

    for (size_t i = 0; i < count; i++)
        if (spans[i].part == SYSLOGBOX_PART_ELEMENT_ID)
            ids[elements++] = spans + i;
    sorted = record;
    qsort(ids, elements, sizeof *ids, by_id);
    fputs(",\"data\":{", line);
    for (size_t i = 0; i < elements; i++) {
        if (i)
            fputc(',', line);
        put_element(line, record, ids[i]);
    }
    fputc('}', line);
    free(ids);
}

/* The same of octets that are canonical, each element and parameter by its number. */
static void put_numbered(FILE *line, struct octets record, size_t elements)
{
    struct syslogbox_element e;
    struct syslogbox_param q;

    fputs(",\"data\":{", line);
    for (size_t n = 0; n < elements; n++) {
        if (!syslogbox_element(record.at, record.len, n, &e, NULL))
            abort();
        if (n)
            fputc(',', line);
        put_string(line, cut(record, e.id));
        fputs(":[", line);
        for (size_t m = 0; m < e.params; m++) {
            if (!syslogbox_param(record.at, record.len, n, m, &q, NULL))
                abort();
            fputs(m ? ",[" : "[", line);
            put_string(line, cut(record, q.name));
            fputc(',', line);
            put_value(line, cut(record, q.value));
            fputc(']', line);
        }
        fputc(']', line);
    }
    fputc('}', line);
}

static void put_message(FILE *line, struct octets message, int has_bom)
{
    if (is_utf8(message)) {
        fputs(",\"message\":", line);
        put_string(line, message);
    } else {
        fputs(",\"message_base64\":", line);
        put_base64(line, message);
    }
    fputs(has_bom ? ",\"bom\":true}\n" : "}\n", line);
}

/* All parts of a record, which are at least so many. */
static struct syslogbox_part_span *spans_of(struct octets record, int64_t *count)
{
    *count = syslogbox_spans(record.at, record.len, NULL, 0, NULL);
    if (*count < 8)
        abort();
    struct syslogbox_part_span *spans = room((size_t)*count * sizeof *spans);
    if (syslogbox_spans(record.at, record.len, spans, (size_t)*count, NULL) != *count)
        abort();
    return spans;
}

/* The line of a record, whose time stands in its canonical form; of that one itself by the numbers of its elements. */
static char *line_of(struct octets record, struct octets canonical)
{
    static const char *const facilities[] = {
        "kern", "user", "mail", "daemon", "auth", "syslog", "lpr", "news", "uucp", "cron", "authpriv", "ftp", "ntp", "audit",
        "alert", "clock", "local0", "local1", "local2", "local3", "local4", "local5", "local6", "local7"};
    static const char *const severities[] = {"emerg", "alert", "crit", "err", "warning", "notice", "info", "debug"};
    char *text;
    size_t len;
    FILE *line = open_memstream(&text, &len);
    struct syslogbox_parts p;
    int64_t count, form_count;
    struct syslogbox_part_span *spans = spans_of(record, &count), *form = spans_of(canonical, &form_count);
    struct octets none = {NULL, 0};

    if (!line || !syslogbox_view(record.at, record.len, &p, NULL) || count != form_count)
        abort();
    fprintf(line, "{\"priority\":%u,\"facility\":\"%s\",\"severity\":\"%s\"", 8 * p.facility + p.severity,
            facilities[p.facility], severities[p.severity]);
    put_word(line, "time", p.has_time ? cut(canonical, form[2].span) : none);
    put_word(line, "host", cut(record, p.hostname));
    put_word(line, "app", cut(record, p.app_name));
    put_word(line, "proc", cut(record, p.proc_id));
    put_word(line, "msgid", cut(record, p.msg_id));
    if (record.at == canonical.at)
        put_numbered(line, record, p.elements);
    else
        put_data(line, record, spans, (size_t)count);
    put_message(line, cut(record, p.message), (int)p.has_bom);
    fclose(line);
    free(spans);
    free(form);
    return text;
}

/* The call that makes JSON gives the line without its line feed. */
static void compare_json(struct octets record, const char *line, unsigned long number)
{
    size_t len = strlen(line) - 1;
    uint8_t *out = room(len);

    if (syslogbox_json(record.at, record.len, out, len, NULL) != (int64_t)len || memcmp(out, line, len)) {
        fprintf(stderr, "frame %lu: syslogbox_json gives another line\n", number);
        exit(1);
    }
    free(out);
}

static void put_record(struct octets record, unsigned long number)
{
    struct octets canonical = {room(2 * record.len + 7), 2 * record.len + 7};
    int64_t len = syslogbox_canonical(record.at, record.len, canonical.at, canonical.len, NULL);

    if (len < 0)
        abort();
    canonical.len = (size_t)len;
    char *line = line_of(record, canonical), *again = line_of(canonical, canonical);
    compare_json(record, line, number);
    if (strcmp(line, again)) {
        fprintf(stderr, "frame %lu: another line of its canonical form\n", number);
        exit(1);
    }
    fputs(line, stdout);
    free(line);
    free(again);
    free(canonical.at);
}

/* What a packet is read as, if it is; `packet` itself without a clock. */
static int reads(struct octets packet, const int *clock, struct octets *record)
{
    int64_t len;

    if (!clock) {
        *record = packet;
        return syslogbox_check(packet.at, packet.len, NULL);
    }
    *record = (struct octets){room(2 * packet.len + 64), 2 * packet.len + 64};
    len = syslogbox_legacy(clock[0], clock[1], packet.at, packet.len, record->at, record->len, NULL);
    record->len = (size_t)(len < 0 ? 0 : len);
    return len >= 0;
}

/* How many frames of a stream are records. */
static size_t records_of(struct octets stream)
{
    size_t at = 0, start, end, count, records = 0;
    int64_t taken = 1;

    while (taken > 0) {
        at += (size_t)syslogbox_pass(SYSLOGBOX_COUNTED, stream.at + at, stream.len - at, &count);
        records += count;
        taken = syslogbox_frame(SYSLOGBOX_COUNTED, stream.at + at, stream.len - at, &start, &end);
        at += (size_t)taken;
    }
    return records;
}

static void put_stream(struct octets stream, const int *clock)
{
    size_t at = 0, start, end, records = 0;
    unsigned long number = 0;
    int64_t taken;

    while ((taken = syslogbox_frame(SYSLOGBOX_COUNTED, stream.at + at, stream.len - at, &start, &end)) > 0) {
        struct octets record;
        number++;
        if (reads((struct octets){stream.at + at + start, end - start}, clock, &record)) {
            put_record(record, number);
            records++;
        }
        if (clock)
            free(record.at);
        at += (size_t)taken;
    }
    if (at != stream.len)
        abort();
    if (!clock && records != records_of(stream)) {
        fprintf(stderr, "syslogbox_pass counts other records than %zu\n", records);
        exit(1);
    }
}

int main(int argc, char **argv)
{
    if (argc == 3 && !strcmp(argv[1], "records")) {
        struct octets stream = of_file(argv[2]);
        put_stream(stream, NULL);
        free(stream.at);
    } else if (argc == 5 && !strcmp(argv[1], "legacy")) {
        struct octets stream = of_file(argv[4]);
        put_stream(stream, (int[]){atoi(argv[2]), atoi(argv[3])});
        free(stream.at);
    } else if (argc == 4 && !strcmp(argv[1], "union")) {
        struct octets left = of_file(argv[2]), right = of_file(argv[3]);
        struct octets both = {room(left.len + right.len), 0};
        int64_t len = syslogbox_union(left.at, left.len, right.at, right.len, both.at, left.len + right.len, NULL);
        if (len < 0)
            abort();
        both.len = (size_t)len;
        put_stream(both, NULL);
        free(left.at);
        free(right.at);
        free(both.at);
    } else {
        return 2;
    }
    return 0;
}
