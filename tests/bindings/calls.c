/*
 * Tries the calls of libsyslogbox beside the answers of the program, under sanitizers:
 *
 *   calls records FILE              a line a record: its octets in hexadecimal, and `ok CANONICAL` or `KIND FIELD OFFSET`
 *   calls legacy YEAR OFFSET FILE   the same of packets under a clock
 *   calls wide YEAR OFFSET FILE     the same in the wide dialect
 *   calls trimmed FILE              a line a frame in hexadecimal, and what is left of it
 *   calls frames FRAMING FILE       prints for each frame of a stream what `check` prints of it
 *   calls scan FRAMING LONGEST SEED FILE   prints for each frame of a stream, in random pieces, what `check` prints of it
 *   calls union LEFT RIGHT          writes the union of two archives, or prints its fault; so do common and minus
 *   calls select FROM TO UNDATED SEVERITY HOST APP FILE   writes the records that meet a condition; `-` is none
 *   calls digest PERIOD FILE        writes the digest of an archive, or prints its fault
 *   calls root FILE                 prints the root of an archive, or its fault
 *   calls nulls                     null pointers with a length of 0, and what each fault says
 *   calls memory                    prints which calls fail for memory, under a malloc that fails (tests/lib/shim.c)
 *   calls costs FILE                prints of each call that reads the record what it answers, how many octets of stack it takes,
 *                                   and how many milliseconds
 *
 * Octets stand right before memory that may not be touched, so that an octet too far ends the run; each call gets a room that is just
 * large enough, one that is larger and one that is an octet too small. The first answer that is wrong is printed, and the status is 1.
 */
#define _DEFAULT_SOURCE
#include <pthread.h>
#include <stdio.h>
#include <stdlib.h>
#include <string.h>
#include <sys/mman.h>
#include <syslogbox.h>
#include <time.h>
#include <unistd.h>

#define EXPECT(holds)                                                        \
    do {                                                                     \
        if (!(holds)) {                                                      \
            printf("line %lu: not %s (%d)\n", line_number, #holds, __LINE__); \
            exit(1);                                                         \
        }                                                                    \
    } while (0)

enum { FILLED = 0xa5, SPARE = 9, PAGE = 4096 };

static unsigned long line_number;

struct octets {
    uint8_t *at;
    size_t len;
    void *pages;
    size_t size;
};

/* Memory of this length, right before a page that may not be touched. */
static struct octets of_length(size_t len)
{
    size_t size = (len + PAGE - 1) / PAGE * PAGE + PAGE;
    uint8_t *pages = mmap(NULL, size, PROT_READ | PROT_WRITE, MAP_PRIVATE | MAP_ANONYMOUS, -1, 0);
    if (pages == MAP_FAILED || mprotect(pages + size - PAGE, PAGE, PROT_NONE))
        abort();
    struct octets o = {pages + size - PAGE - len, len, pages, size};
    memset(o.at, FILLED, len);
    return o;
}

static void release(struct octets o)
{
    munmap(o.pages, o.size);
}

static int digit(char c)
{
    return c <= '9' ? c - '0' : c - 'a' + 10;
}

/* The octets of a text in hexadecimal, up to a space or a line feed; *text goes behind them. */
static struct octets of_hex(const char **text)
{
    size_t len = strcspn(*text, " \n") / 2;
    struct octets o = of_length(len);
    for (size_t i = 0; i < len; i++)
        o.at[i] = (uint8_t)(digit((*text)[2 * i]) << 4 | digit((*text)[2 * i + 1]));
    *text += 2 * len;
    return o;
}

static struct octets of_file(const char *name)
{
    FILE *file = fopen(name, "rb");
    long len;
    struct octets o;

    if (!file || fseek(file, 0, SEEK_END) || (len = ftell(file)) < 0 || fseek(file, 0, SEEK_SET))
        abort();
    o = of_length((size_t)len);
    if (fread(o.at, 1, o.len, file) != o.len)
        abort();
    fclose(file);
    return o;
}

static int is_filled(const uint8_t *at, size_t len)
{
    for (size_t i = 0; i < len; i++)
        if (at[i] != FILLED)
            return 0;
    return 1;
}

static int is_fault(struct syslogbox_fault f, uint32_t kind, uint32_t field, uint64_t offset)
{
    return f.kind == kind && f.field == field && f.offset == offset;
}

/* A call that writes a text: its octets, and what else it takes. */
typedef int64_t writing(const void *input, uint8_t *out, size_t room, struct syslogbox_fault *fault);

/* Each room gives the text, or what is needed of it; and nothing else is written. */
static void writes(writing *call, const void *input, struct octets text)
{
    const struct syslogbox_fault before = {77, 78, 79};
    struct syslogbox_fault fault = before;
    struct octets exact = of_length(text.len), large = of_length(text.len + SPARE);

    EXPECT(call(input, exact.at, exact.len, &fault) == (int64_t)text.len);
    EXPECT(!memcmp(exact.at, text.at, text.len) && is_fault(fault, 77, 78, 79));
    EXPECT(call(input, large.at, large.len, NULL) == (int64_t)text.len);
    EXPECT(!memcmp(large.at, text.at, text.len) && is_filled(large.at + text.len, SPARE));
    if (text.len) {
        struct octets small = of_length(text.len - 1);
        EXPECT(call(input, small.at, small.len, &fault) == -1);
        EXPECT(is_fault(fault, SYSLOGBOX_NO_ROOM, 0, text.len) && is_filled(small.at, small.len));
        EXPECT(call(input, NULL, 0, &fault) == -1 && is_fault(fault, SYSLOGBOX_NO_ROOM, 0, text.len));
        release(small);
    }
    release(exact);
    release(large);
}

static void refuses(writing *call, const void *input, uint32_t kind, uint32_t field, uint64_t offset)
{
    struct syslogbox_fault fault = {0, 0, 0};
    struct octets out = of_length(SPARE);

    EXPECT(call(input, out.at, out.len, &fault) == -1 && is_fault(fault, kind, field, offset));
    EXPECT(call(input, NULL, 0, NULL) == -1 && is_filled(out.at, out.len));
    release(out);
}

static int64_t canonical(const void *input, uint8_t *out, size_t room, struct syslogbox_fault *fault)
{
    const struct octets *o = input;
    return syslogbox_canonical(o->at, o->len, out, room, fault);
}

static int64_t json(const void *input, uint8_t *out, size_t room, struct syslogbox_fault *fault)
{
    const struct octets *o = input;
    return syslogbox_json(o->at, o->len, out, room, fault);
}

static int64_t value(const void *input, uint8_t *out, size_t room, struct syslogbox_fault *fault)
{
    const struct octets *o = input;
    return syslogbox_value(o->at, o->len, out, room, fault);
}

struct packet {
    int dialect, year, offset_minutes;
    struct octets octets;
};

static int64_t legacy(const void *input, uint8_t *out, size_t room, struct syslogbox_fault *fault)
{
    const struct packet *p = input;
    if (p->dialect == SYSLOGBOX_BSD)
        return syslogbox_legacy(p->year, p->offset_minutes, p->octets.at, p->octets.len, out, room, fault);
    return syslogbox_packet(p->dialect, p->year, p->offset_minutes, p->octets.at, p->octets.len, out, room, fault);
}

static int64_t joined(const void *input, uint8_t *out, size_t room, struct syslogbox_fault *fault)
{
    const struct octets *o = input;
    return syslogbox_union(o[0].at, o[0].len, o[1].at, o[1].len, out, room, fault);
}

static int64_t common(const void *input, uint8_t *out, size_t room, struct syslogbox_fault *fault)
{
    const struct octets *o = input;
    return syslogbox_common(o[0].at, o[0].len, o[1].at, o[1].len, out, room, fault);
}

static int64_t minus(const void *input, uint8_t *out, size_t room, struct syslogbox_fault *fault)
{
    const struct octets *o = input;
    return syslogbox_minus(o[0].at, o[0].len, o[1].at, o[1].len, out, room, fault);
}

struct selection {
    struct syslogbox_condition condition;
    struct octets archive;
};

static int64_t selected(const void *input, uint8_t *out, size_t room, struct syslogbox_fault *fault)
{
    const struct selection *s = input;
    return syslogbox_select(&s->condition, s->archive.at, s->archive.len, out, room, fault);
}

struct digest {
    int period;
    struct octets archive;
};

static int64_t digested(const void *input, uint8_t *out, size_t room, struct syslogbox_fault *fault)
{
    const struct digest *d = input;
    return syslogbox_digest(d->period, d->archive.at, d->archive.len, out, room, fault);
}

static int within(struct octets record, struct syslogbox_span span)
{
    return span.offset <= record.len && span.len <= record.len - span.offset;
}

/* A part that stands between two octets. */
static int between(struct octets record, struct syslogbox_span span, uint8_t before, uint8_t behind)
{
    return within(record, span) && span.offset && record.at[span.offset - 1] == before
           && (span.offset + span.len == record.len || record.at[span.offset + span.len] == behind);
}

static void param(struct octets record, size_t n, size_t m)
{
    struct syslogbox_param shown;
    struct syslogbox_fault fault;

    EXPECT(syslogbox_param(record.at, record.len, n, m, &shown, &fault) == 1);
    EXPECT(between(record, shown.name, ' ', '=') && between(record, shown.value, '"', '"'));
    struct octets raw = of_length(shown.value.len), meant = of_length(shown.value.len);
    memcpy(raw.at, record.at + shown.value.offset, raw.len);
    meant.len = 0;
    for (size_t i = 0; i < raw.len; i++) {
        if (raw.at[i] == '\\' && i + 1 < raw.len && strchr("\"\\]", raw.at[i + 1]) && raw.at[i + 1])
            i++;
        meant.at[meant.len++] = raw.at[i];
    }
    writes(value, &raw, meant);
    release(raw);
    release(meant);
}

static void element(struct octets record, size_t n)
{
    struct syslogbox_element shown;
    struct syslogbox_param none;
    struct syslogbox_fault fault;

    EXPECT(syslogbox_element(record.at, record.len, n, &shown, &fault) == 1);
    EXPECT(between(record, shown.id, '[', shown.params ? ' ' : ']'));
    for (size_t m = 0; m < shown.params; m++)
        param(record, n, m);
    EXPECT(syslogbox_param(record.at, record.len, n, shown.params, &none, &fault) == 0);
    EXPECT(is_fault(fault, SYSLOGBOX_NO_PARAM, 0, shown.params));
}

/* A record's spans, right before memory that may not be touched. */
struct shown {
    struct octets octets;
    struct syslogbox_part_span *at;
};

static struct shown spans_of_length(size_t count)
{
    struct octets octets = of_length(count * sizeof(struct syslogbox_part_span));
    return (struct shown){octets, (struct syslogbox_part_span *)(void *)octets.at};
}

static int is_span(struct syslogbox_part_span seen, uint32_t part, struct syslogbox_span right)
{
    return seen.part == part && seen.span.offset == right.offset && seen.span.len == right.len;
}

/* A field as syslogbox_view shows it, which has no octets where it is "-". */
static int is_word(struct octets record, struct syslogbox_part_span seen, uint32_t part, struct syslogbox_span right)
{
    if (right.len)
        return is_span(seen, part, right);
    return seen.part == part && seen.span.len == 1 && within(record, seen.span) && record.at[seen.span.offset] == '-';
}

/* The spans from the eighth on are those of each element and parameter by its number, and then the message. */
static void data_spans(struct octets record, struct syslogbox_parts p, const struct syslogbox_part_span *spans,
                       size_t count)
{
    size_t i = 7;

    for (size_t n = 0; n < p.elements; n++) {
        struct syslogbox_element e;
        EXPECT(syslogbox_element(record.at, record.len, n, &e, NULL) == 1);
        EXPECT(i < count && is_span(spans[i++], SYSLOGBOX_PART_ELEMENT_ID, e.id));
        for (size_t m = 0; m < e.params; m++) {
            struct syslogbox_param q;
            EXPECT(syslogbox_param(record.at, record.len, n, m, &q, NULL) == 1);
            EXPECT(i + 1 < count && is_span(spans[i++], SYSLOGBOX_PART_PARAM_NAME, q.name));
            EXPECT(is_span(spans[i++], SYSLOGBOX_PART_PARAM_VALUE, q.value));
        }
    }
    EXPECT(i + 1 == count && is_span(spans[i], SYSLOGBOX_PART_MESSAGE, p.message));
}

/* The spans are those that the other calls show; a room that is too small has the first of them. */
static void spans(struct octets record, struct syslogbox_parts p)
{
    struct syslogbox_fault fault = {77, 78, 79};
    int64_t count = syslogbox_spans(record.at, record.len, NULL, 0, &fault);

    EXPECT(count >= 8 && is_fault(fault, 77, 78, 79));
    struct shown exact = spans_of_length((size_t)count), large = spans_of_length((size_t)count + 1);
    struct shown small = spans_of_length((size_t)count - 1);
    EXPECT(syslogbox_spans(record.at, record.len, exact.at, (size_t)count, &fault) == count);
    EXPECT(syslogbox_spans(record.at, record.len, large.at, (size_t)count + 1, NULL) == count);
    EXPECT(syslogbox_spans(record.at, record.len, small.at, (size_t)count - 1, &fault) == count);
    EXPECT(is_fault(fault, 77, 78, 79));
    EXPECT(is_filled((uint8_t *)(large.at + count), sizeof *large.at));
    for (size_t i = 0; i < (size_t)count; i++) {
        EXPECT(is_span(large.at[i], exact.at[i].part, exact.at[i].span));
        EXPECT(i + 1 == (size_t)count || is_span(small.at[i], exact.at[i].part, exact.at[i].span));
    }
    const struct syslogbox_part_span *s = exact.at;
    EXPECT(s[0].part == SYSLOGBOX_PART_PRIORITY && s[0].span.offset == 1 && between(record, s[0].span, '<', '>'));
    EXPECT((uint32_t)atoi((const char *)record.at + 1) == 8 * p.facility + p.severity);
    EXPECT(s[1].part == SYSLOGBOX_PART_VERSION && s[1].span.len == 1 && between(record, s[1].span, '>', ' '));
    EXPECT(s[2].part == SYSLOGBOX_PART_TIMESTAMP && between(record, s[2].span, ' ', ' '));
    EXPECT(s[2].span.offset == s[1].span.offset + 2 && s[3].span.offset == s[2].span.offset + s[2].span.len + 1);
    EXPECT((record.at[s[2].span.offset] != '-') == (int)p.has_time);
    EXPECT(is_word(record, s[3], SYSLOGBOX_PART_HOSTNAME, p.hostname));
    EXPECT(is_word(record, s[4], SYSLOGBOX_PART_APP_NAME, p.app_name));
    EXPECT(is_word(record, s[5], SYSLOGBOX_PART_PROC_ID, p.proc_id));
    EXPECT(is_word(record, s[6], SYSLOGBOX_PART_MSG_ID, p.msg_id));
    data_spans(record, p, s, (size_t)count);
    release(exact.octets);
    release(large.octets);
    release(small.octets);
}

static void parts(struct octets record)
{
    struct syslogbox_parts p;
    struct syslogbox_element none;
    struct syslogbox_fault fault = {77, 78, 79};

    EXPECT(syslogbox_view(record.at, record.len, &p, &fault) == 1 && is_fault(fault, 77, 78, 79));
    EXPECT(p.facility < 24 && p.severity < 8 && p.has_time < 2 && p.has_bom < 2);
    for (int i = 0; i < 4; i++) {
        struct syslogbox_span word = (struct syslogbox_span[]){p.hostname, p.app_name, p.proc_id, p.msg_id}[i];
        EXPECT(word.len ? between(record, word, ' ', ' ') : !word.offset);
    }
    EXPECT(between(record, p.structured_data, ' ', ' '));
    EXPECT(within(record, p.message) && p.message.offset + p.message.len == record.len);
    for (size_t n = 0; n < p.elements; n++)
        element(record, n);
    spans(record, p);
    EXPECT(syslogbox_element(record.at, record.len, p.elements, &none, &fault) == 0);
    EXPECT(is_fault(fault, SYSLOGBOX_NO_ELEMENT, 0, p.elements));
    EXPECT(syslogbox_element(record.at, record.len, (size_t)-1, &none, NULL) == 0);
}

/* Octets that are no record: each call that reads one tells the same fault, and leaves what it would fill. */
static void no_parts(struct octets record, struct syslogbox_fault right)
{
    struct syslogbox_parts p;
    struct syslogbox_element e;
    struct syslogbox_param q;
    struct syslogbox_part_span s[2];
    struct syslogbox_fault fault[4] = {{0, 0, 0}, {0, 0, 0}, {0, 0, 0}, {0, 0, 0}};

    memset(&p, FILLED, sizeof p);
    memset(&e, FILLED, sizeof e);
    memset(&q, FILLED, sizeof q);
    memset(s, FILLED, sizeof s);
    EXPECT(!syslogbox_view(record.at, record.len, &p, fault));
    EXPECT(!syslogbox_element(record.at, record.len, 0, &e, fault + 1));
    EXPECT(!syslogbox_param(record.at, record.len, 0, 0, &q, fault + 2));
    EXPECT(syslogbox_spans(record.at, record.len, s, 2, fault + 3) == -1);
    EXPECT(is_filled((uint8_t *)&p, sizeof p) && is_filled((uint8_t *)&e, sizeof e) && is_filled((uint8_t *)&q, sizeof q));
    EXPECT(is_filled((uint8_t *)s, sizeof s) && syslogbox_spans(record.at, record.len, NULL, 0, NULL) == -1);
    for (int i = 0; i < 4; i++)
        EXPECT(is_fault(fault[i], right.kind, right.field, right.offset));
}

/* The record as JSON, whose length a call without room tells; tests/bindings/lines.c compares what it has. */
static void object(struct octets record)
{
    struct syslogbox_fault fault;
    struct octets text;

    EXPECT(syslogbox_json(record.at, record.len, NULL, 0, &fault) == -1 && is_fault(fault, SYSLOGBOX_NO_ROOM, 0, fault.offset));
    text = of_length((size_t)fault.offset);
    EXPECT(syslogbox_json(record.at, record.len, text.at, text.len, NULL) == (int64_t)text.len);
    EXPECT(text.len > 1 && text.at[0] == '{' && text.at[text.len - 1] == '}' && !memchr(text.at, '\n', text.len));
    writes(json, &record, text);
    release(text);
}

static int64_t build(const void *input, uint8_t *out, size_t room, struct syslogbox_fault *fault)
{
    return syslogbox_build(input, out, room, fault);
}

static struct syslogbox_text text_at(struct octets record, struct syslogbox_span span)
{
    return (struct syslogbox_text){span.len ? record.at + span.offset : NULL, span.len};
}

/* What the spelling of a value means, in memory of its own. */
static struct syslogbox_text meaning(struct octets record, struct syslogbox_span span)
{
    uint8_t *meant = malloc(span.len + !span.len);
    int64_t len = syslogbox_value(record.at + span.offset, span.len, meant, span.len, NULL);
    struct syslogbox_text text = {len ? meant : NULL, (size_t)len};

    EXPECT(len >= 0);
    if (!len)
        free(meant);
    return text;
}

/* A record is built again of the parts that are shown of it. */
static void builds(struct octets record, struct octets text)
{
    const size_t count = (size_t)syslogbox_spans(record.at, record.len, NULL, 0, NULL);
    struct syslogbox_part_span *spans = calloc(count, sizeof *spans);
    struct syslogbox_item *items = calloc(count, sizeof *items);
    struct syslogbox_parts p;
    size_t values = 0;

    EXPECT(syslogbox_view(record.at, record.len, &p, NULL) == 1);
    EXPECT(syslogbox_spans(record.at, record.len, spans, count, NULL) == (int64_t)count);
    for (size_t i = 7; i + 1 < count; i++) {
        int is_value = spans[i].part == SYSLOGBOX_PART_PARAM_VALUE;
        items[i - 7].part = spans[i].part;
        items[i - 7].text = is_value ? meaning(record, spans[i].span) : text_at(record, spans[i].span);
        values += is_value;
    }
    struct syslogbox_fields fields = {
        p.time, p.has_time, p.facility, p.severity, p.has_bom, text_at(record, p.hostname), text_at(record, p.app_name),
        text_at(record, p.proc_id), text_at(record, p.msg_id), count > 8 ? items : NULL, count - 8, text_at(record, p.message)};
    writes(build, &fields, text);
    for (size_t i = 7; i + 1 < count; i++)
        if (spans[i].part == SYSLOGBOX_PART_PARAM_VALUE)
            free((void *)(uintptr_t)items[i - 7].text.at);
    free(items);
    free(spans);
}

#define TEXT(literal) {(const uint8_t *)literal, sizeof literal - 1}

/* Each field that is refused is named; and what of the structured data is. */
static void refused_fields(void)
{
    static const struct syslogbox_fields good = {.facility = 23, .severity = 7};
    static const char long_word[] = "xxxxxxxxxxxxxxxxxxxxxxxxxxxxxxxxxxxxxxxxxxxxxxxxx"; /* 49 */
    static const struct syslogbox_item id = {8, TEXT("a")}, name = {9, TEXT("k")}, none = {10, {NULL, 0}},
        bad_id = {8, TEXT("a b")}, bad_name = {9, TEXT("k=")}, bad_value = {10, TEXT("\xff")}, part = {7, TEXT("a")};
    static const struct {
        struct syslogbox_item items[5];
        size_t count;
        struct syslogbox_fault fault;
    } rows[] = {
        {{part}, 1, {SYSLOGBOX_BAD_ITEM, SYSLOGBOX_STRUCTURED_DATA, 0}},
        {{name, none}, 2, {SYSLOGBOX_BAD_ITEM, SYSLOGBOX_STRUCTURED_DATA, 0}},
        {{bad_id}, 1, {SYSLOGBOX_BAD_ITEM, SYSLOGBOX_STRUCTURED_DATA, 0}},
        {{id, none}, 2, {SYSLOGBOX_BAD_ITEM, SYSLOGBOX_STRUCTURED_DATA, 1}},
        {{id, bad_name, none}, 3, {SYSLOGBOX_BAD_ITEM, SYSLOGBOX_STRUCTURED_DATA, 1}},
        {{id, name}, 2, {SYSLOGBOX_BAD_ITEM, SYSLOGBOX_STRUCTURED_DATA, 2}},
        {{id, name, name}, 3, {SYSLOGBOX_BAD_ITEM, SYSLOGBOX_STRUCTURED_DATA, 2}},
        {{id, name, bad_value}, 3, {SYSLOGBOX_BAD_ITEM, SYSLOGBOX_STRUCTURED_DATA, 2}},
        {{id, name, none, none}, 4, {SYSLOGBOX_BAD_ITEM, SYSLOGBOX_STRUCTURED_DATA, 3}},
        {{id, name, none, id}, 4, {SYSLOGBOX_REPEATED_ID, SYSLOGBOX_NO_FIELD, 0}},
    };
    struct syslogbox_fields f = good;

    f.facility = 24, refuses(build, &f, SYSLOGBOX_BAD_FIELD, SYSLOGBOX_PRIORITY, 0), f = good;
    f.facility = UINT32_MAX, refuses(build, &f, SYSLOGBOX_BAD_FIELD, SYSLOGBOX_PRIORITY, 0), f = good;
    f.severity = 8, refuses(build, &f, SYSLOGBOX_BAD_FIELD, SYSLOGBOX_PRIORITY, 0), f = good;
    f.has_time = 1, f.time = INT64_MAX, refuses(build, &f, SYSLOGBOX_INSTANT_RANGE, 0, 0), f = good;
    f.has_time = 2, f.time = INT64_MIN, refuses(build, &f, SYSLOGBOX_INSTANT_RANGE, 0, 0), f = good;
    f.hostname = (struct syslogbox_text)TEXT("a b"), refuses(build, &f, SYSLOGBOX_BAD_FIELD, SYSLOGBOX_HOSTNAME, 1), f = good;
    f.app_name = (struct syslogbox_text)TEXT("-"), refuses(build, &f, SYSLOGBOX_BAD_FIELD, SYSLOGBOX_APP_NAME, 0), f = good;
    f.app_name = (struct syslogbox_text){(const uint8_t *)long_word, 49};
    refuses(build, &f, SYSLOGBOX_BAD_FIELD, SYSLOGBOX_APP_NAME, 48), f = good;
    f.proc_id = (struct syslogbox_text)TEXT("ab\x7f"), refuses(build, &f, SYSLOGBOX_BAD_FIELD, SYSLOGBOX_PROC_ID, 2), f = good;
    f.msg_id = (struct syslogbox_text)TEXT(" "), refuses(build, &f, SYSLOGBOX_BAD_FIELD, SYSLOGBOX_MSG_ID, 0), f = good;
    f.message = (struct syslogbox_text)TEXT("\xef\xbb\xbfx");
    refuses(build, &f, SYSLOGBOX_BAD_FIELD, SYSLOGBOX_MESSAGE, 0), f = good;
    f.has_bom = 1, f.message = (struct syslogbox_text)TEXT("ab\xff"), refuses(build, &f, SYSLOGBOX_NOT_UTF8, 0, 2), f = good;
    for (size_t i = 0; i < sizeof rows / sizeof *rows; i++) {
        f.items = rows[i].items, f.item_count = rows[i].count;
        refuses(build, &f, rows[i].fault.kind, rows[i].fault.field, rows[i].fault.offset);
    }
    f = good, f.message.at = calloc(1, SYSLOGBOX_ENTRY_MAX), f.message.len = SYSLOGBOX_ENTRY_MAX;
    refuses(build, &f, SYSLOGBOX_RECORD_TOO_LONG, 0, SYSLOGBOX_ENTRY_MAX);
    free((void *)(uintptr_t)f.message.at);
}

static void one_record(struct octets record, const char *answer)
{
    struct syslogbox_fault fault = {77, 78, 79}, right;
    unsigned long long offset;

    if (!strncmp(answer, "ok ", 3)) {
        answer += 3;
        struct octets text = of_hex(&answer);
        EXPECT(syslogbox_check(record.at, record.len, &fault) == 1 && is_fault(fault, 77, 78, 79));
        writes(canonical, &record, text);
        object(record);
        parts(record);
        builds(record, text);
        release(text);
        return;
    }
    EXPECT(sscanf(answer, "%u %u %llu", &right.kind, &right.field, &offset) == 3);
    right.offset = offset;
    EXPECT(syslogbox_check(record.at, record.len, &fault) == 0);
    EXPECT(is_fault(fault, right.kind, right.field, right.offset));
    EXPECT(syslogbox_check(record.at, record.len, NULL) == 0);
    refuses(canonical, &record, right.kind, right.field, right.offset);
    refuses(json, &record, right.kind, right.field, right.offset);
    no_parts(record, right);
}

static void one_packet(struct packet packet, const char *answer)
{
    unsigned kind, field;
    unsigned long long offset;

    if (!strncmp(answer, "ok ", 3)) {
        answer += 3;
        struct octets text = of_hex(&answer);
        writes(legacy, &packet, text);
        release(text);
    } else {
        EXPECT(sscanf(answer, "%u %u %llu", &kind, &field, &offset) == 3);
        refuses(legacy, &packet, kind, field, offset);
    }
}

/* The lines of a file of answers, each as a record, or as a packet under a clock. */
static void answers(const char *name, const struct packet *clock)
{
    FILE *file = fopen(name, "r");
    char *line = NULL;
    size_t room = 0;

    if (!file)
        abort();
    while (getline(&line, &room, file) > 0) {
        const char *text = line;
        ++line_number;
        struct octets octets = of_hex(&text);
        if (clock)
            one_packet((struct packet){clock->dialect, clock->year, clock->offset_minutes, octets}, text + 1);
        else
            one_record(octets, text + 1);
        release(octets);
    }
    free(line);
    fclose(file);
}

static void no_clocks(void)
{
    static const int wrong[][2] = {{0, 0}, {9999, 0}, {-2003, 0}, {2003, 1440}, {2003, -1440}, {2003 + 65536, 0}, {2003, 65536}};
    for (size_t i = 0; i < sizeof wrong / sizeof *wrong; i++) {
        for (int dialect = SYSLOGBOX_BSD; dialect <= SYSLOGBOX_WIDE; dialect++) {
            struct packet packet = {dialect, wrong[i][0], wrong[i][1], {.at = (uint8_t *)"x", .len = 1}};
            refuses(legacy, &packet, SYSLOGBOX_BAD_CLOCK, 0, 0);
        }
    }
}

static void no_dialects(void)
{
    static const int wrong[] = {0, 3, -1, 257, 65537};
    for (size_t i = 0; i < sizeof wrong / sizeof *wrong; i++) {
        struct packet packet = {wrong[i], 0, 0, {.at = (uint8_t *)"x", .len = 1}};
        refuses(legacy, &packet, SYSLOGBOX_BAD_DIALECT, 0, 0);
    }
}

/* What is left of each frame of a file, which begins with it. */
static void trimmed(const char *name)
{
    FILE *file = fopen(name, "r");
    char *line = NULL;
    size_t room = 0;

    if (!file)
        abort();
    while (getline(&line, &room, file) > 0) {
        const char *text = line;
        ++line_number;
        struct octets frame = of_hex(&text);
        ++text;
        struct octets left = of_hex(&text);
        EXPECT(syslogbox_trimmed(frame.at, frame.len) == left.len && left.len <= frame.len);
        EXPECT(!memcmp(frame.at, left.at, left.len));
        release(frame);
        release(left);
    }
    free(line);
    fclose(file);
}

static const char *const fields[] = {"", "priority", "version", "timestamp", "hostname", "app-name", "procid", "msgid",
                                     "structured-data", "message"};

static void print_check(unsigned long n, const uint8_t *at, size_t len)
{
    struct syslogbox_fault fault;

    if (len > SYSLOGBOX_FRAME_MAX)
        printf("%lu too-long\n", n);
    else if (syslogbox_check(at, len, &fault))
        printf("%lu ok\n", n);
    else if (fault.kind == SYSLOGBOX_SYNTAX)
        printf("%lu syntax %s %llu\n", n, fields[fault.field], (unsigned long long)fault.offset);
    else
        printf("%lu %s %llu\n", n, fault.kind == SYSLOGBOX_INSTANT_RANGE ? "instant-range" : "repeated-id",
               (unsigned long long)fault.offset);
}

/* So many frames from the front of a stream are records, and the next one is none. */
static void passes(int framing, struct octets stream)
{
    size_t at = 0, start, end, right = 0, count = 77;
    int64_t taken, passed = syslogbox_pass(framing, stream.at, stream.len, &count);

    while ((taken = syslogbox_frame(framing, stream.at + at, stream.len - at, &start, &end)) > 0
           && syslogbox_check(stream.at + at + start, end - start, NULL)) {
        at += (size_t)taken;
        right++;
    }
    EXPECT(passed == (int64_t)at && count == right);
    EXPECT(syslogbox_pass(3, stream.at, stream.len, &count) == -2 && count == right);
}

/* The frames of a stream, each also from all shorter fronts of it, which are not whole. */
static void frames(int framing, struct octets stream)
{
    size_t at = 0, start = 77, end = 78;
    unsigned long n = 0;
    int64_t taken;

    EXPECT(syslogbox_frame(0, stream.at, stream.len, &start, &end) == -2 && start == 77 && end == 78);
    while ((taken = syslogbox_frame(framing, stream.at + at, stream.len - at, &start, &end)) > 0) {
        size_t cut = (size_t)taken - 1, awaited = 0, ends = 0;
        EXPECT(start <= end && end <= (size_t)taken && at + (size_t)taken <= stream.len);
        EXPECT(syslogbox_frame(framing, stream.at + at, cut, &awaited, &ends) == 0);
        EXPECT(framing == SYSLOGBOX_LF || cut < start ? !awaited && !ends : awaited == start && ends == end);
        struct octets frame = of_length(end - start);
        memcpy(frame.at, stream.at + at + start, frame.len);
        print_check(++n, frame.at, frame.len);
        release(frame);
        at += (size_t)taken;
    }
    if (taken == -1) {
        EXPECT(start == end);
        printf("%lu bad-count %zu\n", n + 1, at + start);
    } else if (at < stream.len) {
        printf("unterminated %zu\n", at);
    }
}

/* Writes what a call gives into so much room, or prints its fault. */
static void gives(writing *call, const void *input, size_t room)
{
    struct octets out = of_length(room);
    struct syslogbox_fault fault;
    int64_t len = call(input, out.at, out.len, &fault);

    if (len < 0) {
        printf("%u %u %llu\n", fault.kind, fault.field, (unsigned long long)fault.offset);
        refuses(call, input, fault.kind, fault.field, fault.offset);
    } else {
        struct octets text = {.at = out.at, .len = (size_t)len};
        writes(call, input, text);
        fwrite(out.at, 1, text.len, stdout);
    }
    release(out);
}

static void both(writing *call, const char *left, const char *right)
{
    struct octets archives[2] = {of_file(left), of_file(right)};

    gives(call, archives, archives[0].len + (call == joined ? archives[1].len : 0));
    release(archives[0]);
    release(archives[1]);
}

/* Conditions as words, of which "-" is none. */
static void select_words(char **words)
{
    struct selection selection = {.archive = of_file(words[6])};
    struct syslogbox_condition *c = &selection.condition;

    c->has_from = strcmp(words[0], "-") != 0, c->from = c->has_from ? atoll(words[0]) : 77;
    c->has_to = strcmp(words[1], "-") != 0, c->to = c->has_to ? atoll(words[1]) : 78;
    c->undated = strcmp(words[2], "-") != 0;
    c->has_severity = strcmp(words[3], "-") != 0, c->severity = c->has_severity ? (uint32_t)atoi(words[3]) : 79;
    if (strcmp(words[4], "-"))
        c->hostname = (struct syslogbox_text){(const uint8_t *)words[4], strlen(words[4])};
    if (strcmp(words[5], "-"))
        c->app_name = (struct syslogbox_text){(const uint8_t *)words[5], strlen(words[5])};
    gives(selected, &selection, selection.archive.len);
    release(selection.archive);
}

/*
 * The frames of a stream that comes in random pieces, by a scanner and room for the longest frame and its count: each as it is,
 * or that it was too long; and how the stream ends. It begins anew in memory of just so many octets for each piece.
 */
static void scans(int framing, size_t longest, unsigned seed, struct octets stream)
{
    struct syslogbox_scanner scanner = {0, 0}, before = {7, 8};
    struct syslogbox_found found = {77, 78, 79};
    size_t at = 0, known = 0; /* what is done with, and what has come */
    unsigned long n = 0;

    EXPECT(syslogbox_scan(3, longest, stream.at, stream.len, &before, &found) == -2);
    EXPECT(before.inside == 7 && before.left == 8 && found.used == 77 && found.start == 78 && found.end == 79);
    srand(seed);
    for (;;) {
        struct octets piece = of_length(known - at);
        memcpy(piece.at, stream.at + at, piece.len);
        int answer = syslogbox_scan(framing, longest, piece.at, piece.len, &scanner, &found);
        EXPECT(found.used <= piece.len);
        if (answer == SYSLOGBOX_SCAN_FRAME) {
            EXPECT(found.start <= found.end && found.end <= found.used && found.end - found.start <= longest);
            struct octets frame = of_length(found.end - found.start);
            memcpy(frame.at, piece.at + found.start, frame.len);
            print_check(++n, frame.at, frame.len);
            release(frame);
        } else if (answer == SYSLOGBOX_SCAN_TOO_LONG) {
            printf("%lu too-long\n", ++n);
        } else if (answer == SYSLOGBOX_SCAN_BROKEN) {
            EXPECT(!found.used && found.start == found.end);
            printf("%lu bad-count %zu\n", n + 1, at + found.start);
            release(piece);
            return;
        }
        release(piece);
        at += found.used;
        if (answer == SYSLOGBOX_SCAN_WAITS) {
            EXPECT(!found.used || found.used == known - at + found.used);
            EXPECT(known - at <= longest + 12);
            if (known == stream.len)
                break;
            size_t more = 1 + (size_t)rand() % (rand() % 3 ? 9 : 70000);
            known = more < stream.len - known ? known + more : stream.len;
        }
    }
    if (at < stream.len || scanner.inside)
        printf("unterminated\n");
}

/* The root of the archive of a file, as `syslogbox root` prints it, or its fault; what is refused leaves the room. */
static void root(const char *name)
{
    struct octets archive = of_file(name);
    struct octets room = of_length(sizeof(struct syslogbox_root));
    struct syslogbox_root *shown = (struct syslogbox_root *)(void *)room.at;
    struct syslogbox_fault fault = {77, 78, 79};

    if (syslogbox_root(archive.at, archive.len, shown, &fault)) {
        EXPECT(is_fault(fault, 77, 78, 79));
        printf("%llu ", (unsigned long long)shown->count);
        for (size_t i = 0; i < sizeof shown->hash; i++)
            printf("%02x", shown->hash[i]);
        printf("\n");
    } else {
        EXPECT(is_filled(room.at, room.len) && !syslogbox_root(archive.at, archive.len, shown, NULL));
        printf("%u %u %llu\n", fault.kind, fault.field, (unsigned long long)fault.offset);
    }
    release(room);
    release(archive);
}

static void nulls(void)
{
    struct octets none[2] = {{.at = NULL}, {.at = NULL}}, nothing = {.at = (uint8_t *)""};
    struct syslogbox_fault fault;
    size_t start = 77, end = 78;
    static const char nil[] = "<13>1 - - - - - -";
    struct packet packet = {SYSLOGBOX_BSD, 2003, 0, {.at = NULL}}, wide = {SYSLOGBOX_WIDE, 2003, 0, {.at = NULL}};
    struct syslogbox_root none_of;
    const struct syslogbox_fields no_fields = {.facility = 1, .severity = 5};
    const struct selection none_selected = {{.has_from = 0}, {.at = NULL}};
    struct syslogbox_scanner scanner = {0, 0};
    struct syslogbox_found found;

    EXPECT(syslogbox_check(NULL, 0, &fault) == 0 && is_fault(fault, SYSLOGBOX_SYNTAX, SYSLOGBOX_PRIORITY, 0));
    EXPECT(syslogbox_check(NULL, 0, NULL) == 0);
    refuses(canonical, none, SYSLOGBOX_SYNTAX, SYSLOGBOX_PRIORITY, 0);
    refuses(json, none, SYSLOGBOX_SYNTAX, SYSLOGBOX_PRIORITY, 0);
    no_parts(none[0], (struct syslogbox_fault){SYSLOGBOX_SYNTAX, SYSLOGBOX_PRIORITY, 0});
    writes(value, none, nothing);
    EXPECT(syslogbox_frame(SYSLOGBOX_COUNTED, NULL, 0, &start, &end) == 0 && !start && !end);
    EXPECT(syslogbox_frame(SYSLOGBOX_LF, NULL, 0, &start, &end) == 0 && !start && !end);
    EXPECT(syslogbox_pass(SYSLOGBOX_COUNTED, NULL, 0, &start) == 0 && !start);
    EXPECT(syslogbox_union(NULL, 0, NULL, 0, NULL, 0, &fault) == 0);
    EXPECT(syslogbox_root(NULL, 0, &none_of, NULL) == 1 && !none_of.count && none_of.hash[0] == 0xe3);
    writes(joined, none, nothing);
    writes(legacy, &packet, (struct octets){.at = (uint8_t *)nil, .len = sizeof nil - 1});
    writes(legacy, &wide, (struct octets){.at = (uint8_t *)nil, .len = sizeof nil - 1});
    EXPECT(syslogbox_trimmed(NULL, 0) == 0);
    writes(common, none, nothing);
    writes(minus, none, nothing);
    writes(selected, &none_selected, nothing);
    EXPECT(syslogbox_digest(SYSLOGBOX_DAY, NULL, 0, NULL, 0, &fault) == -1 && fault.kind == SYSLOGBOX_NO_ROOM);
    EXPECT(syslogbox_scan(SYSLOGBOX_LF, 0, NULL, 0, &scanner, &found) == SYSLOGBOX_SCAN_WAITS && !found.used);
    EXPECT(syslogbox_scan(SYSLOGBOX_COUNTED, 0, NULL, 0, &scanner, &found) == SYSLOGBOX_SCAN_WAITS && !found.used);
    writes(build, &no_fields, (struct octets){.at = (uint8_t *)nil, .len = sizeof nil - 1});
    refused_fields();
}

static const struct told {
    struct syslogbox_fault fault;
    const char *text;
} texts[] = {
    {{SYSLOGBOX_SYNTAX, SYSLOGBOX_HOSTNAME, 23}, "a syntax error in the hostname at octet 23"},
    {{SYSLOGBOX_SYNTAX, SYSLOGBOX_STRUCTURED_DATA, 0}, "a syntax error in the structured data at octet 0"},
    {{SYSLOGBOX_SYNTAX, 77, 1}, "a syntax error in the record at octet 1"},
    {{SYSLOGBOX_INSTANT_RANGE, 0, 8}, "the instant of the timestamp at octet 8 is out of range"},
    {{SYSLOGBOX_REPEATED_ID, 0, 9}, "the element's id at octet 9 is repeated"},
    {{SYSLOGBOX_NOT_UTF8, 0, 5}, "the message is not UTF-8 at octet 5"},
    {{SYSLOGBOX_BAD_FRAME, SYSLOGBOX_LEFT, 3}, "the left archive has a bad frame at octet 3"},
    {{SYSLOGBOX_ENTRY_TOO_LONG, SYSLOGBOX_LEFT, 3}, "the left archive has an entry that is too long at octet 3"},
    {{SYSLOGBOX_BAD_ENTRY, SYSLOGBOX_RIGHT, 3}, "the right archive has an entry that is not a record at octet 3"},
    {{SYSLOGBOX_NOT_CANONICAL, SYSLOGBOX_RIGHT, 3}, "the right archive has an entry that is not canonical at octet 3"},
    {{SYSLOGBOX_NOT_ASCENDING, SYSLOGBOX_RIGHT, 3}, "the right archive does not ascend at octet 3"},
    {{SYSLOGBOX_NO_ROOM, 0, 16}, "16 octets of room are needed"},
    {{SYSLOGBOX_NO_MEMORY, 0, 0}, "out of memory"},
    {{SYSLOGBOX_BAD_CLOCK, 0, 0}, "the year or the offset from UTC is out of range"},
    {{SYSLOGBOX_NO_ELEMENT, 0, 2}, "there are 2 elements"},
    {{SYSLOGBOX_NO_PARAM, 0, 0}, "there are 0 parameters"},
    {{SYSLOGBOX_RECORD_TOO_LONG, 0, SYSLOGBOX_ENTRY_MAX}, "the record has more than 524295 octets"},
    {{SYSLOGBOX_NO_FAULT, 0, 0}, "a fault of kind 0"},
    {{SYSLOGBOX_BAD_DIALECT, 0, 0}, "there is no such dialect"},
    {{SYSLOGBOX_BAD_FIELD, SYSLOGBOX_HOSTNAME, 1}, "the hostname may not be so, from octet 1 on"},
    {{SYSLOGBOX_BAD_ITEM, SYSLOGBOX_STRUCTURED_DATA, 3}, "item 3 of the structured data is refused"},
    {{SYSLOGBOX_BAD_PERIOD, 0, 0}, "there is no such period"},
    {{99, 3, 4}, "a fault of kind 99"},
    {{SYSLOGBOX_SYNTAX, SYSLOGBOX_MSG_ID, UINT64_MAX}, "a syntax error in the msg id at octet 18446744073709551615"},
    {{SYSLOGBOX_NOT_ASCENDING, 0, 19}, "the archive does not ascend at octet 19"},
};

/* What each kind says, in rooms of every length. */
static void fault_texts(void)
{
    for (size_t i = 0; i < sizeof texts / sizeof *texts; i++) {
        const size_t len = strlen(texts[i].text);
        EXPECT(syslogbox_fault_text(&texts[i].fault, NULL, 0) == len);
        for (size_t room = 1; room <= len + SPARE; room++) {
            struct octets out = of_length(room);
            const size_t shown = room > len ? len : room - 1;
            EXPECT(syslogbox_fault_text(&texts[i].fault, (char *)out.at, room) == len);
            EXPECT(!memcmp(out.at, texts[i].text, shown) && !out.at[shown] && is_filled(out.at + shown + 1, room - shown - 1));
            release(out);
        }
    }
}

/* A call that takes memory answers; or it fails for that alone, leaves its room, and its name is printed. */
static void takes_memory(const char *name, writing *call, const void *input)
{
    struct syslogbox_fault fault = {0, 0, 0};
    struct octets out = of_length(PAGE);

    if (call(input, out.at, out.len, &fault) < 0) {
        EXPECT(is_fault(fault, SYSLOGBOX_NO_MEMORY, 0, 0) && is_filled(out.at, out.len));
        /* printf would take memory too */
        EXPECT(write(1, name, strlen(name)) == (ssize_t)strlen(name));
    }
    release(out);
}

static void memory(void)
{
    static const char text[] = "<13>1 2026-11-25T10:00:00+01:00 h a 1 m [b l=\"\"][a k=\"\\\"v\"] x";
    static const char entry[] = "16 <0>1 - - - - - -";
    struct octets record = {.at = (uint8_t *)text, .len = sizeof text - 1}, raw = {.at = (uint8_t *)"\\\"v", .len = 3};
    struct octets both[2] = {{.at = (uint8_t *)entry, .len = sizeof entry - 1}, {.at = (uint8_t *)entry, .len = sizeof entry - 1}};
    struct packet packet = {SYSLOGBOX_BSD, 2003, 0, {.at = (uint8_t *)"<13>Oct 11 22:14:15 h a[1]: x", .len = 29}};
    struct packet wide = packet;
    const struct selection selection = {{.has_severity = 1, .severity = 7}, both[0]};
    const struct digest digest = {SYSLOGBOX_HOUR, both[0]};
    struct syslogbox_scanner scanner = {0, 0};
    struct syslogbox_found found;
    static const struct syslogbox_item items[] = {{8, TEXT("b")}, {9, TEXT("l")}, {10, {NULL, 0}}, {8, TEXT("a")}};
    const struct syslogbox_fields fields = {
        .has_time = 1, .hostname = TEXT("h"), .app_name = TEXT("a"), .proc_id = TEXT("1"), .msg_id = TEXT("m"), .items = items,
        .item_count = 4, .message = TEXT("x")};
    struct syslogbox_parts p;
    struct syslogbox_element e;
    struct syslogbox_param q;
    struct syslogbox_part_span spans[14];
    struct syslogbox_root head;
    struct syslogbox_fault fault;
    size_t start, end;

    EXPECT(syslogbox_check(record.at, record.len, NULL) && syslogbox_view(record.at, record.len, &p, NULL) && p.elements == 2);
    EXPECT(syslogbox_element(record.at, record.len, 1, &e, NULL) && syslogbox_param(record.at, record.len, 1, 0, &q, NULL));
    EXPECT(syslogbox_spans(record.at, record.len, spans, 14, NULL) == 14);
    EXPECT(syslogbox_frame(SYSLOGBOX_COUNTED, both->at, both->len, &start, &end) == 19);
    EXPECT(syslogbox_pass(SYSLOGBOX_COUNTED, both->at, both->len, &start) == 19 && start == 1);
    takes_memory("canonical\n", canonical, &record);
    takes_memory("json\n", json, &record);
    takes_memory("value\n", value, &raw);
    takes_memory("union\n", joined, both);
    if (!syslogbox_root(both->at, both->len, &head, &fault))
        EXPECT(is_fault(fault, SYSLOGBOX_NO_MEMORY, 0, 0) && write(1, "root\n", 5) == 5);
    takes_memory("legacy\n", legacy, &packet);
    wide.dialect = SYSLOGBOX_WIDE;
    takes_memory("packet\n", legacy, &wide);
    takes_memory("build\n", build, &fields);
    takes_memory("common\n", common, both);
    takes_memory("minus\n", minus, both);
    takes_memory("select\n", selected, &selection);
    takes_memory("digest\n", digested, &digest);
    EXPECT(syslogbox_scan(SYSLOGBOX_COUNTED, 16, both->at, both->len, &scanner, &found) == SYSLOGBOX_SCAN_FRAME);
}

/* A call that reads a record, by its name. */
struct reading {
    const char *name;
    int64_t (*call)(struct octets record, struct octets out);
};

static int64_t checks(struct octets record, struct octets out)
{
    (void)out;
    return syslogbox_check(record.at, record.len, NULL);
}

static int64_t writes_canonical(struct octets record, struct octets out)
{
    return syslogbox_canonical(record.at, record.len, out.at, out.len, NULL);
}

static int64_t writes_json(struct octets record, struct octets out)
{
    return syslogbox_json(record.at, record.len, out.at, out.len, NULL);
}

static int64_t views(struct octets record, struct octets out)
{
    struct syslogbox_parts p;
    (void)out;
    return syslogbox_view(record.at, record.len, &p, NULL);
}

/* Counts the spans, of which as many are shown as `out` has room for. */
static int64_t shows_spans(struct octets record, struct octets out)
{
    struct shown spans = spans_of_length(out.len / sizeof(struct syslogbox_part_span));
    int64_t count = syslogbox_spans(record.at, record.len, spans.at, spans.octets.len / sizeof *spans.at, NULL);

    release(spans.octets);
    return count;
}

static int64_t finds_element(struct octets record, struct octets out)
{
    struct syslogbox_element e;
    (void)out;
    return syslogbox_element(record.at, record.len, 1, &e, NULL);
}

static int64_t finds_param(struct octets record, struct octets out)
{
    struct syslogbox_param q;
    (void)out;
    return syslogbox_param(record.at, record.len, 1, 0, &q, NULL);
}

static int64_t passes_over(struct octets record, struct octets out)
{
    size_t count;
    (void)out;
    return syslogbox_pass(SYSLOGBOX_LF, record.at, record.len, &count);
}

static int64_t reads_packet(struct octets record, struct octets out)
{
    return syslogbox_legacy(2003, 0, record.at, record.len, out.at, out.len, NULL);
}

struct run {
    struct reading reading;
    struct octets record, out;
    int64_t answer;
    double milliseconds;
};

static void *runs(void *argument)
{
    struct run *run = argument;
    struct timespec from, to;

    clock_gettime(CLOCK_THREAD_CPUTIME_ID, &from);
    run->answer = run->reading.call(run->record, run->out);
    clock_gettime(CLOCK_THREAD_CPUTIME_ID, &to);
    run->milliseconds = (double)(to.tv_sec - from.tv_sec) * 1e3 + (double)(to.tv_nsec - from.tv_nsec) / 1e6;
    return NULL;
}

/* Runs a call on a stack that is filled before, so that what it takes of it can be seen. */
static size_t stack_of(struct run *run)
{
    struct octets stack = of_length(8 << 20);
    pthread_attr_t attributes;
    pthread_t thread;
    size_t left = 0;

    if (pthread_attr_init(&attributes) || pthread_attr_setstack(&attributes, stack.at, stack.len)
        || pthread_create(&thread, &attributes, runs, run) || pthread_join(thread, NULL))
        abort();
    while (left < stack.len && stack.at[left] == FILLED)
        left++;
    left = stack.len - left;
    release(stack);
    return left;
}

/* The record of a file, which ends with a line feed, is read by each call. */
static void costs(const char *name)
{
    static const struct reading readings[] = {
        {"check", checks}, {"canonical", writes_canonical}, {"json", writes_json}, {"view", views}, {"spans", shows_spans},
        {"element", finds_element}, {"param", finds_param}, {"pass", passes_over}, {"legacy", reads_packet},
    };
    struct octets line = of_file(name), out = of_length(6 * line.len + 256);

    for (size_t i = 0; i < sizeof readings / sizeof *readings; i++) {
        struct run run = {.reading = readings[i], .record = line, .out = out};
        run.record.len -= run.reading.call != passes_over;
        size_t stack = stack_of(&run);
        printf("%s %lld %zu %.3f\n", run.reading.name, (long long)run.answer, stack, run.milliseconds);
    }
    release(out);
    release(line);
}

int main(int argc, char **argv)
{
    const char *mode = argc > 1 ? argv[1] : "";

    if (!strcmp(mode, "records") && argc == 3) {
        answers(argv[2], NULL);
    } else if ((!strcmp(mode, "legacy") || !strcmp(mode, "wide")) && argc == 5) {
        const int dialect = strcmp(mode, "wide") ? SYSLOGBOX_BSD : SYSLOGBOX_WIDE;
        struct packet clock = {dialect, atoi(argv[2]), atoi(argv[3]), {.at = NULL}};
        answers(argv[4], &clock);
        no_clocks();
        no_dialects();
    } else if (!strcmp(mode, "trimmed") && argc == 3) {
        trimmed(argv[2]);
    } else if (!strcmp(mode, "frames") && argc == 4) {
        struct octets stream = of_file(argv[3]);
        frames(atoi(argv[2]), stream);
        passes(atoi(argv[2]), stream);
        release(stream);
    } else if (!strcmp(mode, "scan") && argc == 6) {
        struct octets stream = of_file(argv[5]);
        scans(atoi(argv[2]), (size_t)atol(argv[3]), (unsigned)atoi(argv[4]), stream);
        release(stream);
    } else if (!strcmp(mode, "union") && argc == 4) {
        both(joined, argv[2], argv[3]);
    } else if (!strcmp(mode, "common") && argc == 4) {
        both(common, argv[2], argv[3]);
    } else if (!strcmp(mode, "minus") && argc == 4) {
        both(minus, argv[2], argv[3]);
    } else if (!strcmp(mode, "select") && argc == 9) {
        select_words(argv + 2);
    } else if (!strcmp(mode, "digest") && argc == 4) {
        struct digest digest = {atoi(argv[2]), of_file(argv[3])};
        gives(digested, &digest, digest.archive.len + 4096);
        release(digest.archive);
    } else if (!strcmp(mode, "root") && argc == 3) {
        root(argv[2]);
    } else if (!strcmp(mode, "nulls")) {
        nulls();
        fault_texts();
    } else if (!strcmp(mode, "memory")) {
        memory();
    } else if (!strcmp(mode, "costs") && argc == 3) {
        costs(argv[2]);
    } else {
        return 2;
    }
    return 0;
}
