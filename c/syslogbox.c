/*
 * The calls of syslogbox.h, before the proved ones: a null pointer with a length of 0 becomes one that is not null, and
 * a null fault one that nobody reads.
 */
#include "syslogbox.h"

#include <stdio.h>
#include <stdlib.h>

/* What crates/c_library exports. No pointer is null. */
int syslogbox_proved_check(const uint8_t *, size_t, struct syslogbox_fault *);
int64_t syslogbox_proved_canonical(const uint8_t *, size_t, uint8_t *, size_t, struct syslogbox_fault *);
int64_t syslogbox_proved_json(const uint8_t *, size_t, uint8_t *, size_t, struct syslogbox_fault *);
int syslogbox_proved_view(const uint8_t *, size_t, struct syslogbox_parts *, struct syslogbox_fault *);
int64_t syslogbox_proved_spans(const uint8_t *, size_t, struct syslogbox_part_span *, size_t,
                               struct syslogbox_fault *);
int syslogbox_proved_element(const uint8_t *, size_t, size_t, struct syslogbox_element *, struct syslogbox_fault *);
int syslogbox_proved_param(const uint8_t *, size_t, size_t, size_t, struct syslogbox_param *,
                           struct syslogbox_fault *);
int64_t syslogbox_proved_value(const uint8_t *, size_t, uint8_t *, size_t, struct syslogbox_fault *);
int64_t syslogbox_proved_frame(int, const uint8_t *, size_t, size_t *, size_t *);
int64_t syslogbox_proved_pass(int, const uint8_t *, size_t, size_t *);
int64_t syslogbox_proved_union(const uint8_t *, size_t, const uint8_t *, size_t, uint8_t *, size_t,
                               struct syslogbox_fault *);
int syslogbox_proved_root(const uint8_t *, size_t, struct syslogbox_root *, struct syslogbox_fault *);
int64_t syslogbox_proved_legacy(int, int, const uint8_t *, size_t, uint8_t *, size_t, struct syslogbox_fault *);
int64_t syslogbox_proved_packet(int, int, int, const uint8_t *, size_t, uint8_t *, size_t, struct syslogbox_fault *);
size_t syslogbox_proved_trimmed(const uint8_t *, size_t);
int64_t syslogbox_proved_common(const uint8_t *, size_t, const uint8_t *, size_t, uint8_t *, size_t,
                                struct syslogbox_fault *);
int64_t syslogbox_proved_minus(const uint8_t *, size_t, const uint8_t *, size_t, uint8_t *, size_t,
                               struct syslogbox_fault *);
int64_t syslogbox_proved_select(const struct syslogbox_condition *, const uint8_t *, size_t, uint8_t *, size_t,
                                struct syslogbox_fault *);
int64_t syslogbox_proved_digest(int, const uint8_t *, size_t, uint8_t *, size_t, struct syslogbox_fault *);
int syslogbox_proved_scan(int, size_t, const uint8_t *, size_t, struct syslogbox_scanner *, struct syslogbox_found *);
int64_t syslogbox_proved_build(const struct syslogbox_fields *, uint8_t *, size_t, struct syslogbox_fault *);

static uint8_t nothing[1];
static struct syslogbox_part_span no_span;
static const struct syslogbox_item no_item = {0, {nothing, 0}};

static const uint8_t *octets(const uint8_t *at, size_t len)
{
    return len ? at : nothing;
}

static uint8_t *space(uint8_t *at, size_t room)
{
    return room ? at : nothing;
}

#define UNREAD(fault)              \
    struct syslogbox_fault unread; \
    if (!fault)                    \
    fault = &unread

uint32_t syslogbox_library_version(void)
{
    return SYSLOGBOX_LIBRARY_VERSION;
}

/* What a fault of each kind says, before its field, behind it, and behind its offset; NULL where it has none. */
static const struct meaning {
    const char *field, *offset, *end;
} meanings[] = {
    [SYSLOGBOX_SYNTAX] = {"a syntax error in the", " at octet ", ""},
    [SYSLOGBOX_INSTANT_RANGE] = {NULL, "the instant of the timestamp at octet ", " is out of range"},
    [SYSLOGBOX_REPEATED_ID] = {NULL, "the element's id at octet ", " is repeated"},
    [SYSLOGBOX_NOT_UTF8] = {NULL, "the message is not UTF-8 at octet ", ""},
    [SYSLOGBOX_BAD_FRAME] = {"the", " archive has a bad frame at octet ", ""},
    [SYSLOGBOX_ENTRY_TOO_LONG] = {"the", " archive has an entry that is too long at octet ", ""},
    [SYSLOGBOX_BAD_ENTRY] = {"the", " archive has an entry that is not a record at octet ", ""},
    [SYSLOGBOX_NOT_CANONICAL] = {"the", " archive has an entry that is not canonical at octet ", ""},
    [SYSLOGBOX_NOT_ASCENDING] = {"the", " archive does not ascend at octet ", ""},
    [SYSLOGBOX_NO_ROOM] = {NULL, "", " octets of room are needed"},
    [SYSLOGBOX_NO_MEMORY] = {NULL, NULL, "out of memory"},
    [SYSLOGBOX_BAD_CLOCK] = {NULL, NULL, "the year or the offset from UTC is out of range"},
    [SYSLOGBOX_NO_ELEMENT] = {NULL, "there are ", " elements"},
    [SYSLOGBOX_NO_PARAM] = {NULL, "there are ", " parameters"},
    [SYSLOGBOX_RECORD_TOO_LONG] = {NULL, "the record has more than ", " octets"},
    [SYSLOGBOX_BAD_DIALECT] = {NULL, NULL, "there is no such dialect"},
    [SYSLOGBOX_BAD_FIELD] = {"the", " may not be so, from octet ", " on"},
    [SYSLOGBOX_BAD_ITEM] = {NULL, "item ", " of the structured data is refused"},
    [SYSLOGBOX_BAD_PERIOD] = {NULL, NULL, "there is no such period"},
};

/* A space and the name of each field; nothing for an archive that is alone. */
static const char *const fields[] = {
    [SYSLOGBOX_NO_FIELD] = "",
    [SYSLOGBOX_PRIORITY] = " priority",
    [SYSLOGBOX_VERSION] = " version",
    [SYSLOGBOX_TIMESTAMP] = " timestamp",
    [SYSLOGBOX_HOSTNAME] = " hostname",
    [SYSLOGBOX_APP_NAME] = " app name",
    [SYSLOGBOX_PROC_ID] = " proc id",
    [SYSLOGBOX_MSG_ID] = " msg id",
    [SYSLOGBOX_STRUCTURED_DATA] = " structured data",
    [SYSLOGBOX_MESSAGE] = " message",
    [SYSLOGBOX_LEFT] = " left",
    [SYSLOGBOX_RIGHT] = " right",
};

#define LENGTH(array) (sizeof(array) / sizeof *(array))

static const char *name_of(uint32_t field)
{
    return field < LENGTH(fields) ? fields[field] : " record";
}

size_t syslogbox_fault_text(const struct syslogbox_fault *fault, char *text, size_t room)
{
    char number[24] = "";
    const struct meaning *means = fault->kind < LENGTH(meanings) ? &meanings[fault->kind] : &meanings[0];

    if (!means->end)
        return (size_t)snprintf(text, room, "a fault of kind %lu", (unsigned long)fault->kind);
    if (means->offset)
        snprintf(number, sizeof number, "%llu", (unsigned long long)fault->offset);
    return (size_t)snprintf(text, room, "%s%s%s%s%s", means->field ? means->field : "",
                            means->field ? name_of(fault->field) : "", means->offset ? means->offset : "", number,
                            means->end);
}

int syslogbox_check(const uint8_t *record, size_t len, struct syslogbox_fault *fault)
{
    UNREAD(fault);
    return syslogbox_proved_check(octets(record, len), len, fault);
}

int64_t syslogbox_canonical(const uint8_t *record, size_t len, uint8_t *out, size_t room,
                            struct syslogbox_fault *fault)
{
    UNREAD(fault);
    return syslogbox_proved_canonical(octets(record, len), len, space(out, room), room, fault);
}

int64_t syslogbox_json(const uint8_t *record, size_t len, uint8_t *out, size_t room, struct syslogbox_fault *fault)
{
    UNREAD(fault);
    return syslogbox_proved_json(octets(record, len), len, space(out, room), room, fault);
}

int syslogbox_view(const uint8_t *record, size_t len, struct syslogbox_parts *parts, struct syslogbox_fault *fault)
{
    UNREAD(fault);
    return syslogbox_proved_view(octets(record, len), len, parts, fault);
}

int64_t syslogbox_spans(const uint8_t *record, size_t len, struct syslogbox_part_span *spans, size_t room,
                        struct syslogbox_fault *fault)
{
    UNREAD(fault);
    return syslogbox_proved_spans(octets(record, len), len, room ? spans : &no_span, room, fault);
}

int syslogbox_element(const uint8_t *record, size_t len, size_t n, struct syslogbox_element *element,
                      struct syslogbox_fault *fault)
{
    UNREAD(fault);
    return syslogbox_proved_element(octets(record, len), len, n, element, fault);
}

int syslogbox_param(const uint8_t *record, size_t len, size_t n, size_t m, struct syslogbox_param *param,
                    struct syslogbox_fault *fault)
{
    UNREAD(fault);
    return syslogbox_proved_param(octets(record, len), len, n, m, param, fault);
}

int64_t syslogbox_value(const uint8_t *raw, size_t len, uint8_t *out, size_t room, struct syslogbox_fault *fault)
{
    UNREAD(fault);
    return syslogbox_proved_value(octets(raw, len), len, space(out, room), room, fault);
}

int64_t syslogbox_frame(int framing, const uint8_t *piece, size_t len, size_t *start, size_t *end)
{
    return syslogbox_proved_frame(framing, octets(piece, len), len, start, end);
}

int64_t syslogbox_pass(int framing, const uint8_t *piece, size_t len, size_t *count)
{
    return syslogbox_proved_pass(framing, octets(piece, len), len, count);
}

int64_t syslogbox_union(const uint8_t *left, size_t left_len, const uint8_t *right, size_t right_len, uint8_t *out,
                        size_t room, struct syslogbox_fault *fault)
{
    UNREAD(fault);
    return syslogbox_proved_union(octets(left, left_len), left_len, octets(right, right_len), right_len,
                                  space(out, room), room, fault);
}

int syslogbox_root(const uint8_t *archive, size_t len, struct syslogbox_root *root, struct syslogbox_fault *fault)
{
    UNREAD(fault);
    return syslogbox_proved_root(octets(archive, len), len, root, fault);
}

int64_t syslogbox_legacy(int year, int offset_minutes, const uint8_t *packet, size_t len, uint8_t *out, size_t room,
                         struct syslogbox_fault *fault)
{
    UNREAD(fault);
    return syslogbox_proved_legacy(year, offset_minutes, octets(packet, len), len, space(out, room), room, fault);
}

int64_t syslogbox_packet(int dialect, int year, int offset_minutes, const uint8_t *packet, size_t len, uint8_t *out,
                         size_t room, struct syslogbox_fault *fault)
{
    UNREAD(fault);
    return syslogbox_proved_packet(dialect, year, offset_minutes, octets(packet, len), len, space(out, room), room,
                                   fault);
}

size_t syslogbox_trimmed(const uint8_t *frame, size_t len)
{
    return syslogbox_proved_trimmed(octets(frame, len), len);
}

int64_t syslogbox_common(const uint8_t *left, size_t left_len, const uint8_t *right, size_t right_len, uint8_t *out,
                         size_t room, struct syslogbox_fault *fault)
{
    UNREAD(fault);
    return syslogbox_proved_common(octets(left, left_len), left_len, octets(right, right_len), right_len,
                                   space(out, room), room, fault);
}

int64_t syslogbox_minus(const uint8_t *left, size_t left_len, const uint8_t *right, size_t right_len, uint8_t *out,
                        size_t room, struct syslogbox_fault *fault)
{
    UNREAD(fault);
    return syslogbox_proved_minus(octets(left, left_len), left_len, octets(right, right_len), right_len,
                                  space(out, room), room, fault);
}

static struct syslogbox_text lent(struct syslogbox_text text)
{
    return (struct syslogbox_text){octets(text.at, text.len), text.len};
}

int64_t syslogbox_select(const struct syslogbox_condition *condition, const uint8_t *archive, size_t len, uint8_t *out,
                         size_t room, struct syslogbox_fault *fault)
{
    UNREAD(fault);
    struct syslogbox_condition all = *condition;

    all.hostname = lent(all.hostname);
    all.app_name = lent(all.app_name);
    return syslogbox_proved_select(&all, octets(archive, len), len, space(out, room), room, fault);
}

int64_t syslogbox_digest(int period, const uint8_t *archive, size_t len, uint8_t *out, size_t room,
                         struct syslogbox_fault *fault)
{
    UNREAD(fault);
    return syslogbox_proved_digest(period, octets(archive, len), len, space(out, room), room, fault);
}

int syslogbox_scan(int framing, size_t longest, const uint8_t *piece, size_t len, struct syslogbox_scanner *scanner,
                   struct syslogbox_found *found)
{
    return syslogbox_proved_scan(framing, longest, octets(piece, len), len, scanner, found);
}

static int has_null(const struct syslogbox_item *items, size_t count)
{
    for (size_t i = 0; i < count; i++)
        if (!items[i].text.at)
            return 1;
    return 0;
}

/* The items, if one has a null pointer a copy of them without; NULL if there is no memory for that. */
static struct syslogbox_item *copied(const struct syslogbox_item *items, size_t count)
{
    struct syslogbox_item *copy = count > SIZE_MAX / sizeof *copy ? NULL : malloc(count * sizeof *copy);

    for (size_t i = 0; copy && i < count; i++)
        copy[i] = (struct syslogbox_item){items[i].part, lent(items[i].text)};
    return copy;
}

int64_t syslogbox_build(const struct syslogbox_fields *fields, uint8_t *out, size_t room, struct syslogbox_fault *fault)
{
    UNREAD(fault);
    struct syslogbox_fields all = *fields;
    struct syslogbox_item *copy = NULL;
    int64_t answer;

    all.hostname = lent(all.hostname);
    all.app_name = lent(all.app_name);
    all.proc_id = lent(all.proc_id);
    all.msg_id = lent(all.msg_id);
    all.message = lent(all.message);
    if (!all.item_count) {
        all.items = &no_item;
    } else if (has_null(all.items, all.item_count)) {
        if (!(copy = copied(all.items, all.item_count))) {
            *fault = (struct syslogbox_fault){SYSLOGBOX_NO_MEMORY, SYSLOGBOX_NO_FIELD, 0};
            return -1;
        }
        all.items = copy;
    }
    answer = syslogbox_proved_build(&all, space(out, room), room, fault);
    free(copy);
    return answer;
}
