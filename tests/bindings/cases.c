/*
 * Tries each call of libsyslogbox on cases whose answers stand here: the numbers, the octets that are written and the octets that
 * are left. tests/bindings/calls.c compares the calls with the program. The first answer that is wrong is printed, and the status
 * is 1.
 */
#include <stdio.h>
#include <stdlib.h>
#include <string.h>
#include <syslogbox.h>

#define EXPECT(holds)                                   \
    do {                                                \
        if (!(holds)) {                                 \
            printf("not %s (%d)\n", #holds, __LINE__); \
            exit(1);                                    \
        }                                               \
    } while (0)

#define OCTETS(literal) (const uint8_t *)literal, sizeof literal - 1
#define TEXT(literal) {OCTETS(literal)}
#define COUNT(rows) (sizeof rows / sizeof *rows)

#define ONE "16 <0>1 - - - - - -"
#define TWO ONE "16 <3>1 - - - - - -"

static int is_fault(struct syslogbox_fault fault, uint32_t kind, uint32_t field, uint64_t offset)
{
    return fault.kind == kind && fault.field == field && fault.offset == offset;
}

/* Whether so many octets were written, and these. */
static int is_text(int64_t answer, const uint8_t *out, const char *text)
{
    return answer == (int64_t)strlen(text) && !memcmp(out, text, strlen(text));
}

static void a_record_is_one_and_a_fault_is_told(void)
{
    struct syslogbox_fault fault = {0, 0, 0};

    EXPECT(syslogbox_check(OCTETS("<0>1 - - - - - -"), &fault) == 1);
    EXPECT(is_fault(fault, 0, 0, 0));
    EXPECT(syslogbox_check(OCTETS("<0>1"), &fault) == 0);
    EXPECT(is_fault(fault, SYSLOGBOX_SYNTAX, SYSLOGBOX_VERSION, 4));
}

static void a_small_room_says_what_is_needed(void)
{
    static const uint8_t zeros[15];
    struct syslogbox_fault fault = {0, 0, 0};
    uint8_t out[15] = {0};

    EXPECT(syslogbox_canonical(OCTETS("<0>1 - - - - - - "), out, sizeof out, &fault) == -1);
    EXPECT(is_fault(fault, SYSLOGBOX_NO_ROOM, SYSLOGBOX_NO_FIELD, 16));
    EXPECT(!memcmp(out, zeros, sizeof out));
}

static void an_element_and_its_parameter_are_shown(void)
{
    static const char octets[] = "<0>1 - - - - - [id k=\"v\"]";
    struct syslogbox_fault fault = {0, 0, 0};
    struct syslogbox_element element;
    struct syslogbox_param param;
    uint8_t out[2] = {0, 0};

    EXPECT(syslogbox_element(OCTETS(octets), 0, &element, &fault) == 1);
    EXPECT(element.id.offset == 16 && element.id.len == 2 && element.params == 1);
    EXPECT(syslogbox_param(OCTETS(octets), 0, 0, &param, &fault) == 1);
    EXPECT(param.name.offset == 19 && param.value.offset == 22 && param.value.len == 1);
    EXPECT(syslogbox_value(OCTETS("\\]"), out, sizeof out, &fault) == 1);
    EXPECT(out[0] == ']' && out[1] == 0);
}

static void frames_are_found_and_passed_over(void)
{
    size_t start = 0, end = 0, count = 0;

    EXPECT(syslogbox_frame(SYSLOGBOX_COUNTED, OCTETS("3 abc4 d"), &start, &end) == 5 && start == 2 && end == 5);
    EXPECT(syslogbox_frame(SYSLOGBOX_COUNTED, OCTETS("4 d"), &start, &end) == 0 && start == 2 && end == 6);
    EXPECT(syslogbox_frame(SYSLOGBOX_COUNTED, OCTETS("4x"), &start, &end) == -1 && start == 1 && end == 1);
    EXPECT(syslogbox_pass(SYSLOGBOX_LF, OCTETS("<0>1 - - - - - -\nx\n"), &count) == 17 && count == 1);
}

static void archives_are_joined_and_packets_read(void)
{
    struct syslogbox_fault fault;
    uint8_t out[19];

    EXPECT(is_text(syslogbox_union(OCTETS(ONE), OCTETS(ONE), out, sizeof out, &fault), out, ONE));
    EXPECT(is_text(syslogbox_legacy(2024, 0, OCTETS("x"), out, sizeof out, &fault), out, "<13>1 - - - - - - x"));
}

static void all_parts_are_shown_as_far_as_the_room_goes(void)
{
    static const char octets[] = "<34>1 - h - - - [a x=\"1\" y=\"\"][b] \xef\xbb\xbfm";
    static const struct syslogbox_part_span rows[] = {
        {SYSLOGBOX_PART_PRIORITY, {1, 2}},     {SYSLOGBOX_PART_VERSION, {4, 1}},      {SYSLOGBOX_PART_TIMESTAMP, {6, 1}},
        {SYSLOGBOX_PART_HOSTNAME, {8, 1}},     {SYSLOGBOX_PART_APP_NAME, {10, 1}},    {SYSLOGBOX_PART_PROC_ID, {12, 1}},
        {SYSLOGBOX_PART_MSG_ID, {14, 1}},      {SYSLOGBOX_PART_ELEMENT_ID, {17, 1}},  {SYSLOGBOX_PART_PARAM_NAME, {19, 1}},
        {SYSLOGBOX_PART_PARAM_VALUE, {22, 1}}, {SYSLOGBOX_PART_PARAM_NAME, {25, 1}},  {SYSLOGBOX_PART_PARAM_VALUE, {28, 0}},
        {SYSLOGBOX_PART_ELEMENT_ID, {31, 1}},  {SYSLOGBOX_PART_MESSAGE, {37, 1}},     {0, {0, 0}},
    };
    struct syslogbox_part_span room[COUNT(rows)] = {{0, {0, 0}}}, small[2] = {{0, {0, 0}}};
    struct syslogbox_fault fault;

    EXPECT(syslogbox_spans(OCTETS(octets), room, COUNT(room), &fault) == 14);
    for (size_t n = 0; n < COUNT(rows); n++) {
        EXPECT(room[n].part == rows[n].part);
        EXPECT(room[n].span.offset == rows[n].span.offset && room[n].span.len == rows[n].span.len);
    }
    EXPECT(syslogbox_spans(OCTETS(octets), small, 1, &fault) == 14);
    EXPECT(small[0].part == SYSLOGBOX_PART_PRIORITY && small[1].part == 0);
    EXPECT(syslogbox_spans(OCTETS("<34>"), small, 2, &fault) == -1);
}

static void a_record_is_built_or_a_field_is_named(void)
{
    static const struct syslogbox_item items[] = {
        {SYSLOGBOX_PART_ELEMENT_ID, TEXT("id")}, {SYSLOGBOX_PART_PARAM_NAME, TEXT("k")}, {SYSLOGBOX_PART_PARAM_VALUE, TEXT("\"")}};
    struct syslogbox_fields fields = {
        .facility = 1, .severity = 5, .app_name = TEXT("app"), .items = items, .item_count = 3, .message = TEXT("m")};
    struct syslogbox_fault fault;
    uint8_t out[64];

    EXPECT(is_text(syslogbox_build(&fields, out, sizeof out, &fault), out, "<13>1 - - app - - [id k=\"\\\"\"] m"));
    fields.app_name = (struct syslogbox_text)TEXT("a b");
    EXPECT(syslogbox_build(&fields, out, sizeof out, &fault) == -1);
    EXPECT(is_fault(fault, SYSLOGBOX_BAD_FIELD, SYSLOGBOX_APP_NAME, 1));
    fields.app_name = (struct syslogbox_text)TEXT("app");
    fields.items = items + 1, fields.item_count = 2;
    EXPECT(syslogbox_build(&fields, out, sizeof out, &fault) == -1);
    EXPECT(is_fault(fault, SYSLOGBOX_BAD_ITEM, SYSLOGBOX_STRUCTURED_DATA, 0));
}

static void a_frame_that_is_too_long_is_passed_over(void)
{
    static const struct {
        const uint8_t *piece;
        size_t len;
        int answer;
        struct syslogbox_found found;
    } rows[] = {
        {OCTETS("3 abc4 d"), SYSLOGBOX_SCAN_FRAME, {5, 2, 5}}, {OCTETS("4 d"), SYSLOGBOX_SCAN_WAITS, {3, 0, 0}},
        {OCTETS("ef"), SYSLOGBOX_SCAN_WAITS, {2, 0, 0}},       {OCTETS("g2 "), SYSLOGBOX_SCAN_TOO_LONG, {1, 0, 0}},
        {OCTETS("2 "), SYSLOGBOX_SCAN_WAITS, {0, 0, 0}},       {OCTETS("x"), SYSLOGBOX_SCAN_BROKEN, {0, 0, 0}},
    };
    struct syslogbox_scanner scanner = {0, 0};
    struct syslogbox_found found = {0, 0, 0};

    for (size_t n = 0; n < COUNT(rows); n++) {
        EXPECT(syslogbox_scan(SYSLOGBOX_COUNTED, 3, rows[n].piece, rows[n].len, &scanner, &found) == rows[n].answer);
        EXPECT(found.used == rows[n].found.used && found.start == rows[n].found.start && found.end == rows[n].found.end);
    }
    EXPECT(syslogbox_scan(SYSLOGBOX_COUNTED, 3, OCTETS("9 a"), &scanner, &found) == SYSLOGBOX_SCAN_WAITS);
    EXPECT(scanner.inside == 1 && scanner.left == 8);
    EXPECT(syslogbox_trimmed(OCTETS("x\r\n")) == 1);
}

static void archives_are_sets(void)
{
    static const struct syslogbox_condition critical = {.has_severity = 1, .severity = 2};
    struct syslogbox_fault fault;
    uint8_t out[38], lines[256];

    EXPECT(is_text(syslogbox_common(OCTETS(TWO), OCTETS(ONE), out, sizeof out, &fault), out, ONE));
    EXPECT(is_text(syslogbox_minus(OCTETS(TWO), OCTETS(ONE), out, sizeof out, &fault), out, &TWO[19]));
    EXPECT(is_text(syslogbox_select(&critical, OCTETS(TWO), out, sizeof out, &fault), out, ONE));
    EXPECT(syslogbox_digest(SYSLOGBOX_MONTH, OCTETS(TWO), lines, sizeof lines, &fault) == 154);
    EXPECT(!memcmp(lines, "undated 2 38 ", 13));
}

static void a_wide_packet_is_read(void)
{
    static const char packet[] = "<13>Oct 11 22:14:15.5 h a[1] x";
    struct syslogbox_fault fault;
    uint8_t out[64];
    int64_t answer = syslogbox_packet(SYSLOGBOX_WIDE, 2003, 0, OCTETS(packet), out, sizeof out, &fault);

    EXPECT(is_text(answer, out, "<13>1 2003-10-11T22:14:15.500000Z h a 1 - - x"));
}

int main(void)
{
    a_record_is_one_and_a_fault_is_told();
    a_small_room_says_what_is_needed();
    an_element_and_its_parameter_are_shown();
    frames_are_found_and_passed_over();
    archives_are_joined_and_packets_read();
    all_parts_are_shown_as_far_as_the_room_goes();
    a_record_is_built_or_a_field_is_named();
    a_frame_that_is_too_long_is_passed_over();
    archives_are_sets();
    a_wide_packet_is_read();
    return 0;
}
