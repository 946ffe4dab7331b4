/*
 * libsyslogbox: syslog records (RFC 5424), frames of streams (RFC 6587), legacy packets (RFC 3164) and archives.
 *
 * Behind each call that takes octets stands a function that is proved to meet its contract. The calls keep no state but
 * a scanner of the caller's, and touch no file: octets and lengths go in, what comes out goes into the caller's memory.
 * They may be called from any thread, with a scanner from one at a time.
 *
 * For every call:
 * - `len` octets can be read at its pointer, and `room` octets written at `out`. They do not overlap, nor with the
 *   structs. A pointer may be null if its length is 0. Lengths are below 2^63.
 * - `fault` may be null if the caller needs no reason. It is written if the call fails, and left alone otherwise. A call
 *   that fails leaves `out`, `spans`, `parts`, `element` and `param` as they were.
 * - Offsets and lengths count octets, from 0 on.
 * - syslogbox_check, _view, _spans, _element, _param, _frame, _pass, _scan and _trimmed take no memory. The others call
 *   malloc, and fail with SYSLOGBOX_NO_MEMORY if it fails.
 * - No record of more than SYSLOGBOX_ENTRY_MAX octets is read: calls fail with SYSLOGBOX_RECORD_TOO_LONG.
 * - On the stack a record of up to 2,000 octets took less than 32 KiB, and any other at most 1 MiB: most of it if there
 *   are thousands of elements. A thread with less room may overflow.
 */
#ifndef SYSLOGBOX_H
#define SYSLOGBOX_H

#include <stddef.h>
#include <stdint.h>

#ifdef __cplusplus
extern "C" {
#endif

/*
 * The version of this header: 10,000 times its first number, 100 times the second, and the third. The name
 * SYSLOGBOX_VERSION is a field of records, below.
 */
#define SYSLOGBOX_LIBRARY_VERSION 1300

/*
 * The version of the library that is called, in the same form. A shared library may be newer than the header that the
 * program was built with.
 */
uint32_t syslogbox_library_version(void);

/* The most octets of a record in a frame that the program reads. The calls here read longer ones as well. */
#define SYSLOGBOX_FRAME_MAX 262144

/* The most octets of a canonical record in an archive, and of any record that is read. */
#define SYSLOGBOX_ENTRY_MAX 524295

/* What is wrong, and what the fault's offset says of it. */
enum syslogbox_kind {
    SYSLOGBOX_NO_FAULT = 0,       /* never written */
    SYSLOGBOX_SYNTAX = 1,         /* outside the grammar (RFC 5424, 6), in `field`: some record begins with the octets
                                     before the offset, and none with one more */
    SYSLOGBOX_INSTANT_RANGE = 2,  /* the timestamp there names an instant before the year 0 or after 9999 */
    SYSLOGBOX_REPEATED_ID = 3,    /* the element's id there is that of an earlier one (6.3.2) */
    SYSLOGBOX_NOT_UTF8 = 4,       /* a legacy packet's message starts with the BOM, and is not UTF-8 there */
    SYSLOGBOX_BAD_FRAME = 5,      /* of an archive, `field` says which of two: the octet there cannot belong to a count; or
                                     its length, if it ends inside an entry */
    SYSLOGBOX_ENTRY_TOO_LONG = 6, /* the entry there has more than SYSLOGBOX_ENTRY_MAX octets */
    SYSLOGBOX_BAD_ENTRY = 7,      /* the entry there is not a record: syslogbox_check of its octets says why */
    SYSLOGBOX_NOT_CANONICAL = 8,  /* the entry there is a record, and not in its canonical form */
    SYSLOGBOX_NOT_ASCENDING = 9,  /* the entry there is not above the one before it */
    SYSLOGBOX_NO_ROOM = 10,       /* the room is too small: `offset` octets are needed */
    SYSLOGBOX_NO_MEMORY = 11,     /* malloc failed; the offset is 0 */
    SYSLOGBOX_BAD_CLOCK = 12,     /* the year or the offset from UTC is out of range; the offset is 0 */
    SYSLOGBOX_NO_ELEMENT = 13,    /* there is no such element: there are `offset` of them */
    SYSLOGBOX_NO_PARAM = 14,      /* there is no such parameter: there are `offset` of them */
    SYSLOGBOX_RECORD_TOO_LONG = 15, /* the record has more than SYSLOGBOX_ENTRY_MAX octets, which is the offset */
    SYSLOGBOX_BAD_DIALECT = 16,    /* there is no such dialect; the offset is 0 */
    SYSLOGBOX_BAD_FIELD = 17,      /* of a call that writes a record or asks for one: `field` may not be so. The offset
                                      is that of the first octet that a word may not have; how many it may have, if
                                      there are more; else 0, as of "-" */
    SYSLOGBOX_BAD_ITEM = 18,       /* item number `offset`, from 0 on, of structured data is refused: it may not stand
                                      there, or it is no name, or no UTF-8. If it is the number of items, a value is
                                      missing */
    SYSLOGBOX_BAD_PERIOD = 19      /* there is no such period; the offset is 0 */
};

/* Where: a field of RFC 5424, section 6, or which archive. */
enum syslogbox_field {
    SYSLOGBOX_NO_FIELD = 0,
    SYSLOGBOX_PRIORITY = 1,
    SYSLOGBOX_VERSION = 2,
    SYSLOGBOX_TIMESTAMP = 3,
    SYSLOGBOX_HOSTNAME = 4,
    SYSLOGBOX_APP_NAME = 5,
    SYSLOGBOX_PROC_ID = 6,
    SYSLOGBOX_MSG_ID = 7,
    SYSLOGBOX_STRUCTURED_DATA = 8,
    SYSLOGBOX_MESSAGE = 9,
    SYSLOGBOX_LEFT = 10,
    SYSLOGBOX_RIGHT = 11
};

/* Why a call failed: numbers of the two enums above. */
struct syslogbox_fault {
    uint32_t kind, field;
    uint64_t offset;
};

/*
 * Writes what a fault says, for people: "a syntax error in the hostname at octet 23". As snprintf does it: at most `room`
 * octets with the NUL that ends them, and the length of the whole text is returned. A kind that the library does not know
 * is told by its number.
 */
size_t syslogbox_fault_text(const struct syslogbox_fault *fault, char *text, size_t room);

/* `len` octets of the record, from `offset` on. */
struct syslogbox_span {
    size_t offset, len;
};

/*
 * The parts of a record. A word that is "-" has no octets (offset and len are 0); any other has one at least.
 */
struct syslogbox_parts {
    int64_t time;       /* microseconds from 1970-01-01T00:00:00Z, by the timestamp's own offset; 0 without a time */
    uint32_t has_time;  /* 1 or 0 */
    uint32_t facility;  /* 0 to 23 */
    uint32_t severity;  /* 0, the most severe, to 7 */
    uint32_t has_bom;   /* 1 if the message starts with the BOM, and so is UTF-8 */
    struct syslogbox_span hostname, app_name, proc_id, msg_id;
    struct syslogbox_span structured_data; /* as it is spelled: "-", or the elements */
    size_t elements;                       /* how many there are: syslogbox_element shows each */
    struct syslogbox_span message;         /* without the BOM; it may be empty */
};

/* An element of the structured data (6.3.1). */
struct syslogbox_element {
    struct syslogbox_span id;
    size_t params; /* how many there are: syslogbox_param shows each */
};

/* A parameter of an element (6.3.3). */
struct syslogbox_param {
    struct syslogbox_span name;
    struct syslogbox_span value; /* as it is spelled between the quotation marks: syslogbox_value gives its meaning */
};

/* Which part of a record a span is. */
enum syslogbox_part {
    SYSLOGBOX_PART_PRIORITY = 1,     /* the number between the angle brackets (RFC 5424, 6.2.1) */
    SYSLOGBOX_PART_VERSION = 2,      /* 6.2.2 */
    SYSLOGBOX_PART_TIMESTAMP = 3,    /* 6.2.3; "-" if the record has no time */
    SYSLOGBOX_PART_HOSTNAME = 4,     /* 6.2.4; "-" if the record has none, as in the next three */
    SYSLOGBOX_PART_APP_NAME = 5,     /* 6.2.5 */
    SYSLOGBOX_PART_PROC_ID = 6,      /* 6.2.6 */
    SYSLOGBOX_PART_MSG_ID = 7,       /* 6.2.7 */
    SYSLOGBOX_PART_ELEMENT_ID = 8,   /* the id of an element (6.3.2) */
    SYSLOGBOX_PART_PARAM_NAME = 9,   /* the name of a parameter of that element (6.3.3); its value comes next */
    SYSLOGBOX_PART_PARAM_VALUE = 10, /* between the quotation marks, as spelled: syslogbox_value gives its meaning */
    SYSLOGBOX_PART_MESSAGE = 11      /* without the BOM (6.4); it may be empty */
};

/* A part of a record, and where it lies. */
struct syslogbox_part_span {
    uint32_t part; /* a number of enum syslogbox_part */
    struct syslogbox_span span;
};

/* How records are framed on a stream (RFC 6587). */
enum syslogbox_framing {
    SYSLOGBOX_COUNTED = 1, /* octet counting (3.4.1): the length in decimal, a space, the record */
    SYSLOGBOX_LF = 2       /* the record and a line feed (3.4.2) */
};

/*
 * Whether the octets are a record: 1; or 0, with the fault (RECORD_TOO_LONG, SYNTAX, INSTANT_RANGE or REPEATED_ID, the
 * first of them that holds).
 */
int syslogbox_check(const uint8_t *record, size_t len, struct syslogbox_fault *fault);

/*
 * Writes the record's canonical octets to the front of `out` and returns how many they are; or -1, with the fault
 * (those of syslogbox_check, NO_ROOM, NO_MEMORY). Equal records have equal canonical octets. 2 * len + 7 octets are
 * always enough.
 */
int64_t syslogbox_canonical(const uint8_t *record, size_t len, uint8_t *out, size_t room,
                            struct syslogbox_fault *fault);

/*
 * Writes the record as an object of JSON (RFC 8259) and returns how many octets it has: the line of `syslogbox show --json`
 * without its line feed. Or -1, with the fault (those of syslogbox_check, NO_ROOM, NO_MEMORY).
 */
int64_t syslogbox_json(const uint8_t *record, size_t len, uint8_t *out, size_t room, struct syslogbox_fault *fault);

/* The parts of the record, as offsets into its octets: 1; or 0, with the fault of syslogbox_check. */
int syslogbox_view(const uint8_t *record, size_t len, struct syslogbox_parts *parts, struct syslogbox_fault *fault);

/*
 * All parts of the record in the order of its octets: the seven fields before the structured data, each as it is
 * spelled; of each element its id, and the name and the value of each parameter; then the message. Returns how many
 * they are, eight at least, and fills `spans` with the first `room` of them; if there are more, call again with room
 * for all. Or -1, with the fault of syslogbox_check. The time grows with the length of the record.
 */
int64_t syslogbox_spans(const uint8_t *record, size_t len, struct syslogbox_part_span *spans, size_t room,
                        struct syslogbox_fault *fault);

/*
 * Element number n of the record, from 0 on in the order of its octets: 1; or 0, with the fault (those of
 * syslogbox_check, NO_ELEMENT). The record is read anew by each call; syslogbox_spans reads it once for all elements.
 */
int syslogbox_element(const uint8_t *record, size_t len, size_t n, struct syslogbox_element *element,
                      struct syslogbox_fault *fault);

/*
 * Parameter number m, from 0 on, of element number n of the record: 1; or 0, with the fault (those of
 * syslogbox_element, NO_PARAM).
 */
int syslogbox_param(const uint8_t *record, size_t len, size_t n, size_t m, struct syslogbox_param *param,
                    struct syslogbox_fault *fault);

/*
 * Writes what the spelling of a parameter's value means (6.3.3), which is UTF-8, and returns how many octets it has; or
 * -1, with the fault (NO_ROOM, NO_MEMORY). `len` octets are always enough. Of octets that are no such spelling nothing
 * is said but that the call returns and stays in its room.
 */
int64_t syslogbox_value(const uint8_t *raw, size_t len, uint8_t *out, size_t room, struct syslogbox_fault *fault);

/*
 * The next frame of a stream, which begins at `piece`. `framing` is an enum syslogbox_framing.
 *
 *   n > 0   a frame is whole: the octets from *start to *end, not including *end. It takes n octets of the stream, and
 *           the next one begins there. It may be longer than any record that is read.
 *   0       none is whole yet: call again with more octets behind these. Where the count of a frame was read, it begins
 *           at *start and will end at *end, beyond the piece; else both are 0. A caller that keeps octets from others
 *           sets a limit of its own: a count may say up to 9,999,999,999, and a line has no end.
 *   -1      no frame begins so: the octet at *start, which is *end too, cannot belong to a count (octet counting alone).
 *   -2      there is no such framing, and nothing was written.
 */
int64_t syslogbox_frame(int framing, const uint8_t *piece, size_t len, size_t *start, size_t *end);

/*
 * Passes over the frames at the front of `piece` that are records, as by syslogbox_frame and syslogbox_check: returns how
 * many octets of the stream they take, and *count is how many they are. What follows is a frame that is not a record, or
 * no whole frame. -2 if there is no such framing, and nothing was written.
 */
int64_t syslogbox_pass(int framing, const uint8_t *piece, size_t len, size_t *count);

/* What a scanner found first in a piece of a stream. */
enum syslogbox_scanned {
    SYSLOGBOX_SCAN_WAITS = 0,   /* no end of a frame. If `used` is 0, give the piece again with more octets behind it;
                                   else all of it belongs to a frame that is too long, and the next piece follows it */
    SYSLOGBOX_SCAN_FRAME = 1,   /* a frame: the octets from `start` to `end`, not including `end` */
    SYSLOGBOX_SCAN_TOO_LONG = 2, /* the end of a frame of more than `longest` octets, all of them passed over */
    SYSLOGBOX_SCAN_BROKEN = -1  /* no frame begins so: the octet at `start`, which is `end` too, cannot belong to a
                                   count */
};

/* What a scanner keeps between two pieces, all zeros before the first: 16 octets, which are its own. */
struct syslogbox_scanner {
    uint32_t inside;
    uint64_t left;
};

/* Where it is in the piece, of which `used` octets are done with: the next piece begins behind them. */
struct syslogbox_found {
    size_t used, start, end;
};

/*
 * What comes first in a piece of a stream: a number of enum syslogbox_scanned; or -2 if there is no such framing, and
 * nothing was written. Frames of up to `longest` octets are found in the piece itself; the octets of a longer one are
 * passed over as they come, in whatever pieces, and its end is told. With SYSLOGBOX_FRAME_MAX that is what the program
 * does. A caller that reads a stream needs room for `longest` octets and a count, which has eleven at most with its
 * space; the call takes linear time in the octets of the piece, and those of a line that is not whole are looked at
 * again each time.
 */
int syslogbox_scan(int framing, size_t longest, const uint8_t *piece, size_t len, struct syslogbox_scanner *scanner,
                   struct syslogbox_found *found);

/*
 * How many octets of a frame are left without the line end or the NUL that a sender may have put behind the record: CR
 * LF, else LF, else CR, else NUL is dropped from its end. Give any call that reads a record, or a packet, that many
 * octets: it then reads what `--trim` reads. Whether a frame is too long is a question of all its octets.
 */
size_t syslogbox_trimmed(const uint8_t *frame, size_t len);

/*
 * Writes the archive of the records of two archives and returns how many octets it has; or -1, with the fault (of an
 * archive, of the left one first; NO_ROOM, NO_MEMORY). An archive is a set of records: the canonical octets of each,
 * once, by instant and then by octets, each behind its count as SYSLOGBOX_COUNTED frames them. No octets are the empty
 * one. left_len + right_len octets are always enough.
 */
int64_t syslogbox_union(const uint8_t *left, size_t left_len, const uint8_t *right, size_t right_len, uint8_t *out,
                        size_t room, struct syslogbox_fault *fault);

/*
 * As syslogbox_union, of the records that both archives have; and of those that the left one has and the right one
 * lacks. As many octets as the left archive has are always enough.
 */
int64_t syslogbox_common(const uint8_t *left, size_t left_len, const uint8_t *right, size_t right_len, uint8_t *out,
                         size_t room, struct syslogbox_fault *fault);
int64_t syslogbox_minus(const uint8_t *left, size_t left_len, const uint8_t *right, size_t right_len, uint8_t *out,
                        size_t room, struct syslogbox_fault *fault);

/* Octets of the caller. */
struct syslogbox_text {
    const uint8_t *at;
    size_t len;
};

/* What records have to meet, all of it. All zeros are no condition: each record meets it. */
struct syslogbox_condition {
    int64_t from, to;          /* from this instant on, and before that one; microseconds from 1970-01-01T00:00:00Z */
    uint32_t has_from, has_to; /* 0: there is no such bound */
    uint32_t undated;          /* not 0: records without a time are taken, though there is a bound */
    uint32_t has_severity;     /* 0: each severity is taken */
    uint32_t severity;         /* 0 to 7: this one, and all that are more severe */
    struct syslogbox_text hostname, app_name; /* the very word; without octets, any */
};

/*
 * Writes the archive of those records of an archive that meet the condition, and returns how many octets it has; or -1,
 * with the fault (INSTANT_RANGE of a bound, whose offset is 0; BAD_FIELD of the severity; of an archive; NO_ROOM,
 * NO_MEMORY). `len` octets are always enough.
 */
int64_t syslogbox_select(const struct syslogbox_condition *condition, const uint8_t *archive, size_t len, uint8_t *out,
                         size_t room, struct syslogbox_fault *fault);

/* How long the periods of a digest are, in UTC. */
enum syslogbox_period {
    SYSLOGBOX_MONTH = 1, /* as 2026-11 */
    SYSLOGBOX_DAY = 2,   /* as 2026-11-25 */
    SYSLOGBOX_HOUR = 3   /* as 2026-11-25T10 */
};

/*
 * Writes the digest of an archive, the lines of `syslogbox digest`, and returns how many octets it has; or -1, with the
 * fault (BAD_PERIOD; of an archive; NO_ROOM, NO_MEMORY). A line for each period that has records, `PERIOD COUNT OCTETS
 * SHA256`, and one for all, which begins with `total`: 121 octets each at most.
 */
int64_t syslogbox_digest(int period, const uint8_t *archive, size_t len, uint8_t *out, size_t room,
                         struct syslogbox_fault *fault);

/* How many records an archive has, and the hash of their Merkle tree (RFC 9162, section 2.1.1), a leaf for each record. */
struct syslogbox_root {
    uint64_t count;
    uint8_t hash[32];
};

/*
 * The root of an archive, which `syslogbox root` prints: 1; or 0, with the fault (of an archive, NO_MEMORY). `field` of the
 * fault is 0.
 */
int syslogbox_root(const uint8_t *archive, size_t len, struct syslogbox_root *root, struct syslogbox_fault *fault);

/*
 * Writes the canonical octets of the record that a packet is read as, and returns how many they are; or -1, with the
 * fault (BAD_CLOCK; RECORD_TOO_LONG; those of syslogbox_check for a packet that begins as RFC 5424 does, with PRI and
 * "1 "; NOT_UTF8 for any other; NO_ROOM, NO_MEMORY). A packet of another front is read by RFC 3164, section 4: `year`,
 * from 1 to 9998, is that of its timestamp, which is `offset_minutes`, from -1439 to 1439, ahead of UTC. 2 * len + 64
 * octets are always enough.
 */
int64_t syslogbox_legacy(int year, int offset_minutes, const uint8_t *packet, size_t len, uint8_t *out, size_t room,
                         struct syslogbox_fault *fault);

/* An item of structured data. */
struct syslogbox_item {
    uint32_t part;              /* SYSLOGBOX_PART_ELEMENT_ID, _PARAM_NAME or _PARAM_VALUE */
    struct syslogbox_text text; /* of a value, what is meant, without escapes: UTF-8 */
};

/*
 * The fields of a record that is to be written. A word without octets is "-". All zeros but for a severity are a record
 * without words, structured data and message.
 */
struct syslogbox_fields {
    int64_t time;      /* microseconds from 1970-01-01T00:00:00Z, from the year 0 to 9999 */
    uint32_t has_time; /* 0: there is no time */
    uint32_t facility; /* 0 to 23 */
    uint32_t severity; /* 0 to 7 */
    uint32_t has_bom;  /* 0: the message is any octets that do not start with the BOM; else it is UTF-8, and gets the
                          BOM */
    struct syslogbox_text hostname, app_name, proc_id, msg_id;
    const struct syslogbox_item *items; /* of each element its id, and then the name and the value of each parameter */
    size_t item_count;
    struct syslogbox_text message;
};

/*
 * Writes the canonical octets of the record of these fields, and returns how many they are; or -1, with the fault:
 * BAD_FIELD; INSTANT_RANGE of the time; BAD_ITEM; REPEATED_ID, if two elements have one id; NOT_UTF8 of the message;
 * RECORD_TOO_LONG, if the record is longer than any that is read; NO_ROOM, NO_MEMORY. The offsets of INSTANT_RANGE and
 * REPEATED_ID are 0.
 */
int64_t syslogbox_build(const struct syslogbox_fields *fields, uint8_t *out, size_t room,
                        struct syslogbox_fault *fault);

/* Which spellings of legacy packets are understood. */
enum syslogbox_dialect {
    SYSLOGBOX_BSD = 1, /* those of RFC 3164, section 4, as by syslogbox_legacy */
    SYSLOGBOX_WIDE = 2 /* those, and what devices and programs send besides: a space behind PRI; timestamps of RFC 5424,
                          and ones with a year, a fraction, a mark before them or a colon behind them; packets without a
                          host; NAME[PROCID] without a colon */
};

/* As syslogbox_legacy, of packets in a dialect; it fails with BAD_DIALECT if there is none of this number. */
int64_t syslogbox_packet(int dialect, int year, int offset_minutes, const uint8_t *packet, size_t len, uint8_t *out,
                         size_t room, struct syslogbox_fault *fault);

#ifdef __cplusplus
}
#endif

#endif
