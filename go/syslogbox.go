// Package syslogbox reads and writes syslog records (RFC 5424), frames of streams (RFC 6587), legacy packets
// (RFC 3164) and archives, by libsyslogbox, which pkg-config has to find.
package syslogbox

/*
#cgo pkg-config: syslogbox
#include <stdlib.h>
#include <syslogbox.h>
*/
import "C"

import (
	"bufio"
	"bytes"
	"fmt"
	"io"
	"math"
	"time"
	"unsafe"
)

// Kind says what is wrong: a number of enum syslogbox_kind.
type Kind uint32

// Field says where: a number of enum syslogbox_field.
type Field uint32

// The kinds of faults; the header of the library says what each means.
const (
	Syntax       Kind = C.SYSLOGBOX_SYNTAX
	InstantRange Kind = C.SYSLOGBOX_INSTANT_RANGE
	RepeatedID   Kind = C.SYSLOGBOX_REPEATED_ID
	NotUTF8      Kind = C.SYSLOGBOX_NOT_UTF8
	BadFrame     Kind = C.SYSLOGBOX_BAD_FRAME
	EntryTooLong Kind = C.SYSLOGBOX_ENTRY_TOO_LONG
	BadEntry     Kind = C.SYSLOGBOX_BAD_ENTRY
	NotCanonical Kind = C.SYSLOGBOX_NOT_CANONICAL
	NotAscending Kind = C.SYSLOGBOX_NOT_ASCENDING
	NoRoom       Kind = C.SYSLOGBOX_NO_ROOM
	NoMemory     Kind = C.SYSLOGBOX_NO_MEMORY
	BadClock     Kind = C.SYSLOGBOX_BAD_CLOCK
	NoElement    Kind = C.SYSLOGBOX_NO_ELEMENT
	NoParam      Kind = C.SYSLOGBOX_NO_PARAM
	TooLong      Kind = C.SYSLOGBOX_RECORD_TOO_LONG
	BadDialect   Kind = C.SYSLOGBOX_BAD_DIALECT
	BadField     Kind = C.SYSLOGBOX_BAD_FIELD
	BadItem      Kind = C.SYSLOGBOX_BAD_ITEM
	BadPeriod    Kind = C.SYSLOGBOX_BAD_PERIOD
)

// The fields of RFC 5424, section 6, and the names of the two archives.
const (
	NoField             Field = C.SYSLOGBOX_NO_FIELD
	FieldPriority       Field = C.SYSLOGBOX_PRIORITY
	FieldVersion        Field = C.SYSLOGBOX_VERSION
	FieldTimestamp      Field = C.SYSLOGBOX_TIMESTAMP
	FieldHostname       Field = C.SYSLOGBOX_HOSTNAME
	FieldAppName        Field = C.SYSLOGBOX_APP_NAME
	FieldProcID         Field = C.SYSLOGBOX_PROC_ID
	FieldMsgID          Field = C.SYSLOGBOX_MSG_ID
	FieldStructuredData Field = C.SYSLOGBOX_STRUCTURED_DATA
	FieldMessage        Field = C.SYSLOGBOX_MESSAGE
	Left                Field = C.SYSLOGBOX_LEFT
	Right               Field = C.SYSLOGBOX_RIGHT
)

// The most octets of a record in a frame that the program reads, and of one in an archive or any that is read.
const (
	FrameMax = C.SYSLOGBOX_FRAME_MAX
	EntryMax = C.SYSLOGBOX_ENTRY_MAX
)

var kinds = map[Kind]string{
	Syntax: "syntax", InstantRange: "instant out of range", RepeatedID: "repeated id", NotUTF8: "not UTF-8",
	BadFrame: "bad frame", EntryTooLong: "entry too long", BadEntry: "entry that is not a record",
	NotCanonical: "entry that is not canonical", NotAscending: "entry that does not ascend", NoRoom: "no room",
	NoMemory: "no memory", BadClock: "bad clock", NoElement: "no such element", NoParam: "no such parameter",
	TooLong: "record too long", BadDialect: "no such dialect", BadField: "bad field", BadItem: "bad item",
	BadPeriod: "no such period",
}

var fields = map[Field]string{
	NoField: "no field", FieldPriority: "priority", FieldVersion: "version", FieldTimestamp: "timestamp",
	FieldHostname: "hostname", FieldAppName: "app-name", FieldProcID: "procid", FieldMsgID: "msgid",
	FieldStructuredData: "structured-data", FieldMessage: "message", Left: "left archive", Right: "right archive",
}

func (k Kind) String() string {
	if name, known := kinds[k]; known {
		return name
	}
	return fmt.Sprintf("kind %d", uint32(k))
}

func (f Field) String() string {
	if name, known := fields[f]; known {
		return name
	}
	return fmt.Sprintf("field %d", uint32(f))
}

// Fault says why octets are refused: what is wrong, where, and at which octet from 0 on. The header of the library says
// what Offset is for the kinds that are at no octet, from NoRoom on.
type Fault struct {
	Kind   Kind
	Field  Field
	Offset uint64
}

// Error gives what the library says of the fault.
func (f *Fault) Error() string {
	fault := C.struct_syslogbox_fault{C.uint32_t(f.Kind), C.uint32_t(f.Field), C.uint64_t(f.Offset)}
	var text [128]C.char // longer than any
	C.syslogbox_fault_text(&fault, &text[0], C.size_t(len(text)))
	return "syslogbox: " + C.GoString(&text[0])
}

// Framing says how records are framed on a stream (RFC 6587).
type Framing int32

// Octet counting (3.4.1), and lines (3.4.2).
const (
	Counted Framing = C.SYSLOGBOX_COUNTED
	LF      Framing = C.SYSLOGBOX_LF
)

// String gives the name that the program's option --framing has, "counted" or "lf".
func (f Framing) String() string {
	switch f {
	case Counted:
		return "counted"
	case LF:
		return "lf"
	}
	return fmt.Sprintf("framing %d", int32(f))
}

func octets(b []byte) *C.uint8_t {
	if len(b) == 0 {
		return nil
	}
	return (*C.uint8_t)(unsafe.Pointer(&b[0]))
}

func faultOf(f *C.struct_syslogbox_fault) *Fault {
	return &Fault{Kind(f.kind), Field(f.field), uint64(f.offset)}
}

// writing is a call that writes into a room.
type writing func(out *C.uint8_t, room C.size_t, fault *C.struct_syslogbox_fault) C.int64_t

// text gives what a call wrote into a room.
func text(room int, call writing) ([]byte, error) {
	out := make([]byte, room)
	var fault C.struct_syslogbox_fault
	n := call(octets(out), C.size_t(len(out)), &fault)
	if n < 0 {
		return nil, faultOf(&fault)
	}
	return out[:n], nil
}

// LibraryVersion returns the version of the library that is loaded, as three numbers.
func LibraryVersion() (major, minor, patch int) {
	number := int(C.syslogbox_library_version())
	return number / 10_000, number / 100 % 100, number % 100
}

// Check returns nil if the octets are a record of RFC 5424, and a *Fault otherwise.
func Check(record []byte) error {
	var fault C.struct_syslogbox_fault
	if C.syslogbox_check(octets(record), C.size_t(len(record)), &fault) == 1 {
		return nil
	}
	return faultOf(&fault)
}

// Canonical returns the one canonical form of the record.
func Canonical(record []byte) ([]byte, error) {
	return text(2*len(record)+7, func(out *C.uint8_t, room C.size_t, fault *C.struct_syslogbox_fault) C.int64_t {
		return C.syslogbox_canonical(octets(record), C.size_t(len(record)), out, room, fault)
	})
}

// number gives an int of C, which for one that has none is out of each call's range too.
func number(n int) C.int {
	if n < math.MinInt32 || n > math.MaxInt32 {
		return math.MaxInt32
	}
	return C.int(n)
}

// Trimmed returns the frame without the line end or the NUL that a sender may have put behind the record, as the option
// --trim of the program does.
func Trimmed(frame []byte) []byte {
	return frame[:C.syslogbox_trimmed(octets(frame), C.size_t(len(frame)))]
}

// Dialect says which spellings of legacy packets are understood.
type Dialect int32

// The packets of RFC 3164, section 4; and those together with what devices and programs send besides.
const (
	BSD  Dialect = C.SYSLOGBOX_BSD
	Wide Dialect = C.SYSLOGBOX_WIDE
)

// Legacy returns the canonical form of the record that a packet is read as, in a year and so many minutes ahead of UTC.
func Legacy(year, offsetMinutes int, packet []byte) ([]byte, error) {
	return BSD.Legacy(year, offsetMinutes, packet)
}

// Legacy does what the function Legacy does, of packets in this dialect.
func (d Dialect) Legacy(year, offsetMinutes int, packet []byte) ([]byte, error) {
	return text(2*len(packet)+64, func(out *C.uint8_t, room C.size_t, fault *C.struct_syslogbox_fault) C.int64_t {
		dialect, year, minutes := C.int(d), number(year), number(offsetMinutes)
		return C.syslogbox_packet(dialect, year, minutes, octets(packet), C.size_t(len(packet)), out, room, fault)
	})
}

// Union returns the archive of the records of two archives.
func Union(left, right []byte) ([]byte, error) {
	return text(len(left)+len(right), func(out *C.uint8_t, room C.size_t, fault *C.struct_syslogbox_fault) C.int64_t {
		return C.syslogbox_union(octets(left), C.size_t(len(left)), octets(right), C.size_t(len(right)), out, room, fault)
	})
}

// Common returns the archive of the records that both archives have.
func Common(left, right []byte) ([]byte, error) {
	return text(len(left), func(out *C.uint8_t, room C.size_t, fault *C.struct_syslogbox_fault) C.int64_t {
		return C.syslogbox_common(octets(left), C.size_t(len(left)), octets(right), C.size_t(len(right)), out, room, fault)
	})
}

// Minus returns the archive of the records that the left archive has, and the right one has not.
func Minus(left, right []byte) ([]byte, error) {
	return text(len(left), func(out *C.uint8_t, room C.size_t, fault *C.struct_syslogbox_fault) C.int64_t {
		return C.syslogbox_minus(octets(left), C.size_t(len(left)), octets(right), C.size_t(len(right)), out, room, fault)
	})
}

// Severity gives a pointer to a severity, for a Condition.
func Severity(severity int) *int { return &severity }

// Condition says which records are selected: those that meet all of it. The zero Condition selects each.
type Condition struct {
	From, To          time.Time // from this instant on, and before that one; a zero time is no bound
	Undated           bool      // records without a time are taken, though there is a bound
	Severity          *int      // this one, and all that are more severe; nil for each
	Hostname, AppName string    // the very word; "" for any
}

// memory has octets outside Go's memory, to which structs of C may point.
type memory struct{ blocks []unsafe.Pointer }

func (m *memory) text(octets string) C.struct_syslogbox_text {
	if octets == "" {
		return C.struct_syslogbox_text{}
	}
	block := C.CBytes([]byte(octets))
	m.blocks = append(m.blocks, block)
	return C.struct_syslogbox_text{(*C.uint8_t)(block), C.size_t(len(octets))}
}

func (m *memory) free() {
	for _, block := range m.blocks {
		C.free(block)
	}
}

func mark(is bool) C.uint32_t {
	if is {
		return 1
	}
	return 0
}

// small gives a number of C, which for one that has none is out of each call's range too.
func small(n int) C.uint32_t {
	if n < 0 || n > math.MaxInt32 {
		return math.MaxUint32
	}
	return C.uint32_t(n)
}

// Select returns the archive of the records of an archive that meet a condition.
func Select(archive []byte, condition Condition) ([]byte, error) {
	var m memory
	defer m.free()
	asked := C.struct_syslogbox_condition{
		has_from: mark(!condition.From.IsZero()), has_to: mark(!condition.To.IsZero()), undated: mark(condition.Undated),
		hostname: m.text(condition.Hostname), app_name: m.text(condition.AppName),
	}
	asked.from, asked.to = C.int64_t(condition.From.UnixMicro()), C.int64_t(condition.To.UnixMicro())
	if condition.Severity != nil {
		asked.has_severity, asked.severity = 1, small(*condition.Severity)
	}
	return text(len(archive), func(out *C.uint8_t, room C.size_t, fault *C.struct_syslogbox_fault) C.int64_t {
		return C.syslogbox_select(&asked, octets(archive), C.size_t(len(archive)), out, room, fault)
	})
}

// Period says how long the periods of a digest are, in UTC.
type Period int32

// The periods of a digest.
const (
	Month Period = C.SYSLOGBOX_MONTH
	Day   Period = C.SYSLOGBOX_DAY
	Hour  Period = C.SYSLOGBOX_HOUR
)

// Digest returns the digest of an archive, as `syslogbox digest` prints it: a line for each period that has records,
// and one for all of them.
func Digest(archive []byte, by Period) ([]byte, error) {
	for room := 4096; ; {
		digest, err := text(room, func(out *C.uint8_t, room C.size_t, fault *C.struct_syslogbox_fault) C.int64_t {
			return C.syslogbox_digest(C.int(by), octets(archive), C.size_t(len(archive)), out, room, fault)
		})
		fault, refused := err.(*Fault)
		if !refused || fault.Kind != NoRoom {
			return digest, err
		}
		room = int(fault.Offset)
	}
}

// ArchiveRoot is how many records an archive has, and the hash of their Merkle tree (RFC 9162, section 2.1.1).
type ArchiveRoot struct {
	Count uint64
	Hash  [32]byte
}

// String gives the line that `syslogbox root` prints, without its line feed.
func (r ArchiveRoot) String() string { return fmt.Sprintf("%d %x", r.Count, r.Hash) }

// Root returns the root of an archive.
func Root(archive []byte) (ArchiveRoot, error) {
	var root C.struct_syslogbox_root
	var fault C.struct_syslogbox_fault
	if C.syslogbox_root(octets(archive), C.size_t(len(archive)), &root, &fault) == 0 {
		return ArchiveRoot{}, faultOf(&fault)
	}
	shown := ArchiveRoot{Count: uint64(root.count)}
	for i, octet := range root.hash {
		shown.Hash[i] = byte(octet)
	}
	return shown, nil
}

// Param is a parameter of an element, with its value unescaped.
type Param struct{ Name, Value string }

// Element is an element of the structured data.
type Element struct {
	ID     string
	Params []Param
}

// Record has the parts of a record. A word that is "-" is empty.
type Record struct {
	Facility, Severity               int
	HasTime                          bool
	Micros                           int64 // from 1970-01-01T00:00:00Z
	Hostname, AppName, ProcID, MsgID string
	Elements                         []Element
	BOM                              bool
	Message                          []byte // without the BOM
}

// items gives the structured data as the library takes it, in C's memory, and how many octets it has.
func (r *Record) items(m *memory) (*C.struct_syslogbox_item, C.size_t, int) {
	count, size := 0, 0
	for _, element := range r.Elements {
		count += 1 + 2*len(element.Params)
	}
	if count == 0 {
		return nil, 0, 0
	}
	block := C.calloc(C.size_t(count), C.sizeof_struct_syslogbox_item)
	m.blocks = append(m.blocks, block)
	items := unsafe.Slice((*C.struct_syslogbox_item)(block), count)[:0]
	add := func(part C.uint32_t, octets string) {
		items = append(items, C.struct_syslogbox_item{part: part, text: m.text(octets)})
		size += len(octets)
	}
	for _, element := range r.Elements {
		add(C.SYSLOGBOX_PART_ELEMENT_ID, element.ID)
		for _, param := range element.Params {
			add(C.SYSLOGBOX_PART_PARAM_NAME, param.Name)
			add(C.SYSLOGBOX_PART_PARAM_VALUE, param.Value)
		}
	}
	return &items[0], C.size_t(count), size
}

// Build returns the canonical form of the record of these parts. The error is a *Fault, whose Field is the one that is
// refused.
func (r *Record) Build() ([]byte, error) {
	var m memory
	defer m.free()
	fields := C.struct_syslogbox_fields{
		time: C.int64_t(r.Micros), has_time: mark(r.HasTime), facility: small(r.Facility), severity: small(r.Severity),
		has_bom: mark(r.BOM), hostname: m.text(r.Hostname), app_name: m.text(r.AppName), proc_id: m.text(r.ProcID),
		msg_id: m.text(r.MsgID), message: m.text(string(r.Message)),
	}
	var size int
	fields.items, fields.item_count, size = r.items(&m)
	size += len(r.Hostname) + len(r.AppName) + len(r.ProcID) + len(r.MsgID) + len(r.Message)
	// a value may have an escape for each octet, and an item two octets and two marks more
	return text(2*size+4*int(fields.item_count)+64, func(out *C.uint8_t, room C.size_t, fault *C.struct_syslogbox_fault) C.int64_t {
		return C.syslogbox_build(&fields, out, room, fault)
	})
}

// Time returns the instant in UTC, and false if the record has none.
func (r *Record) Time() (time.Time, bool) {
	return time.UnixMicro(r.Micros).UTC(), r.HasTime
}

func cut(record []byte, s C.struct_syslogbox_span) []byte {
	return record[s.offset : s.offset+s.len]
}

// spans gives all parts of a record, in the order of its octets.
func spans(record []byte) ([]C.struct_syslogbox_part_span, error) {
	// eight and three for each element of one parameter, which is room for most records
	shown := make([]C.struct_syslogbox_part_span, 32)
	for {
		var fault C.struct_syslogbox_fault
		n := C.syslogbox_spans(octets(record), C.size_t(len(record)), &shown[0], C.size_t(len(shown)), &fault)
		switch {
		case n < 0:
			return nil, faultOf(&fault)
		case int(n) <= len(shown):
			return shown[:n], nil
		}
		shown = make([]C.struct_syslogbox_part_span, n)
	}
}

// meaning gives the text that the spelling of a value means.
func meaning(raw []byte) (string, error) {
	if bytes.IndexByte(raw, '\\') < 0 {
		return string(raw), nil
	}
	value, err := text(len(raw), func(out *C.uint8_t, room C.size_t, fault *C.struct_syslogbox_fault) C.int64_t {
		return C.syslogbox_value(octets(raw), C.size_t(len(raw)), out, room, fault)
	})
	return string(value), err
}

// elements gives the elements of the record, in the order of its octets.
func elements(record []byte) ([]Element, error) {
	shown, err := spans(record)
	if err != nil {
		return nil, err
	}
	var all []Element
	name := ""
	for _, part := range shown {
		octets := cut(record, part.span)
		switch part.part {
		case C.SYSLOGBOX_PART_ELEMENT_ID:
			all = append(all, Element{ID: string(octets)})
		case C.SYSLOGBOX_PART_PARAM_NAME:
			name = string(octets)
		case C.SYSLOGBOX_PART_PARAM_VALUE:
			value, err := meaning(octets)
			if err != nil {
				return nil, err
			}
			last := &all[len(all)-1]
			last.Params = append(last.Params, Param{name, value})
		}
	}
	return all, nil
}

// View returns the parts of the record, its elements in the order of the octets. Its time grows with the length of the
// record.
func View(record []byte) (*Record, error) {
	var p C.struct_syslogbox_parts
	var fault C.struct_syslogbox_fault
	if C.syslogbox_view(octets(record), C.size_t(len(record)), &p, &fault) == 0 {
		return nil, faultOf(&fault)
	}
	r := &Record{
		Facility: int(p.facility), Severity: int(p.severity), HasTime: p.has_time == 1, Micros: int64(p.time),
		Hostname: string(cut(record, p.hostname)), AppName: string(cut(record, p.app_name)),
		ProcID: string(cut(record, p.proc_id)), MsgID: string(cut(record, p.msg_id)),
		BOM: p.has_bom == 1, Message: cut(record, p.message),
	}
	if p.elements > 0 {
		var err error
		if r.Elements, err = elements(record); err != nil {
			return nil, err
		}
	}
	return r, nil
}

// CountError says which octet cannot belong to the count of a frame, by its offset in the piece, or of a Reader on the
// stream.
type CountError struct{ Offset int }

func (e *CountError) Error() string {
	return fmt.Sprintf("syslogbox: octet %d cannot belong to a count", e.Offset)
}

// bounds gives where the next frame of a stream begins and ends, and how many octets it takes: 0 if it is not whole
// yet, and its end is then known only from its count.
func bounds(framing Framing, piece []byte) (start, end, taken int, err error) {
	var from, to C.size_t
	n := C.syslogbox_frame(C.int(framing), octets(piece), C.size_t(len(piece)), &from, &to)
	switch {
	case n == -2:
		return 0, 0, 0, fmt.Errorf("syslogbox: there is no framing %d", int(framing))
	case n < 0:
		return 0, 0, 0, &CountError{int(from)}
	}
	return int(from), int(to), int(n), nil
}

// What a scanner finds first: nothing whole, a frame, or the end of one that is too long.
const (
	waits   = C.SYSLOGBOX_SCAN_WAITS
	whole   = C.SYSLOGBOX_SCAN_FRAME
	tooLong = C.SYSLOGBOX_SCAN_TOO_LONG
)

// found is what comes first in a piece of a stream: where a frame is, and how many octets are done with.
type found struct{ what, used, start, end int }

// scanner finds frames, and passes over those that are too long, in whatever pieces they come.
type scanner struct{ state C.struct_syslogbox_scanner }

// passing says whether the stream is inside a frame that is too long.
func (s *scanner) passing() bool { return s.state.inside != 0 }

// next says what comes first in a piece. The error is a *CountError if no frame begins so.
func (s *scanner) next(framing Framing, longest int, piece []byte) (found, error) {
	var at C.struct_syslogbox_found
	most := C.size_t(max(longest, 0))
	what := C.syslogbox_scan(C.int(framing), most, octets(piece), C.size_t(len(piece)), &s.state, &at)
	switch what {
	case C.SYSLOGBOX_SCAN_BROKEN:
		return found{}, &CountError{int(at.start)}
	case waits, whole, tooLong:
		return found{int(what), int(at.used), int(at.start), int(at.end)}, nil
	}
	return found{}, fmt.Errorf("syslogbox: there is no framing %d", int(framing))
}

func max(a, b int) int {
	if a > b {
		return a
	}
	return b
}

// Next returns the next frame of a stream that begins with the piece, and how many octets it takes: 0 if none is whole
// yet. The error is a *CountError if no frame begins so.
func Next(framing Framing, piece []byte) (frame []byte, taken int, err error) {
	start, end, taken, err := bounds(framing, piece)
	if err != nil || taken == 0 {
		return nil, 0, err
	}
	return piece[start:end], taken, nil
}

// Split returns a function by which a bufio.Scanner goes over the frames of a stream; its Buffer sets how long one may
// be. If the stream ends inside a frame, the error is io.ErrUnexpectedEOF.
func Split(framing Framing) bufio.SplitFunc {
	return func(piece []byte, atEnd bool) (int, []byte, error) {
		frame, taken, err := Next(framing, piece)
		if err == nil && taken == 0 && atEnd && len(piece) > 0 {
			err = io.ErrUnexpectedEOF
		}
		return taken, frame, err
	}
}
