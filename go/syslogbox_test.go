package syslogbox

import (
	"bufio"
	"bytes"
	"encoding/hex"
	"errors"
	"fmt"
	"io"
	"os"
	"strings"
	"testing"
)

var hello = []byte("<165>1 - - - - - - hello")

func TestRecord(t *testing.T) {
	if err := Check(hello); err != nil {
		t.Fatal(err)
	}
	r, err := View([]byte(`<34>1 2003-10-11T22:14:15.003Z h su - ID47 [a@1 k="x\]y"] text`))
	if err != nil {
		t.Fatal(err)
	}
	if r.Hostname != "h" || r.ProcID != "" || r.Elements[0].Params[0].Value != "x]y" || string(r.Message) != "text" {
		t.Fatalf("%+v", r)
	}
}

// A record with many elements and parameters, each in its place.
func TestManyParams(t *testing.T) {
	r, err := View([]byte("<0>1 - - - - - [a]" + "[id" + strings.Repeat(` k="\"" l=""`, 6_000) + "][z x=\"y\"]"))
	if err != nil {
		t.Fatal(err)
	}
	if len(r.Elements) != 3 || r.Elements[0].Params != nil || r.Elements[2].Params[0] != (Param{"x", "y"}) {
		t.Fatalf("%.200v", r.Elements)
	}
	params := r.Elements[1].Params
	if len(params) != 12_000 || params[11_998] != (Param{"k", `"`}) || params[11_999] != (Param{"l", ""}) {
		t.Fatalf("%d %.200v", len(params), params)
	}
}

func BenchmarkManyParams(b *testing.B) {
	record := []byte("<0>1 - - - - - [id" + strings.Repeat(` k="v"`, 12_000) + "] m")
	for i := 0; i < b.N; i++ {
		if _, err := View(record); err != nil {
			b.Fatal(err)
		}
	}
}

func BenchmarkView(b *testing.B) {
	record := []byte(`<34>1 2003-10-11T22:14:15.003Z h su - ID47 [a@1 k="v"] text`)
	for i := 0; i < b.N; i++ {
		if _, err := View(record); err != nil {
			b.Fatal(err)
		}
	}
}

func TestRefusal(t *testing.T) {
	for _, record := range [][]byte{nil, {}, []byte("<0>1")} {
		fault, refused := Check(record).(*Fault)
		if !refused || fault.Kind != Syntax || fault.Offset != uint64(len(record)) {
			t.Fatalf("%q: %v", record, fault)
		}
	}
}

func TestFrames(t *testing.T) {
	frame, taken, err := Next(Counted, []byte("3 abc4 de"))
	if string(frame) != "abc" || taken != 5 || err != nil {
		t.Fatalf("%q %d %v", frame, taken, err)
	}
	if _, taken, err = Next(LF, nil); taken != 0 || err != nil {
		t.Fatal(taken, err)
	}
	var refused *CountError
	if _, _, err = Next(Counted, []byte("12x")); !errors.As(err, &refused) || refused.Offset != 2 {
		t.Fatal(err)
	}
	if _, _, err = Next(3, []byte("x")); err == nil {
		t.Fatal("there is no such framing")
	}
}

func TestSplit(t *testing.T) {
	long := "100000 " + strings.Repeat("x", 100_000)
	for _, row := range []struct {
		stream string
		count  int
		err    error
	}{
		{"", 0, nil}, {long, 1, nil}, {"3 abc" + long, 2, nil}, {long + "4 de", 1, io.ErrUnexpectedEOF},
		{"1 ax", 1, &CountError{}},
	} {
		frames := bufio.NewScanner(strings.NewReader(row.stream))
		frames.Buffer(nil, FrameMax+16)
		frames.Split(Split(Counted))
		count := 0
		for frames.Scan() {
			count++
		}
		if count != row.count || fmt.Sprint(frames.Err()) != fmt.Sprint(row.err) {
			t.Fatalf("%.20q: %d %v", row.stream, count, frames.Err())
		}
	}
	lines := bufio.NewScanner(strings.NewReader("a\n\nb\n"))
	lines.Split(Split(LF))
	for _, right := range []string{"a", "", "b"} {
		if !lines.Scan() || lines.Text() != right {
			t.Fatalf("%q for %q", lines.Text(), right)
		}
	}
	if lines.Scan() || lines.Err() != nil {
		t.Fatal(lines.Err())
	}
}

// The texts of what a user prints.
func TestTexts(t *testing.T) {
	_, clock := Legacy(0, 0, nil)
	_, long := View(bytes.Repeat([]byte("x"), EntryMax+1))
	_, archive := Union([]byte("x"), nil)
	_, _, framing := Next(3, nil)
	none, _ := Root(nil)
	_, noRoot := Root([]byte("x"))
	for _, row := range []struct {
		seen  any
		right string
	}{
		{clock, "syslogbox: the year or the offset from UTC is out of range"},
		{long, "syslogbox: the record has more than 524295 octets"},
		{archive, "syslogbox: the left archive has a bad frame at octet 0"},
		{framing, "syslogbox: there is no framing 3"}, {none, "0 e3b0c44298fc1c149afbf4c8996fb92427ae41e4649b934ca495991b7852b855"},
		{noRoot, "syslogbox: the archive has a bad frame at octet 0"},
		{Check(nil), "syslogbox: a syntax error in the priority at octet 0"},
		{&Fault{Kind: NoMemory}, "syslogbox: out of memory"},
		{&Fault{Kind: NoRoom, Offset: 7}, "syslogbox: 7 octets of room are needed"},
		{&Fault{Kind: NoElement, Offset: 7}, "syslogbox: there are 7 elements"},
		{&Fault{Kind: NoParam, Offset: 7}, "syslogbox: there are 7 parameters"},
		{&Fault{Kind: InstantRange, Offset: 6}, "syslogbox: the instant of the timestamp at octet 6 is out of range"},
		{Counted, "counted"}, {LF, "lf"}, {Framing(0), "framing 0"}, {Framing(-1), "framing -1"},
		{NoField, "no field"}, {FieldMsgID, "msgid"}, {Field(12), "field 12"}, {Kind(99), "kind 99"},
	} {
		if seen := fmt.Sprint(row.seen); seen != row.right {
			t.Errorf("%q for %q", seen, row.right)
		}
	}
}

// The version of the library is that of these sources, where the test is told which one that is.
func TestLibraryVersion(t *testing.T) {
	major, minor, patch := LibraryVersion()
	seen := fmt.Sprintf("%d.%d.%d", major, minor, patch)
	if right := os.Getenv("SYSLOGBOX_VERSION"); right != "" && seen != right || 100*major+minor < 4 {
		t.Fatalf("%s for %s", seen, right)
	}
}

func ExampleCheck() {
	fmt.Println(Check(hello))
	fmt.Println(Check([]byte("<0>1")))
	// Output:
	// <nil>
	// syslogbox: a syntax error in the version at octet 4
}

func ExampleView() {
	record, err := View([]byte("<165>1 2003-10-11T22:14:15.003Z host app - - - hi"))
	if err != nil {
		panic(err)
	}
	time, _ := record.Time()
	fmt.Println(record.Hostname, record.AppName, time)
	// Output: host app 2003-10-11 22:14:15.003 +0000 UTC
}

func TestUnion(t *testing.T) {
	entry := []byte(fmt.Sprintf("%d %s", len(hello), hello))
	both, err := Union(entry, entry)
	if err != nil || !bytes.Equal(both, entry) {
		t.Fatalf("%q %v", both, err)
	}
}

func TestLegacy(t *testing.T) {
	packet := []byte("<13>Oct 11 22:14:15 h a[1]: x")
	text, err := Legacy(2003, 120, packet)
	if err != nil || string(text) != "<13>1 2003-10-11T20:14:15.000000Z h a 1 - - x" {
		t.Fatalf("%q %v", text, err)
	}
	for _, clock := range [][2]int{{0, 0}, {9_999, 0}, {2003, 1_440}, {2003 + 1<<32, 0}, {2003, 1 << 32}, {-1 << 40, 0}} {
		_, err := Legacy(clock[0], clock[1], packet)
		if fault, refused := err.(*Fault); !refused || fault.Kind != BadClock {
			t.Fatalf("%v: %v", clock, err)
		}
	}
}

// The answers of the program: a line a record, its octets in hexadecimal and "ok CANONICAL" or "KIND FIELD OFFSET".
func TestAnswers(t *testing.T) {
	path := os.Getenv("SYSLOGBOX_ANSWERS")
	if path == "" {
		t.Skip("SYSLOGBOX_ANSWERS names no file")
	}
	file, err := os.Open(path)
	if err != nil {
		t.Fatal(err)
	}
	defer file.Close()
	lines := bufio.NewScanner(file)
	lines.Buffer(nil, 4<<20)
	for lines.Scan() {
		words := strings.SplitN(lines.Text()+" ", " ", 2)
		record, err := hex.DecodeString(words[0])
		if err != nil {
			t.Fatal(err)
		}
		text, err := Canonical(record)
		seen := "ok " + hex.EncodeToString(text)
		if fault, refused := err.(*Fault); refused {
			seen = fmt.Sprintf("%d %d %d", fault.Kind, fault.Field, fault.Offset)
		}
		if (err == nil) != (Check(record) == nil) || seen != strings.TrimSpace(words[1]) {
			t.Fatalf("%q: %s for %s", record, seen, words[1])
		}
	}
}
