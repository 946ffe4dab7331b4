package syslogbox

import (
	"bytes"
	"encoding/json"
	"errors"
	"reflect"
	"strings"
	"testing"
	"testing/iotest"
)

var seeds = []string{
	"", "<0>1", string(hello), `<34>1 2003-10-11T22:14:15.003Z h su 1 ID47 [b][a@1 k="x\]y\n" k=""] ` + "\xef\xbb\xbf\u00e9",
	"<191>1 9999-12-31T23:59:59.9+23:59 - - - - [a][a]", "<0>1 0000-01-01T00:00:00Z - - - - - \x00\xff\u2028",
}

// All calls that read a record agree; its canonical form is a record with the same parts, and its own form.
func FuzzRecord(f *testing.F) {
	for _, seed := range seeds {
		f.Add([]byte(seed))
	}
	f.Fuzz(func(t *testing.T, record []byte) {
		shown, err := View(record)
		text, refused := Canonical(record)
		if checked := Check(record); !reflect.DeepEqual(checked, err) || !reflect.DeepEqual(refused, err) {
			t.Fatal(checked, refused, err)
		}
		if err != nil {
			agrees(t, record, err)
			return
		}
		again, err := Canonical(text)
		if err != nil || !bytes.Equal(again, text) {
			t.Fatalf("%q for %q: %v", again, text, err)
		}
		built, err := shown.Build()
		if err != nil || !bytes.Equal(built, text) {
			t.Fatalf("%q for %q: %v", built, text, err)
		}
		same, err := View(text)
		line := shown.AppendJSON(nil)
		if err != nil || !bytes.Equal(line, same.AppendJSON(nil)) || !json.Valid(line) {
			t.Fatalf("%s %v", line, err)
		}
	})
}

// A fault is within the octets, and some record begins with those before a syntax error.
func agrees(t *testing.T, record []byte, err error) {
	var fault *Fault
	if !errors.As(err, &fault) || fault.Offset > uint64(len(record)) {
		t.Fatal(err)
	}
	if fault.Kind != Syntax {
		return
	}
	var first *Fault
	err = Check(record[:fault.Offset])
	if errors.As(err, &first) && (first.Kind == Syntax && first.Offset != fault.Offset) {
		t.Fatal(err)
	}
}

// Frames follow each other, and none is whole without its last octet.
func FuzzNext(f *testing.F) {
	f.Add(false, []byte("3 abc12 x"))
	f.Add(true, []byte("abc\n\nd"))
	f.Fuzz(func(t *testing.T, lines bool, stream []byte) {
		framing := Counted
		if lines {
			framing = LF
		}
		for {
			frame, taken, err := Next(framing, stream)
			if err != nil || taken == 0 {
				return
			}
			if !bytes.Contains(stream[:taken], frame) {
				t.Fatalf("%q of %q", frame, stream[:taken])
			}
			if _, early, err := Next(framing, stream[:taken-1]); early != 0 || err != nil {
				t.Fatal(early, err)
			}
			stream = stream[taken:]
		}
	})
}

// A reader tells the same however a stream comes.
func FuzzReader(f *testing.F) {
	f.Add(uint8(30), "24 "+string(hello)+"4 <0>1100 xy")
	f.Add(uint8(4), "5 <0>1x12x")
	f.Add(uint8(255), string(hello)+"\n\n<0>1")
	f.Fuzz(func(t *testing.T, longest uint8, stream string) {
		for _, framing := range []Framing{Counted, LF} {
			whole := NewReader(strings.NewReader(stream), framing)
			parts := NewReader(iotest.OneByteReader(strings.NewReader(stream)), framing)
			whole.Longest(int(longest))
			parts.Longest(int(longest))
			if one, other := read(whole), read(parts); !reflect.DeepEqual(one, other) {
				t.Fatalf("%q for %q", one, other)
			}
		}
	})
}

// A union is an archive, which has no order, and takes in what it has.
func FuzzUnion(f *testing.F) {
	f.Add([]byte(nil16), []byte("16 <1>1 - - - - - -"))
	f.Add([]byte(nil16+nil16), []byte("x"))
	f.Fuzz(func(t *testing.T, left, right []byte) {
		both, err := Union(left, right)
		other, refused := Union(right, left)
		if (err == nil) != (refused == nil) || !bytes.Equal(both, other) {
			t.Fatal(err, refused)
		}
		if err != nil {
			return
		}
		if again, err := Union(both, left); err != nil || !bytes.Equal(again, both) {
			t.Fatalf("%q for %q: %v", again, both, err)
		}
	})
}

// What a packet is read as is a record in its canonical form.
func FuzzLegacy(f *testing.F) {
	f.Add(2003, 120, []byte("<13>Oct 11 22:14:15 h a[1]: x"))
	f.Add(0, -1440, []byte("\xef\xbb\xbf\xff"))
	f.Fuzz(func(t *testing.T, year, minutes int, packet []byte) {
		text, err := Legacy(year, minutes, packet)
		if err != nil {
			return
		}
		if again, err := Canonical(text); err != nil || !bytes.Equal(again, text) {
			t.Fatalf("%q for %q: %v", again, text, err)
		}
	})
}
