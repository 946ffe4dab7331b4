package syslogbox

import (
	"bytes"
	"errors"
	"io"
	"os"
	"path/filepath"
	"testing"
)

// The lines of `show --json` in a folder: of a stream, of packets under a clock, and of the union of two archives.
func TestLines(t *testing.T) {
	folder := os.Getenv("SYSLOGBOX_LINES")
	if folder == "" {
		t.Skip("SYSLOGBOX_LINES names no folder")
	}
	file := func(name string) []byte {
		octets, err := os.ReadFile(filepath.Join(folder, name))
		if err != nil {
			t.Fatal(err)
		}
		return octets
	}
	both, err := Union(file("left"), file("right"))
	if err != nil {
		t.Fatal(err)
	}
	same(t, file("records.json"), linesOf(t, file("records")))
	same(t, file("records.json"), formLines(t, file("records"), Canonical))
	legacy := func(packet []byte) ([]byte, error) { return Legacy(2024, 60, packet) }
	same(t, file("legacy.json"), formLines(t, file("legacy"), legacy))
	same(t, file("union.json"), linesOf(t, both))
}

// same compares line by line.
func same(t *testing.T, right, seen []byte) {
	rows, others := bytes.Split(right, []byte("\n")), bytes.Split(seen, []byte("\n"))
	for n, row := range rows {
		if n >= len(others) || !bytes.Equal(row, others[n]) {
			t.Fatalf("line %d is not %s", n+1, row)
		}
	}
	if len(rows) != len(others) {
		t.Fatalf("%d lines for %d", len(others), len(rows))
	}
}

// linesOf reads a counted stream; what is refused is no record.
func linesOf(t *testing.T, stream []byte) (lines []byte) {
	reader := NewReader(bytes.NewReader(stream), Counted)
	for {
		record, err := reader.Read()
		var refused *FrameError
		switch {
		case err == io.EOF:
			return lines
		case errors.As(err, &refused):
			if Check(refused.Octets) == nil {
				t.Fatalf("%q is refused: %v", refused.Octets, err)
			}
		case err != nil:
			t.Fatal(err)
		default:
			lines = append(record.AppendJSON(lines), '\n')
		}
	}
}

// formLines gives each frame of a counted stream another form, if it has one, and reads that.
func formLines(t *testing.T, stream []byte, form func([]byte) ([]byte, error)) (lines []byte) {
	for len(stream) > 0 {
		frame, taken, err := Next(Counted, stream)
		if err != nil {
			t.Fatal(err)
		}
		if text, err := form(frame); err == nil {
			record, err := View(text)
			if err != nil {
				t.Fatal(err)
			}
			lines = append(record.AppendJSON(lines), '\n')
		}
		stream = stream[taken:]
	}
	return lines
}
