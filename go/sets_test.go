package syslogbox

import (
	"errors"
	"fmt"
	"strings"
	"testing"
	"time"
)

// archive gives the archive of records in their canonical form, which ascend.
func archive(records ...string) []byte {
	var text strings.Builder
	for _, record := range records {
		fmt.Fprintf(&text, "%d %s", len(record), record)
	}
	return []byte(text.String())
}

const (
	emergency = "<0>1 - - - - - -"
	alert     = "<1>1 - - - - - -"
	login     = "<34>1 2003-10-11T22:14:15.003000Z mymachine su - - - x"
)

func TestSets(t *testing.T) {
	left, right := archive(emergency, alert), archive(alert, login)
	for _, row := range []struct {
		name  string
		call  func(left, right []byte) ([]byte, error)
		right []byte
	}{{"Union", Union, archive(emergency, alert, login)}, {"Common", Common, archive(alert)}, {"Minus", Minus, archive(emergency)}} {
		if text, err := row.call(left, right); err != nil || string(text) != string(row.right) {
			t.Errorf("%s: %q, %v", row.name, text, err)
		}
		var fault *Fault
		if _, err := row.call(left, []byte("x")); !errors.As(err, &fault) || fault.Kind != BadFrame || fault.Field != Right {
			t.Errorf("%s: %v", row.name, err)
		}
	}
}

func TestSelect(t *testing.T) {
	all, then := archive(emergency, alert, login), time.Date(2003, 10, 11, 22, 14, 15, 3_000_000, time.UTC)
	for _, row := range []struct {
		condition Condition
		right     []byte
	}{
		{Condition{}, all},
		{Condition{From: then}, archive(login)},
		{Condition{To: then}, nil},
		{Condition{To: then, Undated: true}, archive(emergency, alert)},
		{Condition{Severity: Severity(0)}, archive(emergency)},
		{Condition{Hostname: "mymachine", AppName: "su"}, archive(login)},
		{Condition{Hostname: "my"}, nil},
	} {
		if text, err := Select(all, row.condition); err != nil || string(text) != string(row.right) {
			t.Errorf("%v: %q, %v", row.condition, text, err)
		}
	}
	var fault *Fault
	for _, severity := range []int{-1, 8, 1 << 40} {
		if _, err := Select(all, Condition{Severity: &severity}); !errors.As(err, &fault) || fault.Kind != BadField {
			t.Errorf("severity %d: %v", severity, err)
		}
	}
}

func TestDigest(t *testing.T) {
	text, err := Digest(archive(emergency, login), Month)
	lines := strings.Split(string(text), "\n")
	if err != nil || len(lines) != 4 || !strings.HasPrefix(lines[1], "2003-10 1 57 ") || !strings.HasPrefix(lines[2], "total 2 76 ") {
		t.Errorf("%q, %v", text, err)
	}
	var fault *Fault
	if _, err := Digest(nil, 4); !errors.As(err, &fault) || fault.Kind != BadPeriod {
		t.Error(err)
	}
	records := make([]string, 100)
	for n := range records {
		records[n] = fmt.Sprintf("<0>1 2003-10-11T%02d:00:00.%06dZ - - - - -", n/5, n)
	}
	if text, err := Digest(archive(records...), Hour); err != nil || strings.Count(string(text), "\n") != 21 {
		t.Errorf("%q, %v", text, err)
	}
}

func TestBuild(t *testing.T) {
	record := Record{Facility: 20, Severity: 5, AppName: "app", Elements: []Element{{ID: "b"}, {ID: "a@1", Params: []Param{{"k", `"`}, {"k", ""}}}}}
	if text, err := record.Build(); err != nil || string(text) != `<165>1 - - app - - [a@1 k="\"" k=""][b]` {
		t.Errorf("%q, %v", text, err)
	}
	var fault *Fault
	for _, row := range []struct {
		record Record
		kind   Kind
		field  Field
	}{
		{Record{Facility: 24}, BadField, FieldPriority}, {Record{Severity: -1}, BadField, FieldPriority},
		{Record{Hostname: "a b"}, BadField, FieldHostname}, {Record{MsgID: "-"}, BadField, FieldMsgID},
		{Record{Elements: []Element{{ID: ""}}}, BadItem, FieldStructuredData}, {Record{BOM: true, Message: []byte("\xff")}, NotUTF8, NoField},
		{Record{Elements: []Element{{ID: "a"}, {ID: "a"}}}, RepeatedID, NoField},
	} {
		if _, err := row.record.Build(); !errors.As(err, &fault) || fault.Kind != row.kind || fault.Field != row.field {
			t.Errorf("%v: %v", row.record, err)
		}
	}
}

func TestTrimmedAndWide(t *testing.T) {
	if left := Trimmed([]byte("x\r\n")); string(left) != "x" {
		t.Errorf("%q", left)
	}
	if left := Trimmed(nil); len(left) != 0 {
		t.Errorf("%q", left)
	}
	text, err := Wide.Legacy(2003, 0, []byte("<13>Oct 11 22:14:15.5 h a[1] x"))
	if err != nil || string(text) != "<13>1 2003-10-11T22:14:15.500000Z h a 1 - - x" {
		t.Errorf("%q, %v", text, err)
	}
	var fault *Fault
	if _, err := Dialect(3).Legacy(2003, 0, nil); !errors.As(err, &fault) || fault.Kind != BadDialect {
		t.Error(err)
	}
}

// What two archives have in common, and what the left one has alone, are the left one together.
func FuzzSets(f *testing.F) {
	f.Add(archive(emergency, alert), archive(alert, login))
	f.Add([]byte{}, []byte("x"))
	f.Fuzz(func(t *testing.T, left, right []byte) {
		both, err := Common(left, right)
		alone, refused := Minus(left, right)
		_, joined := Union(left, right)
		if (err == nil) != (refused == nil) || (err == nil) != (joined == nil) {
			t.Fatal(err, refused, joined)
		}
		if err != nil {
			return
		}
		if again, err := Union(both, alone); err != nil || string(again) != string(left) {
			t.Fatalf("%q for %q: %v", again, left, err)
		}
	})
}
