package syslogbox

import (
	"bufio"
	"context"
	"errors"
	"fmt"
	"io"
	"net"
	"os"
	"strings"
	"syscall"
	"testing"
	"testing/iotest"
	"time"
)

const nil16 = "16 <0>1 - - - - - -"

// read tells what a reader gives, up to what ends it.
func read(r *Reader) (told []string) {
	for {
		record, err := r.Read()
		var refused *FrameError
		switch {
		case err == nil:
			told = append(told, fmt.Sprintf("record %s", record.Message))
		case errors.As(err, &refused):
			told = append(told, fmt.Sprintf("%d at %d: %v", refused.Number, refused.Position, refused.Err))
		default:
			return append(told, err.Error())
		}
	}
}

func TestReader(t *testing.T) {
	long, end := strings.Repeat("x", FrameMax+1), "syslogbox: the stream ends inside a frame: unexpected EOF"
	fault, tooLong := "syslogbox: a syntax error in the version at octet 4", "syslogbox: the frame has more than 262144 octets"
	for _, row := range []struct {
		framing Framing
		stream  string
		told    string
	}{
		{Counted, "", "EOF"},
		{Counted, "24 " + string(hello) + nil16, "record hello|record |EOF"},
		{Counted, "5 <0>1x" + nil16, "1 at 0: " + fault + "|record |EOF"},
		{Counted, nil16 + "262145 " + long + nil16, "record |2 at 19: " + tooLong + "|record |EOF"},
		{Counted, nil16 + "262145 " + long[1:], "record |" + end},
		{Counted, nil16 + "24 <165>", "record |" + end},
		{Counted, nil16 + "12x", "record |syslogbox: octet 21 cannot belong to a count"},
		{LF, string(hello) + "\n<0>1\n", "record hello|2 at 25: " + fault + "|EOF"},
		{LF, long + "\n" + string(hello) + "\n", "1 at 0: " + tooLong + "|record hello|EOF"},
		{LF, string(hello) + "\n" + long, "record hello|" + end},
		{LF, string(hello), end},
		{3, "x", "syslogbox: there is no framing 3"},
	} {
		for name, of := range map[string]func(io.Reader) io.Reader{
			"whole": func(r io.Reader) io.Reader { return r }, "halves": iotest.HalfReader, "the end": iotest.DataErrReader,
		} {
			told := strings.Join(read(NewReader(of(strings.NewReader(row.stream)), row.framing)), "|")
			if told != row.told {
				t.Errorf("%.30q, %s: %s for %s", row.stream, name, told, row.told)
			}
		}
	}
}

// Any frame may arrive an octet at a time, and Longest sets the limit.
func TestLongest(t *testing.T) {
	r := NewReader(iotest.OneByteReader(strings.NewReader("24 "+string(hello)+nil16)), Counted)
	r.Longest(16)
	if told := strings.Join(read(r), "|"); told != "1 at 0: syslogbox: the frame has more than 16 octets|record |EOF" {
		t.Fatal(told)
	}
}

func TestErrors(t *testing.T) {
	broken, again := errors.New("broken"), 0
	_, err := NewReader(io.MultiReader(strings.NewReader("24 <165>"), iotest.ErrReader(broken)), Counted).Read()
	if err != broken {
		t.Fatal(err)
	}
	if _, err = NewReader(readerFunc(func([]byte) (int, error) { again++; return 0, nil }), LF).Read(); err != io.ErrNoProgress {
		t.Fatal(err, again)
	}
	fault := (*Fault)(nil)
	_, err = NewReader(strings.NewReader("<0>1\n"), LF).Read()
	if !errors.As(err, &fault) || fault.Field != FieldVersion || fault.Offset != 4 {
		t.Fatal(err)
	}
	_, err = NewReader(strings.NewReader("300000 "+strings.Repeat("x", 300_000)), Counted).Read()
	if !errors.Is(err, bufio.ErrTooLong) || errors.As(err, &fault) {
		t.Fatal(err)
	}
	if _, err = NewReader(strings.NewReader("300"), Counted).Read(); !errors.Is(err, io.ErrUnexpectedEOF) {
		t.Fatal(err)
	}
}

type readerFunc func([]byte) (int, error)

func (f readerFunc) Read(room []byte) (int, error) { return f(room) }

func TestAll(t *testing.T) {
	for stream, right := range map[string]int{nil16 + "1 x" + nil16: 3, nil16 + "12x" + nil16: 2, "": 0} {
		count := 0
		NewReader(strings.NewReader(stream), Counted).All()(func(*Record, error) bool { count++; return true })
		if count != right {
			t.Errorf("%q: %d", stream, count)
		}
		NewReader(strings.NewReader(stream), Counted).All()(func(*Record, error) bool { count--; return false })
	}
}

// A context ends the wait for a connection, also inside a frame, and reading goes on from there.
func TestReadContext(t *testing.T) {
	source, sender := net.Pipe()
	defer sender.Close()
	r := NewReader(source, Counted)
	for _, row := range []struct {
		part    string
		records int
	}{{"", 0}, {"16 <0>1 ", 0}, {"- - - - - -16", 1}} {
		ctx, cancel := context.WithCancel(context.Background())
		go func(part string) {
			sender.Write([]byte(part)) // returns when all of it was read
			cancel()
		}(row.part)
		count, err := 0, error(nil)
		for ; err == nil; count++ {
			_, err = r.ReadContext(ctx)
		}
		if count-1 != row.records || err != context.Canceled {
			t.Fatalf("%q: %d records, %v", row.part, count-1, err)
		}
	}
	go func() {
		sender.Write([]byte(" <0>1 - - - - - -"))
		sender.Close()
	}()
	if record, err := r.ReadContext(context.Background()); err != nil || record.Severity != 0 {
		t.Fatal(record, err)
	}
	if _, err := r.Read(); err != io.EOF {
		t.Fatal(err)
	}
	ctx, cancel := context.WithCancel(context.Background())
	cancel()
	for _, r := range []*Reader{r, NewReader(strings.NewReader(nil16), Counted)} {
		if _, err := r.ReadContext(ctx); err != context.Canceled {
			t.Fatal(err)
		}
	}
}

// noDeadline is a source whose SetReadDeadline fails, as that of os.Stdin does. Its Read waits until a deadline is
// asked for, and gives an error of its own.
type noDeadline struct {
	asked int
	over  chan struct{}
}

func (s *noDeadline) SetReadDeadline(time.Time) error {
	if s.asked++; s.asked == 1 {
		close(s.over)
	}
	return os.ErrNoDeadline
}

func (s *noDeadline) Read([]byte) (int, error) {
	<-s.over
	return 0, os.ErrDeadlineExceeded
}

// What a source without a deadline says is its own, and it is asked for one once.
func TestNoDeadline(t *testing.T) {
	ctx, cancel := context.WithTimeout(context.Background(), 10*time.Millisecond)
	defer cancel()
	source := &noDeadline{over: make(chan struct{})}
	if _, err := NewReader(source, Counted).ReadContext(ctx); err != os.ErrDeadlineExceeded || source.asked != 1 {
		t.Fatalf("%v, asked %d times", err, source.asked)
	}
}

// A pipe that blocks, as standard input often does, is waited for until its next octets, and none of them is lost.
func TestBlockingPipe(t *testing.T) {
	inner, sender, err := os.Pipe()
	if err != nil {
		t.Fatal(err)
	}
	defer inner.Close()
	defer sender.Close()
	other, err := syscall.Dup(int(inner.Fd())) // Fd makes the pipe block
	if err != nil {
		t.Fatal(err)
	}
	source := os.NewFile(uintptr(other), "pipe")
	defer source.Close()
	if err := source.SetReadDeadline(time.Time{}); !errors.Is(err, os.ErrNoDeadline) {
		t.Fatal(err)
	}
	r := NewReader(source, Counted)
	ctx, cancel := context.WithCancel(context.Background())
	time.AfterFunc(10*time.Millisecond, func() {
		cancel()
		sender.Write([]byte(nil16 + "16 <0>1 "))
	})
	if record, err := r.ReadContext(ctx); err != nil || record.Severity != 0 {
		t.Fatal(record, err)
	}
	if _, err := r.ReadContext(ctx); err != context.Canceled {
		t.Fatal(err)
	}
	sender.Write([]byte("- - - - - -"))
	if record, err := r.Read(); err != nil || record.Severity != 0 {
		t.Fatal(record, err)
	}
}

// A frame that is too long has an error of its own, once it has ended, in which errors.Is finds that of package bufio.
func TestTooLong(t *testing.T) {
	_, err := NewReader(strings.NewReader("300000 "+strings.Repeat("x", 300_000)), Counted).Read()
	if !errors.Is(err, bufio.ErrTooLong) || err.Error() != "frame 1: syslogbox: the frame has more than 262144 octets" {
		t.Fatal(err)
	}
}

// The deadline of a connection is its own where the context is not the reason.
func TestOwnDeadline(t *testing.T) {
	source, sender := net.Pipe()
	defer sender.Close()
	source.SetReadDeadline(time.Now().Add(10 * time.Millisecond))
	ctx, cancel := context.WithTimeout(context.Background(), time.Minute)
	defer cancel()
	if _, err := NewReader(source, LF).ReadContext(ctx); !errors.Is(err, os.ErrDeadlineExceeded) {
		t.Fatal(err)
	}
}

func ExampleReader() {
	stream := strings.NewReader("24 <165>1 - - - - - - hello4 <0>1")
	reader := NewReader(stream, Counted)
	for {
		record, err := reader.Read()
		if err == io.EOF {
			break
		}
		var fault *Fault
		if errors.As(err, &fault) {
			fmt.Println("refused:", fault.Field, fault.Offset)
			continue
		}
		if err != nil {
			fmt.Println(err)
			break
		}
		fmt.Printf("%s\n", record.Message)
	}
	// Output:
	// hello
	// refused: version 4
}

func ExampleRecord_AppendJSON() {
	record, err := View([]byte(`<34>1 2003-10-11T22:14:15.003Z host su - ID47 [b][a@1 k="v"] hi`))
	if err != nil {
		panic(err)
	}
	fmt.Printf("%s\n", record.AppendJSON(nil)[:95])
	// Output: {"priority":34,"facility":"auth","severity":"crit","time":"2003-10-11T22:14:15.003000Z","host":
}
