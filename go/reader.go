package syslogbox

import (
	"bufio"
	"context"
	"errors"
	"fmt"
	"io"
	"time"
)

// FrameError tells of a frame of a stream that is not a record. Err says why: a *Fault, by which errors.As finds the
// field and the octet, or for a frame that is too long an error in which errors.Is finds bufio.ErrTooLong.
type FrameError struct {
	Number   int    // of the frame, from 1 on
	Position int64  // of its first octet on the stream
	Octets   []byte // what is in the frame; nil if it is too long
	Err      error
}

func (e *FrameError) Error() string {
	return fmt.Sprintf("frame %d: %v", e.Number, e.Err)
}

func (e *FrameError) Unwrap() error { return e.Err }

// longerThan is why a frame is too long: it has more than so many octets.
type longerThan int

func (most longerThan) Error() string {
	return fmt.Sprintf("syslogbox: the frame has more than %d octets", int(most))
}

func (most longerThan) Unwrap() error { return bufio.ErrTooLong }

// Reader reads records from a stream of frames.
type Reader struct {
	source  io.Reader
	framing Framing
	longest int

	held     []byte // octets that were read, and not yet given
	failed   error  // what the source said behind them
	number   int    // how many frames were given
	position int64  // how many octets came before those that are held
	begun    int64  // where the frame under way begins
	scanner  scanner
}

// NewReader returns a Reader of a stream. Frames of more than FrameMax octets are too long, unless Longest says
// otherwise.
func NewReader(source io.Reader, framing Framing) *Reader {
	return &Reader{source: source, framing: framing, longest: FrameMax}
}

// Longest sets how many octets a frame may have: EntryMax for archives.
func (r *Reader) Longest(octets int) { r.longest = octets }

// Read returns the next record. The error is a *FrameError in the place of each frame that is not one; the next call
// goes on behind it. At the end of the stream it is io.EOF, and inside a frame io.ErrUnexpectedEOF; a *CountError where
// no count begins; and else what the source says.
func (r *Reader) Read() (*Record, error) {
	return r.ReadContext(context.Background())
}

// ReadContext is Read, and waits no longer than the context lasts for a connection, or another source whose
// SetReadDeadline works; its deadline is then taken away. Any other, such as os.Stdin as a rule, is waited for until
// its next octets. A later call goes on from there.
func (r *Reader) ReadContext(ctx context.Context) (*Record, error) {
	for {
		found, err := r.scanner.next(r.framing, r.longest, r.held)
		if count := (*CountError)(nil); errors.As(err, &count) {
			return nil, &CountError{int(r.position) + count.Offset}
		}
		if err != nil {
			return nil, err
		}
		if found.what == waits {
			r.drop(found.used)
			if err := r.fill(ctx); err != nil {
				return nil, r.ended(err)
			}
			continue
		}
		return r.record(found)
	}
}

// All goes over the records and the errors of Read, up to the end of the stream or up to an error that is not a
// *FrameError.
func (r *Reader) All() func(yield func(*Record, error) bool) {
	return func(yield func(*Record, error) bool) {
		for {
			record, err := r.Read()
			if err == io.EOF || !yield(record, err) {
				return
			}
			if refused := (*FrameError)(nil); err != nil && !errors.As(err, &refused) {
				return
			}
		}
	}
}

// record takes a frame, of which nothing is known if it is too long.
func (r *Reader) record(found found) (*Record, error) {
	frame := append([]byte(nil), r.held[found.start:found.end]...)
	position := r.begun
	r.number++
	r.drop(found.used)
	r.begun = r.position
	if found.what == tooLong {
		return nil, &FrameError{r.number, position, nil, longerThan(r.longest)}
	}
	record, err := View(frame)
	if err != nil {
		return nil, &FrameError{r.number, position, frame, err}
	}
	return record, nil
}

func (r *Reader) drop(octets int) {
	r.held = r.held[octets:]
	r.position += int64(octets)
}

// ended is what the end of the source is to the reader: io.EOF between two frames alone.
func (r *Reader) ended(err error) error {
	if err != io.EOF || len(r.held) == 0 && !r.scanner.passing() {
		return err
	}
	return fmt.Errorf("syslogbox: the stream ends inside a frame: %w", io.ErrUnexpectedEOF)
}

const (
	piece = 64 << 10 // the room for one reading
	idle  = 100      // how often a source may give nothing
)

// fill holds what the source gives next.
func (r *Reader) fill(ctx context.Context) error {
	if cap(r.held)-len(r.held) < piece/2 {
		r.held = append(make([]byte, 0, 2*len(r.held)+piece), r.held...)
	}
	for tries := 0; tries < idle; tries++ {
		if err := r.failed; err != nil {
			r.failed = nil
			return err
		}
		n, err := r.wait(ctx, r.held[len(r.held):cap(r.held)])
		r.held, r.failed = r.held[:len(r.held)+n], err
		if n > 0 {
			return nil
		}
	}
	return io.ErrNoProgress
}

// wait reads from the source, as long as the context lasts if a deadline can end the reading.
func (r *Reader) wait(ctx context.Context, room []byte) (int, error) {
	if err := ctx.Err(); err != nil {
		return 0, err
	}
	source, bounded := r.source.(interface{ SetReadDeadline(time.Time) error })
	if !bounded || ctx.Done() == nil {
		return r.source.Read(room)
	}
	read, ended := make(chan struct{}), make(chan bool, 1)
	go func() {
		select {
		case <-ctx.Done():
			ended <- source.SetReadDeadline(time.Unix(1, 0)) == nil
		case <-read:
			ended <- false
		}
	}()
	n, err := r.source.Read(room)
	close(read)
	if !<-ended {
		// no deadline was set, and what the source says is its own
		return n, err
	}
	_ = source.SetReadDeadline(time.Time{})
	if timeout, is := err.(interface{ Timeout() bool }); is && timeout.Timeout() {
		err = nil
		if n == 0 {
			err = ctx.Err()
		}
	}
	return n, err
}
