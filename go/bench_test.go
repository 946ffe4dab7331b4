package syslogbox

import (
	"bytes"
	"fmt"
	"io"
	"testing"
)

// corpus has a thousand records of a kind: plain ones, or ones with two elements.
func corpus(kind string) (records [][]byte) {
	for n := 0; n < 1_000; n++ {
		data, text := "-", fmt.Sprintf("Accepted publickey for user%d from 10.0.%d.%d port %d ssh2", n%97, n%251, n%13, 1024+n)
		if kind == "elements" {
			data = fmt.Sprintf(`[origin ip="10.0.0.%d" software="sshd"][meta@32473 sequenceId="%d" note="say \"%d\""]`, n%250, n, n)
		}
		records = append(records, []byte(fmt.Sprintf("<%d>1 2026-11-%02dT%02d:%02d:%02d.%06dZ host%d.example.com sshd %d ID%d %s %s",
			n%192, 1+n%28, n%24, n%60, n*7%60, n*997%1_000_000, n%50, 1000+n, n%9, data, text)))
	}
	return records
}

// Each call on a thousand records of its own.
func BenchmarkCorpus(b *testing.B) {
	calls := []struct {
		name string
		call func(record []byte) error
	}{
		{"Check", Check},
		{"Canonical", func(record []byte) error { _, err := Canonical(record); return err }},
		{"View", func(record []byte) error { _, err := View(record); return err }},
		{"AppendJSON", func(record []byte) error {
			shown, err := View(record)
			if err == nil {
				shown.AppendJSON(nil)
			}
			return err
		}},
	}
	for _, kind := range []string{"plain", "elements"} {
		records := corpus(kind)
		octets := 0
		for _, record := range records {
			octets += len(record)
		}
		for _, of := range calls {
			b.Run(of.name+"/"+kind, func(b *testing.B) {
				b.SetBytes(int64(octets / len(records)))
				b.ReportAllocs()
				for i := 0; i < b.N; i++ {
					if err := of.call(records[i%len(records)]); err != nil {
						b.Fatal(err)
					}
				}
			})
		}
		b.Run("Reader/"+kind, func(b *testing.B) { readAll(b, records, octets/len(records)) })
	}
}

// readAll reads as many records as are measured from a stream of these, again and again.
func readAll(b *testing.B, records [][]byte, octets int) {
	var stream bytes.Buffer
	for _, record := range records {
		fmt.Fprintf(&stream, "%d %s", len(record), record)
	}
	b.SetBytes(int64(octets))
	b.ReportAllocs()
	b.ResetTimer()
	for left := b.N; left > 0; {
		reader := NewReader(bytes.NewReader(stream.Bytes()), Counted)
		for ; left > 0; left-- {
			if _, err := reader.Read(); err == io.EOF {
				break
			} else if err != nil {
				b.Fatal(err)
			}
		}
	}
}
