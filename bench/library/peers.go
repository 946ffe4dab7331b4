// Goes over the records that both read, again and again, and prints the processor time a record in nanoseconds, with that
// of collecting garbage, the least of some turns of 30,000; and how many both read, and how many there are:
//
//	peers check|view|go-syslog lines FILE       the lines of a file, a record each
//	peers check|view|go-syslog cases FILE       the inputs of go-syslog's own benchmark, from its source
package main

import (
	"bytes"
	"fmt"
	"go/ast"
	"go/parser"
	"go/token"
	"os"
	"runtime"
	"strconv"
	"syscall"

	"cupolachive.example/syslogbox"
	"github.com/influxdata/go-syslog/v2/rfc5424"
)

const turns, each = 9, 30_000

var machine = rfc5424.NewMachine()

var calls = map[string]func(record []byte) error{
	"check":     syslogbox.Check,
	"view":      func(record []byte) error { _, err := syslogbox.View(record); return err },
	"go-syslog": func(record []byte) error { _, err := machine.Parse(record); return err },
}

// cases has each literal []byte of a source.
func cases(name string) (inputs [][]byte) {
	file, err := parser.ParseFile(token.NewFileSet(), name, nil, 0)
	if err != nil {
		panic(err)
	}
	ast.Inspect(file, func(node ast.Node) bool {
		call, is := node.(*ast.CallExpr)
		if !is || len(call.Args) != 1 {
			return true
		}
		if of, is := call.Fun.(*ast.ArrayType); !is || of.Len != nil {
			return true
		}
		if literal, is := call.Args[0].(*ast.BasicLit); is {
			text, err := strconv.Unquote(literal.Value)
			if err != nil {
				panic(err)
			}
			inputs = append(inputs, []byte(text))
		}
		return true
	})
	return inputs
}

func seconds() float64 {
	var used syscall.Rusage
	if err := syscall.Getrusage(syscall.RUSAGE_SELF, &used); err != nil {
		panic(err)
	}
	return float64(used.Utime.Nano()+used.Stime.Nano()) / 1e9
}

func main() {
	call, form, name := calls[os.Args[1]], os.Args[2], os.Args[3]
	var all, records [][]byte
	if form == "cases" {
		all = cases(name)
	} else {
		octets, err := os.ReadFile(name)
		if err != nil {
			panic(err)
		}
		all = bytes.Split(bytes.TrimSuffix(octets, []byte("\n")), []byte("\n"))
	}
	for _, record := range all {
		if calls["check"](record) == nil && calls["go-syslog"](record) == nil {
			records = append(records, record)
		}
	}
	runtime.GC()
	var least float64
	for turn := 0; turn < turns; turn++ {
		begin := seconds()
		for n := 0; n < each; n++ {
			if err := call(records[n%len(records)]); err != nil {
				panic(err)
			}
		}
		if took := seconds() - begin; turn == 0 || took < least {
			least = took
		}
	}
	fmt.Printf("%.1f %d %d\n", least*1e9/each, len(records), len(all))
}
