package syslogbox

import (
	"encoding/base64"
	"sort"
	"strconv"
	"unicode/utf8"
)

var facilities = [24]string{
	"kern", "user", "mail", "daemon", "auth", "syslog", "lpr", "news", "uucp", "cron", "authpriv", "ftp", "ntp", "audit",
	"alert", "clock", "local0", "local1", "local2", "local3", "local4", "local5", "local6", "local7",
}

var severities = [8]string{"emerg", "alert", "crit", "err", "warning", "notice", "info", "debug"}

// AppendJSON appends the line of `syslogbox show --json`, without its line feed. The facility is one of 24, the severity
// one of 8.
func (r *Record) AppendJSON(line []byte) []byte {
	line = append(line, `{"priority":`...)
	line = strconv.AppendInt(line, int64(8*r.Facility+r.Severity), 10)
	line = appendText(append(line, `,"facility":`...), facilities[r.Facility])
	line = appendText(append(line, `,"severity":`...), severities[r.Severity])
	line = append(line, `,"time":`...)
	if instant, has := r.Time(); has {
		line = instant.AppendFormat(line, `"2006-01-02T15:04:05.000000Z"`)
	} else {
		line = append(line, "null"...)
	}
	for _, word := range [...]struct{ key, value string }{
		{`,"host":`, r.Hostname}, {`,"app":`, r.AppName}, {`,"proc":`, r.ProcID}, {`,"msgid":`, r.MsgID},
	} {
		line = appendWord(append(line, word.key...), word.value)
	}
	line = r.appendData(append(line, `,"data":{`...))
	return append(r.appendMessage(append(line, '}')), '}')
}

// appendData appends the elements by their ids, as the canonical form has them.
func (r *Record) appendData(line []byte) []byte {
	elements := append([]Element(nil), r.Elements...)
	sort.Slice(elements, func(i, j int) bool { return elements[i].ID < elements[j].ID })
	for i, element := range elements {
		if i > 0 {
			line = append(line, ',')
		}
		line = append(appendText(line, element.ID), ":["...)
		for j, param := range element.Params {
			if j > 0 {
				line = append(line, ',')
			}
			line = appendText(append(line, '['), param.Name)
			line = append(appendText(append(line, ','), param.Value), ']')
		}
		line = append(line, ']')
	}
	return line
}

func (r *Record) appendMessage(line []byte) []byte {
	if utf8.Valid(r.Message) {
		line = appendText(append(line, `,"message":`...), string(r.Message))
	} else {
		text := base64.StdEncoding.EncodeToString(r.Message)
		line = appendText(append(line, `,"message_base64":`...), text)
	}
	if r.BOM {
		line = append(line, `,"bom":true`...)
	}
	return line
}

// appendWord appends a field, or null for one that is "-".
func appendWord(line []byte, word string) []byte {
	if word == "" {
		return append(line, "null"...)
	}
	return appendText(line, word)
}

// appendText appends a string of JSON (RFC 8259, 7): what has a short escape has that one.
func appendText(line []byte, text string) []byte {
	const hex = "0123456789abcdef"
	line = append(line, '"')
	for i := 0; i < len(text); i++ {
		switch octet := text[i]; octet {
		case '"', '\\':
			line = append(line, '\\', octet)
		case '\b':
			line = append(line, `\b`...)
		case '\f':
			line = append(line, `\f`...)
		case '\n':
			line = append(line, `\n`...)
		case '\r':
			line = append(line, `\r`...)
		case '\t':
			line = append(line, `\t`...)
		default:
			if octet < ' ' {
				line = append(line, '\\', 'u', '0', '0', hex[octet>>4], hex[octet&15])
			} else {
				line = append(line, octet)
			}
		}
	}
	return append(line, '"')
}
