package wire

import (
	"bytes"
	"fmt"
	"strconv"
)

var (
	callKey, lineKey    = []byte(`{"call":`), []byte(`,"line":`)
	placeKey, afterKey  = []byte(`"place":`), []byte(`"after"`)
	colon               = []byte(":")
	committed, repeated = []byte(`"result":"committed"}`), []byte(`"result":"repeated"}`)
)

// space is what JSON ignores between two parts of a line.
const space = " \t\r"

// IsRefusal returns true if regd refused the line before it ran it.
func IsRefusal(reply []byte) bool { return !bytes.HasPrefix(reply, callKey) }

// Tail returns the part of a reply that is the same on every replica: what follows the call number, or what precedes
// the line number.
func Tail(reply []byte) []byte {
	if IsRefusal(reply) {
		tail, _, _ := bytes.Cut(reply, lineKey)
		return tail
	}
	return reply[bytes.IndexByte(reply, ',')+1:]
}

// AppendReply appends a reply with the number of the call, or of the line if it is a refusal.
func AppendReply(to, reply []byte, call, line int) []byte {
	tail := Tail(reply)
	if !IsRefusal(reply) {
		to = strconv.AppendInt(append(to, callKey...), int64(call), 10)
		return append(append(append(to, ','), tail...), '\n')
	}
	to = strconv.AppendInt(append(append(to, tail...), lineKey...), int64(line), 10)
	rest := bytes.TrimPrefix(reply[len(tail):], lineKey)
	return append(append(to, bytes.TrimLeft(rest, "0123456789")...), '\n')
}

// Place returns the commit number in a reply, or 0. It precedes every text of a caller.
func Place(reply []byte) uint64 { return numberAfter(reply, placeKey) }

// After returns the number of the last key after in a line, or 0. It only decides how long a query waits.
func After(line []byte) (number uint64) {
	for {
		_, rest, isThere := bytes.Cut(line, afterKey)
		if !isThere {
			return number
		}
		value := bytes.TrimLeft(rest, space)
		if bytes.HasPrefix(value, colon) {
			number = leadingNumber(bytes.TrimLeft(value[1:], space))
		}
		line = rest
	}
}

func numberAfter(text, key []byte) uint64 {
	_, rest, _ := bytes.Cut(text, key)
	return leadingNumber(rest)
}

// leadingNumber returns the number that a text begins with, or 0.
func leadingNumber(text []byte) (number uint64) {
	for _, c := range text {
		if c < '0' || c > '9' {
			break
		}
		number = 10*number + uint64(c-'0')
	}
	return number
}

// Call returns the number of the call in a reply that is no refusal of a line, or 0.
func Call(reply []byte) uint64 { return numberAfter(reply, callKey) }

// Line returns the number of the line in a refusal of a line, or 0.
func Line(reply []byte) uint64 { return numberAfter(reply, lineKey) }

// IsShortage returns true for the codes that don't depend on the lines of a connection alone: L6, L7 and L8.
func IsShortage(code string) bool { return code == "L6" || code == "L7" || code == "L8" }

// Code returns the code of a reply, or "". It is the first key but for the call.
func Code(reply []byte) string {
	first, rest, _ := bytes.Cut(bytes.TrimPrefix(Tail(reply), []byte("{")), []byte(`":"`))
	if string(first) != `"code` {
		return ""
	}
	code, _, _ := bytes.Cut(rest, []byte(`"`))
	return string(code)
}

// IsCommitted returns true if the reply reports a commit.
func IsCommitted(reply []byte) bool { return bytes.HasSuffix(reply, committed) }

// IsRepeated returns true if the reply reports a commit of an earlier line with the same token.
func IsRepeated(reply []byte) bool { return bytes.HasSuffix(reply, repeated) }

// Repeated returns the reply to a line that was committed before, made of the tail of its first reply.
func Repeated(tail []byte) []byte {
	return append(append([]byte(`{"call":0,`), bytes.TrimSuffix(tail, committed)...), repeated...)
}

// Refused returns the reply with which regd refuses a request that it has not run.
func Refused(code string, place uint64) []byte {
	return []byte(fmt.Sprintf(`{"call":0,"code":"%s","place":%d,"result":"refused"}`, code, place))
}

// Refusal returns the answer to a line that holds no request, or that the gateway doesn't accept.
func Refusal(code string) []byte { return []byte(`{"code":"` + code + `","line":0}`) }
