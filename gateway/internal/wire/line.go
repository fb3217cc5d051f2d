// Package wire looks at request lines and replies of regd as bytes.
//
// It decides which lines have to go through the log, which ones the gateway refuses, and what it adds to a line. It
// reads as little of a line as it can, and never judges it: a malformed line reaches regd as the caller sent it, and
// regd names its fault. Keys are added to a line and never rewritten, because of equal keys in one object regd takes
// the last value.
package wire

import (
	"bufio"
	"bytes"
	"io"
)

// MaxLine is the largest number of bytes in a line, without its line feed.
const MaxLine = 1 << 20

// ReadLine reads a line without its line feed. When the line outgrows the buffer of in, it calls hasRoom, and doesn't
// keep the line if that is false. It returns the code with which a line is refused: L3 if the input ends in it, Busy if
// it was not kept, and if it has more than the given number of bytes TooLong, or L1 if regd refuses it too. An error
// means that there is no line; io.EOF that the input ended.
func ReadLine(in *bufio.Reader, most int, hasRoom func() bool) (line []byte, code string, err error) {
	size, isKept := 0, true
	for err = bufio.ErrBufferFull; err == bufio.ErrBufferFull; {
		var part []byte
		part, err = in.ReadSlice('\n')
		if err == bufio.ErrBufferFull && size == 0 {
			isKept = hasRoom()
		}
		size += len(part)
		if isKept && size <= most+1 {
			line = append(line, part...)
		}
	}
	if err == nil {
		size-- // the line feed
	}
	switch {
	case err != nil && (err != io.EOF || size == 0):
		return nil, "", err
	case size > MaxLine && size > most:
		return nil, "L1", nil
	case err == io.EOF:
		return nil, "L3", nil
	case !isKept:
		return nil, Busy, nil
	case size > most:
		return nil, TooLong, nil
	}
	return line[:size], "", nil
}

// names of the operations that change the book, as they appear in a line without escapes
var changeNames = [][]byte{
	[]byte(`"create"`), []byte(`"update"`), []byte(`"delete"`), []byte(`"prune"`),
	[]byte(`"set_agent"`), []byte(`"drop_agent"`), []byte(`"set_bundle"`), []byte(`"drop_bundle"`),
}

// MayChange returns false only if no reader of JSON can find a change in the line. Without a backslash every string of
// a line is in it as it is, so a line without the name of a change holds none. A query or a malformed line for which it
// returns true goes through the log, which costs time and changes nothing.
func MayChange(line []byte) bool {
	if bytes.IndexByte(line, '\\') >= 0 {
		return true
	}
	for _, name := range changeNames {
		if bytes.Contains(line, name) {
			return true
		}
	}
	return false
}

// listings has the names of the operations whose replies grow with the book, as they appear in a line without escapes.
var listings = [][]byte{[]byte(`"page"`), []byte(`"children"`), []byte(`"authorised"`), []byte(`"trust"`)}

// Listings returns the most listings that a reader of JSON can find in a line for which MayChange is false. A name that
// is the value of another key counts too.
func Listings(line []byte) (count int) {
	for _, name := range listings {
		count += bytes.Count(line, name)
	}
	return count
}

// insert returns a copy of the line with a text at a position.
func insert(line []byte, at int, text string) []byte {
	made := make([]byte, 0, len(line)+len(text))
	return append(append(append(made, line[:at]...), text...), line[at:]...)
}
