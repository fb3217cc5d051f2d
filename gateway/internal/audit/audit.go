// Package audit writes a record of changes: who sent each, when it was appended, where it is in the log, and what
// became of it. A record is a JSON object in a line. The log has all of it but the outcome, so a record that can't be
// written stops nothing.
package audit

import (
	"encoding/json"
	"errors"
	"fmt"
	"io/fs"
	"os"
	"sync"
	"time"

	"regd/gateway/internal/logline"
	"regd/gateway/internal/metrics"
	"regd/gateway/internal/wire"
)

// A Change is one record.
type Change struct {
	Time    string `json:"time"`   // of the entry, by the clock of the gateway that appended it
	Caller  string `json:"caller"` // the SPIFFE ID, or "" for a caller without a certificate
	Entry   uint64 `json:"entry"`  // 0 if it is not known whether there is one
	Line    int    `json:"line"`   // of the entry, from 1
	Place   uint64 `json:"place,omitempty"`
	Outcome string `json:"outcome"` // committed, repeated, answered, refused or unknown
	Code    string `json:"code,omitempty"`
}

// Unknown is the outcome of a change that got no answer.
const Unknown = "unknown"

// TimeText returns a time of an entry as records have it.
func TimeText(milliseconds int64) string {
	return time.UnixMilli(milliseconds).UTC().Format("2006-01-02T15:04:05.000Z")
}

// Take takes the outcome from a reply.
func (c *Change) Take(reply []byte) {
	c.Place, c.Code = wire.Place(reply), wire.Code(reply)
	switch {
	case reply == nil:
		c.Outcome = Unknown
	case c.Code != "":
		c.Outcome = "refused"
	case wire.IsCommitted(reply):
		c.Outcome = "committed"
	case wire.IsRepeated(reply):
		c.Outcome = "repeated"
	default:
		c.Outcome = "answered"
	}
}

// A Record is where changes are recorded.
type Record struct {
	Failures metrics.Counter // changes that could not be recorded

	path  string // "" for standard output
	most  int64  // bytes of a file, after which another one begins
	files int    // how many former ones are kept

	mu     sync.Mutex
	out    *os.File // nil if it could not be opened again
	size   int64
	isTorn bool // the last line may have no end
	fails  logline.Rare
}

// Standard is the path that means standard output, such as for the journal.
const Standard = "-"

// Open opens a record. A file goes on behind what it has.
func Open(path string, most int64, files int) (*Record, error) {
	if path == Standard {
		return &Record{out: os.Stdout}, nil
	}
	r := &Record{path: path, most: most, files: files}
	err := r.open()
	return r, err
}

// open opens the file.
func (r *Record) open() error {
	out, err := os.OpenFile(r.path, os.O_APPEND|os.O_CREATE|os.O_WRONLY, 0o640)
	if err != nil {
		return err
	}
	info, err := out.Stat()
	if err != nil {
		out.Close()
		return err
	}
	r.out, r.size = out, info.Size()
	return nil
}

// Write records changes.
func (r *Record) Write(changes []Change) {
	var text []byte
	for _, c := range changes {
		line, err := json.Marshal(c)
		if err != nil {
			panic(err) // it has numbers and texts alone
		}
		text = append(append(text, line...), '\n')
	}
	r.mu.Lock()
	defer r.mu.Unlock()
	err := r.write(text)
	if err != nil {
		r.Failures.Add(uint64(len(changes)))
		r.fails.Error("changes were not recorded", "file", r.path, "error", err)
	}
}

// write writes a text, and before that begins another file if this one is full.
func (r *Record) write(text []byte) error {
	if r.path != "" && r.out != nil && r.size > 0 && r.size+int64(len(text)) > r.most {
		err := r.rotate()
		if err != nil {
			return err
		}
	}
	if r.out == nil {
		err := r.open()
		if err != nil {
			return err
		}
	}
	if r.isTorn {
		text = append([]byte("\n"), text...)
	}
	count, err := r.out.Write(text)
	r.size += int64(count)
	r.isTorn = err != nil && (count > 0 || r.isTorn)
	return err
}

// rotate closes the file, and gives it the name of the newest former one.
func (r *Record) rotate() error {
	err := r.out.Close()
	r.out = nil
	for number := r.files; number > 0 && err == nil; number-- {
		err = os.Rename(r.name(number-1), r.name(number))
		if errors.Is(err, fs.ErrNotExist) {
			err = nil
		}
	}
	if r.files == 0 && err == nil {
		err = os.Remove(r.path)
	}
	return err
}

// name returns the name of a former file. The newest one is 1, and 0 is the one that is written.
func (r *Record) name(number int) string {
	if number == 0 {
		return r.path
	}
	return fmt.Sprintf("%s.%d", r.path, number)
}
