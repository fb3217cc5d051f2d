package etcd

import (
	"bytes"
	"crypto/sha256"
	"encoding/hex"
	"encoding/json"
	"fmt"
	"time"
)

// Origin is the name of the entry before the first one.
const Origin = "0000000000000000000000000000000000000000000000000000000000000000"

// Start is where an empty log ends.
var Start = Position{Name: Origin}

// A Position is an entry of the log, or its beginning. The name is a hash of the entry and of the name of the one
// before it, so no other log has an entry with this name.
type Position struct {
	Entry uint64
	Name  string
	Time  int64 // when the entry was appended, in milliseconds since 1970, and not before the one before it
}

// text returns the value of the key head, where the log ends.
func (p Position) text() []byte { return []byte(fmt.Sprintf("%d %d %s", p.Entry, p.Time, p.Name)) }

// readPosition reads what text returns.
func readPosition(text []byte) (p Position, err error) {
	_, err = fmt.Sscanf(string(text), "%d %d %s", &p.Entry, &p.Time, &p.Name)
	if err != nil || !bytes.Equal(p.text(), text) || len(p.Name) != len(Origin) {
		return Position{}, fmt.Errorf("%w: its end is %.100q", ErrDamaged, text)
	}
	return p, nil
}

// A Draft becomes an entry when it is appended.
type Draft struct {
	ID      string   // no other entry has it
	Skip    string   // the line whose skip the entry records, or ""
	Callers []string // the SPIFFE IDs of those who sent the lines; "" for a caller without a certificate
	By      []int    // for each line the number of its caller, from 0
	Added   []int    // the lines, from 0, to which the gateway has added revisions
	Keep    int64    // for how many milliseconds tokens are retained; 0 for the usual time
	Room    int64    // how many bytes they may take; 0 for the usual room
	Lines   [][]byte // without line feeds
}

// An Entry is a draft that is part of the log.
type Entry struct {
	Position
	Before string // the name of the entry before
	Draft
}

// A header is the first line of an entry behind its name. What follows are the lines.
type header struct {
	Entry   uint64   `json:"entry"`
	Before  string   `json:"before"`
	Time    int64    `json:"time"`
	ID      string   `json:"id"`
	Skip    string   `json:"skip,omitempty"`
	Callers []string `json:"callers,omitempty"`
	By      []int    `json:"by,omitempty"`
	Added   []int    `json:"added,omitempty"`
	Keep    int64    `json:"keep,omitempty"`
	Room    int64    `json:"room,omitempty"`
}

// nameOf returns the name of an entry: a hash of all that follows its name and a blank.
func nameOf(rest []byte) string {
	sum := sha256.Sum256(rest)
	return hex.EncodeToString(sum[:])
}

// after returns the value of the entry that a draft becomes after another one, and its position.
func (d Draft) after(before Position, now time.Time) (value []byte, at Position, err error) {
	at = Position{Entry: before.Entry + 1, Time: now.UnixMilli()}
	if at.Time < before.Time {
		at.Time = before.Time
	}
	first, err := json.Marshal(header{
		at.Entry, before.Name, at.Time, d.ID, d.Skip, d.Callers, d.By, d.Added, d.Keep, d.Room,
	})
	if err != nil {
		return nil, Position{}, err
	}
	rest := append(first, '\n')
	for _, line := range d.Lines {
		rest = append(append(rest, line...), '\n')
	}
	at.Name = nameOf(rest)
	return append([]byte(at.Name+" "), rest...), at, nil
}

// ReadEntry reads the value of the entry with a number. It returns ErrDamaged if that doesn't have the hash that it
// names.
func ReadEntry(number uint64, value []byte) (Entry, error) {
	name, rest, _ := bytes.Cut(value, []byte(" "))
	if nameOf(rest) != string(name) {
		return Entry{}, fmt.Errorf("%w: entry %d", ErrDamaged, number)
	}
	lines := bytes.Split(bytes.TrimSuffix(rest, []byte("\n")), []byte("\n"))
	var h header
	err := json.Unmarshal(lines[0], &h)
	if err != nil || h.Entry != number {
		return Entry{}, fmt.Errorf("%w: entry %d says that it is %d, %v", ErrDamaged, number, h.Entry, err)
	}
	return Entry{
		Position{number, string(name), h.Time}, h.Before,
		Draft{h.ID, h.Skip, h.Callers, h.By, h.Added, h.Keep, h.Room, lines[1:]},
	}, nil
}

// Caller returns the SPIFFE ID of the caller who sent a line, counted from 0, or "" if there is none.
func (d Draft) Caller(line int) string {
	if line >= len(d.By) || d.By[line] < 0 || d.By[line] >= len(d.Callers) {
		return ""
	}
	return d.Callers[d.By[line]]
}

// follows returns an error unless an entry is the one after a position.
func (e Entry) follows(before Position) error {
	switch {
	case e.Before != before.Name:
		return ErrTurnedBack
	case e.Time < before.Time:
		return fmt.Errorf("%w: entry %d is older than the one before", ErrDamaged, e.Entry)
	}
	return nil
}
