package etcd

import (
	"context"
	"fmt"
	"time"
)

// A Line is a line of the log. The lines of an entry are numbered from 1.
type Line struct {
	Entry  uint64
	Number int
}

// String returns the numbers of the entry and of the line, with a point between them.
func (l Line) String() string { return fmt.Sprintf("%d.%d", l.Entry, l.Number) }

// MarshalText returns String.
func (l Line) MarshalText() ([]byte, error) { return []byte(l.String()), nil }

// ParseLine reads what String returns. It returns false if the text is something else.
func ParseLine(text string) (l Line, ok bool) {
	_, err := fmt.Sscanf(text, "%d.%d", &l.Entry, &l.Number)
	return l, err == nil && l.String() == text
}

// Skips are the lines that no replica executes, with the times when operators decided that.
type Skips map[Line]string

// the folder of skips
const skipFolder = "skip/"

// Skips returns all lines that are skipped.
func (l *Log) Skips(ctx context.Context) (Skips, error) {
	all, err := l.List(ctx, skipFolder)
	skips := Skips{}
	for name, when := range all {
		if line, ok := ParseLine(name); ok {
			skips[line] = when
		}
	}
	return skips, err
}

// Skip makes all replicas leave out a line. In one transaction it stores that under a key, which replicas read when
// they start, and appends an entry that records it, at which a replica that has executed the line ends. So a replica
// that has executed the record has left out the line, and one that is ready without the record has not. The id is one
// that no other call has.
func (l *Log) Skip(ctx context.Context, line Line, id string) error {
	value, err := l.GetLarge(ctx, EntryKey(line.Entry), 1<<20)
	if err != nil {
		return err
	}
	if value == nil {
		return fmt.Errorf("the log has no line %v", line)
	}
	e, err := ReadEntry(line.Entry, value)
	if err != nil {
		return err
	}
	if line.Number < 1 || line.Number > len(e.Lines) {
		return fmt.Errorf("the log has no line %v", line)
	}
	end, err := l.End(ctx)
	if err != nil {
		return err
	}
	when := l.writing(skipFolder+line.String(), []byte(time.Now().UTC().Format(time.RFC3339)))
	record := fmt.Sprintf(`{"skip":"%v"}`, line) // which regd refuses
	_, err = l.Append(ctx, end, Draft{ID: id, Skip: line.String(), Lines: [][]byte{[]byte(record)}}, when)
	return err
}

// Skipped returns the line whose skip an entry records, and whether it does.
func (d Draft) Skipped() (Line, bool) { return ParseLine(d.Skip) }
