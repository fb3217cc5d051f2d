package etcd

import (
	"bytes"
	"context"
	"encoding/json"
	"errors"
	"fmt"
	"time"
)

// frozen is the value of the key from: what the log of format 1 had when it was frozen.
type frozen struct {
	Domain string `json:"domain"`
	Head   uint64 `json:"head"`
	Time   int64  `json:"time"` // when it was frozen, in milliseconds since 1970; all its entries get this time
	Run    string `json:"run"`  // the call that converts it: an earlier one writes nothing more
}

// A Conversion makes a log of format 2 from one of format 1, whose gateways are all stopped. Each of its steps may be
// repeated, so one that was interrupted begins again.
type Conversion struct {
	log, old *Log
	from     frozen
	text     []byte // the value of the key from
}

// ErrConverted is returned if there is nothing to convert.
var ErrConverted = errors.New("the log has format 2")

// Freeze begins a conversion. From then on no gateway of format 1 can start with the log, or append to it. Before the
// conversion has ended, none of format 2 starts with it.
// No other call has the ID.
func (l *Log) Freeze(ctx context.Context, domain, id string) (*Conversion, error) {
	isThere, err := l.check(ctx, domain)
	c := &Conversion{log: l, old: l.old(), from: frozen{Run: id}}
	if err == nil && isThere {
		return c, ErrConverted
	}
	if err != nil {
		return nil, err
	}
	had, err := c.old.Get(ctx, "domain")
	switch {
	case err != nil:
		return nil, err
	case had == nil:
		return nil, errors.New("there is no log of format 1")
	case string(had) == guard:
		return c, c.resume(ctx, domain)
	case string(had) != domain:
		return nil, fmt.Errorf("%w: %s", ErrDomain, had)
	}
	return c, c.freeze(ctx, domain)
}

// resume takes a conversion over from an earlier call.
func (c *Conversion) resume(ctx context.Context, domain string) error {
	text, err := c.log.Get(ctx, "from")
	if err != nil {
		return err
	}
	id := c.from.Run
	err = json.Unmarshal(text, &c.from)
	if err == nil && c.from.Domain != domain {
		err = fmt.Errorf("%w: %s", ErrDomain, c.from.Domain)
	}
	if err != nil {
		return err
	}
	c.from.Run = id
	c.text, err = json.Marshal(c.from)
	if err == nil && !bytes.Equal(c.text, text) {
		err = c.log.Put(ctx, "from", c.text, c.log.Has("from", text))
	}
	return err
}

// IsOurs is a condition: no later call has taken the conversion over.
func (c *Conversion) IsOurs() map[string]any { return c.log.Has("from", c.text) }

// freeze takes the domain and the head from the log of format 1, in one transaction.
func (c *Conversion) freeze(ctx context.Context, domain string) error {
	head, err := c.old.Get(ctx, "head")
	if err != nil {
		return err
	}
	c.from.Domain, c.from.Time = domain, time.Now().UnixMilli()
	_, err = fmt.Sscanf(string(head), "%d", &c.from.Head)
	if err != nil {
		return fmt.Errorf("the log of format 1 ends with %.100q: %w", head, err)
	}
	c.text, err = json.Marshal(c.from)
	if err != nil {
		return err
	}
	var done transaction
	request := object{
		"compare": []object{c.old.Has("head", head), c.old.Has("domain", []byte(domain))},
		"success": []object{
			c.old.writing("domain", []byte(guard)), c.log.writing("from", c.text), c.old.deleting("head"),
		},
	}
	err = c.log.insist(ctx, "freeze", func() error {
		done = transaction{}
		return c.log.change(ctx, 0, request, &done)
	})
	if err != nil || done.Succeeded {
		return err
	}
	err = c.resume(ctx, domain) // an earlier try without an answer may have done it
	if err != nil {
		return fmt.Errorf("the log of format 1 was changed meanwhile: is each gateway stopped? %w", err)
	}
	return nil
}

// Clear deletes what an earlier try has made.
func (c *Conversion) Clear(ctx context.Context) error {
	err := c.log.Cut(ctx, 1<<63, c.IsOurs())
	for _, name := range []string{"snapshot", "skip"} { // and their folders; 0 follows the slash
		if err == nil {
			err = c.log.Delete(ctx, name, name+"0", c.IsOurs())
		}
	}
	return err
}

// Old returns the log of format 1, for its snapshot.
func (c *Conversion) Old() *Log { return c.old }

// Time returns the time of all entries.
func (c *Conversion) Time() int64 { return c.from.Time }

// After returns the position of an entry of format 1 that a snapshot ends with: its name is a hash of the former one.
func (c *Conversion) After(number uint64, name string) Position {
	if number == 0 {
		return Start
	}
	return Position{Entry: number, Name: nameOf([]byte(name)), Time: c.from.Time}
}

// Copy makes entries of all those of format 1 after a position. It returns the last one.
func (c *Conversion) Copy(ctx context.Context, last Position) (Position, error) {
	for last.Entry < c.from.Head {
		key := EntryKey(last.Entry + 1)
		value, err := c.old.GetLarge(ctx, key, 1<<20)
		if err != nil {
			return last, err
		}
		if value == nil {
			return last, fmt.Errorf("%w: entry %d of format 1", ErrCut, last.Entry+1)
		}
		made, at, err := draftOfOld(value).after(last, time.UnixMilli(c.from.Time))
		if err != nil {
			return last, err
		}
		err = c.log.Put(ctx, key, made, c.IsOurs())
		if err != nil {
			return last, err
		}
		last = at
	}
	return last, nil
}

// oldSkip is what the name of an entry of format 1 that records a skip begins with.
const oldSkip = "skip "

// draftOfOld reads an entry of format 1: a line with its name, and its lines. Who sent them is not known.
func draftOfOld(value []byte) Draft {
	lines := bytes.Split(bytes.TrimSuffix(value, []byte("\n")), []byte("\n"))
	d := Draft{ID: string(lines[0]), Lines: lines[1:]}
	var text, id string
	count, err := fmt.Sscanf(d.ID, oldSkip+"%s %s", &text, &id)
	if err == nil && count == 2 {
		d.Skip = text
	}
	return d
}

// Finish copies the skips, and lets gateways of format 2 begin.
func (c *Conversion) Finish(ctx context.Context, end Position) error {
	skips, err := c.old.List(ctx, skipFolder)
	for line, when := range skips {
		if err == nil {
			err = c.log.Put(ctx, skipFolder+line, []byte(when), c.IsOurs())
		}
	}
	if err != nil {
		return err
	}
	format, err := formatText()
	if err != nil {
		return err
	}
	request := object{
		"compare": []object{c.IsOurs(), c.log.lacks("head")},
		"success": []object{
			c.log.writing("head", end.text()), c.log.writing("domain", []byte(c.from.Domain)),
			c.log.writing("format", format), c.log.deleting("from"),
		},
	}
	err = c.log.insist(ctx, "finish", func() error { return c.log.change(ctx, 0, request, &struct{}{}) })
	if err != nil {
		return err
	}
	return c.log.Open(ctx, c.from.Domain)
}

// Clean deletes the log of format 1.
func (c *Conversion) Clean(ctx context.Context) error {
	err := c.old.Cut(ctx, 1<<63)
	for _, name := range []string{"snapshot", "skip", "sum"} {
		if err == nil {
			err = c.old.Delete(ctx, name, name+"0")
		}
	}
	return err
}

// deleting is a part of a transaction.
func (l *Log) deleting(name string) object {
	return object{"request_delete_range": object{"key": l.key(name), "range_end": l.key(name + "\x00")}}
}
