// Package snapshot makes snapshots of the book, and cuts the log behind them.
//
// regd can't load a book, so a snapshot is a list of lines that make the same one: all rows with their revisions and
// sequences, at the same commit number, and the retained tokens with their replies. Lost are the earlier books, which a
// page can read by `at` for 64 commits, and the record of which batch came when. Before a snapshot is published,
// another regd executes it and is compared with the first one.
package snapshot

import (
	"bytes"
	"context"
	"crypto/sha256"
	"encoding/hex"
	"encoding/json"
	"errors"
	"fmt"
	"reflect"

	"regd/gateway/internal/etcd"
	"regd/gateway/internal/logline"
	"regd/gateway/internal/replica"
	"regd/gateway/internal/wire"
)

// chunkSize is the most bytes of a snapshot in one key of etcd.
const chunkSize = 1 << 19

// head is the value of the key snapshot. It names the chunks, which are written first, and has a hash of what they
// hold. No other call of Make has the ID.
type head struct {
	Format int
	Entry  uint64
	Name   string // of this entry, with which the snapshot ends
	ID     string
	Chunks int
	Hash   string // SHA-256 of the content
}

// check returns an error unless this gateway can read the snapshot.
func (h head) check() error {
	if h.Format != etcd.Format {
		return fmt.Errorf("%w: the snapshot has format %d", etcd.ErrFormat, h.Format)
	}
	return nil
}

// hashOf returns the hash of a content.
func hashOf(text []byte) string {
	sum := sha256.Sum256(text)
	return hex.EncodeToString(sum[:])
}

// content is what the chunks hold together, as JSON.
type content struct {
	replica.State
	Tokens []*replica.Kept
	Lines  []string
}

// chunk returns the key of a chunk. The chunks of an older snapshot come first.
func (h head) chunk(number int) string {
	return fmt.Sprintf("snapshot/%016x/%s%08x", h.Entry, h.ID, number)
}

// position returns where the content ends in the log.
func (c content) position() etcd.Position {
	if c.Entry == 0 {
		return etcd.Start
	}
	return etcd.Position{Entry: c.Entry, Name: c.Name, Time: c.Time}
}

// read returns the newest snapshot, which is verified. It is empty if there is none.
func read(ctx context.Context, log *etcd.Log) (c content, err error) {
	first, err := log.Get(ctx, "snapshot")
	if err != nil || first == nil {
		return c, err
	}
	var h head
	err = json.Unmarshal(first, &h)
	if err != nil {
		return c, fmt.Errorf("%w: the head of the snapshot is %.100q", etcd.ErrDamaged, first)
	}
	err = h.check()
	if err != nil {
		return c, err
	}
	c, err = h.content(ctx, log)
	if errors.Is(err, etcd.ErrDamaged) {
		now, failed := log.Get(ctx, "snapshot")
		if failed == nil && !bytes.Equal(now, first) {
			err = errors.New("a newer snapshot has taken the place of one that was read")
		}
	}
	return c, err
}

// content reads the chunks of a snapshot. It returns ErrDamaged if they are not those that the head names.
func (h head) content(ctx context.Context, log *etcd.Log) (c content, err error) {
	var text []byte
	for i := 0; i < h.Chunks; i++ {
		chunk, err := log.GetLarge(ctx, h.chunk(i), chunkSize)
		if err != nil {
			return content{}, err
		}
		if chunk == nil {
			break // the hash says it
		}
		text = append(text, chunk...)
	}
	if hashOf(text) != h.Hash {
		return content{}, fmt.Errorf("%w: the snapshot of entry %d", etcd.ErrDamaged, h.Entry)
	}
	err = json.Unmarshal(text, &c)
	if err == nil && (c.Entry != h.Entry || c.Name != h.Name) {
		err = fmt.Errorf("%w: the snapshot of entry %d ends with entry %d", etcd.ErrDamaged, h.Entry, c.Entry)
	}
	return c, err
}

// Skip makes all replicas leave out a line, which must not be in a snapshot. The id is one that no other call has.
func Skip(ctx context.Context, log *etcd.Log, line etcd.Line, id string) error {
	c, err := read(ctx, log)
	if err != nil {
		return err
	}
	if line.Entry <= c.Entry {
		return fmt.Errorf("line %v is in the snapshot of entry %d", line, c.Entry)
	}
	return log.Skip(ctx, line, id)
}

// Load makes the newest snapshot in an empty replica, and returns where it ends: at the log's beginning if there is
// none.
func Load(ctx context.Context, log *etcd.Log, r *replica.Replica) (etcd.Position, error) {
	c, err := read(ctx, log)
	if err == nil {
		err = c.fill(r)
	}
	return c.position(), err
}

// fill makes the book of a snapshot in an empty replica.
func (c content) fill(r *replica.Replica) error { return r.Restore(c.State, c.Lines, c.Tokens) }

// Make makes a snapshot of the book that was left by the entry `keep` before the last one, and deletes the log up to
// it. It makes none if that would not shorten the log. If the log loses that entry meanwhile, because etcd is restored
// from a backup or another call has cut the log, the snapshot doesn't count, and Make deletes nothing.
func Make(ctx context.Context, log *etcd.Log, options replica.Options, keep uint64) error {
	old, err := read(ctx, log)
	if err != nil {
		return err
	}
	last, err := log.Head(ctx)
	if err != nil || last <= old.Entry+keep {
		return err
	}
	last -= keep
	entry, err := log.GetLarge(ctx, etcd.EntryKey(last), 1<<20)
	if err != nil {
		return err
	}
	skips, err := log.Skips(ctx)
	if err != nil {
		return err
	}
	names := names{}
	c, err := build(ctx, options, names, func(r *replica.Replica) error {
		return replay(log, old, r, names, last, skips)
	})
	if err != nil {
		return err
	}
	if uint64(len(c.Lines)) > c.Place {
		logline.Info("no snapshot, because it would be longer than the log", "lines", len(c.Lines),
			"commits", c.Place)
		return nil
	}
	if err := c.verify(ctx, options, names); err != nil {
		return err
	}
	if now, err := log.Skips(ctx); err != nil || len(now) != len(skips) {
		return fmt.Errorf("a line was skipped meanwhile: %v", err)
	}
	published, err := c.publish(ctx, log, entry)
	if err != nil {
		return err
	}
	logline.Info("snapshot made", "entry", last, "place", c.Place, "lines", len(c.Lines), "tokens", len(c.Tokens))
	// a replica that starts now starts from the snapshot
	if err := log.Cut(ctx, last, log.Has("snapshot", published)); err != nil {
		return err
	}
	return log.Delete(ctx, "snapshot/", head{Entry: last}.chunk(0), log.Has("snapshot", published))
}

// build starts a regd, whose book fill makes, and returns the snapshot of it.
func build(
	ctx context.Context, options replica.Options, names names, fill func(*replica.Replica) error,
) (c content, err error) {
	r, err := replica.Start(ctx, options, func(replica.State) {})
	if err != nil {
		return c, err
	}
	defer r.Close()
	if err = fill(r); err == nil {
		c.Lines, err = bookLines(r, names)
	}
	c.State, c.Tokens = r.State(), r.Tokens()
	return c, err
}

// replay makes a snapshot in an empty replica, and executes the entries after it up to the last one, but for skipped
// lines. It notes all names, and returns an error if regd has shown one that it has not noted: the snapshot would lose
// it.
func replay(log *etcd.Log, old content, r *replica.Replica, names names, last uint64, skips etcd.Skips) error {
	for _, line := range old.Lines {
		names.note([]byte(line))
	}
	if err := old.fill(r); err != nil {
		return err
	}
	reading, stop := context.WithCancel(r.Context())
	defer stop()
	shown := showing{}
	_, err := log.Follow(reading, old.position(), func(end uint64) {
		if end < last { // etcd was restored from a backup
			stop()
		}
	}, func(e etcd.Entry) {
		if e.Entry > last {
			return
		}
		for _, line := range e.Lines {
			names.note(line)
		}
		isSkipped := func(i int) bool { return skips[etcd.Line{Entry: e.Entry, Number: i + 1}] != "" }
		r.Apply(Executable(e), isSkipped, shown.take)
		if e.Entry == last {
			stop()
		}
	})
	r.Settle()
	if r.State().Entry != last {
		return fmt.Errorf("the replay ended at entry %d: %w", r.State().Entry, err)
	}
	return shown.check(names)
}

// Executable returns what a replica executes of an entry.
func Executable(e etcd.Entry) replica.Entry {
	return replica.Entry{
		Number: e.Entry, Name: e.Name, Time: e.Time, Keep: e.Keep, Room: e.Room, Lines: e.Lines,
		Added: e.Added,
	}
}

// A showing has the names in replies of regd, or the error of one that can't be read.
type showing struct {
	names names
	err   error
}

// take takes the names of a reply.
func (s *showing) take(_ int, reply []byte) {
	if s.names == nil {
		s.names = names{}
	}
	if err := s.names.told(reply); err != nil {
		s.err = err
	}
}

// check returns an error if regd has shown a name that is not among the noted ones.
func (s *showing) check(noted names) error {
	if missed := s.names.without(noted); missed != "" {
		return fmt.Errorf("a snapshot would lose what %s shows, which no line of the log is known to have set",
			missed)
	}
	return s.err
}

// verify makes a snapshot in another regd, as it is stored, and returns an error unless that makes the same book.
func (c content) verify(ctx context.Context, options replica.Options, names names) error {
	text, err := json.Marshal(c)
	if err != nil {
		return err
	}
	var stored content
	if err := json.Unmarshal(text, &stored); err != nil {
		return err
	}
	again, err := build(ctx, options, names, stored.fill)
	if err == nil && !reflect.DeepEqual(again, c) {
		err = fmt.Errorf("the snapshot of entry %d makes another book", c.Entry)
	}
	return err
}

// publish writes the snapshot if the log still has its last entry. It returns the head.
func (c content) publish(ctx context.Context, log *etcd.Log, entry []byte) ([]byte, error) {
	return c.store(ctx, log, log.Has(etcd.EntryKey(c.Entry), entry))
}

// store writes the chunks, each if the one before it is still there, and then, if a condition holds, the head that
// makes them count. It returns the head. So if etcd is restored meanwhile, no chunk is missing.
func (c content) store(ctx context.Context, log *etcd.Log, condition map[string]any) ([]byte, error) {
	text, err := json.Marshal(c)
	if err != nil {
		return nil, err
	}
	h := head{Format: etcd.Format, Entry: c.Entry, Name: c.Name, ID: wire.NewID(), Hash: hashOf(text)}
	before := []map[string]any{}
	for rest := bytes.NewBuffer(text); rest.Len() > 0; h.Chunks++ {
		if err := log.Put(ctx, h.chunk(h.Chunks), rest.Next(chunkSize), before...); err != nil {
			return nil, err
		}
		before = []map[string]any{log.Exists(h.chunk(h.Chunks))}
	}
	text, err = json.Marshal(h)
	if err != nil {
		return nil, err
	}
	return text, log.Put(ctx, "snapshot", text, append(before, condition)...)
}
