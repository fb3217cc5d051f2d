package server

import (
	"context"
	"fmt"
	"sync"
	"sync/atomic"
	"time"

	"regd/gateway/internal/audit"
	"regd/gateway/internal/etcd"
	"regd/gateway/internal/logline"
)

// limits of an entry: its lines, and the bytes after which no further line is added
const mostLines, mostBytes = 1000, 1 << 18

// A flight is an entry of this gateway of which some line isn't answered yet.
type flight struct {
	changes []*request
	passed  chan etcd.Position // gets that of the entry when the follower meets it
	last    atomic.Uint64      // the entry has at most this number; 0 while it is appended

	mu       sync.Mutex
	recorded []audit.Change // those that are answered, before they are written together
	isOver   bool           // they are written
}

// answer answers a line of an entry, when the turn of the line has come. Entries of other gateways are answered there.
// If a replica ends in the middle of an entry, the next one executes all of it, and answers what is not answered.
func (g *Gateway) answer(e etcd.Entry, line int, reply []byte) {
	value, isOwn := g.flights.Load(e.ID)
	if !isOwn {
		return
	}
	f := value.(*flight)
	f.changes[line].answer(reply)
	change := audit.Change{Time: audit.TimeText(e.Time), Caller: e.Caller(line), Entry: e.Entry, Line: line + 1}
	change.Take(reply)
	f.record(g.options.Audit, line, change)
	if line == len(f.changes)-1 { // replies come in order
		g.flights.Delete(e.ID)
	}
}

// record takes note of the change in a line, once, and writes the record of the entry when it has all of them.
func (f *flight) record(to *audit.Record, line int, change audit.Change) {
	if to == nil {
		return
	}
	f.mu.Lock()
	defer f.mu.Unlock()
	if f.isOver || line != len(f.recorded) { // another replica executes the entry from its beginning
		return
	}
	f.recorded = append(f.recorded, change)
	if len(f.recorded) == len(f.changes) {
		f.isOver = true
		to.Write(f.recorded)
	}
}

// recordUnknown writes the record of an entry of which not all changes were answered.
func (f *flight) recordUnknown(to *audit.Record) {
	if to == nil {
		return
	}
	now := audit.TimeText(time.Now().UnixMilli())
	for line := range f.changes {
		caller := f.changes[line].session.agent
		f.record(to, line, audit.Change{Time: now, Caller: caller, Line: line + 1, Outcome: audit.Unknown})
	}
}

// pass takes note that an entry is in the log, which ends its append.
func (g *Gateway) pass(e etcd.Entry) {
	value, isOwn := g.flights.Load(e.ID)
	if !isOwn {
		return
	}
	select {
	case value.(*flight).passed <- e.Position:
	default: // it was passed before, to another replica
	}
}

// appendChanges makes entries of the changes that wait, one entry at a time, until the context ends.
func (g *Gateway) appendChanges(ctx context.Context) error {
	for count, end := 1, etcd.Start; ; count++ {
		changes := g.collect(ctx)
		draft := draftOf(changes)
		draft.Keep, draft.Room = g.options.retention()
		draft.ID = fmt.Sprintf("%s.%d", g.run, count)
		f := &flight{changes: changes, passed: make(chan etcd.Position, 1)}
		g.flights.Store(draft.ID, f)
		began := time.Now()
		last, err := g.append(ctx, end, draft, f)
		if ctx.Err() != nil {
			return ctx.Err()
		}
		g.appends.Observe(time.Since(began))
		if err != nil { // to append the changes again might make them twice
			logline.Error("append failed", "entry", draft.ID, "error", err)
			g.giveUp(draft.ID)
		}
		f.last.Store(last.Entry)
		_, state := g.board.read()
		g.giveUpLost(state.Entry)
		end = last
	}
}

// draftOf returns what is appended of changes: their lines, and who sent them.
func draftOf(changes []*request) (d etcd.Draft) {
	numbers := map[string]int{}
	for _, c := range changes {
		number, isThere := numbers[c.session.agent]
		if !isThere {
			number = len(d.Callers)
			numbers[c.session.agent] = number
			d.Callers = append(d.Callers, c.session.agent)
		}
		if c.isAdded {
			d.Added = append(d.Added, len(d.Lines))
		}
		d.By = append(d.By, number)
		d.Lines = append(d.Lines, c.line)
	}
	return d
}

// append appends an entry, and returns a position that is its own or behind it. It ends when etcd answers, or when the
// follower meets the entry: an etcd that is slow may have made it long before it answers.
func (g *Gateway) append(
	ctx context.Context, after etcd.Position, d etcd.Draft, f *flight,
) (last etcd.Position, err error) {
	ctx, end := context.WithCancel(ctx)
	defer end()
	ended := make(chan struct{})
	go func() {
		defer close(ended)
		last, err = g.log.Append(ctx, after, d)
	}()
	select {
	case <-ended:
		return last, err
	case at := <-f.passed:
		end()
		<-ended
		g.log.Appended()
		return at, nil
	}
}

// giveUp ends an entry of which it can't be known whether its lines were executed.
func (g *Gateway) giveUp(name string) {
	if value, isOwn := g.flights.LoadAndDelete(name); isOwn {
		f := value.(*flight)
		for _, c := range f.changes {
			c.answer(nil)
		}
		f.recordUnknown(g.options.Audit)
	}
}

// giveUpLost ends the entries that were appended and are not among those up to the last one that the replica has
// executed. They are in a snapshot, or a log that was restored from a backup has lost them.
func (g *Gateway) giveUpLost(executed uint64) {
	g.flights.Range(func(name, value any) bool {
		if last := value.(*flight).last.Load(); last != 0 && last <= executed {
			logline.Error("an entry was lost, or is in a snapshot", "entry", name)
			g.giveUp(name.(string))
		}
		return true
	})
}

// collect waits for a change, and until changes may be appended, and returns the change with those that wait behind it.
// A caller that has left meanwhile gets no change made.
func (g *Gateway) collect(ctx context.Context) (changes []*request) {
	size := 0
	// no other goroutine receives, so a change that waits is there
	for len(changes) == 0 || len(g.changes) > 0 && len(changes) < mostLines && size < mostBytes {
		select {
		case c := <-g.changes:
			isPossible := true
			if len(changes) == 0 {
				isPossible = g.mayAppend(ctx)
			}
			if isPossible {
				isPossible = c.take()
			}
			if !isPossible {
				g.dropped.Inc()
				c.answer(nil)
				continue
			}
			changes = append(changes, c)
			size += len(c.line) + len(c.session.agent)
		case <-ctx.Done():
			return nil
		}
	}
	return changes
}

// mayAppend waits for a replica, and while the log is not the one of this gateway's book. It returns false if the
// context ends first. A gateway without a replica can't answer, and would only make the log longer.
func (g *Gateway) mayAppend(ctx context.Context) bool {
	for g.board.wait(ctx, 0, 0) && ctx.Err() == nil {
		if !g.isLogLost.Load() {
			return true
		}
		etcd.Pause(ctx, againTime)
	}
	return false
}
