// Package replica runs one regd and makes its book from the log.
//
// The book is a function of the log alone: the same lines go over the same connection in the same order, and nothing in
// them is drawn by regd. Running out of memory is the one thing that does not depend on the lines, so a regd that
// reports it has left the other replicas. Such a replica ends, and another one is made from the log. So does a replica
// whose regd owes the reply to a change for too long, or gives a reply that doesn't belong to its line.
package replica

import (
	"context"
	"crypto/sha256"
	"fmt"
	"os/exec"
	"sync"

	"regd/gateway/internal/logline"
	"regd/gateway/internal/wire"
)

// mostOpen is how many changes may be under way in regd while a replica follows the log.
const mostOpen = 4096

// State is what a replica has executed.
type State struct {
	Entry   uint64            // the last entry of which every line is answered
	Name    string            // of this entry, which no other entry has
	Time    int64             // of this entry
	Place   uint64            // the commit number of the book
	Sum     [sha256.Size]byte // of all commits and refusals, in their order
	Skipped int               `json:",omitempty"` // how many lines were left out

	IsFilling bool `json:",omitempty"` // the retained tokens took over half of their room when they were counted
	IsFull    bool `json:",omitempty"` // they took all of it, so a change with another token is refused
}

// An Entry is an entry of the log, as far as a replica executes it.
type Entry struct {
	Number uint64
	Name   string
	Time   int64 // in milliseconds since 1970, and not before the entry before
	Keep   int64 // for how many milliseconds tokens are retained; 0 for the usual time
	Room   int64 // how many bytes they may take; 0 for the usual room
	Lines  [][]byte
	Added  []int // the lines, from 0, to which a gateway has added revisions
}

// isAdded returns true if a gateway has added revisions to a line.
func (e Entry) isAdded(line int) bool {
	for _, one := range e.Added {
		if one == line {
			return true
		}
	}
	return false
}

// A Replica is a running regd with the state of the log up to an entry. When regd ends or leaves the log, its context
// ends, and the replica is of no more use.
type Replica struct {
	options Options
	command *exec.Cmd
	links   []*link // the first one is for changes
	onEntry func(State)
	ctx     context.Context
	cancel  func()
	end     sync.Once
	reading sync.WaitGroup // of the links
	slots   chan struct{}  // one for each change that may be under way
	open    sync.WaitGroup // of changes whose reply is not yet passed on

	mu       sync.Mutex
	state    State
	tokens   map[string]*Kept // also those of batches that are under way
	retained []*Kept          // those of committed batches, the oldest first
	bytes    int64            // that they take
	oldest   int64            // the time from which on tokens are retained
	hasLeft  bool             // regd gave no reply, or one that the other replicas may not have got
}

// Context returns a context that ends with the replica.
func (r *Replica) Context() context.Context { return r.ctx }

// Pid returns the number of regd's process.
func (r *Replica) Pid() int { return r.command.Process.Pid }

// State returns what the replica has executed.
func (r *Replica) State() State {
	r.mu.Lock()
	defer r.mu.Unlock()
	return r.state
}

// Query sends a line to one of the workers for queries; equal numbers give the same worker unless that owes a late
// reply. It calls done with the reply, or with nil if the query may be asked again because regd ended; done must not
// wait. The query is refused with G5 if regd ended while it answered this one, if the reply is late, or if all workers
// owe late replies.
func (r *Replica) Query(number int, line []byte, done func(reply []byte)) {
	workers := r.links[1:]
	for i := range workers {
		l := workers[(number+i)%len(workers)]
		if !l.isLate() {
			l.submit(line, done)
			return
		}
	}
	done(wire.Refusal(wire.Busy))
}

// probe notes that a worker owes a late reply to a query, and asks the worker for changes for one. If regd hangs, that
// is late too, and the replica ends.
func (r *Replica) probe() {
	logline.Error("a reply to a query is late", "limit", r.options.Hang)
	if r.options.OnLate != nil {
		r.options.OnLate()
	}
	r.links[0].submit([]byte(firstLine), func([]byte) {})
}

// Ask sends a query to regd and waits for the reply. It returns nil if regd has ended.
func (r *Replica) Ask(line []byte) []byte { return r.links[1].call(line) }

// Apply executes the lines of an entry in order, but for those that skips reports, and calls answer with the number and
// the reply of each. It returns before the replies come. If regd ends, some lines are not answered.
func (r *Replica) Apply(e Entry, skips func(number int) bool, answer func(number int, reply []byte)) {
	r.beginEntry(e)
	for i, line := range e.Lines {
		i := i
		done := func(reply []byte) {
			answer(i, reply)
			if i == len(e.Lines)-1 {
				r.finish(e)
			}
		}
		if skips != nil && skips(i) {
			r.skip(done)
		} else {
			r.apply(e, i, line, done)
		}
	}
}

// skip leaves a line out, when the lines before it are executed.
func (r *Replica) skip(done func(reply []byte)) {
	r.Settle()
	if r.HasEnded() {
		return
	}
	r.mu.Lock()
	r.state.Skipped++
	r.mu.Unlock()
	done(wire.Refusal(wire.Skipped))
}

// HasEnded returns true if a line was not executed, because regd has ended or left the log.
func (r *Replica) HasEnded() bool {
	r.mu.Lock()
	defer r.mu.Unlock()
	return r.hasLeft
}

// Settle waits until every line is answered, or regd has ended.
func (r *Replica) Settle() { r.open.Wait() }

// apply executes a line of an entry, and calls answer with the reply unless the replica is of no more use.
func (r *Replica) apply(e Entry, number int, line []byte, answer func(reply []byte)) {
	var kept *Kept
	if tokened, ok := wire.ReadTokened(line, e.isAdded(number)); ok {
		if r.find(tokened.Token) != nil { // rare, and the answer may depend on changes that are under way
			r.Settle()
		}
		if kept := r.find(tokened.Token); kept != nil {
			if reply := r.again(kept, tokened); reply != nil {
				answer(reply)
			}
			return
		}
		if r.isFull() {
			r.refuse(answer)
			return
		}
		kept, line = &Kept{Token: tokened.Token, Same: tokened.Same, Time: e.Time}, tokened.Line
		r.mu.Lock()
		r.tokens[kept.Token] = kept
		r.mu.Unlock()
	}
	r.slots <- struct{}{}
	r.open.Add(1)
	r.links[0].submit(line, func(reply []byte) {
		if r.note(reply, kept) {
			answer(reply)
		}
		<-r.slots
		r.open.Done()
	})
}

// refuse refuses a line for whose token there is no room, when the lines before it are executed.
func (r *Replica) refuse(answer func(reply []byte)) {
	r.Settle()
	if !r.HasEnded() {
		answer(wire.Refusal(wire.Busy))
	}
}

// again returns the reply to a batch whose token is retained, as regd would give it: the fault of the line, W1, O9 or
// the first replies. No other change is under way. It returns nil if the replica is of no more use.
func (r *Replica) again(kept *Kept, tokened wire.Tokened) []byte {
	reply := r.links[0].call(tokened.Probe)
	place := r.State().Place
	switch {
	case r.isLost(reply):
		return nil
	case wire.Code(reply) != "W1":
		return reply
	case tokened.After > place:
		return wire.Refused("W1", place)
	case kept.Same != tokened.Same:
		return wire.Refused("O9", place)
	}
	return wire.Repeated(kept.Reply)
}

// isLost returns true if there is no reply, or if the reply is one that the other replicas may not have got or follows
// such a reply. Then it ends the replica.
func (r *Replica) isLost(reply []byte) bool {
	r.mu.Lock()
	defer r.mu.Unlock()
	if wire.IsShortage(wire.Code(reply)) {
		if !r.hasLeft {
			logline.Error("regd left the log", "reply", string(reply), "entry", r.state.Entry+1)
			go r.Close()
		}
		r.hasLeft = true
	}
	r.hasLeft = r.hasLeft || reply == nil
	return r.hasLeft
}

// note takes the reply to a change into the state. It returns false if the replica is of no more use.
func (r *Replica) note(reply []byte, kept *Kept) bool {
	if r.isLost(reply) {
		return false
	}
	r.mu.Lock()
	defer r.mu.Unlock()
	tail, code, isCommitted := wire.Tail(reply), wire.Code(reply), wire.IsCommitted(reply)
	// not of a page of an earlier book, which a snapshot doesn't have
	if isCommitted || code != "" && code != "O8" {
		r.state.Sum = sha256.Sum256(append(r.state.Sum[:], tail...))
	}
	if isCommitted {
		r.state.Place = wire.Place(reply)
	}
	if kept != nil && isCommitted {
		r.retain(kept, tail)
	} else if kept != nil { // the line may be sent again, and may be committed then
		delete(r.tokens, kept.Token)
	}
	return true
}

func (r *Replica) finish(e Entry) {
	r.mu.Lock()
	r.state.Entry, r.state.Name, r.state.Time = e.Number, e.Name, e.Time
	state := r.state
	r.mu.Unlock()
	r.onEntry(state)
}

// EmptyLine is a change that changes nothing but the commit number.
const EmptyLine = `{"ops":[{"op":"prune","before":0}]}`

// Restore executes the lines of a snapshot in an empty replica, which takes on its state and its tokens. Before them it
// executes as many empty lines as the commit number needs; they are quickest while the book is empty. It returns an
// error if the lines don't end at that number, because one was refused or regd has ended.
func (r *Replica) Restore(state State, lines []string, tokens []*Kept) error {
	for i := uint64(len(lines)); i < state.Place; i++ {
		r.apply(Entry{}, 0, []byte(EmptyLine), func([]byte) {})
	}
	for _, line := range lines {
		r.apply(Entry{}, 0, []byte(line), func([]byte) {})
	}
	r.Settle()
	r.mu.Lock()
	defer r.mu.Unlock()
	if r.state.Place != state.Place {
		return fmt.Errorf("a snapshot ends at commit %d and not at %d", r.state.Place, state.Place)
	}
	r.state = state
	for _, kept := range tokens {
		r.retain(kept, kept.Reply)
	}
	return nil
}
