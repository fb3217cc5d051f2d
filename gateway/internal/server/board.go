package server

import (
	"context"
	"sync"

	"regd/gateway/internal/replica"
)

// A board says which replica answers queries, and what it has executed. Sessions wait on it.
type board struct {
	mu      sync.Mutex
	changed chan struct{}    // closed and replaced at each change
	replica *replica.Replica // nil until a replica has executed what was in the log when it started
	state   replica.State
	former  replica.State // of the last replica that ended, if that had executed an entry
}

// update changes the board, and wakes those that wait.
func (b *board) update(change func()) {
	b.mu.Lock()
	defer b.mu.Unlock()
	change()
	if b.replica != nil { // no session goes on without one, and a replay has many changes
		close(b.changed)
		b.changed = make(chan struct{})
	}
}

// clear takes the replica off the board, when it has ended.
func (b *board) clear() {
	b.update(func() {
		if b.state.Entry > 0 {
			b.former = b.state
		}
		b.replica, b.state = nil, replica.State{}
	})
}

// last returns the state of a book that this gateway has, or had last. It is empty if the gateway has executed nothing.
func (b *board) last() replica.State {
	b.mu.Lock()
	defer b.mu.Unlock()
	if b.state.Entry > 0 {
		return b.state
	}
	return b.former
}

// read returns the replica, or nil, and its state.
func (b *board) read() (*replica.Replica, replica.State) {
	b.mu.Lock()
	defer b.mu.Unlock()
	return b.replica, b.state
}

// look returns whether the replica is ready and has executed an entry and a commit, and what is closed at the next
// change.
func (b *board) look(entry, place uint64) (isThere bool, changed chan struct{}) {
	b.mu.Lock()
	defer b.mu.Unlock()
	return b.replica != nil && b.state.Entry >= entry && b.state.Place >= place, b.changed
}

// wait waits until the replica is ready and has executed an entry and a commit. It returns false if the context ends
// first.
func (b *board) wait(ctx context.Context, entry, place uint64) bool {
	for {
		isThere, changed := b.look(entry, place)
		if isThere {
			return true
		}
		select {
		case <-changed:
		case <-ctx.Done():
			return false
		}
	}
}
