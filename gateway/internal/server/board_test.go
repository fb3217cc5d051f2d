package server

import (
	"context"
	"testing"
	"time"

	"regd/gateway/internal/replica"
)

// TestBoardSleeps checks that a replay wakes no session, since none can go on.
func TestBoardSleeps(t *testing.T) {
	b := board{changed: make(chan struct{})}
	before := b.changed
	if b.update(func() { b.state.Entry = 2 }); b.changed != before {
		t.Error("an entry of a replay wakes")
	}
	if b.update(func() { b.replica = &replica.Replica{} }); b.changed == before {
		t.Error("a replica doesn't wake")
	}
}

// TestBoard checks that a caller waits until an update brings the last thing that was missing, and no longer.
func TestBoard(t *testing.T) {
	b := board{changed: make(chan struct{})}
	for _, c := range []struct {
		name          string
		update        func()
		entry, place  uint64
		before, after bool
	}{
		{"a replica", func() { b.replica = &replica.Replica{} }, 0, 0, false, true},
		{"an entry", func() { b.state.Entry = 2 }, 2, 0, false, true},
		{"a place", func() { b.state.Place = 3 }, 2, 3, false, true},
		{"what is there", func() {}, 1, 2, true, true},
		{"another entry", func() { b.state.Place = 9 }, 3, 0, false, false},
		{"another place", func() { b.state.Entry = 9 }, 0, 10, false, false},
	} {
		is := func() bool {
			ctx, cancel := context.WithTimeout(context.Background(), 50*time.Millisecond)
			defer cancel()
			return b.wait(ctx, c.entry, c.place)
		}
		if before := is(); before != c.before {
			t.Errorf("%s: %v before", c.name, before)
		}
		woken := make(chan bool)
		go func() {
			ctx, cancel := context.WithTimeout(context.Background(), time.Second)
			defer cancel()
			woken <- b.wait(ctx, c.entry, c.place)
		}()
		time.Sleep(10 * time.Millisecond)
		b.update(c.update)
		if after := <-woken; after != c.after {
			t.Errorf("%s: %v after", c.name, after)
		}
	}
}
