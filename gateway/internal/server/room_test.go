package server

import (
	"testing"
	"time"

	"regd/gateway/internal/replica"
	"regd/gateway/internal/wire"
)

// TestServerTokenRoom fills the room for tokens: the gateway refuses changes with other tokens before they are
// appended, and repeats those that it retains. Those without a token are made.
func TestServerTokenRoom(t *testing.T) {
	t.Parallel()
	s := newSite(t)
	s.tokenTime, s.tokenBytes = time.Hour, 300
	g, address, _ := s.gateway("a")
	s.expect("the first one", s.call(address, tokened(1)), committed(1, 1))
	for state := (replica.State{}); !state.IsFull; _, state = g.board.read() {
		s.call(address, prune) // until the tokens are counted
	}
	_, state := g.board.read()
	place := int(state.Place)
	head, err := s.log.Head(s.ctx)
	if err != nil {
		t.Fatal(err)
	}
	s.expect("another one", s.call(address, tokened(2)), refusal(wire.Busy, 1))
	if now, err := s.log.Head(s.ctx); now != head || err != nil {
		t.Errorf("the log has %d entries, and not %d, %v", now, head, err)
	}
	s.expect("together with others", s.call(address, prune, tokened(2), tokened(1), prune), committed(1, place+1),
		refusal(wire.Busy, 2), repeated(2, 1), committed(3, place+2))
	all := samples(t, g)
	const name = "regd_gateway_token"
	if all[name+"s"] != 1 || all[name+"_bytes"] < 300 || all[name+"s_full"] != 1 || all[name+"_age_seconds"] < 0 {
		t.Errorf("the metrics are %v", all)
	}
	_, behind, _ := s.gateway("b") // which has the same tokens
	s.expect("elsewhere", s.call(behind, tokened(2), tokened(1)), refusal(wire.Busy, 1), repeated(1, 1))
}

// TestRetention checks what entries say of tokens: nothing if it is what is usual.
func TestRetention(t *testing.T) {
	for _, c := range []struct {
		time       time.Duration
		bytes      int64
		keep, room int64
	}{
		{0, 0, 0, 0}, {replica.UsualKeep, replica.UsualRoom, 0, 0}, {time.Second, 7, 1000, 7},
	} {
		keep, room := Options{TokenTime: c.time, TokenBytes: c.bytes}.retention()
		if keep != c.keep || room != c.room {
			t.Errorf("%v, %d: got %d, %d", c.time, c.bytes, keep, room)
		}
	}
	s := newSite(t)
	s.tokenTime, s.tokenBytes = time.Minute, 1<<20
	_, address, _ := s.gateway("a")
	s.expect("a change", s.call(address, prune), committed(1, 1))
	if e := s.entry(1); e.Keep != 60_000 || e.Room != 1<<20 {
		t.Errorf("the entry is %v", e)
	}
}
