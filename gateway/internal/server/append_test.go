package server

import (
	"fmt"
	"strings"
	"sync"
	"testing"
	"time"

	"regd/gateway/internal/etcd"
	"regd/gateway/internal/replica"
)

// standIn puts a replica on the board that does nothing, so that changes are appended.
func standIn(g *Gateway) { g.board.update(func() { g.board.replica = &replica.Replica{} }) }

// TestNoAppendWithoutReplica checks that a gateway appends nothing while it has no replica, which would answer.
func TestNoAppendWithoutReplica(t *testing.T) {
	s := newSite(t)
	g := New(s.log, Options{Limits: s.limits})
	go g.appendChanges(s.ctx)
	left := (&session{Gateway: g}).request([]byte("left"))
	g.changes <- left
	g.changes <- (&session{Gateway: g}).request([]byte(prune))
	time.Sleep(200 * time.Millisecond)
	if head, err := s.log.Head(s.ctx); head != 0 || err != nil {
		t.Errorf("the log has %d entries, %v", head, err)
	}
	left.leave() // its caller may have sent the change to another gateway, and then a newer one
	standIn(g)
	within(t, "no entry", func() bool { head, _ := s.log.Head(s.ctx); return head == 1 })
	if lines := s.entry(1).Lines; len(lines) != 1 || string(lines[0]) != prune {
		t.Errorf("got %q", lines)
	}
}

// TestCollect checks the bounds of an entry.
func TestCollect(t *testing.T) {
	s := newSite(t)
	for _, c := range []struct {
		name              string
		count, size, want int
	}{
		{"many lines", 3 * mostLines, 1, mostLines},
		{"long lines", 9, mostBytes/3 + 1, 3},
		{"the longest line", 2, 1 << 20, 1},
		{"few lines", 7, 1, 7},
	} {
		g := New(s.log, Options{Limits: s.limits})
		standIn(g)
		for i := 0; i < c.count; i++ {
			g.changes <- (&session{Gateway: g}).request(make([]byte, c.size))
		}
		changes := g.collect(s.ctx)
		if len(changes) != c.want || len(g.changes) != c.count-c.want {
			t.Errorf("%s: %d lines in an entry", c.name, len(changes))
		}
	}
}

// TestCollectCallers checks that the names of callers count for the size of an entry, which has each of them.
func TestCollectCallers(t *testing.T) {
	s := newSite(t)
	g := New(s.log, Options{Limits: s.limits})
	standIn(g)
	for i := 0; i < 300; i++ {
		g.changes <- (&session{Gateway: g, agent: strings.Repeat("x", 2000)}).request([]byte(prune))
	}
	if changes := g.collect(s.ctx); len(changes) > mostBytes/2000+1 {
		t.Errorf("%d lines in an entry", len(changes))
	}
}

// TestNames lets two gateways append at the same time. Each answers its own changes, and the names and IDs of entries
// are all different.
func TestNames(t *testing.T) {
	s := newSite(t)
	var all sync.WaitGroup
	var gateways []*Gateway
	for _, name := range []string{"a", "b"} {
		g, address, _ := s.gateway(name)
		gateways = append(gateways, g)
		for i := 0; i < 3; i++ {
			all.Add(1)
			go func() {
				defer all.Done()
				for i := 0; i < 10; i++ {
					if answers := s.call(address, prune); len(answers) != 1 {
						t.Errorf("got %q", answers)
					}
				}
			}()
		}
	}
	all.Wait()
	head, err := s.log.Head(s.ctx)
	if err != nil {
		t.Fatal(err)
	}
	names := map[string]bool{}
	for entry := uint64(1); entry <= head; entry++ {
		e := s.entry(entry)
		names[e.Name], names[e.ID] = true, true
	}
	if len(names) != 2*int(head) {
		t.Errorf("%d names for %d entries", len(names), head)
	}
	for _, g := range gateways { // nothing is kept of an entry that is answered
		g.flights.Range(func(name, _ any) bool { t.Errorf("%s is under way", name); return true })
	}
}

// TestNextNumber checks that a gateway which alone appends needs one transaction for an entry.
func TestNextNumber(t *testing.T) {
	s := newSite(t)
	_, address, _ := s.gateway("a")
	s.store.Recount()
	for place := 1; place <= 5; place++ {
		s.expect("a change", s.call(address, prune), committed(1, place))
	}
	if counts := s.store.Counts(); counts.Transactions != 5 {
		t.Errorf("%d transactions", counts.Transactions)
	}
}

// TestSlowAppend lets etcd make entries immediately and answer late. The gateway meets its entry in the log, and makes
// the next one.
func TestSlowAppend(t *testing.T) {
	t.Parallel()
	s := newSite(t)
	_, address, _ := s.gateway("a")
	release := s.store.HoldAnswers()
	defer release()
	s.store.Recount()
	begin := time.Now()
	for place := 1; place <= 5; place++ {
		s.expect("a change", s.call(address, prune), committed(1, place))
	}
	if counts := s.store.Counts(); counts.Transactions != 5 {
		t.Errorf("%d transactions", counts.Transactions)
	}
	if took := time.Since(begin); took > 10*time.Second {
		t.Errorf("it took %v", took)
	}
}

// TestSwallowedAppend makes a snapshot of an entry, and cuts that off, before the gateway that has appended it has seen
// it. The connections of its changes end, since it can't be known what was answered, and nothing is kept of it.
func TestSwallowedAppend(t *testing.T) {
	t.Parallel()
	s := newSite(t)
	s.limits.Answer = 40 * time.Second
	g, address, _ := s.gateway("a")
	s.expect("a change", s.call(address, prune), committed(1, 1))
	s.holdWatch(1)
	conn, in := s.dial(address)
	fmt.Fprintln(conn, prune)
	within(t, "no entry", func() bool { head, _ := s.log.Head(s.ctx); return head == 2 })
	s.snapshot(s.entry(2).Position)
	s.log.Cut(s.ctx, 2)
	begin := time.Now()
	if got := ends(t, in); got != "" {
		t.Errorf("got %s", got)
	}
	if took := time.Since(begin); took > s.limits.Answer/2 {
		t.Errorf("it took %v", took)
	}
	g.flights.Range(func(name, _ any) bool { t.Errorf("%s is under way", name); return true })
	s.expect("another change", s.call(address, prune), committed(1, 3))
}

// TestGiveUpLost checks which entries are given up: those that were appended before the last one that was executed.
func TestGiveUpLost(t *testing.T) {
	g := New(newSite(t).log, Options{Limits: UsualLimits})
	made := map[string]*request{}
	for name, last := range map[string]uint64{"open": 0, "executed": 7, "to be executed": 8} {
		made[name] = (&session{Gateway: g}).request(nil)
		f := &flight{changes: []*request{made[name]}, passed: make(chan etcd.Position, 1)}
		f.last.Store(last)
		g.flights.Store(name, f)
	}
	g.giveUpLost(7)
	for name, q := range made {
		_, isThere := g.flights.Load(name)
		if isGone := name == "executed"; isThere == isGone || (len(q.reply) == 1) != isGone {
			t.Errorf("%s: it is there: %v, replies: %d", name, isThere, len(q.reply))
		}
	}
}
