package server

import (
	"errors"
	"fmt"
	"os"
	"strings"
	"testing"

	"regd/gateway/internal/etcd"
	"regd/gateway/internal/etcd/etcdtest"
	"regd/gateway/internal/replica"
	"regd/gateway/internal/wire"
)

// member returns a member of etcd that has what another one has.
func (s *site) member() *etcdtest.Server {
	other := etcdtest.New()
	s.t.Cleanup(other.CloseClientConnections)
	other.Restore(s.store.Backup())
	return other
}

// refusesAll checks that a gateway serves nothing because the log doesn't verify, and says so.
func (s *site) refusesAll(g *Gateway, address string) {
	s.t.Helper()
	within(s.t, "the log verifies", func() bool { return g.unverified.Load() != nil })
	s.expect("all lines", s.call(address, show, prune, "{"), refusal(wire.Unverified, 1),
		refusal(wire.Unverified, 2), refusal(wire.Unverified, 3))
	for _, path := range []string{"/ready", "/ready/changes"} {
		answer := get(g, path)
		if answer.Code != 503 || !strings.Contains(answer.Body.String(), "damaged") {
			s.t.Errorf("%s: got %d, %s", path, answer.Code, answer.Body)
		}
	}
	_, values := status(s.t, g)
	if text, _ := values["unverified"].(string); !strings.Contains(text, "damaged") {
		s.t.Errorf("the status has %v", values)
	}
	all := samples(s.t, g)
	if all["regd_gateway_log_unverified"] != 1 || all["regd_gateway_log_unverified_total"] < 1 {
		s.t.Errorf("the metrics are %v", all)
	}
}

// TestDamagedEntry flips a bit of an entry that a gateway has executed, or is about to: when it reads that, it serves
// nothing, until the entry is there again.
func TestDamagedEntry(t *testing.T) {
	t.Parallel()
	s := newSite(t)
	g, address, _ := s.gateway("a")
	s.append(prune, prune)
	within(t, "not all entries are executed", func() bool { _, state := g.board.read(); return state.Entry == 2 })
	key := "r/2/" + etcd.EntryKey(2)
	at := len(s.store.Backup()[key]) - 5
	s.store.Damage(key, at)
	s.expect("before it is read", s.call(address, show), answered(1, 2))
	first, _ := g.board.read()
	first.Close()
	s.refusesAll(g, address)
	before := s.store.Counts().Watches
	s.store.Damage(key, at)
	within(t, "the log doesn't verify", func() bool { return g.unverified.Load() == nil })
	s.expect("afterwards", s.call(address, prune), committed(1, 3))
	if code := get(g, "/ready").Code; code != 200 {
		t.Errorf("/ready answers with %d", code)
	}
	s.watches(before + 1)
	s.store.HoldWatch()
	s.append(prune)
	s.store.Damage("r/2/"+etcd.EntryKey(4), at)
	s.store.TellWatches(`{"error":{"message":"x"}}`)
	s.refusesAll(g, address)
}

// TestDamageIsNoLine lets a slow line be executed when an entry behind it doesn't verify: the line isn't taken for the
// reason.
func TestDamageIsNoLine(t *testing.T) {
	t.Parallel()
	s := newSite(t)
	s.append(`{"ops":[{"op":"prune","hint":"SLOW"}]}`, prune)
	s.store.Damage("r/2/"+etcd.EntryKey(2), 90)
	g := New(s.log, Options{Limits: s.limits,
		Replica: replica.Options{Program: os.Args[0], Domain: "ex.org", Workers: 2}})
	go g.follow(s.ctx)
	within(t, "the log verifies", func() bool { return g.unverifiedTimes.Load() > 1 })
	if f := g.failure.Load(); f != nil {
		t.Errorf("line %v is taken for the reason", f.Line)
	}
}

// TestDamagedMember lets gateways start of which one has a member of etcd with a damaged entry, end or snapshot in
// front: it notices that, and reads another member. If there is no other one, it serves nothing.
func TestDamagedMember(t *testing.T) {
	t.Parallel()
	for _, key := range []string{"log/0000000000000002", "head", "snapshot", "snapshot/0000000000000001/00000000"} {
		s := newSite(t)
		s.append(prune, prune, prune)
		s.snapshot(s.entry(1).Position)
		damaged := s.member()
		damaged.Damage("r/2/"+key, len(damaged.Backup()["r/2/"+key])-5)
		for _, members := range [][]string{{damaged.URL, s.store.URL}, {damaged.URL}} {
			s.log = etcd.New(members, "r/", nil)
			g := New(s.log, Options{Limits: s.limits,
				Replica: replica.Options{Program: os.Args[0], Domain: "ex.org", Workers: 2}})
			go g.follow(s.ctx)
			if len(members) == 1 {
				within(t, key+": the log verifies", func() bool { return g.unverified.Load() != nil })
				if r, _ := g.board.read(); r != nil {
					t.Errorf("%s: there is a replica", key)
				}
				continue
			}
			within(t, key+": no replica", func() bool { r, _ := g.board.read(); return r != nil })
			_, state := g.board.read()
			if state.Place != 3 || g.unverifiedTimes.Load() == 0 || !g.isReady() {
				t.Errorf("%s: got %v, %d times", key, state, g.unverifiedTimes.Load())
			}
		}
	}
}

// TestLostBook restores etcd, and cuts the log exactly behind the last entry that a gateway has executed of the lost
// log: the gateway makes another book.
func TestLostBook(t *testing.T) {
	t.Parallel()
	s := newSite(t)
	g, address, fresh := s.gateway("a")
	s.append(prune)
	backup := s.store.Backup()
	s.append(prune, prune)
	within(t, "not all entries are executed", func() bool { _, state := g.board.read(); return state.Entry == 3 })
	s.holdWatch(1)
	s.store.Restore(backup)
	s.append("{", "{", prune)
	s.snapshot(s.entry(3).Position) // of a book with three commits, so that it is seen
	if err := s.log.Cut(s.ctx, 3); err != nil {
		t.Fatal(err)
	}
	s.store.TellWatches(`{"error":{"message":"x"}}`)
	within(t, "the replica stays", func() bool {
		r, state := g.board.read()
		return r != nil && state.Entry == 4 && state.Place == 4
	})
	s.expect("a change", s.call(address, prune), committed(1, 5))
	s.expect("a fresh query", s.call(fresh, show), answered(1, 5))
	if g.unverified.Load() != nil || g.unverifiedTimes.Load() != 0 {
		t.Error("a restored log doesn't verify")
	}
}

// TestVerdict checks after which ends of replicas a log doesn't verify.
func TestVerdict(t *testing.T) {
	for _, c := range []struct {
		name string
		ends []error // of replicas, one after another; nil: one that was ready
		want bool
	}{
		{"regd ended", []error{errors.New("regd ended"), errors.New("regd ended")}, false},
		{"damaged", []error{fmt.Errorf("%w: entry 7", etcd.ErrDamaged)}, true},
		{"a snapshot of another format", []error{fmt.Errorf("%w: x", etcd.ErrFormat)}, true},
		{"cut off once", []error{etcd.ErrCut}, false},
		{"cut off twice", []error{etcd.ErrCut, etcd.ErrCut}, true},
		{"restored twice", []error{etcd.ErrTurnedBack, etcd.ErrTurnedBack}, true},
		{"cut off, ready, cut off", []error{etcd.ErrCut, nil, etcd.ErrCut}, false},
		{"cut off, regd ended, cut off", []error{etcd.ErrCut, errors.New("regd ended"), etcd.ErrCut}, false},
	} {
		v := verdict{Gateway: New(newSite(t).log, Options{})}
		for _, end := range c.ends {
			if end == nil {
				v.take(true, etcd.ErrCut)
			} else {
				v.take(false, end)
			}
		}
		if got := v.unverified.Load() != nil; got != c.want || (v.unverifiedTimes.Load() > 0) != c.want {
			t.Errorf("%s: got %v", c.name, got)
		}
	}
}
