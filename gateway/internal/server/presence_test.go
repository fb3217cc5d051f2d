package server

import (
	"context"
	"errors"
	"fmt"
	"strings"
	"testing"
	"time"

	"regd/gateway/internal/etcd"
	"regd/gateway/internal/replica"
)

// keeps lets a gateway keep its name, and returns where it says why it has given up.
func (s *site) keeps(g *Gateway) (ended chan error, stop func()) {
	ctx, stop := context.WithCancel(s.ctx)
	ended = make(chan error, 1)
	go func() { ended <- g.keepName(ctx) }()
	return ended, stop
}

// named returns a gateway with a name.
func (s *site) named(name string) *Gateway {
	return New(s.log, Options{Replies: "p", Name: name, Limits: s.limits})
}

// value returns the value of the key of a name.
func (s *site) value(name string) []byte {
	value, err := s.log.Get(s.ctx, presenceFolder+name)
	if err != nil {
		s.t.Fatal(err)
	}
	return value
}

// holder returns the run that has a name, or "".
func (s *site) holder(name string) string { return runOf(s.value(name)) }

// TestNameTaken starts two gateways with one name: the second one ends, and the first one goes on, also when its lease
// has ended meanwhile. Without etcd it goes on too.
func TestNameTaken(t *testing.T) {
	t.Parallel()
	s := newSite(t)
	s.limits.Presence = 300 * time.Millisecond
	first := s.named("a")
	firstEnded, stopFirst := s.keeps(first)
	defer stopFirst()
	within(t, "the name isn't claimed", func() bool { return s.holder("a") == first.run })
	secondEnded, stopSecond := s.keeps(s.named("a"))
	defer stopSecond()
	begin := time.Now()
	select {
	case err := <-secondEnded:
		if !errors.Is(err, ErrNameTaken) || time.Since(begin) < s.limits.Presence {
			t.Errorf("got %v after %v", err, time.Since(begin))
		}
	case <-time.After(20 * time.Second):
		t.Fatal("there are two gateways with one name")
	}
	s.store.EndLeases()
	within(t, "the name isn't claimed again", func() bool { return s.holder("a") == first.run })
	s.store.Refuse(1 << 30)
	time.Sleep(3 * s.limits.Presence)
	s.store.Refuse(0)
	select {
	case err := <-firstEnded:
		t.Errorf("the first one has ended with %v", err)
	default:
	}
}

// TestNameOfEndedRun starts a gateway whose former run has left its name behind: it has the name when the lease ends,
// or when the former run hasn't renewed the name for a time, although etcd doesn't end the lease.
func TestNameOfEndedRun(t *testing.T) {
	t.Parallel()
	for _, endsLease := range []bool{true, false} {
		s := newSite(t)
		s.limits.Presence = 300 * time.Millisecond
		former := s.named("a")
		formerEnded, stop := s.keeps(former)
		within(t, "the name isn't claimed", func() bool { return s.holder("a") == former.run })
		s.store.Refuse(1 << 30) // so that it can't give the name back
		stop()
		<-formerEnded
		s.store.Refuse(0)
		next := s.named("a")
		begin := time.Now()
		ended, stopNext := s.keeps(next)
		defer stopNext()
		if endsLease {
			s.store.EndLeases()
		}
		within(t, "the next run has no name", func() bool { return s.holder("a") == next.run })
		if took := time.Since(begin); !endsLease && took < 3*s.limits.Presence/2 {
			t.Errorf("a name was taken away after %v", took)
		}
		time.Sleep((refusals + 1) * s.limits.Presence)
		select {
		case err := <-ended:
			t.Errorf("the next run has ended with %v", err)
		default:
		}
	}
}

// TestNameIsRenewed checks that the key of a name has another value each time, and that a run which finds its name with
// another run doesn't take it back as long as that renews it.
func TestNameIsRenewed(t *testing.T) {
	t.Parallel()
	s := newSite(t)
	s.limits.Presence = 300 * time.Millisecond
	g := s.named("a")
	ended, stop := s.keeps(g)
	defer stop()
	within(t, "the name isn't claimed", func() bool { return s.holder("a") == g.run })
	for i := 0; i < 3; i++ {
		before := string(s.value("a"))
		within(t, "the name isn't renewed", func() bool { return string(s.value("a")) != before })
	}
	for i := 0; ; i++ {
		if err := s.log.Put(s.ctx, presenceFolder+"a", []byte(fmt.Sprintf("other %d p", i))); err != nil {
			t.Fatal(err)
		}
		select {
		case err := <-ended:
			if !errors.Is(err, ErrNameTaken) || s.holder("a") != "other" {
				t.Errorf("got %v, and the name is that of %s", err, s.holder("a"))
			}
			return
		case <-time.After(s.limits.Presence / 3):
		}
		if s.holder("a") != "other" || i > 300 {
			t.Fatalf("the name is that of %s after %d renewals", s.holder("a"), i)
		}
	}
}

// TestGatewaysThere checks which gateways count: those that are there and have the same version of replies. The vote of
// one that is not there doesn't.
func TestGatewaysThere(t *testing.T) {
	s := newSite(t)
	g := s.named("a")
	s.there("p", "b", "c")
	s.there("q", "d")
	there, err := g.gatewaysThere(s.ctx)
	if err != nil || len(there) != 3 || there["d"] != "" || samples(t, g)["regd_gateway_gateways"] != 4 {
		t.Errorf("got %v, %v", there, err)
	}
	mark := replica.State{Entry: voteInterval, Name: "e"}
	vote := func(name string) {
		if err := s.log.Put(s.ctx, g.votesOn(mark)+name, []byte("00")); err != nil {
			t.Fatal(err)
		}
	}
	vote("gone")
	vote("b")
	if err := g.look(s.ctx, []replica.State{mark}); err != nil || !g.isDisputed.Load() {
		t.Errorf("one of three: got %v", err)
	}
	vote("c")
	if err := g.look(s.ctx, []replica.State{mark}); err != ErrOutvoted {
		t.Errorf("two of three: got %v", err)
	}
}

// TestGatewayIsThere checks that a gateway that runs is there.
func TestGatewayIsThere(t *testing.T) {
	s := newSite(t)
	g, _, _ := s.gateway("a")
	within(t, "it isn't there", func() bool { return s.holder("a") == g.run })
	if value := string(s.value("a")); !strings.HasSuffix(value, " p") {
		t.Errorf("it is there as %s", value)
	}
	ended, stop := s.keeps(s.named("b"))
	within(t, "the other isn't there", func() bool { return s.holder("b") != "" })
	stop()
	<-ended
	if s.holder("b") != "" {
		t.Error("a gateway that has ended keeps its name")
	}
	if err := s.log.Renew(s.ctx, "none"); !errors.Is(err, etcd.ErrLeaseEnded) {
		t.Errorf("a lease that has ended: got %v", err)
	}
}
