package server

import (
	"context"
	"fmt"
	"strings"
	"testing"
	"time"

	"regd/gateway/internal/replica"
)

func TestJudge(t *testing.T) {
	for _, c := range []struct {
		own, others string
		want        string
	}{
		{"a", "", "agreed"}, {"a", "a", "agreed"}, {"a", "a a", "agreed"},
		{"a", "b", "disputed"}, {"a", "b c", "disputed"}, {"a", "a b b", "disputed"},
		{"a", "b b", "outvoted"}, {"a", "b b a b", "outvoted"},
		{"a", "a b", "disputed"}, {"a", "a a b b", "disputed"},
	} {
		votes := map[string]string{"own": c.own}
		for i, sum := range strings.Fields(c.others) {
			votes[fmt.Sprint(i)] = sum
		}
		got := "agreed"
		if isDisputed, isOutvoted := judge(c.own, votes, votes); isOutvoted {
			got = "outvoted"
		} else if isDisputed {
			got = "disputed"
		}
		if got != c.want {
			t.Errorf("%s against %s: got %s, want %s", c.own, c.others, got, c.want)
		}
	}
}

// there makes gateways of a version of replies be there.
func (s *site) there(replies string, names ...string) {
	for _, name := range names {
		if err := s.log.Put(s.ctx, presenceFolder+name, []byte("run "+replies)); err != nil {
			s.t.Fatal(err)
		}
	}
}

// TestJudgeThere checks that a majority is one of the gateways that are there, and not of those that have voted.
func TestJudgeThere(t *testing.T) {
	votes := map[string]string{"own": "a", "b": "b", "c": "b"}
	for names, want := range map[string]bool{"own b c": true, "own b c d": false, "own b c d e": false,
		"own b": false, "own c d": false, "own": false} {
		there := map[string]string{}
		for _, name := range strings.Fields(names) {
			there[name] = "run"
		}
		if isDisputed, isOutvoted := judge("a", votes, there); isOutvoted != want || !isDisputed {
			t.Errorf("of %s: got %v", names, isOutvoted)
		}
	}
}

// TestLooks checks that a gateway looks at the votes again although it has none of its own to add, and forgets a
// difference that is gone or old.
func TestLooks(t *testing.T) {
	s := newSite(t)
	s.limits.Votes = 20 * time.Millisecond
	g := New(s.log, Options{Replies: "p", Name: "a", Limits: s.limits})
	s.there("p", "b")
	ctx, stop := context.WithCancel(s.ctx)
	ended := make(chan error, 1)
	go func() { ended <- g.compare(ctx) }()
	g.marks <- replica.State{Entry: voteInterval, Name: "e"}
	vote := func(name, sum string) { s.log.Put(s.ctx, "sum/p/00000000000003e8/e/"+name, []byte(sum)) }
	vote("b", "1")
	within(t, "no dispute", g.isDisputed.Load)
	vote("b", fmt.Sprintf("%x", [32]byte{}))
	within(t, "a dispute that is over", func() bool { return !g.isDisputed.Load() })
	vote("a", "1") // such as by another gateway of the same name
	vote("b", "1")
	within(t, "no dispute", g.isDisputed.Load)
	for entry := uint64(2); entry <= 1+votesWatched; entry++ {
		g.marks <- replica.State{Entry: entry * voteInterval}
	}
	within(t, "an old dispute", func() bool { return !g.isDisputed.Load() })
	s.there("p", "c")
	vote("b", "2")
	vote("c", "2")
	time.Sleep(200 * time.Millisecond)
	stop()
	if err := <-ended; err != context.Canceled {
		t.Errorf("ended with %v", err)
	}
}

// TestVotesOn checks that replicas which have left out different lines are not compared.
func TestVotesOn(t *testing.T) {
	g := New(newSite(t).log, Options{Replies: "p"})
	for skipped, want := range map[int]string{0: "sum/p/00000000000003e8/e/", 2: "sum/p+2/00000000000003e8/e/"} {
		if got := g.votesOn(replica.State{Entry: voteInterval, Name: "e", Skipped: skipped}); got != want {
			t.Errorf("got %s, want %s", got, want)
		}
	}
}

// TestLostEntry checks that votes on an entry which was lost when etcd was restored say nothing about the new entry of
// this number.
func TestLostEntry(t *testing.T) {
	s := newSite(t)
	s.limits.Votes = 20 * time.Millisecond
	ctx, stop := context.WithCancel(s.ctx)
	ended := make(chan error, 3)
	var gateways []*Gateway
	s.there("p", "a", "b", "c")
	for _, name := range []string{"a", "b", "c"} {
		g := New(s.log, Options{Replies: "p", Name: name, Limits: s.limits})
		gateways = append(gateways, g)
		go func() { ended <- g.compare(ctx) }()
	}
	for sum, name := range []string{"lost", "new"} {
		for _, g := range gateways {
			g.marks <- replica.State{Entry: voteInterval, Name: name, Sum: [32]byte{byte(sum)}}
			time.Sleep(100 * time.Millisecond) // in which the others look at the votes
			if g.isDisputed.Load() {
				t.Error("a dispute")
			}
		}
	}
	stop()
	for range gateways {
		if err := <-ended; err != context.Canceled {
			t.Errorf("ended with %v", err)
		}
	}
}

// TestVotes lets the gateway with the wrong checksum vote first. It stops as soon as two others agree, and they go on.
func TestVotes(t *testing.T) {
	s := newSite(t)
	mark := func(g *Gateway, entry uint64, sum byte) {
		g.marks <- replica.State{Entry: entry, Name: fmt.Sprint(entry), Sum: [32]byte{sum}}
	}
	wait := func(what string, condition func() bool) {
		t.Helper()
		for i := 0; !condition(); i++ {
			if i == 500 {
				t.Fatal(what)
			}
			time.Sleep(10 * time.Millisecond)
		}
	}
	s.there("p", "wrong", "right", "third")
	s.there("q", "upgraded")
	ended := map[string]chan error{}
	start := func(replies, name string, sum byte) *Gateway {
		g, end := New(s.log, Options{Replies: replies, Name: name, Limits: s.limits}), make(chan error, 1)
		ended[name] = end
		go func() { end <- g.compare(s.ctx) }()
		mark(g, voteInterval, sum)
		wait(name+" doesn't vote", func() bool {
			votes, _ := s.log.List(s.ctx, "sum/"+replies+"/00000000000003e8/1000/")
			return votes[name] != ""
		})
		return g
	}
	wrong := start("p", "wrong", 2)
	start("q", "upgraded", 3)
	right := start("p", "right", 1)
	start("p", "third", 1)
	mark(wrong, 2*voteInterval, 2) // makes it look again
	if err := <-ended["wrong"]; err != ErrOutvoted {
		t.Errorf("the wrong one ended with %v", err)
	}
	mark(right, 2*voteInterval, 1)
	wait("the right one doesn't report the other checksum", right.isDisputed.Load)
	voted := func() bool {
		votes, _ := s.log.List(s.ctx, "sum/p/00000000000007d0/2000/")
		return votes["right"] != ""
	}
	wait("the right one doesn't vote again", voted)
	for _, name := range []string{"upgraded", "right", "third"} {
		select {
		case err := <-ended[name]:
			t.Errorf("%s ended with %v", name, err)
		default:
		}
	}
	mark(right, (2+votesLeft)*voteInterval, 1)
	wait("an old vote stays", func() bool { return !voted() })
}
