package server

import (
	"context"
	"fmt"
	"os"
	"strings"
	"testing"
	"time"

	"regd/gateway/internal/etcd"
)

// lose lets etcd come back without a log, or with an empty one.
func (s *site) lose(values map[string][]byte) {
	copied := map[string][]byte{}
	for key, value := range values {
		copied[key] = value
	}
	s.store.Restore(copied)
	s.store.TellWatches(`{"error":{"message":"x"}}`)
}

// isLost returns what the status says of a gateway's log.
func isLost(t *testing.T, g *Gateway) bool {
	t.Helper()
	_, values := status(t, g)
	return values["lost"] == true
}

// TestLostLog lets etcd come back without the log, or with an empty one that grows again. A gateway with a book keeps
// it: it goes on to answer queries, says that the log is lost, is not ready for changes, executes none of the new log
// and appends nothing to it. When the log is back, it goes on.
func TestLostLog(t *testing.T) {
	t.Parallel()
	empty := newSite(t).store.Backup()
	for name, values := range map[string]map[string][]byte{"no log": {}, "an empty log": empty} {
		s := newSite(t)
		s.limits.Answer = time.Minute // the change that waits has its answer when the log is back
		g, usual, fresh := s.gateway("a")
		s.expect(name, s.call(usual, prune, prune), committed(1, 1), committed(2, 2))
		before, _ := g.board.read()
		backup := s.store.Backup()
		s.lose(values)
		within(t, name+": it is not lost", func() bool { return isLost(t, g) })
		s.lose(empty)
		s.append("{", "{", prune, prune)
		s.expect(name+": a query", s.call(usual, show), answered(1, 2))
		s.expect(name+": a fresh query", s.call(fresh, show))
		conn, in := s.dial(usual)
		fmt.Fprintln(conn, prune)
		within(t, name+": no change waits", func() bool { return g.active.Load() == 1 })
		within(t, name+": it is ready for changes", func() bool { return get(g, "/ready/changes").Code == 503 })
		if head, err := s.log.Head(s.ctx); head != 4 || err != nil || !isLost(t, g) {
			t.Errorf("%s: the log has %d entries, %v", name, head, err)
		}
		if metric := samples(t, g)["regd_gateway_log_lost"]; metric != 1 {
			t.Errorf("%s: the metric is %v", name, metric)
		}
		if after, state := g.board.read(); after != before || state.Place != 2 {
			t.Errorf("%s: another replica was made, %v", name, state)
		}
		s.lose(backup)
		within(t, name+": it is lost", func() bool { return !isLost(t, g) })
		waited, _ := in.ReadString('\n')
		s.expect(name+": the change that waited", []string{waited}, committed(1, 3)+"\n")
		s.expect(name+": afterwards", s.call(fresh, show), answered(1, 3))
		if got := s.call(usual, prune); len(got) != 1 || !strings.HasSuffix(got[0], `"committed"}`) {
			t.Errorf("%s: a change afterwards: got %q", name, got)
		}
	}
}

// TestSilentLostLog loses the log while the watch of a gateway brings nothing, such as one that was made just before
// the loss and waits for a revision that is far away. The gateway finds out by the end of the log.
func TestSilentLostLog(t *testing.T) {
	t.Parallel()
	empty := newSite(t).store.Backup()
	for name, values := range map[string]map[string][]byte{"no log": {}, "an empty log": empty} {
		s := newSite(t)
		g, usual, _ := s.gateway("a")
		s.expect(name, s.call(usual, prune), committed(1, 1))
		s.holdWatch(1)
		s.store.Restore(values)
		within(t, name+": it is not lost", func() bool { return isLost(t, g) })
	}
}

// TestLostLogAndReplica ends regd while the log is empty: no replica is made of the empty log. A gateway without a book
// makes one.
func TestLostLogAndReplica(t *testing.T) {
	t.Parallel()
	s := newSite(t)
	empty := s.store.Backup()
	g, usual, _ := s.gateway("a")
	s.expect("a change", s.call(usual, prune), committed(1, 1))
	backup := s.store.Backup()
	s.lose(empty)
	within(t, "it is not lost", func() bool { return isLost(t, g) })
	r, _ := g.board.read()
	process, err := os.FindProcess(r.Pid())
	if err == nil {
		err = process.Kill()
	}
	if err != nil {
		t.Fatal(err)
	}
	within(t, "the replica stays", func() bool { r, _ := g.board.read(); return r == nil })
	_, other, _ := s.gateway("b")
	s.expect("a gateway without a book", s.call(other, show), answered(1, 0))
	time.Sleep(3 * againTime) // in which another replica would be ready
	if r, _ := g.board.read(); r != nil || !isLost(t, g) || g.replicasEnded.Load() != 1 {
		t.Errorf("%d replicas were made of an empty log", g.replicasEnded.Load())
	}
	s.lose(backup)
	within(t, "no replica", func() bool { r, state := g.board.read(); return r != nil && state.Place == 1 })
}

// TestFullEtcd starts a gateway while etcd has no space: it answers queries, and changes when etcd has space again.
func TestFullEtcd(t *testing.T) {
	t.Parallel()
	s := newSite(t)
	s.append(prune, prune)
	s.store.Fill(true)
	s.log = etcd.New([]string{s.store.URL}, "r/", nil)
	opened := make(chan error, 1)
	go func() { opened <- s.log.Open(s.ctx, "ex.org") }()
	select {
	case err := <-opened:
		if err != nil {
			t.Fatal(err)
		}
	case <-time.After(10 * time.Second):
		t.Fatal("the log isn't opened")
	}
	g, usual, fresh := s.gateway("a")
	s.expect("a query", s.call(usual, show), answered(1, 2))
	s.expect("a fresh query", s.call(fresh, show), answered(1, 2))
	conn, in := s.dial(usual)
	fmt.Fprintln(conn, prune)
	within(t, "no append fails", func() bool { return samples(t, g)["regd_gateway_etcd_failures_total"] > 0 })
	s.store.Fill(false)
	if got, err := in.ReadString('\n'); got != committed(1, 3)+"\n" {
		t.Errorf("got %s, %v", got, err)
	}
}

// TestFreshLost checks that no fresh query is answered from the book of a lost log, also if the log has as many entries
// as that had.
func TestFreshLost(t *testing.T) {
	t.Parallel()
	s := newSite(t)
	g, usual, fresh := s.gateway("a")
	s.expect("a change", s.call(usual, prune), committed(1, 1))
	s.expect("a fresh query", s.call(fresh, show), answered(1, 1))
	g.isLogLost.Store(true)
	s.expect("of another log", s.call(fresh, show))
}

// TestFreshLate checks that a fresh query for which etcd doesn't say where the log ends is counted, and one of a
// gateway that shuts down is not.
func TestFreshLate(t *testing.T) {
	t.Parallel()
	s := newSite(t)
	s.limits.Answer = 300 * time.Millisecond
	g, _, fresh := s.gateway("a")
	s.store.Refuse(1 << 30)
	s.expect("a fresh query", s.call(fresh, show))
	if got := endedFor(t, g, "answer"); got != 1 {
		t.Errorf("%v connections ended", got)
	}
	ctx, cancel := context.WithCancel(s.ctx)
	cancel()
	made, _ := rowOf(s)
	made.isFresh = true
	if made.query(ctx, []byte(show)) || endedFor(t, made.Gateway, "answer") != 0 {
		t.Error("a query of a gateway that shuts down is counted")
	}
	s.store.Refuse(0)
}
