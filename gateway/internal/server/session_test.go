package server

import (
	"bufio"
	"context"
	"encoding/json"
	"errors"
	"fmt"
	"io"
	"net"
	"os"
	"strings"
	"sync/atomic"
	"testing"
	"time"

	"regd/gateway/internal/replica"
	"regd/gateway/internal/wire"
)

// within waits until a condition holds.
func within(t *testing.T, what string, condition func() bool) {
	t.Helper()
	for begin := time.Now(); !condition(); time.Sleep(time.Millisecond) {
		if time.Since(begin) > 15*time.Second {
			t.Fatal(what)
		}
	}
}

// failing is a listener whose first calls of Accept fail.
type failing struct {
	net.Listener
	left atomic.Int64
}

func (f *failing) Accept() (net.Conn, error) {
	if f.left.Add(-1) >= 0 {
		return nil, errors.New("no free descriptor")
	}
	return f.Listener.Accept()
}

// TestAccept checks that callers are accepted after errors, each of which is followed by a pause, until the context
// ends.
func TestAccept(t *testing.T) {
	s := newSite(t)
	g, _, _ := s.gateway("a")
	on, err := net.Listen("tcp", "127.0.0.1:0")
	if err != nil {
		t.Fatal(err)
	}
	listener := &failing{Listener: on}
	listener.left.Store(9)
	ctx, stop := context.WithCancel(s.ctx)
	ended, begin := make(chan error, 1), time.Now()
	go func() {
		ended <- g.Serve(ctx, listener, false)
		on.Close()
	}()
	s.expect("a query", s.call(on.Addr().String(), show), answered(1, 0))
	if took := time.Since(begin); took < 90*time.Millisecond {
		t.Errorf("9 errors took %v", took)
	}
	waiting, in := s.dial(on.Addr().String())
	waiting.SetDeadline(time.Now().Add(10 * time.Second))
	fmt.Fprintln(waiting, `{"ops":[{"op":"show","hint":"HANG"}]}`)
	within(t, "no connection", func() bool { return g.accepted.Load() == 2 })
	stop()
	select {
	case err := <-ended:
		if err != context.Canceled {
			t.Errorf("ended with %v", err)
		}
	case <-time.After(5 * time.Second):
		t.Error("Serve goes on")
	}
	if _, err := in.ReadByte(); err != io.EOF {
		t.Errorf("a caller that waits for an answer: got %v", err)
	}
}

// TestRow checks how many lines of a connection are under way: no more than the limit, and of the longest ones one.
func TestRow(t *testing.T) {
	s := newSite(t)
	short := `{"ops":[{"op":"prune"}]}`
	for line, want := range map[string]int{short: s.limits.Lines,
		short + strings.Repeat(" ", wire.MaxLine-len(short)): 1} {
		g := New(s.log, Options{Limits: s.limits}) // which makes no entries of its changes
		inner, outer := net.Pipe()
		ctx, cancel := context.WithCancel(s.ctx)
		ended := make(chan struct{})
		go func() {
			defer close(ended)
			g.receive(ctx, inner, false)
		}()
		go outer.Write([]byte(strings.Repeat(line+"\n", 2*want)))
		within(t, "too few lines are read", func() bool { return len(g.changes) == want })
		time.Sleep(100 * time.Millisecond)
		if count := len(g.changes); count != want {
			t.Errorf("%.30s: %d lines are under way", line, count)
		}
		cancel()
		outer.Close()
		<-ended
	}
}

// written is a connection that notes the sizes of what is written.
type written struct {
	net.Conn
	sizes []int
	text  string
	// called before each write
	before func()
}

func (w *written) SetWriteDeadline(time.Time) error { return nil }

func (w *written) Write(text []byte) (int, error) {
	if w.before != nil {
		w.before()
	}
	w.sizes, w.text = append(w.sizes, len(text)), w.text+string(text)
	return len(text), nil
}

// rowOf returns a session with the answers to changes, of which a nil one can't be known.
func rowOf(s *site, answers ...[]byte) (*session, *written) {
	conn := &written{}
	made := &session{Gateway: New(s.log, Options{Limits: s.limits}), conn: conn, isChanging: true}
	for _, answer := range answers {
		made.add(made.request(nil)).answer(answer)
	}
	return made, conn
}

// TestWriteAnswers checks that answers are written in few pieces that are not too long, and that those before an
// unknown one are written.
func TestWriteAnswers(t *testing.T) {
	s := newSite(t)
	long := []byte(`{"call":1,"place":1,"replies":["` + strings.Repeat("x", flushSize/4) +
		`"],"result":"committed"}`)
	made, conn := rowOf(s, long, long, long, long, long, long, long, long, long, long)
	if !made.writeAnswers(s.ctx, 0) || len(conn.sizes) != 3 || conn.sizes[0] > 2*flushSize {
		t.Errorf("wrote %v bytes", conn.sizes)
	}
	made, conn = rowOf(s, []byte(committed(7, 1)), nil, []byte(committed(8, 2)))
	if made.writeAnswers(s.ctx, 0) || conn.text != committed(1, 1)+"\n" {
		t.Errorf("wrote %s", conn.text)
	}
	made, conn = rowOf(s, []byte(committed(7, 1)), []byte(committed(8, 2)))
	if !made.writeAnswers(s.ctx, 1) || conn.text != committed(1, 1)+"\n" || len(made.row) != 1 {
		t.Errorf("wrote %s", conn.text)
	}
}

// TestAnsweredRow checks that a line can be freed when it is answered.
func TestAnsweredRow(t *testing.T) {
	s := newSite(t)
	made, _ := rowOf(s, []byte(committed(7, 1)), []byte(committed(8, 2)))
	row := made.row
	if made.writeAnswers(s.ctx, 0); row[0] != nil || row[1] != nil {
		t.Error("answered lines stay in memory")
	}
}

// TestAnswersDoNotWait checks that an answer is sent although a later line of the caller gets none, or waits for a
// commit.
func TestAnswersDoNotWait(t *testing.T) {
	s := newSite(t)
	s.limits.After = 10 * time.Second
	_, address, _ := s.gateway("a")
	for name, second := range map[string]string{"an early line": `{"ops":[],"after":99}`,
		"a line without an answer": `{"ops":[{"op":"show","hint":"HANG"}]}`} {
		conn, in := s.dial(address)
		begin := time.Now()
		fmt.Fprintf(conn, "%s\n%s\n", show, second)
		got, err := in.ReadString('\n')
		if took := time.Since(begin); got != answered(1, 0)+"\n" || took > 5*time.Second {
			t.Errorf("before %s: got %s, %v after %v", name, got, err, took)
		}
		conn.Close()
	}
}

// TestFreshAnswersDoNotWait sends two fresh queries together. The worker is late, so the answer to the first one comes
// after two seconds. Only then is etcd asked for the second one, and if it doesn't answer, the caller still has the
// first answer.
func TestFreshAnswersDoNotWait(t *testing.T) {
	t.Parallel()
	s := newSite(t)
	s.limits.Answer = 4 * time.Second
	g, usual, fresh := s.gateway("a")
	s.expect("a change", s.call(usual, `{"ops":[{"op":"prune","hint":"LATE"}]}`), committed(1, 1))
	conn, in := s.dial(fresh)
	fmt.Fprintf(conn, "%s\n%s\n", show, show)
	within(t, "no request", func() bool {
		g.fresh.asks <- struct{}{}
		defer func() { <-g.fresh.asks }()
		return g.fresh.answered == 1
	})
	time.Sleep(300 * time.Millisecond)
	s.store.Refuse(1 << 30)
	first, _ := in.ReadString('\n')
	second, err := in.ReadString('\n')
	s.expect("the first query", []string{first}, answered(1, 1)+"\n")
	if err != io.EOF {
		t.Errorf("the second query: got %s, %v", second, err)
	}
	s.store.Refuse(0)
}

// TestQueriesOutliveRegd kills regd while it owes replies to queries: the one that it may have been killed by is
// refused, and the others are asked again when there is another replica.
func TestQueriesOutliveRegd(t *testing.T) {
	t.Parallel()
	s := newSite(t)
	g, address, _ := s.gateway("a")
	conn, in := s.dial(address)
	const count = 15
	fmt.Fprint(conn, strings.Repeat(`{"ops":[{"op":"show","hint":"SLOW"}]}`+"\n", count))
	refused := 0
	for line := 1; line <= count; line++ {
		got, err := in.ReadString('\n')
		if got == refusal(wire.Busy, line)+"\n" {
			refused++
		} else if got != answered(line-refused, 0)+"\n" {
			t.Fatalf("got %s, %v", got, err)
		}
		if line == 1 {
			r, _ := g.board.read()
			process, _ := os.FindProcess(r.Pid())
			process.Kill()
		}
	}
	if refused != 1 {
		t.Errorf("%d queries were refused", refused)
	}
}

// TestFatalQuery sends a query that ends each regd which gets it. It is refused, one replica has ended, and other
// callers are served.
func TestFatalQuery(t *testing.T) {
	t.Parallel()
	s := newSite(t)
	g, address, _ := s.gateway("a")
	s.expect("a query that ends regd", s.call(address, `{"ops":[{"op":"show","hint":"KILL"}]}`),
		refusal(wire.Busy, 1))
	within(t, "the replica stays", func() bool { return samples(t, g)["regd_gateway_replicas_ended_total"] > 0 })
	s.expect("another one", s.call(address, show), answered(1, 0))
	if ended := samples(t, g)["regd_gateway_replicas_ended_total"]; ended != 1 {
		t.Errorf("%v replicas have ended", ended)
	}
}

// TestSlowQuery sends a query whose reply is late: it is refused, no replica ends, and other callers are served
// meanwhile by the other worker.
func TestSlowQuery(t *testing.T) {
	t.Parallel()
	s := newSite(t)
	s.hang = 2 * time.Second
	g, address, _ := s.gateway("a")
	slow, in := s.dial(address)
	fmt.Fprintln(slow, `{"ops":[{"op":"show","hint":"HALT"}]}`)
	within(t, "no query", func() bool { return g.active.Load() == 1 })
	for i := 0; i < 4; i++ { // on connections of both workers
		s.expect("another caller", s.call(address, show), answered(1, 0))
	}
	if got, err := in.ReadString('\n'); got != refusal(wire.Busy, 1)+"\n" {
		t.Errorf("got %s, %v", got, err)
	}
	all := samples(t, g)
	ended, late := all["regd_gateway_replicas_ended_total"], all["regd_gateway_late_replies_total"]
	if ended != 0 || late == 0 {
		t.Errorf("%v replicas have ended, and %v replies were late", ended, late)
	}
}

// TestListings checks how many operations with large replies a query may have. A line of an agent and one that goes
// through the log have limits of their own.
func TestListings(t *testing.T) {
	s := newSite(t)
	s.limits.Listings = 3
	_, address, _ := s.gateway("a")
	for _, name := range []string{"page", "children", "authorised", "trust"} {
		line := func(count int) string {
			return `{"ops":[{"op":"show"}` + strings.Repeat(`,{"op":"`+name+`"}`, count) + `]}`
		}
		got := s.call(address, line(3), line(4), line(3))
		s.expect(name, got, answered(1, 0), refusal(wire.TooManyQueries, 2), answered(2, 0))
	}
	s.expect("others", s.call(address, `{"ops":[`+strings.Repeat(show[8:len(show)-2]+",", 63)+show[8:]),
		answered(1, 0))
}

// withoutReplica takes the replica from the board, so that queries wait.
func withoutReplica(g *Gateway) *replica.Replica {
	r, _ := g.board.read()
	g.board.update(func() { g.board.replica, g.board.state = nil, replica.State{} })
	return r
}

// TestWaitsWithoutReplica checks that queries wait for a replica until their time is over, and no longer, that those
// which wait are answered when there is one, and that none is kept whose caller has left.
func TestWaitsWithoutReplica(t *testing.T) {
	t.Parallel()
	s := newSite(t)
	s.limits.Answer, s.limits.After = 3*time.Second, 10*time.Second
	g, address, fresh := s.gateway("a")
	r := withoutReplica(g)
	const early = `{"ops":[{"op":"show"}],"after":9}`
	var readers []*bufio.Reader
	for _, line := range []string{show, early} {
		for _, port := range []string{address, fresh} {
			left, _ := s.dial(port)
			fmt.Fprintln(left, line)
			stays, in := s.dial(port)
			fmt.Fprintln(stays, line)
			readers = append(readers, in)
			within(t, "no line is read", func() bool { return g.accepted.Load() == uint64(2*len(readers)) })
			left.(*net.TCPConn).SetLinger(0)
			left.Close()
		}
	}
	begin := time.Now()
	within(t, "callers that have left stay", func() bool { return g.sessions.Load() == int64(len(readers)) })
	if took := time.Since(begin); took > s.limits.Answer*2/3 || endedFor(t, g, "left") != float64(len(readers)) {
		t.Errorf("%v have left after %v", endedFor(t, g, "left"), took)
	}
	if got := ends(t, readers[0]); got != "" {
		t.Errorf("got %s", got)
	}
	if took := time.Since(begin); took < s.limits.Answer/2 || took > 3*s.limits.Answer {
		t.Errorf("the time for an answer was over after %v", took)
	}
	waits, in := s.dial(address)
	fmt.Fprintln(waits, show)
	within(t, "no line is read", func() bool { return g.accepted.Load() == uint64(2*len(readers)+1) })
	g.board.update(func() { g.board.replica = r })
	if got, err := in.ReadString('\n'); got != answered(1, 0)+"\n" {
		t.Errorf("with a replica: got %s, %v", got, err)
	}
}

// TestTurnsWithoutReplica checks that a caller which waits for a replica has no turn.
func TestTurnsWithoutReplica(t *testing.T) {
	s := newSite(t)
	g, address, _ := s.gateway("a")
	r := withoutReplica(g)
	var readers []*bufio.Reader
	for i := 0; i < 3*mostTurns*len(g.turns); i++ {
		conn, in := s.dial(address)
		fmt.Fprint(conn, strings.Repeat(show+"\n", 2*fewLines))
		readers = append(readers, in)
	}
	within(t, "not all callers wait", func() bool { return g.active.Load() == int64(len(readers)) })
	within(t, "a turn is taken", func() bool { return len(g.turns[0])+len(g.turns[1]) == 0 })
	g.board.update(func() { g.board.replica = r })
	for _, in := range readers {
		for call := 1; call <= 2*fewLines; call++ {
			if got, err := in.ReadString('\n'); got != answered(call, 0)+"\n" {
				t.Fatalf("got %s, %v", got, err)
			}
		}
	}
}

// TestAnswerOnce checks that only the first reply to a line counts, and that nothing waits for the caller to take it.
func TestAnswerOnce(t *testing.T) {
	made, _ := rowOf(newSite(t))
	q, done := made.request(nil), make(chan struct{})
	go func() {
		q.answer([]byte("a"))
		q.answer([]byte("b"))
		close(done)
	}()
	select {
	case <-done:
	case <-time.After(5 * time.Second):
		t.Fatal("a second reply waits")
	}
	if got, held := string(<-q.reply), made.held.Load(); got != "a" || held != 1 {
		t.Errorf("got %s, and %d bytes are held", got, held)
	}
}

// TestLateAnswer checks that an answer which is there is taken, even if the time for it is over.
func TestLateAnswer(t *testing.T) {
	s := newSite(t)
	made, _ := rowOf(s)
	for i := 0; i < 100; i++ { // in half of which a select of both would take the end
		over := make(chan time.Time, 1)
		over <- time.Now()
		q := made.request(nil)
		q.answer([]byte(committed(7, 1)))
		w := wait{session: made, timer: &time.Timer{C: over}}
		if reply, isThere := made.receive(s.ctx, q, &w); !isThere {
			t.Fatalf("got %s", reply)
		}
	}
}

// TestLateQuery checks that the time for an answer begins when a query is asked, and not while it waits for a commit.
func TestLateQuery(t *testing.T) {
	t.Parallel()
	s := newSite(t)
	s.limits.Answer, s.limits.After = time.Second, 2*time.Second
	_, address, _ := s.gateway("a")
	s.expect("an early query", s.call(address, `{"ops":[{"op":"show","hint":"SLOW"}],"after":99}`),
		`{"call":1,"code":"W1","place":0,"result":"refused"}`)
}

// TestPastAfter checks that a query with the number of a commit that is there doesn't wait for the lines before it.
func TestPastAfter(t *testing.T) {
	s := newSite(t)
	s.limits.Answer = 300 * time.Millisecond
	g, address, _ := s.gateway("a")
	s.expect("a change", s.call(address, prune), committed(1, 1))
	made := &session{Gateway: g, conn: &written{}}
	made.add(made.request(nil)) // which is never answered
	if isGoing := made.query(s.ctx, []byte(`{"ops":[],"after":1}`)); !isGoing || len(made.row) != 2 {
		t.Errorf("%d lines are under way", len(made.row))
	}
}

// TestAsksAgain checks that there is a pause before a query is asked again.
func TestAsksAgain(t *testing.T) {
	t.Parallel()
	s := newSite(t)
	g, usual, fresh := s.gateway("a")
	for _, address := range []string{usual, fresh} { // one for each of the workers
		s.expect("a change", s.call(usual, `{"ops":[{"op":"prune","hint":"LATE"}]}`),
			committed(1, 1+int(g.accepted.Load())/2))
		if answers := s.call(address, show); len(answers) != 1 {
			t.Errorf("got %q", answers)
		}
	}
	var asked struct{ Call int }
	r, _ := g.board.read()
	// one in 2 ms
	if err := json.Unmarshal(r.Ask([]byte(show)), &asked); err != nil || asked.Call < 4 || asked.Call > 1010 {
		t.Errorf("asked %d times, %v", asked.Call, err)
	}
	within(t, "old replies are held", func() bool { return g.held.Load() == 0 })
}

// TestPausesOfReplicas checks that there are pauses before the log is read again, and before another replica is
// started.
func TestPausesOfReplicas(t *testing.T) {
	t.Parallel()
	s := newSite(t)
	g, _, _ := s.gateway("a")
	s.watches(1)
	s.store.Refuse(1 << 30)
	s.store.TellWatches(`{"error":{"message":"x"}}`)
	s.store.Recount()
	time.Sleep(time.Second)
	within(t, "the log is not read again", func() bool { return s.store.Counts().Requests >= 2 })
	if counts := s.store.Counts(); counts.Requests > 30 {
		t.Errorf("the log was read again: %v", counts)
	}
	s.store.Refuse(0)
	s.append(kill)
	within(t, "the replica stays", func() bool { now, _ := g.board.read(); return now == nil })
	s.store.Recount()
	begin := time.Now()
	time.Sleep(time.Second)
	// the machine may be busy, and the second a long one
	if counts := s.store.Counts(); counts.Pages > 2+int(time.Since(begin)/againTime) {
		t.Errorf("other replicas were started: %v", counts)
	}
}

// TestSlowReplica checks that the log isn't read again while a replica is behind but executes entries.
func TestSlowReplica(t *testing.T) {
	t.Parallel()
	s := newSite(t)
	for entry := uint64(1); entry <= 50; entry++ { // a tenth of a second each
		s.append(`{"ops":[{"op":"prune","hint":"SLOW"}]}`)
	}
	g, _, _ := s.gateway("a")
	time.Sleep(3 * againTime)
	if _, state := g.board.read(); state.Entry != 50 || s.store.Counts().Pages != 2 {
		t.Errorf("at entry %d, %v", state.Entry, s.store.Counts())
	}
	for i := 0; i < 50; i++ {
		s.append(`{"ops":[{"op":"prune","hint":"SLOW"}]}`)
	}
	within(t, "not all entries are executed", func() bool { _, state := g.board.read(); return state.Entry == 100 })
	if counts := s.store.Counts(); counts.Pages != 2 || counts.Watches != 1 {
		t.Errorf("while entries come: %v", counts)
	}
}

// TestFreshHead checks that those who wait for etcd share one request, and that no caller gets the answer to one that
// failed.
func TestFreshHead(t *testing.T) {
	s := newSite(t)
	s.append("a")
	g := New(s.log, Options{Limits: s.limits})
	s.store.Refuse(1 << 30)
	short, cancel := context.WithTimeout(s.ctx, 500*time.Millisecond)
	defer cancel()
	heads, failed := make(chan uint64, 20), make(chan error, 1)
	g.fresh.asks <- struct{}{} // so that all wait before the first request begins, which fails
	go func() { _, err := g.freshHead(short); failed <- err }()
	time.Sleep(100 * time.Millisecond)
	for i := 0; i < 20; i++ {
		go func() {
			head, err := g.freshHead(s.ctx)
			if err != nil {
				t.Error(err)
			}
			heads <- head
		}()
	}
	time.Sleep(100 * time.Millisecond)
	<-g.fresh.asks
	if err := <-failed; err != context.DeadlineExceeded {
		t.Errorf("got %v", err)
	}
	s.store.Refuse(0)
	for i := 0; i < 20; i++ {
		if head := <-heads; head != 1 {
			t.Errorf("got %d", head)
		}
	}
	if count := g.fresh.begun.Load(); count > 4 { // a failed one, one for most, and few for those that came late
		t.Errorf("%d requests", count)
	}
}

// TestFreshHeadLeaves lets a fresh query wait for the request of another one, which has no answer yet. Its time is over
// first, and it doesn't wait any longer.
func TestFreshHeadLeaves(t *testing.T) {
	s := newSite(t)
	g := New(s.log, Options{Limits: s.limits})
	g.fresh.asks <- struct{}{}
	short, cancel := context.WithTimeout(s.ctx, 50*time.Millisecond)
	defer cancel()
	ended := make(chan error, 1)
	go func() { _, err := g.freshHead(short); ended <- err }()
	select {
	case err := <-ended:
		if !errors.Is(err, context.DeadlineExceeded) {
			t.Errorf("got %v", err)
		}
	case <-time.After(20 * time.Second):
		t.Error("it waits for the other request")
	}
}

// TestFreshTurnedBack lets the log end before the last entry that the replica has executed, as after the restoration of
// a backup: no fresh query is answered from that book.
func TestFreshTurnedBack(t *testing.T) {
	t.Parallel()
	s := newSite(t)
	g, usual, fresh := s.gateway("a")
	s.expect("a change", s.call(usual, prune), committed(1, 1))
	s.expect("a fresh query", s.call(fresh, show), answered(1, 1))
	g.board.update(func() { g.board.state.Entry = 2 })
	s.expect("after that", s.call(fresh, show))
}

// TestReplicaIsAway checks that the gateway is not ready after its regd has ended, and that a regd which always ends is
// never ready.
func TestReplicaIsAway(t *testing.T) {
	t.Parallel()
	s := newSite(t)
	g, _, _ := s.gateway("a")
	first, _ := g.board.read()
	process, _ := os.FindProcess(first.Pid())
	process.Kill()
	var now *replica.Replica
	within(t, "the replica stays", func() bool { now, _ = g.board.read(); return now != first })
	if now != nil {
		t.Error("there is no time without a replica")
	}
	within(t, "no other replica", func() bool { now, _ = g.board.read(); return now != nil })
	s.append(prune)
	within(t, "the entry is not executed", func() bool { _, state := g.board.read(); return state.Entry == 1 })
	s.appendEntry(prune, kill)
	within(t, "the replica stays", func() bool { now, _ = g.board.read(); return now == nil })
	if _, state := g.board.read(); state != (replica.State{}) {
		t.Errorf("the state of the replica stays: %v", state)
	}
	other := New(s.log, Options{Replica: g.options.Replica, Limits: s.limits})
	ctx, stop := context.WithCancel(s.ctx)
	ended := make(chan error, 1)
	go func() { ended <- other.Run(ctx, func(context.Context) error { return errors.New("it is ready") }) }()
	for s.store.Recount(); s.store.Counts().Pages < 6; { // of which at least two are for the other gateway
		if now, _ = other.board.read(); now != nil {
			t.Error("a replica that always ends is ready")
			break
		}
	}
	stop()
	if err := <-ended; err != context.Canceled {
		t.Error(err)
	}
	// which also shows a short time
	if count := samples(t, other)["regd_gateway_replay_duration_seconds_count"]; count != 0 {
		t.Errorf("it was ready %v times", count)
	}
}

// TestRunEnds checks that a gateway with the wrong checksum stops serving.
func TestRunEnds(t *testing.T) {
	s := newSite(t)
	s.there("p", "a", "b")
	for _, name := range []string{"a", "b"} {
		s.log.Put(s.ctx, "sum/p/00000000000003e8/e/"+name, []byte("00"))
	}
	g := New(s.log, Options{Replies: "p", Name: "c", Limits: s.limits,
		Replica: replica.Options{Program: os.Args[0], Domain: "ex.org", Workers: 2}})
	isOver, begin := false, time.Now()
	err := g.Run(s.ctx, func(ctx context.Context) error {
		g.executed(replica.State{Entry: voteInterval - 1})
		g.executed(replica.State{Entry: voteInterval, Name: "e"})
		<-ctx.Done()
		time.Sleep(time.Second / 5) // so that a Run that doesn't wait for it is over first
		isOver = true
		return nil
	})
	if took := time.Since(begin); err != ErrOutvoted || !isOver || took > 20*time.Second {
		t.Errorf("got %v, %v after %v", err, isOver, took)
	}
}

// TestMarks checks after which entries a gateway votes, and that it goes on if etcd doesn't take its votes.
func TestMarks(t *testing.T) {
	g := New(newSite(t).log, Options{})
	for entry := uint64(1); entry <= 2*voteInterval; entry++ {
		g.executed(replica.State{Entry: entry})
	}
	if len(g.marks) != 2 {
		t.Errorf("%d votes after %d entries", len(g.marks), 2*voteInterval)
	}
	for entry := uint64(3); entry <= 2*votesLeft; entry++ {
		g.executed(replica.State{Entry: entry * voteInterval})
	}
	if len(g.marks) != votesLeft {
		t.Errorf("%d votes wait", len(g.marks))
	}
}

// TestWorkers checks that two connections use different workers of regd: one of them hangs.
func TestWorkers(t *testing.T) {
	s := newSite(t)
	g, address, _ := s.gateway("a")
	first, _ := s.dial(address)
	fmt.Fprintln(first, `{"ops":[{"op":"show","hint":"HANG"}]}`)
	within(t, "no line is under way", func() bool { return g.accepted.Load() == 1 && g.active.Load() == 1 })
	second, in := s.dial(address)
	second.SetDeadline(time.Now().Add(5 * time.Second))
	fmt.Fprintln(second, show)
	if got, err := in.ReadString('\n'); got != answered(1, 0)+"\n" {
		t.Errorf("got %s, %v", got, err)
	}
}
