package server

import (
	"bufio"
	"context"
	"crypto/tls"
	"fmt"
	"io"
	"net"
	"strings"
	"testing"
	"time"

	"regd/gateway/internal/wire"
)

// large is a query with a reply of 100 kB.
const large = `{"ops":[{"op":"show","hint":"LARGE"}]}`

func refusal(code string, line int) string { return fmt.Sprintf(`{"code":"%s","line":%d}`, code, line) }

// ends waits for the end of a connection, and returns what came before it.
func ends(t *testing.T, in io.Reader) string {
	t.Helper()
	text, err := io.ReadAll(in)
	if err != nil {
		t.Errorf("the connection ended with %v", err)
	}
	return string(text)
}

// endedFor returns how many connections a gateway ended for a reason.
func endedFor(t *testing.T, g *Gateway, reason string) float64 {
	return samples(t, g)[fmt.Sprintf("regd_gateway_connections_ended_total{reason=%q}", reason)]
}

// TestIdle checks that a caller that begins no line, and one that doesn't end its line, are cut off, and that one that
// sends lines is not.
func TestIdle(t *testing.T) {
	t.Parallel()
	s := newSite(t)
	s.limits.Idle, s.limits.Line = 2*time.Second, 500*time.Millisecond
	g, address, _ := s.gateway("a")
	active, answers := s.dial(address)
	_, silent := s.dial(address)
	slow, cut := s.dial(address)
	fmt.Fprint(slow, show+"\n"+show[:9])
	begin := time.Now()
	if got := ends(t, cut); got != answered(1, 0)+"\n" {
		t.Errorf("got %s", got)
	}
	if took := time.Since(begin); took >= s.limits.Idle {
		t.Errorf("half a line: it took %v", took)
	}
	for call := 1; time.Since(begin) < 2*s.limits.Idle; call++ {
		fmt.Fprintln(active, show)
		if got, err := answers.ReadString('\n'); got != answered(call, 0)+"\n" {
			t.Fatalf("got %s, %v", got, err)
		}
		time.Sleep(s.limits.Idle / 5)
	}
	if got := ends(t, silent); got != "" {
		t.Errorf("got %s", got)
	}
	if idle, line := endedFor(t, g, "idle"), endedFor(t, g, "line"); idle != 1 || line != 1 {
		t.Errorf("%v silent and %v slow ones were counted", idle, line)
	}
}

// TestConnectionsLimit checks that a connection over the limit is closed without an answer, and that room is free again
// when one ends.
func TestConnectionsLimit(t *testing.T) {
	t.Parallel()
	s := newSite(t)
	s.limits.Connections = 2
	g, address, _ := s.gateway("a")
	first, _ := s.dial(address)
	s.dial(address)
	within(t, "no connections", func() bool { return g.sessions.Load() == 2 })
	_, third := s.dial(address)
	if text, _ := io.ReadAll(third); len(text) > 0 || endedFor(t, g, "connections") != 1 {
		t.Errorf("got %s", text)
	}
	first.Close()
	within(t, "no room", func() bool { return g.sessions.Load() == 1 })
	s.expect("after one has ended", s.call(address, show), answered(1, 0))
}

// secured starts a gateway with certificates, and returns it with what opens a connection of a caller.
func (s *site) secured(operators ...string) (*Gateway, func(uris ...string) (net.Conn, *bufio.Reader)) {
	a := newAuthority(s.t)
	a.leaf("server")
	s.callers, s.operators = a.load("server"), operators
	g, address, _ := s.gateway("secured")
	s.address = address
	return g, func(uris ...string) (net.Conn, *bufio.Reader) {
		a.leaf("caller", uris...)
		conn, err := a.load("caller").Dial(s.ctx, "tcp", address)
		if err != nil {
			s.t.Fatal(err)
		}
		conn.SetDeadline(time.Now().Add(40 * time.Second))
		s.t.Cleanup(func() { conn.Close() })
		return conn, bufio.NewReader(conn)
	}
}

// TestCallerConnections checks that a caller with too many connections gets G4 on one more, whatever it sends, and that
// others are served.
func TestCallerConnections(t *testing.T) {
	t.Parallel()
	s := newSite(t)
	s.limits.CallerConnections = 2
	g, dial := s.secured(n2)
	served := func(conn net.Conn, in *bufio.Reader) {
		t.Helper()
		fmt.Fprintln(conn, show)
		if got, err := in.ReadString('\n'); got != answered(1, 0)+"\n" {
			t.Fatalf("got %s, %v", got, err)
		}
	}
	first, in := dial(n2)
	served(first, in)
	served(dial(n2))
	third, in := dial(n2)
	fmt.Fprint(third, strings.Repeat(show+"\n", 100))
	if got := ends(t, in); got != refusal(wire.TooMany, 1)+"\n" || endedFor(t, g, "caller") != 1 {
		t.Errorf("got %s", got)
	}
	other, in := dial(n1)
	fmt.Fprintln(other, show)
	if got, err := in.ReadString('\n'); got != refusal(wire.NotAllowed, 1)+"\n" {
		t.Errorf("another caller got %s, %v", got, err)
	}
	first.Close()
	within(t, "the connections stay", func() bool { return g.sessions.Load() == 2 })
	served(dial(n2))
}

// TestHandshakeTurns checks that a handshake is computed when it has a turn, and that one which waits for its caller
// has none.
func TestHandshakeTurns(t *testing.T) {
	s := newSite(t)
	s.limits.Handshake = 20 * time.Second
	g, dial := s.secured(n2)
	all := cap(g.handshakes)
	for i := 0; i < all; i++ {
		g.handshakes <- struct{}{}
	}
	served, again := make(chan error), make(chan struct{})
	go func() {
		conn, in := dial(n2)
		for {
			fmt.Fprintln(conn, show)
			_, err := in.ReadString('\n')
			served <- err
			<-again
		}
	}()
	within(t, "no connection", func() bool { return len(g.gate.places) == 1 })
	select {
	case err := <-served:
		t.Errorf("without a turn: %v", err)
	case <-time.After(200 * time.Millisecond):
	}
	for i := 1; i < all; i++ {
		<-g.handshakes
	}
	within(t, "it keeps its turn", func() bool { return len(g.handshakes) == 1 })
	<-g.handshakes
	if err := <-served; err != nil {
		t.Error(err)
	}
	for i := 0; i < all; i++ { // of which a connection needs none afterwards
		g.handshakes <- struct{}{}
	}
	again <- struct{}{}
	select {
	case err := <-served:
		if err != nil {
			t.Error(err)
		}
	case <-time.After(10 * time.Second):
		t.Error("a line waits for a turn")
	}
}

// TestLineBytes checks the limit of a line.
func TestLineBytes(t *testing.T) {
	s := newSite(t)
	s.limits.LineBytes = 20000
	_, address, _ := s.gateway("a")
	fill := func(size int) string { return show + strings.Repeat(" ", size-len(show)) }
	s.expect("long lines",
		s.call(address, fill(20000), fill(20001), fill(wire.MaxLine), fill(wire.MaxLine+1), show),
		answered(1, 0), refusal(wire.TooLong, 2), refusal(wire.TooLong, 3), refusal("L1", 4), answered(2, 0))
}

// TestLongLines checks that few long lines are under way: one over the limit waits, and is refused if that takes too
// long.
func TestLongLinesLimit(t *testing.T) {
	t.Parallel()
	s := newSite(t)
	s.limits.LongLines, s.limits.Answer = 1, 300*time.Millisecond
	g, address, _ := s.gateway("a")
	long := show + strings.Repeat(" ", 2*readBuffer)
	s.expect("one after another", s.call(address, long, long, long), answered(1, 0), answered(2, 0), answered(3, 0))
	slow, in := s.dial(address)
	fmt.Fprint(slow, long[:readBuffer+1])
	within(t, "no slot is taken", func() bool { return len(g.long) == 1 })
	s.expect("while another one arrives", s.call(address, show, long, show), answered(1, 0), refusal(wire.Busy, 2),
		answered(2, 0))
	fmt.Fprintln(slow, long[readBuffer+1:])
	if got, err := in.ReadString('\n'); got != answered(1, 0)+"\n" {
		t.Errorf("the first one got %s, %v", got, err)
	}
	s.expect("afterwards", s.call(address, long), answered(1, 0))
	fmt.Fprint(slow, long[:readBuffer+1])
	within(t, "no slot is taken", func() bool { return len(g.long) == 1 })
	slow.(*net.TCPConn).SetLinger(0) // so that there is no end of the line, but an error
	slow.Close()
	within(t, "the slot stays taken", func() bool { return len(g.long) == 0 })
}

// TestLongLineOfAgent checks that an agent gets no slot for a long line, so that it takes none from operators.
func TestLongLineOfAgent(t *testing.T) {
	s := newSite(t)
	g := New(s.log, Options{Limits: s.limits})
	on, err := net.Listen("tcp", "127.0.0.1:0")
	if err != nil {
		t.Fatal(err)
	}
	defer on.Close()
	outer, in := s.dial(on.Addr().String())
	inner, err := on.Accept()
	if err != nil {
		t.Fatal(err)
	}
	go (&session{Gateway: g, conn: inner, in: bufio.NewReaderSize(inner, readBuffer),
		agent: "spiffe://ex.org/spire/agent/n1"}).serve(s.ctx)
	long := show + strings.Repeat(" ", 2*readBuffer)
	fmt.Fprint(outer, long[:readBuffer+1])
	time.Sleep(100 * time.Millisecond)
	if len(g.long) != 0 {
		t.Error("a slot is taken")
	}
	fmt.Fprintln(outer, long[readBuffer+1:])
	if got, err := in.ReadString('\n'); got != refusal(wire.NotAllowed, 1)+"\n" {
		t.Errorf("got %s, %v", got, err)
	}
}

// TestRefusedLines checks that a caller pauses after each line that is refused without regd.
func TestRefusedLines(t *testing.T) {
	s := newSite(t)
	g := New(s.log, Options{Limits: s.limits})
	outer, inner := net.Pipe()
	go (&session{Gateway: g, conn: inner, in: bufio.NewReaderSize(inner, readBuffer),
		agent: "spiffe://ex.org/spire/agent/n1"}).serve(s.ctx)
	begin := time.Now()
	go outer.Write([]byte(strings.Repeat("\n", 100)))
	in := bufio.NewReader(outer)
	for line := 1; line <= 100; line++ {
		if got, err := in.ReadString('\n'); got != refusal(wire.NotAllowed, line)+"\n" {
			t.Fatalf("got %s, %v", got, err)
		}
	}
	if took := time.Since(begin); took < 90*floodPause {
		t.Errorf("100 lines take %v", took)
	}
}

// TestChangesLimit lets etcd refuse everything. A change that waits behind too many others is refused after the time
// for an answer. What was sent before it is answered immediately, and its connection goes on.
func TestChangesLimit(t *testing.T) {
	t.Parallel()
	s := newSite(t)
	s.limits.Changes, s.limits.Answer = 2, 500*time.Millisecond
	g, address, _ := s.gateway("a")
	s.store.Refuse(1 << 30)
	g.changes <- (&session{Gateway: g}).request([]byte(prune))
	within(t, "no append", func() (isUnderWay bool) {
		g.flights.Range(func(any, any) bool { isUnderWay = true; return false })
		return isUnderWay
	})
	for i := 0; i < 2; i++ {
		g.changes <- (&session{Gateway: g}).request([]byte(prune))
	}
	conn, in := s.dial(address)
	begin := time.Now()
	fmt.Fprintf(conn, "%s\n%s\n%s\n", show, prune, show)
	got, _ := in.ReadString('\n')
	if took := time.Since(begin); got != answered(1, 0)+"\n" || took >= s.limits.Answer {
		t.Errorf("before the change: got %s after %v", got, took)
	}
	got, _ = in.ReadString('\n')
	if took := time.Since(begin); got != refusal(wire.Busy, 2)+"\n" || took < s.limits.Answer ||
		took > 5*time.Second {
		t.Errorf("the change: got %s after %v", got, took)
	}
	if got, _ := in.ReadString('\n'); got != answered(2, 0)+"\n" {
		t.Errorf("after the change: got %s", got)
	}
	s.store.Refuse(0)
	within(t, "changes wait", func() bool { _, state := g.board.read(); return state.Place == 3 })
	s.expect("another change", s.call(address, prune), committed(1, 4))
}

// TestWaitingAnswers checks that the answer to a change doesn't wait with a later one for which there is no room.
func TestWaitingAnswers(t *testing.T) {
	s := newSite(t)
	s.limits.Changes = 1
	conn := &written{}
	made := &session{Gateway: New(s.log, Options{Limits: s.limits}), conn: conn, isChanging: true}
	made.changes <- made.request(nil)
	made.add(made.request(nil)).answer([]byte(committed(7, 1)))
	ctx, cancel := context.WithTimeout(s.ctx, 100*time.Millisecond)
	defer cancel()
	if made.change(ctx, []byte(prune)) || conn.text != committed(1, 1)+"\n" {
		t.Errorf("wrote %s", conn.text)
	}
}

// TestShares checks how many lines of a connection may be under way while others have some.
func TestShares(t *testing.T) {
	s := newSite(t)
	made, _ := rowOf(s)
	others := func(count int64) { made.active.Store(count + 1) }
	for made.add(made.request(nil)); len(made.row) < 8; made.add(made.request(nil)) {
	}
	for _, c := range []struct {
		name       string
		isChanging bool
		others     int64
		want       bool
	}{
		{"queries alone", false, 0, false},
		{"queries and few others", false, queryRoom/8 - 2, false},
		{"queries and many others", false, queryRoom / 8, true},
		{"changes and as many others", true, queryRoom / 8, false},
		{"changes and more others", true, changeRoom / 8, true},
	} {
		others(c.others)
		if made.isChanging = c.isChanging; made.isFull() != c.want {
			t.Errorf("%s: got %v", c.name, !c.want)
		}
	}
	others(0)
	for _, q := range made.row {
		q.answer([]byte(committed(7, 1)))
	}
	if !made.writeAnswers(s.ctx, 0) || made.active.Load() != 0 {
		t.Errorf("%d connections are active", made.active.Load())
	}
	if made.active.Store(1 << 40); made.isFull() {
		t.Error("no line may be under way")
	}
	made.active.Store(0)
	made.add(made.request(nil))
	if made.leave(); made.active.Load() != 0 {
		t.Errorf("%d connections are active", made.active.Load())
	}
}

// TestTurns takes all turns. Few queries that are sent together are answered without one. More of them wait, and their
// first answers don't.
func TestTurns(t *testing.T) {
	t.Parallel()
	s := newSite(t)
	g, address, fresh := s.gateway("a")
	if len(g.turns) != 2 {
		t.Fatalf("there are turns for %d workers", len(g.turns))
	}
	fill := func() {
		for _, turns := range g.turns {
			for len(turns) < mostTurns {
				turns <- struct{}{}
			}
		}
	}
	fill()
	conn, in := s.dial(address)
	fmt.Fprint(conn, strings.Repeat(show+"\n", 3*fewLines))
	read := func(from, to int) {
		t.Helper()
		for call := from; call <= to; call++ {
			if got, err := in.ReadString('\n'); got != answered(call, 0)+"\n" {
				t.Fatalf("got %s, %v", got, err)
			}
		}
	}
	read(1, fewLines)
	conn.SetReadDeadline(time.Now().Add(200 * time.Millisecond))
	if got, err := in.ReadString('\n'); err == nil {
		t.Errorf("without a turn: got %s", got)
	}
	s.expect("others meanwhile", s.call(address, show, show), answered(1, 0), answered(2, 0))
	queries := strings.Split(strings.Repeat(show+"\n", 3*fewLines), "\n")[:3*fewLines]
	if answers := s.call(fresh, queries...); len(answers) != len(queries) {
		t.Errorf("fresh queries meanwhile: got %q", answers)
	}
	conn.SetReadDeadline(time.Now().Add(20 * time.Second))
	for _, turns := range g.turns {
		<-turns
	}
	read(fewLines+1, 3*fewLines)
	within(t, "a turn doesn't end", func() bool { return len(g.turns[0])+len(g.turns[1]) == 2*mostTurns-2 })
	fill()
	for call := 3*fewLines + 1; call <= 5*fewLines; call++ { // one after another
		fmt.Fprintln(conn, show)
		read(call, call)
	}
}

// TestFlood checks that callers who send many queries together pause if there are many of them.
func TestFlood(t *testing.T) {
	made, conn := rowOf(newSite(t))
	for others, want := range map[int64]time.Duration{0: 0, manyFlood - 1: 0, manyFlood + 49: 50 * floodPause} {
		made.flooding.Store(others)
		made.streak = fewLines
		reply := made.add(made.request(nil))
		reply.answer([]byte(committed(7, 1)))
		conn.text = ""
		begin := time.Now()
		isTaken := made.takeTurn(context.Background())
		if took := time.Since(begin); !isTaken || took < want || want == 0 && took > 45*floodPause {
			t.Errorf("with %d others: got %v after %v", others, isTaken, took)
		}
		if isWritten := conn.text != ""; isWritten != (want > 0) {
			t.Errorf("with %d others: wrote %s", others, conn.text)
		}
		if made.flooding.Load() != others+1 {
			t.Errorf("with %d others there are %d", others, made.flooding.Load())
		}
		made.takeTurn(context.Background())
		if made.freeTurn(); !made.takeTurn(context.Background()) || made.flooding.Load() != others+1 {
			t.Errorf("with %d others there are %d", others, made.flooding.Load())
		}
		made.freeTurn()
		made.endStreak()
		if made.endStreak(); made.flooding.Load() != others {
			t.Errorf("after %d others there are %d", others, made.flooding.Load())
		}
		made.writeAnswers(context.Background(), 0)
	}
	made.flooding.Store(1 << 20)
	made.streak = fewLines
	ctx, cancel := context.WithTimeout(context.Background(), 10*time.Millisecond)
	defer cancel()
	made.turns[0] = make(chan struct{})
	if made.takeTurn(ctx) {
		t.Error("it took a turn after the end")
	}
}

// TestTurnsEnd checks that a turn ends before a caller is waited for, and when it has left.
func TestTurnsEnd(t *testing.T) {
	made, conn := rowOf(newSite(t), []byte(committed(7, 1)))
	take := func() {
		for !made.hasTurn {
			made.takeTurn(context.Background())
		}
	}
	take()
	conn.before = func() {
		if len(made.turns[0]) != 0 {
			t.Error("a caller that may not read has a turn")
		}
	}
	made.writeAnswers(context.Background(), 0)
	take()
	short, cancel := context.WithTimeout(context.Background(), 10*time.Millisecond)
	defer cancel()
	if made.query(short, []byte(`{"ops":[],"after":99}`)); len(made.turns[0]) != 0 {
		t.Error("a caller that waits for a commit has a turn")
	}
	take()
	if made.leave(); len(made.turns[0]) != 0 || made.flooding.Load() != 0 {
		t.Error("a caller that has left has a turn, or counts")
	}
}

// TestReplyRoom lets a caller send queries with large replies, and read none. When the size of the replies is known,
// few are under way.
func TestReplyRoom(t *testing.T) {
	t.Parallel()
	s := newSite(t)
	g, address, _ := s.gateway("a")
	conn, in := s.dial(address)
	conn.(*net.TCPConn).SetReadBuffer(4096)
	fmt.Fprintln(conn, large)
	if got, err := in.ReadString('\n'); len(got) < 100_000 {
		t.Fatalf("got %s, %v", got, err)
	}
	within(t, "a reply is held", func() bool { return g.held.Load() == 0 })
	fmt.Fprint(conn, strings.Repeat(large+"\n", 100))
	within(t, "no reply", func() bool { return g.held.Load() >= replyRoom/2 })
	time.Sleep(300 * time.Millisecond)
	if held := g.held.Load(); held > 2*replyRoom {
		t.Errorf("%d bytes of replies are held", held)
	}
	conn.Close()
	within(t, "replies stay", func() bool { return g.held.Load() == 0 })
	made, _ := rowOf(s)
	for _, size := range []int{replyRoom, 1, 1, 1, 1, 1, 1, 1, 1, 1, 1, 1, 1, 1, 1, 1, 1} {
		made.add(made.request(nil)).answer(make([]byte, size))
		made.writeAnswers(s.ctx, 0)
	}
	if made.largest > replyRoom/4 {
		t.Errorf("after small replies a large one is of %d bytes", made.largest)
	}
	if cap(made.out) > 4*flushSize {
		t.Errorf("%d bytes are kept", cap(made.out))
	}
}

// TestReplyBytes lets a caller ask for more than fits, and read nothing. Large replies to others find no room, small
// ones do.
func TestReplyBytes(t *testing.T) {
	t.Parallel()
	s := newSite(t)
	s.limits.ReplyBytes, s.limits.Write = 450_000, 10*time.Minute
	g, address, _ := s.gateway("a")
	conn, in := s.dial(address)
	conn.(*net.TCPConn).SetReadBuffer(4096)
	fmt.Fprint(conn, strings.Repeat(large+"\n", 100))
	within(t, "no replies", func() bool { return samples(t, g)["regd_gateway_reply_bytes"] > 400_000 })
	if held := g.held.Load(); held > 460_000 {
		t.Errorf("%d bytes of replies are held", held)
	}
	s.expect("others", s.call(address, large, show), refusal(wire.Busy, 1), answered(1, 0))
	busy := 0
	for i := 0; i < 100; i++ {
		got, err := in.ReadString('\n')
		if err != nil {
			t.Fatal(err)
		}
		if strings.HasPrefix(got, `{"code":"G5",`) {
			busy++
		}
	}
	if busy == 0 || busy == 100 {
		t.Errorf("%d of 100 queries were refused", busy)
	}
	within(t, "replies stay", func() bool { return g.held.Load() == 0 })
	s.expect("afterwards", s.call(address, show), answered(1, 0))
}

// TestLargeReply asks for more than a gateway reads of one reply: the others have the room that is left.
func TestLargeReply(t *testing.T) {
	s := newSite(t)
	s.limits.ReplyBytes = 350_000 // of which each of two workers may use a quarter
	_, address, _ := s.gateway("a")
	s.expect("a large reply", s.call(address, large, show), refusal(wire.Busy, 1), answered(1, 0))
}

// TestLateReply checks that a reply which comes when its caller has left takes no room, and neither does one that had
// come before.
func TestLateReply(t *testing.T) {
	made, _ := rowOf(newSite(t), []byte("abc"))
	late := made.add(made.request(nil))
	made.unsent = 5
	made.held.Add(5)
	made.leave()
	if late.answer([]byte("abc")); made.held.Load() != 0 {
		t.Errorf("%d bytes are held", made.held.Load())
	}
}

// TestAnswerAgain checks that a reply takes no room if another one was written. Replies come again if a replica ends
// within an entry.
func TestAnswerAgain(t *testing.T) {
	reply := []byte(committed(7, 1))
	made, conn := rowOf(newSite(t), reply)
	q := made.row[0]
	if !made.writeAnswers(context.Background(), 0) || conn.text != committed(1, 1)+"\n" {
		t.Errorf("wrote %s", conn.text)
	}
	if q.answer(reply); made.held.Load() != 0 {
		t.Errorf("%d bytes are held", made.held.Load())
	}
}

// TestUnsent checks that replies are held until they are written.
func TestUnsent(t *testing.T) {
	reply := []byte(committed(7, 1))
	made, conn := rowOf(newSite(t), reply, reply)
	conn.before = func() {
		if held := made.held.Load(); held != int64(2*len(reply)) {
			t.Errorf("%d bytes are held", held)
		}
	}
	if !made.writeAnswers(context.Background(), 0) || made.held.Load() != 0 {
		t.Errorf("afterwards %d bytes are held", made.held.Load())
	}
}

// TestPressure checks that a caller that doesn't read has less time for it when replies take much room.
func TestPressure(t *testing.T) {
	t.Parallel()
	s := newSite(t)
	s.limits.Write = 20 * time.Second
	g, address, _ := s.gateway("a")
	g.held.Add(s.limits.ReplyBytes/2 + 1)
	conn, _ := s.dial(address)
	conn.(*net.TCPConn).SetReadBuffer(4096)
	begin := time.Now()
	for lines := []byte(strings.Repeat(show+"\n", 1000)); ; {
		conn.SetWriteDeadline(time.Now().Add(30 * time.Second))
		if _, err := conn.Write(lines); err != nil {
			break
		}
	}
	if took := time.Since(begin); took > s.limits.Write*3/4 || endedFor(t, g, "write") != 1 {
		t.Errorf("it was cut off after %v", took)
	}
}

// TestSlowLine sends a long line slowly: the time for it is not that for its beginning and again that for the rest.
func TestSlowLine(t *testing.T) {
	t.Parallel()
	s := newSite(t)
	s.limits.Line = 2 * time.Second
	g, address, _ := s.gateway("a")
	long := show + strings.Repeat(" ", 2*readBuffer)
	conn, in := s.dial(address)
	begin := time.Now()
	fmt.Fprint(conn, long[:10])
	time.Sleep(s.limits.Line * 3 / 4)
	fmt.Fprint(conn, long[10:readBuffer+1])
	within(t, "no slot is taken", func() bool { return len(g.long) == 1 })
	if got := ends(t, in); got != "" || endedFor(t, g, "line") != 1 {
		t.Errorf("got %s", got)
	}
	if took := time.Since(begin); took < s.limits.Line || took > s.limits.Line*3/2 {
		t.Errorf("it took %v", took)
	}
}

// TestWaitForSlot checks that the time in which a line waits for a slot is not that of its caller.
func TestWaitForSlot(t *testing.T) {
	t.Parallel()
	s := newSite(t)
	s.limits.Line, s.limits.LongLines = time.Second, 1
	g, address, _ := s.gateway("a")
	g.long <- struct{}{}
	long := show + strings.Repeat(" ", 2*readBuffer)
	conn, in := s.dial(address)
	fmt.Fprint(conn, long[:readBuffer+1])
	time.Sleep(2 * s.limits.Line)
	<-g.long
	fmt.Fprintln(conn, long[readBuffer+1:])
	if got, err := in.ReadString('\n'); got != answered(1, 0)+"\n" {
		t.Errorf("got %s, %v", got, err)
	}
}

// TestSteadyReader checks that a caller which reads all the time gets a large reply, although that takes longer than a
// caller may not read.
func TestSteadyReader(t *testing.T) {
	t.Parallel()
	s := newSite(t)
	s.limits.Write = 2 * time.Second
	inner, outer := net.Pipe()
	made := &session{Gateway: New(s.log, Options{Limits: s.limits}), conn: inner, out: make([]byte, 4*pieceSize)}
	if err := outer.SetDeadline(time.Now().Add(10 * s.limits.Write)); err != nil {
		t.Fatal(err)
	}
	written := make(chan bool, 1)
	go func() { written <- made.flush() }()
	begin, part := time.Now(), make([]byte, pieceSize/4)
	for count := 0; count < 16; count++ {
		time.Sleep(s.limits.Write / 10)
		if _, err := io.ReadFull(outer, part); err != nil {
			t.Fatalf("after %d parts: %v", count, err)
		}
	}
	if isWritten, took := <-written, time.Since(begin); !isWritten || took < s.limits.Write*3/2 {
		t.Errorf("written: %v, in %v", isWritten, took)
	}
	made.out = make([]byte, 4*pieceSize)
	if made.flush() {
		t.Error("a caller that doesn't read isn't cut off")
	}
}

// TestPart checks that a caller gets its answers although the gateway ends a connection on which lines are unread.
func TestPart(t *testing.T) {
	t.Parallel()
	s := newSite(t)
	s.limits.Answer = 200 * time.Millisecond
	g, address, _ := s.gateway("a")
	s.store.Refuse(1 << 30)
	conn, in := s.dial(address)
	fmt.Fprint(conn, show+"\n"+prune+"\n"+strings.Repeat(show+"\n", 1000))
	within(t, "it is not ended", func() bool { return endedFor(t, g, "answer") == 1 })
	if got := ends(t, in); got != answered(1, 0)+"\n" {
		t.Errorf("got %s", got)
	}
	s.store.Refuse(0)
}

// endless is a connection whose caller sends without an end after the gateway has ended its side, and counts what is
// read.
type endless struct {
	net.Conn
	read int
}

func (c *endless) CloseWrite() error { return nil }

func (c *endless) SetReadDeadline(time.Time) error { return nil }

func (c *endless) Read(to []byte) (int, error) {
	if c.read += len(to); c.read > 4*partBytes {
		return 0, io.EOF
	}
	return len(to), nil
}

// TestPartEnds checks that a caller that sends nothing, and one that doesn't stop, don't hold a connection that the
// gateway has ended.
func TestPartEnds(t *testing.T) {
	t.Parallel()
	c := &endless{}
	if part(c); c.read > 2*partBytes {
		t.Errorf("%d bytes were read", c.read)
	}
	s := newSite(t)
	on, err := net.Listen("tcp", "127.0.0.1:0")
	if err != nil {
		t.Fatal(err)
	}
	defer on.Close()
	s.dial(on.Addr().String())
	silent, err := on.Accept()
	if err != nil {
		t.Fatal(err)
	}
	time.AfterFunc(6*partTime, func() { silent.Close() })
	begin := time.Now()
	if part(silent); time.Since(begin) > 4*partTime {
		t.Errorf("it took %v", time.Since(begin))
	}
}

// TestReset checks that no change is made for a caller that has ended its connection in both directions, and that one
// that has ended one direction may wait.
func TestReset(t *testing.T) {
	s := newSite(t)
	on, err := net.Listen("tcp", "127.0.0.1:0")
	if err != nil {
		t.Fatal(err)
	}
	defer on.Close()
	outer, _ := s.dial(on.Addr().String())
	inner, err := on.Accept()
	if err != nil {
		t.Fatal(err)
	}
	defer inner.Close()
	g := New(s.log, Options{Limits: s.limits})
	standIn(g)
	queued := func() *request {
		q := (&session{Gateway: g, conn: tls.Server(&paced{Conn: inner}, nil)}).request([]byte(prune))
		g.changes <- q
		return q
	}
	outer.(*net.TCPConn).CloseWrite()
	if _, err := inner.Read(make([]byte, 1)); err != io.EOF {
		t.Fatalf("half closed: got %v", err)
	}
	queued()
	if changes := g.collect(s.ctx); len(changes) != 1 {
		t.Errorf("half closed: %d changes are made", len(changes))
	}
	outer.(*net.TCPConn).SetLinger(0)
	outer.Close()
	within(t, "it is not reset", func() bool { return isReset(inner) })
	q := queued()
	g.changes <- (&session{Gateway: g}).request([]byte(show))
	if changes := g.collect(s.ctx); len(changes) != 1 || string(changes[0].line) != show {
		t.Errorf("reset: got %d changes", len(changes))
	}
	select {
	case reply := <-q.reply:
		if reply != nil {
			t.Errorf("got %s", reply)
		}
	default:
		t.Error("the session isn't ended")
	}
	inner.Close()
	if !isReset(inner) {
		t.Error("a closed connection is not reset")
	}
}
