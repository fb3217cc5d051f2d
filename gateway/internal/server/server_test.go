package server

import (
	"bufio"
	"bytes"
	"context"
	"crypto/tls"
	"fmt"
	"io"
	"net"
	"os"
	"strings"
	"testing"
	"time"

	"regd/gateway/internal/audit"
	"regd/gateway/internal/etcd"
	"regd/gateway/internal/etcd/etcdtest"
	"regd/gateway/internal/replica"
	"regd/gateway/internal/replica/regdtest"
	"regd/gateway/internal/wire"
)

func TestMain(m *testing.M) {
	regdtest.Main()
	os.Exit(m.Run())
}

const (
	prune = `{"ops":[{"op":"prune","before":0}]}`
	show  = `{"ops":[{"op":"show"}]}`
)

// a site is an etcd in memory and gateways, each with a regd in miniature.
type site struct {
	t     *testing.T
	ctx   context.Context
	store *etcdtest.Server
	log   *etcd.Log
	// of callers for their answers
	patience time.Duration
	// of the gateways that start from now on
	limits    Limits
	address   string        // of the last one that secured started
	hang      time.Duration // of regd, or 0 for the usual one
	callers   *Certificates
	operators []string
	audit     *audit.Record
	roles     *Roles
	program   string // regd; "" for the one in miniature
	// for retained tokens, or 0 for what is usual
	tokenTime  time.Duration
	tokenBytes int64
}

func newSite(t *testing.T) *site {
	return newSiteFor(t, 40*time.Second)
}

// newSiteFor returns a site whose callers wait for a time.
func newSiteFor(t *testing.T, patience time.Duration) *site {
	store := etcdtest.New()
	t.Cleanup(store.CloseClientConnections)
	ctx, cancel := context.WithTimeout(context.Background(), patience+10*time.Second)
	t.Cleanup(cancel)
	s := &site{t: t, ctx: ctx, patience: patience, store: store, log: etcd.New([]string{store.URL}, "r/", nil),
		limits: UsualLimits}
	if err := s.log.Open(ctx, "ex.org"); err != nil {
		t.Fatal(err)
	}
	return s
}

// gateway starts a gateway, and returns it with the addresses of its two ports.
func (s *site) gateway(name string) (*Gateway, string, string) {
	program := s.program
	if program == "" {
		program = os.Args[0]
	}
	g := New(s.log, Options{
		Name: name, Program: "p", Replies: "p", Limits: s.limits, Callers: s.callers, Operators: s.operators,
		Audit: s.audit, Roles: s.roles, TokenTime: s.tokenTime, TokenBytes: s.tokenBytes,
		Replica: replica.Options{Program: program, Domain: "ex.org", Workers: 3, Hang: s.hang},
	})
	ctx, stop := context.WithCancel(s.ctx)
	var addresses []string
	ready, ended := make(chan struct{}), make(chan error, 1)
	go func() {
		ended <- g.Run(ctx, func(ctx context.Context) error {
			for _, isFresh := range []bool{false, true} {
				on, err := net.Listen("tcp", "127.0.0.1:0")
				if err != nil {
					return err
				}
				go g.Serve(ctx, small{on}, isFresh)
				addresses = append(addresses, on.Addr().String())
			}
			close(ready)
			<-ctx.Done()
			return ctx.Err()
		})
	}()
	select {
	case <-ready:
	case err := <-ended:
		s.t.Fatal(err)
	}
	s.t.Cleanup(func() { stop(); <-ended })
	return g, addresses[0], addresses[1]
}

// watches waits until gateways have made this many watches of the log.
func (s *site) watches(count int) {
	s.t.Helper()
	within(s.t, "a watch is missing", func() bool { return s.store.Counts().Watches == count })
}

// holdWatch waits until gateways have made this many watches, and lets the last one bring nothing more.
func (s *site) holdWatch(count int) {
	s.t.Helper()
	s.watches(count)
	s.store.HoldWatch()
}

// small is a listener whose connections have small buffers, so that a caller that doesn't read is noticed soon.
type small struct{ net.Listener }

func (l small) Accept() (net.Conn, error) {
	conn, err := l.Listener.Accept()
	if err == nil {
		conn.(*net.TCPConn).SetWriteBuffer(4096)
	}
	return conn, err
}

func (s *site) dial(address string) (net.Conn, *bufio.Reader) {
	conn, err := net.Dial("tcp", address)
	if err != nil {
		s.t.Fatal(err)
	}
	conn.SetDeadline(time.Now().Add(s.patience))
	s.t.Cleanup(func() { conn.Close() })
	return conn, bufio.NewReader(conn)
}

// secureTo opens a connection with TLS.
func (s *site) secureTo(address string, config *tls.Config) net.Conn {
	conn, err := tls.Dial("tcp", address, config)
	if err != nil {
		s.t.Fatal(err)
	}
	s.t.Cleanup(func() { conn.Close() })
	return conn
}

// call sends lines on a connection of their own, and returns all answers.
func (s *site) call(address string, lines ...string) []string {
	conn, in := s.dial(address)
	go func() {
		conn.Write([]byte(strings.Join(lines, "\n") + "\n"))
		conn.(*net.TCPConn).CloseWrite()
	}()
	var answers []string
	for {
		answer, err := in.ReadString('\n')
		if err != nil {
			return answers
		}
		answers = append(answers, strings.TrimSuffix(answer, "\n"))
	}
}

func committed(call, place int) string {
	return fmt.Sprintf(`{"call":%d,"place":%d,"replies":[{"pruned":["%d"]}],"result":"committed"}`,
		call, place, place)
}

func repeated(call, place int) string {
	return strings.Replace(committed(call, place), "committed", "repeated", 1)
}

func answered(call, place int) string {
	return fmt.Sprintf(`{"call":%d,"place":%d,"replies":[],"result":"answered"}`, call, place)
}

func (s *site) expect(what string, got []string, want ...string) {
	s.t.Helper()
	if strings.Join(got, "\n") != strings.Join(want, "\n") {
		s.t.Errorf("%s:\n got %s\nwant %s", what, strings.Join(got, "\n     "), strings.Join(want, "\n     "))
	}
}

// TestOrder checks that each line is answered by a book with what the lines before it made and nothing else, and the
// numbers of calls and lines.
func TestOrder(t *testing.T) {
	s := newSite(t)
	_, address, fresh := s.gateway("a")
	mixed := `{"ops":[{"op":"prune"}` + strings.Repeat(`,{"op":"children"}`, wire.MaxQueries+1) + `]}`
	lines := []string{show, prune, prune, show, show, mixed, prune, `{`, show}
	s.expect("the usual port", s.call(address, lines...), answered(1, 0), committed(2, 1), committed(3, 2),
		answered(4, 2), answered(5, 2),
		`{"code":"G2","line":6}`, committed(6, 3), `{"code":"L2","line":8}`, answered(7, 3))
	slow := `{"ops":[{"op":"show","hint":"WAIT"}]}` // a change that doesn't wait for it is committed first
	s.expect("a change after a slow query", s.call(address, slow, prune), answered(1, 3), committed(2, 4))
	s.expect("the other port", s.call(fresh, show, prune, show), answered(1, 4), committed(2, 5), answered(3, 5))
	var many, want []string
	for i := 0; i < 3*s.limits.Lines; i++ {
		many, want = append(many, prune), append(want, committed(i+1, i+6))
	}
	s.expect("many lines", s.call(address, many...), want...)
}

// TestLongLines checks that the longest lines, sent together while etcd refuses, are all answered.
func TestLongLines(t *testing.T) {
	s := newSiteFor(t, 3*time.Minute) // they take long with the race detector on a busy machine
	s.limits.Answer, s.limits.Line = time.Minute, time.Minute
	_, address, _ := s.gateway("a")
	long := prune + strings.Repeat(" ", wire.MaxLine-len(prune))
	var lines, want []string
	for i := 0; i < 5; i++ {
		lines, want = append(lines, long), append(want, committed(i+1, i+1))
	}
	s.store.Refuse(5)
	s.expect("long lines", s.call(address, append(lines, long+" ")...), append(want, `{"code":"L1","line":6}`)...)
}

func TestCutOff(t *testing.T) {
	s := newSite(t)
	_, address, _ := s.gateway("a")
	conn, in := s.dial(address)
	conn.Write([]byte(prune + "\n" + prune[:9]))
	first, _ := in.ReadString('\n') // it is answered although half a line follows
	conn.(*net.TCPConn).CloseWrite()
	second, _ := in.ReadString('\n')
	s.expect("half a line", []string{first + second}, committed(1, 1)+"\n"+`{"code":"L3","line":2}`+"\n")
}

// TestIDs checks that ids are drawn before the append, so that the log has them.
func TestIDs(t *testing.T) {
	s := newSite(t)
	_, address, _ := s.gateway("a")
	s.call(address, `{"ops":[{"op":"create"},{"op":"prune"}]}`)
	lines := s.entry(1).Lines
	if len(lines) != 1 || !bytes.HasPrefix(lines[0], []byte(`{"ops":[{"op":"create","id":"`)) ||
		len(lines[0]) != len(`{"ops":[{"op":"create"},{"op":"prune"}]}`)+44 {
		t.Errorf("the log has %s", lines)
	}
}

// TestGateways checks that two gateways execute one log, and that a query with the place of the other one waits for it.
func TestGateways(t *testing.T) {
	t.Parallel()
	s := newSite(t)
	g, first, _ := s.gateway("a")
	_, second, fresh := s.gateway("b")
	for place := 1; place < 40; place += 2 {
		s.expect("a change", s.call(first, prune), committed(1, place))
		s.expect("a fresh query", s.call(fresh, show), answered(1, place))
		s.expect("a change elsewhere", s.call(second, prune), committed(1, place+1))
		s.expect("a query with after",
			s.call(first, fmt.Sprintf(`{"ops":[{"op":"show"}],"after":%d}`, place+1)), answered(1, place+1))
	}
	begin := time.Now()
	s.expect("a query that is too early", s.call(first, `{"ops":[{"op":"show"}],"after":99}`),
		`{"call":1,"code":"W1","place":40,"result":"refused"}`)
	if took := time.Since(begin); took < s.limits.After {
		t.Errorf("it waited for %v", took)
	}
	if sum := samples(t, g)["regd_gateway_query_duration_seconds_sum"]; sum < s.limits.After.Seconds() {
		t.Errorf("all queries together took %v s", sum)
	}
	_, third, _ := s.gateway("c")
	s.expect("a gateway that comes later", s.call(third, show), answered(1, 40))
}

// TestLateWorkers lets the workers for queries see a change two seconds late. A query on the usual port may miss the
// change; a fresh one sees it.
func TestLateWorkers(t *testing.T) {
	t.Parallel()
	s := newSite(t)
	_, usual, fresh := s.gateway("a")
	s.expect("a change", s.call(usual, `{"ops":[{"op":"prune","hint":"LATE"}]}`), committed(1, 1))
	s.expect("the usual port", s.call(usual, show), answered(1, 0))
	s.expect("the fresh port", s.call(fresh, show), answered(1, 1))
	s.expect("another change", s.call(usual, `{"ops":[{"op":"prune","hint":"LATE"}]}`), committed(1, 2))
	s.expect("the fresh port, with an older after", s.call(fresh, `{"ops":[{"op":"show"}],"after":1}`),
		answered(1, 2))
	s.expect("the caller's own change", s.call(usual, `{"ops":[{"op":"prune","hint":"LATE"}]}`, show),
		committed(1, 3), answered(2, 3))
	s.expect("one more change", s.call(usual, `{"ops":[{"op":"prune","hint":"LATE"}]}`), committed(1, 4))
	s.expect("a query with after", s.call(usual, `{"ops":[{"op":"show"}],"after":4}`), answered(1, 4))
}

// TestSilentWatch holds the watch of one gateway. Its usual port doesn't see a change of another one. A fresh query
// does: the gateway notices that the watch is silent, and reads the log again.
func TestSilentWatch(t *testing.T) {
	t.Parallel()
	s := newSite(t)
	_, first, _ := s.gateway("a")
	s.watches(1)
	g, usual, fresh := s.gateway("b")
	s.expect("a change", s.call(first, prune), committed(1, 1))
	s.expect("a fresh query", s.call(fresh, show), answered(1, 1))
	s.holdWatch(2)
	before, _ := g.board.read()
	s.expect("a change that the other one doesn't see", s.call(first, prune), committed(1, 2))
	s.expect("the usual port", s.call(usual, show), answered(1, 1))
	s.expect("the fresh port", s.call(fresh, show), answered(1, 2))
	time.Sleep(silentTime / 2)
	if counts := s.store.Counts(); counts.Watches != 3 {
		t.Errorf("%d watches: those of a gateway that misses nothing stay", counts.Watches)
	}
	if after, _ := g.board.read(); after != before ||
		samples(t, g)["regd_gateway_replay_duration_seconds_count"] != 1 {
		t.Error("another replica was made")
	}
}

// TestCutLog cuts the log behind a snapshot while the watch of a gateway is held: it makes another replica from the
// snapshot.
func TestCutLog(t *testing.T) {
	t.Parallel()
	s := newSite(t)
	_, first, _ := s.gateway("a")
	s.watches(1)
	_, _, fresh := s.gateway("b")
	s.expect("a change", s.call(first, prune), committed(1, 1))
	s.expect("a fresh query", s.call(fresh, show), answered(1, 1))
	s.holdWatch(2)
	s.expect("another change", s.call(first, prune), committed(1, 2))
	s.snapshot(s.entry(2).Position)
	s.log.Cut(s.ctx, 2)
	s.expect("a fresh query after the cut", s.call(fresh, show), answered(1, 2))
}

// TestLostAppend loses answers of etcd: an entry is made once.
func TestLostAppend(t *testing.T) {
	t.Parallel()
	s := newSite(t)
	_, address, _ := s.gateway("a")
	for place := 1; place < 6; place++ {
		s.store.LoseAnswers(place % 3)
		s.expect("a change", s.call(address, prune), committed(1, place))
	}
	if head, _ := s.log.Head(s.ctx); head != 5 {
		t.Errorf("the log has %d entries", head)
	}
}

// TestUnknownAppend appends where an entry was cut off, and loses the answer: it can't be known whether that was this
// change, so it gets no answer.
func TestUnknownAppend(t *testing.T) {
	s := newSite(t)
	s.append("a")
	s.log.Cut(s.ctx, 1)
	g := New(s.log, Options{Limits: s.limits})
	standIn(g)
	go g.appendChanges(s.ctx)
	first := (&session{Gateway: g}).request([]byte(prune))
	s.store.LoseAnswers(1)
	g.changes <- first
	select {
	case reply := <-first.reply:
		if reply != nil {
			t.Errorf("got %s", reply)
		}
		g.flights.Range(func(name, _ any) bool { t.Errorf("%s is under way", name); return true })
	case <-s.ctx.Done():
		t.Fatal("no answer")
	}
	g.changes <- (&session{Gateway: g}).request([]byte(show))
	for {
		value, err := s.log.Get(s.ctx, etcd.EntryKey(2))
		if err != nil {
			t.Fatal(err)
		}
		if value != nil {
			s.expect("the next change", []string{string(s.entry(2).Lines[0])}, show)
			return
		}
	}
}

// TestNoAnswer lets etcd refuse everything. After some time the connection of a change ends, and that of a fresh query;
// other queries are answered. Of the changes whose callers have left, only the one that was being appended is made.
func TestNoAnswer(t *testing.T) {
	t.Parallel()
	s := newSite(t)
	s.limits.Answer = 300 * time.Millisecond
	g, usual, fresh := s.gateway("a")
	s.store.Refuse(1 << 30)
	begin := time.Now()
	s.expect("a change", s.call(usual, prune, show))
	s.expect("another change", s.call(usual, prune))
	s.expect("a fresh query", s.call(fresh, show))
	s.expect("a query", s.call(usual, show), answered(1, 0))
	if took := time.Since(begin); took > 15*time.Second {
		t.Errorf("the connections ended after %v", took)
	}
	s.store.Refuse(0)
	within(t, "the change that was taken isn't made", func() bool {
		_, state := g.board.read()
		return state.Place == 1
	})
	s.expect("after the change that was taken", s.call(usual, prune), committed(1, 2))
}

// TestReplicaEnds kills regd, and lets it run out of memory: queries and changes go on with another one.
func TestReplicaEnds(t *testing.T) {
	s := newSite(t)
	g, address, _ := s.gateway("a")
	conn, in := s.dial(address)
	for place := 1; place < 4; place++ {
		fmt.Fprintf(conn, "%s\n%s\n", prune, show)
		for _, want := range []string{committed(2*place-1, place), answered(2*place, place)} {
			if got, err := in.ReadString('\n'); got != want+"\n" {
				t.Fatalf("got %s, %v, want %s", got, err, want)
			}
		}
		r, _ := g.board.read()
		process, _ := os.FindProcess(r.Pid())
		process.Kill()
		if place == 2 {
			<-r.Context().Done()
		}
	}
}

// TestCallerLeft checks that a change of a caller that has left is not appended, and that others are.
func TestCallerLeft(t *testing.T) {
	s := newSite(t)
	g, address, _ := s.gateway("a")
	for _, isHere := range []bool{false, true, false} {
		q := (&session{Gateway: g}).request([]byte(prune))
		if !isHere {
			if q.leave(); q.line != nil {
				t.Error("a line that no session waits for takes memory")
			}
		}
		g.changes <- q
	}
	within(t, "no entry", func() bool { head, _ := s.log.Head(s.ctx); return head > 0 })
	s.expect("a change", s.call(address, prune), committed(1, 2))
	if got := samples(t, g)["regd_gateway_changes_dropped_total"]; got != 2 {
		t.Errorf("%v changes were dropped", got)
	}
}

// TestSlowCallers checks that a caller that never reads, and one that never begins its handshake, are cut off.
func TestSlowCallers(t *testing.T) {
	s := newSite(t)
	s.limits.Handshake, s.limits.Write = 100*time.Millisecond, 100*time.Millisecond
	g, address, _ := s.gateway("a")
	conn, _ := s.dial(address)
	conn.(*net.TCPConn).SetReadBuffer(4096)
	conn.SetWriteDeadline(time.Now().Add(20 * time.Second))
	lines := []byte(strings.Repeat(show+"\n", 1000))
	for count := 0; ; count++ {
		if _, err := conn.Write(lines); err != nil {
			break
		}
		if count == 2000 {
			t.Fatal("a caller that never reads is served")
		}
	}
	a := newAuthority(t)
	a.leaf("server")
	secure := New(s.log, Options{Callers: a.load("server"), Limits: s.limits})
	on, err := net.Listen("tcp", "127.0.0.1:0")
	if err != nil {
		t.Fatal(err)
	}
	go secure.Serve(s.ctx, on, false)
	_, in := s.dial(on.Addr().String())
	if _, err := in.ReadByte(); err != io.EOF {
		t.Errorf("a caller without a handshake: got %v", err)
	}
	within(t, "a connection stays", func() bool { return g.sessions.Load()+secure.sessions.Load() == 0 })
	const ended = "regd_gateway_connections_ended_total"
	if samples(t, g)[ended+`{reason="write"}`] != 1 || samples(t, secure)[ended+`{reason="handshake"}`] != 1 {
		t.Errorf("got %v and %v", samples(t, g), samples(t, secure))
	}
}
