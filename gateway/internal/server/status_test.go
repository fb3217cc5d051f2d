package server

import (
	"bufio"
	"encoding/json"
	"errors"
	"fmt"
	"net"
	"net/http/httptest"
	"reflect"
	"strconv"
	"strings"
	"syscall"
	"testing"
	"time"

	"regd/gateway/internal/etcd"
	"regd/gateway/internal/metrics"
	"regd/gateway/internal/wire"
)

// get returns the answer of a gateway to a request for its state.
func get(g *Gateway, path string) *httptest.ResponseRecorder {
	answer := httptest.NewRecorder()
	g.Handler().ServeHTTP(answer, httptest.NewRequest("GET", path, nil))
	return answer
}

// status returns the code and the values of a gateway's status.
func status(t *testing.T, g *Gateway) (int, map[string]any) {
	t.Helper()
	answer := get(g, "/status")
	var values map[string]any
	if err := json.Unmarshal(answer.Body.Bytes(), &values); err != nil ||
		answer.Header().Get("Content-Type") != "application/json" {
		t.Fatalf("got %v, %v", answer, err)
	}
	return answer.Code, values
}

// heard lets a gateway have heard of the end of the log some time ago.
func (g *Gateway) heard(head uint64, ago time.Duration) {
	g.hear(head)
	g.heardAfter.Add(-int64(ago))
}

func TestStatus(t *testing.T) {
	t.Parallel()
	s := newSite(t)
	g, address, _ := s.gateway("a")
	s.call(address, prune)
	s.call(address, `{"ops":[{"op":"prune"}],"token":"00000000-0000-0000-0000-000000000001"}`)
	s.dial(address)
	g.isDisputed.Store(true)
	within(t, "no connection", func() bool { return g.sessions.Load() == 1 })
	within(t, "the log doesn't end at the head", func() bool {
		_, values := status(t, g)
		return values["head"] == 2.0
	})
	g.heard(5, 0)
	r, state := g.board.read()
	code, values := status(t, g)
	silent, _ := values["silent"].(float64)
	delete(values, "silent")
	want := map[string]any{"name": "a", "program": "p", "ready": true, "disputed": true,
		"entry": float64(state.Entry), "place": 2.0,
		"sum": fmt.Sprintf("%x", state.Sum), "head": 5.0, "lag": 3.0, "sessions": 1.0, "regd": float64(r.Pid()),
		"tokens":   1.0,
		"stopping": false, "lost": false, "unverified": nil, "skipped": map[string]any{}, "failing": nil,
		"etcd": []any{map[string]any{"url": s.store.URL, "bytes": 1048576.0, "used": 4096.0,
			"quota": 2097152.0}}}
	if code != 200 || !reflect.DeepEqual(values, want) || silent > 5 {
		t.Errorf("got %d, %v", code, values)
	}
	if lag := g.lag(9); lag != 0 {
		t.Errorf("a gateway that is ahead lags by %d", lag)
	}
	code, values = status(t, New(s.log, Options{Limits: s.limits}))
	if code != 503 || values["ready"] != false || values["disputed"] != false || values["silent"].(float64) > 1 ||
		values["lag"] != 0.0 {
		t.Errorf("without a replica: got %d, %v", code, values)
	}
}

// TestSilent checks that the status says for how long etcd has not answered.
func TestSilent(t *testing.T) {
	t.Parallel()
	s := newSite(t)
	g, _, _ := s.gateway("a")
	silent := func() float64 { _, values := status(t, g); return values["silent"].(float64) }
	s.store.Refuse(1 << 30)
	within(t, "etcd is silent", func() bool { return silent() >= 3 })
	s.store.Refuse(0)
	within(t, "etcd is not silent", func() bool { return silent() < 3 })
}

// TestReady checks what a balancer learns: a gateway that etcd doesn't answer is ready for queries alone.
func TestReady(t *testing.T) {
	s := newSite(t)
	g, _, _ := s.gateway("a")
	codes := func(g *Gateway) [2]int { return [2]int{get(g, "/ready").Code, get(g, "/ready/changes").Code} }
	if got := codes(g); got != [2]int{200, 200} {
		t.Errorf("got %v", got)
	}
	s.store.Refuse(1 << 30)
	g.heard(0, 2*silentLimit)
	if got := codes(g); got != [2]int{200, 503} {
		t.Errorf("while etcd is silent: got %v", got)
	}
	s.store.Refuse(0)
	if got := codes(New(s.log, Options{})); got != [2]int{503, 503} {
		t.Errorf("without a replica: got %v", got)
	}
}

// TestOutdated checks that a gateway to which etcd doesn't answer for too long refuses the queries of its usual port,
// and is not ready.
func TestOutdated(t *testing.T) {
	t.Parallel()
	s := newSite(t)
	s.limits.Silent = 2 * time.Second
	g, usual, _ := s.gateway("a")
	isRefused := func() bool { return strings.Join(s.call(usual, show), "") == refusal(wire.Outdated, 1) }
	s.expect("at first", s.call(usual, show), answered(1, 0))
	s.store.Refuse(1 << 30)
	within(t, "queries are answered", isRefused)
	if code, values := status(t, g); code != 503 || values["ready"] != false || get(g, "/ready").Code != 503 {
		t.Errorf("got %d, %v", code, values)
	}
	if got := samples(t, g)[`regd_gateway_refusals_total{code="G8"}`]; got < 1 {
		t.Errorf("%v refusals", got)
	}
	s.store.Refuse(0)
	within(t, "queries are refused", func() bool { return !isRefused() })
	if code := get(g, "/ready").Code; code != 200 {
		t.Errorf("afterwards: got %d", code)
	}
	g.options.Limits.Silent = 0
	if g.heard(0, time.Hour); get(g, "/ready").Code != 200 {
		t.Error("there is a limit although it is 0")
	}
}

// TestLag holds the watch of a gateway while another one appends: the first one refuses queries while it is too far
// behind, and only then. Changes and fresh queries wait.
func TestLag(t *testing.T) {
	t.Parallel()
	s := newSite(t)
	_, first, _ := s.gateway("a")
	s.watches(1)
	s.limits.Lag = 2
	g, usual, fresh := s.gateway("b")
	s.expect("changes", s.call(first, prune), committed(1, 1))
	s.expect("a fresh query", s.call(fresh, show), answered(1, 1))
	s.holdWatch(2)
	for place := 2; place <= 4; place++ {
		if place == 4 {
			within(t, "the end of the log is not known", func() bool { return g.head.Load() == 3 })
			s.expect("not far behind", s.call(usual, show), answered(1, 1))
		}
		s.expect("a change", s.call(first, prune), committed(1, place))
	}
	within(t, "queries are answered", func() bool { return g.isOutdated(1) })
	s.expect("far behind", s.call(usual, show, show), refusal(wire.Outdated, 1), refusal(wire.Outdated, 2))
	s.expect("a fresh query far behind", s.call(fresh, show), answered(1, 4))
	s.expect("afterwards", s.call(usual, show), answered(1, 4))
	if g.options.Limits.Lag = 0; g.isOutdated(0) {
		t.Error("there is a limit although it is 0")
	}
}

// TestOutdatedFresh checks that fresh queries are answered also while those of the usual port are refused: they ask
// etcd themselves.
func TestOutdatedFresh(t *testing.T) {
	t.Parallel()
	s := newSite(t)
	s.limits.Silent = time.Nanosecond
	_, usual, fresh := s.gateway("a")
	s.expect("a query", s.call(usual, show), refusal(wire.Outdated, 1))
	s.expect("a fresh query", s.call(fresh, show), answered(1, 0))
}

// TestOutdatedReplay checks that a query waits while there is no replica, however much of the log isn't executed.
func TestOutdatedReplay(t *testing.T) {
	s := newSite(t)
	made, conn := rowOf(s)
	made.isChanging = false
	made.heard(1<<40, time.Hour)
	if !made.query(s.ctx, []byte(show)) || len(made.row) != 1 || conn.text != "" {
		t.Errorf("%d queries wait, wrote %s", len(made.row), conn.text)
	}
	if q := made.row[0]; q.line == nil {
		t.Error("it is refused")
	}
}

// samples returns the values of a gateway's metrics.
func samples(t *testing.T, g *Gateway) map[string]float64 {
	t.Helper()
	answer := get(g, "/metrics")
	if answer.Code != 200 || answer.Header().Get("Content-Type") != metrics.ContentType {
		t.Fatalf("got %v", answer)
	}
	all := map[string]float64{}
	for _, line := range strings.Split(strings.TrimSpace(answer.Body.String()), "\n") {
		if words := strings.Fields(line); words[1] == "TYPE" &&
			(words[3] == "counter") != strings.HasSuffix(words[2], "_total") {
			t.Errorf("the name and the type don't agree: %s", line)
		}
		if name, value, _ := strings.Cut(line, " "); name != "#" {
			number, err := strconv.ParseFloat(value, 64)
			if err != nil || !strings.HasPrefix(name, "regd_gateway_") {
				t.Errorf("got the line %s", line)
			}
			all[name] = number
		}
	}
	return all
}

func TestMetrics(t *testing.T) {
	t.Parallel()
	s := newSite(t)
	s.limits.Members = 10 * time.Millisecond
	g, address, _ := s.gateway("a")
	s.call(address, prune, prune, show, "{", `{"ops":[{"op":"delete"}]}`)
	conn, _ := s.dial(address)
	within(t, "no connection", func() bool { return g.sessions.Load() == 1 })
	s.store.Alarm("NOSPACE", "CORRUPT")
	within(t, "no alarm", func() bool { return samples(t, g)["regd_gateway_etcd_alarms"] == 2 })
	head, err := s.log.Head(s.ctx) // changes that are sent together are one entry or several
	if err != nil {
		t.Fatal(err)
	}
	within(t, "not all entries are executed", func() bool {
		_, state := g.board.read()
		return state.Entry == head
	})
	within(t, "the log doesn't end at the head", func() bool { return g.head.Load() == head })
	_, state := g.board.read()
	g.heard(state.Entry+4, 7*time.Second)
	g.isDisputed.Store(true)
	got := samples(t, g)
	for name, want := range map[string]float64{
		`info{name="a",program="p"}`: 1, "ready": 1, "disputed": 1, "connections": 1, "connections_total": 2,
		"change_duration_seconds_count": 3, "query_duration_seconds_count": 2, `refusals_total{code="L2"}`: 1,
		`refusals_total{code="O3"}`: 1,
		`refusals_total{code="G5"}`: 0, `connections_ended_total{reason="idle"}`: 0,
		"append_duration_seconds_count": float64(state.Entry), "changes_waiting": 0, "reply_bytes": 0,
		"changes_dropped_total": 0,
		"log_entry":             float64(state.Entry), "log_lag_entries": 4, "commit_number": 2,
		"replay_duration_seconds_count": 1, "replicas_ended_total": 0, "failing_entry": 0, "lines_skipped": 0,
		"etcd_failures_total": 0, "etcd_members": 1, "etcd_members_healthy": 1, "etcd_database_bytes": 1 << 20,
		"etcd_quota_bytes": 1 << 21,
	} {
		if value, ok := got["regd_gateway_"+name]; !ok || value != want {
			t.Errorf("%s: got %v", name, value)
		}
	}
	if silent := got["regd_gateway_log_silent_seconds"]; silent < 6 || silent > 9 {
		t.Errorf("silent for %v", silent)
	}
	conn.Close()
	within(t, "the connection stays", func() bool { return samples(t, g)["regd_gateway_connections"] == 0 })
	s.store.Refuse(1 << 30)
	within(t, "no failures", func() bool { return samples(t, g)["regd_gateway_etcd_failures_total"] > 0 })
	s.store.Refuse(0)
	r, _ := g.board.read()
	r.Close()
	within(t, "no other replica", func() bool {
		return samples(t, g)["regd_gateway_replay_duration_seconds_count"] == 2
	})
	if got := samples(t, g); got["regd_gateway_replicas_ended_total"] != 1 || got["regd_gateway_ready"] != 1 {
		t.Errorf("got %v", got)
	}
}

// TestExpiry checks the metrics of certificates.
func TestExpiry(t *testing.T) {
	s, a := newSite(t), newAuthority(t)
	a.leaf("server")
	a.long = 9 * time.Hour
	a.leaf("client")
	got := samples(t, New(s.log, Options{Callers: a.load("server"), Etcd: a.load("client")}))
	for name, hours := range map[string]float64{"": 1, "etcd_": 9} {
		left := got["regd_gateway_"+name+"certificate_expiry_timestamp_seconds"] - float64(time.Now().Unix())
		if left > hours*3600 || left < hours*3600-60 {
			t.Errorf("%scertificate: it expires in %v seconds", name, left)
		}
	}
}

// TestEnded checks that the reasons are counted for which the gateway ends connections.
func TestEnded(t *testing.T) {
	s := newSite(t)
	s.limits.Answer = 100 * time.Millisecond
	g, address, _ := s.gateway("a")
	s.store.Refuse(1 << 30)
	s.expect("a change", s.call(address, prune))
	if got := samples(t, g); got[`regd_gateway_connections_ended_total{reason="answer"}`] != 1 {
		t.Errorf("got %v", got)
	}
	s.store.Refuse(0)
}

// TestMembersDown checks the metrics of an etcd of which one member is down.
func TestMembersDown(t *testing.T) {
	var p metrics.Page
	addMembers(&p, "x_",
		[]etcd.Member{{Bytes: 5, Quota: 9}, {Bytes: 7, Quota: 8, Alarms: []string{"a"}}, {Error: "down"}})
	for _, want := range []string{"x_members 3", "x_members_healthy 2", "x_database_bytes 7", "x_quota_bytes 8",
		"x_alarms 1"} {
		if !strings.Contains(p.String(), "\n"+want+"\n") {
			t.Errorf("%s is missing in %s", want, p.String())
		}
	}
}

// TestStatusConnections checks that few connections for the state are accepted, another one when one of them ends, and
// all of them after errors of the listener.
func TestStatusConnections(t *testing.T) {
	s := newSite(t)
	s.limits.StatusConnections = 2
	on, err := net.Listen("tcp", "127.0.0.1:0")
	if err != nil {
		t.Fatal(err)
	}
	defer on.Close()
	listener := &busy{Listener: on}
	go New(s.log, Options{Limits: s.limits}).ServeStatus(listener)
	ask := func() (net.Conn, *bufio.Reader) {
		conn, in := s.dial(on.Addr().String())
		conn.SetDeadline(time.Now().Add(s.patience / 4))
		fmt.Fprint(conn, "GET /ready HTTP/1.1\r\nHost: g\r\n\r\n")
		return conn, in
	}
	answers := func(in *bufio.Reader) {
		t.Helper()
		if line, err := in.ReadString('\n'); !strings.Contains(line, " 503 ") {
			t.Fatalf("got %q, %v", line, err)
		}
	}
	for round := 0; round < 3; round++ { // so that places are given back
		first, one := ask()
		second, two := ask()
		answers(one)
		answers(two)
		third, in := ask()
		third.SetReadDeadline(time.Now().Add(200 * time.Millisecond))
		if line, err := in.ReadString('\n'); err == nil {
			t.Errorf("a third one is answered: %s", line)
		}
		third.SetReadDeadline(time.Now().Add(s.patience / 4))
		first.Close()
		answers(in)
		second.Close()
		third.Close()
	}
}

// busy is a listener that has no free descriptor at first.
type busy struct {
	net.Listener
	calls int
}

func (b *busy) Accept() (net.Conn, error) {
	b.calls++
	if b.calls <= 3 {
		return nil, &net.OpError{Op: "accept", Err: syscall.EMFILE}
	}
	return b.Listener.Accept()
}

// TestStatusLimits checks that half a request for the state, and answers that aren't read, end their connections.
func TestStatusLimits(t *testing.T) {
	t.Parallel()
	s := newSite(t)
	s.limits.Status = 300 * time.Millisecond
	on, err := net.Listen("tcp", "127.0.0.1:0")
	if err != nil {
		t.Fatal(err)
	}
	defer on.Close()
	go New(s.log, Options{Limits: s.limits}).ServeStatus(small{on})
	half, in := s.dial(on.Addr().String())
	half.SetDeadline(time.Now().Add(3 * time.Second))
	fmt.Fprint(half, "GET /ready HTTP/1.1\r\n")
	ends(t, in)
	silent, _ := s.dial(on.Addr().String())
	silent.SetDeadline(time.Now().Add(5 * time.Second))
	for err == nil {
		_, err = fmt.Fprint(silent, strings.Repeat("GET /metrics HTTP/1.1\r\nHost: g\r\n\r\n", 1000))
	}
	if late := net.Error(nil); errors.As(err, &late) && late.Timeout() {
		t.Error("a connection with unread answers doesn't end")
	}
}
