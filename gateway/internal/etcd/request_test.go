package etcd

import (
	"bytes"
	"context"
	"encoding/base64"
	"errors"
	"fmt"
	"io"
	"net"
	"net/http"
	"net/http/httptest"
	"net/url"
	"strings"
	"sync"
	"sync/atomic"
	"syscall"
	"testing"
	"time"

	"regd/gateway/internal/etcd/etcdtest"
)

func openLog(t *testing.T) (*etcdtest.Server, *Log, context.Context) {
	server := etcdtest.New()
	t.Cleanup(server.CloseClientConnections)
	ctx, cancel := context.WithTimeout(context.Background(), time.Minute)
	t.Cleanup(cancel)
	log := New([]string{server.URL}, "r/", nil)
	if err := log.Open(ctx, "ex.org"); err != nil {
		t.Fatal(err)
	}
	return server, log, ctx
}

// draft returns what becomes an entry of one line.
func draft(text string) Draft { return Draft{ID: text[:1], Lines: [][]byte{[]byte(text)}} }

// appended appends an entry of one line.
func appended(ctx context.Context, log *Log, text string) error {
	_, err := log.Append(ctx, Start, draft(text))
	return err
}

// shortTimes are for tests that let them pass.
var shortTimes = times{call: 300 * time.Millisecond, byte: 10 * time.Microsecond, page: 3 * time.Second,
	again: 20 * time.Millisecond, rarely: 100 * time.Millisecond}

// TestSilentMember uses another member if one accepts connections and never answers.
func TestSilentMember(t *testing.T) {
	server, _, ctx := openLog(t)
	silent, err := net.Listen("tcp", "127.0.0.1:0")
	if err != nil {
		t.Fatal(err)
	}
	defer silent.Close()
	log := New([]string{"http://" + silent.Addr().String(), server.URL}, "r/", nil)
	log.times = shortTimes
	begin := time.Now()
	for i := 0; i < 2; i++ { // it stays with the one that answers
		if had, err := log.Get(ctx, "domain"); err != nil || string(had) != "ex.org" {
			t.Errorf("got %s, %v", had, err)
		}
	}
	if took := time.Since(begin); took < log.times.call || took > 10*log.times.call {
		t.Errorf("it took %v", took)
	}
}

// TestFailuresTogether checks that requests that fail together change the member once.
func TestFailuresTogether(t *testing.T) {
	arrived, goOn := make(chan struct{}), make(chan struct{})
	bad := httptest.NewServer(http.HandlerFunc(func(w http.ResponseWriter, _ *http.Request) {
		arrived <- struct{}{}
		<-goOn
		w.WriteHeader(http.StatusServiceUnavailable)
	}))
	server, _, ctx := openLog(t)
	log := New([]string{bad.URL, server.URL}, "r/", nil)
	ended := make(chan error, 2)
	for i := 0; i < 2; i++ {
		go func() {
			ended <- log.read(ctx, log.times.page, "/v3/kv/range", object{"key": log.key("head")}, &found{})
		}()
	}
	<-arrived
	<-arrived
	close(goOn)
	for i := 0; i < 2; i++ {
		if err := <-ended; err != nil {
			t.Error(err)
		}
	}
	if failures := log.failures.Load(); failures != 1 {
		t.Errorf("%d failures", failures)
	}
}

// slow is a member that answers as a store does, after some time.
func slow(t *testing.T, store http.Handler, long time.Duration) string {
	server := httptest.NewServer(http.HandlerFunc(func(w http.ResponseWriter, r *http.Request) {
		text, err := io.ReadAll(r.Body)
		if err != nil {
			return
		}
		select {
		case <-time.After(long):
			r.Body = io.NopCloser(bytes.NewReader(text))
			store.ServeHTTP(w, r)
		case <-r.Context().Done():
		}
	}))
	t.Cleanup(server.Close)
	return server.URL
}

// TestSlowEtcd checks that requests are answered by an etcd that takes two seconds for each.
func TestSlowEtcd(t *testing.T) {
	t.Parallel()
	store, _, ctx := openLog(t)
	log := New([]string{slow(t, store.Config.Handler, 2*time.Second)}, "r/", nil)
	if head, err := log.Head(ctx); head != 0 || err != nil {
		t.Errorf("head: got %d, %v", head, err)
	}
	if last, err := log.Append(ctx, Start, draft("a")); last.Entry != 1 || err != nil {
		t.Errorf("append: got %v, %v", last, err)
	}
	if count := store.Counts().Transactions; count != 2 { // of which one has opened the log
		t.Errorf("%d transactions", count)
	}
}

// TestSlowPage checks that a page may take longer than another request, and that no request may take for ever.
func TestSlowPage(t *testing.T) {
	log := New([]string{"http://127.0.0.1:1"}, "r/", nil)
	log.times = shortTimes
	log.members = []string{slow(t, http.HandlerFunc(func(w http.ResponseWriter, _ *http.Request) {
		head := base64.StdEncoding.EncodeToString(Position{Entry: 7, Name: Origin}.text())
		const answer = `{"responses":[{"response_range":{}},{"response_range":{"kvs":[{"value":"%s"}]}}]}`
		fmt.Fprintf(w, answer, head)
	}), log.times.call*3/2)}
	_, _, ctx := openLog(t)
	if _, err := log.Follow(ctx, Start, func(uint64) {}, func(Entry) {}); !errors.Is(err, ErrCut) {
		t.Errorf("a slow page: got %v", err)
	}
	if err := log.read(ctx, log.times.call, "/", object{}, &found{}); !errors.Is(err, context.DeadlineExceeded) {
		t.Errorf("a slow answer: got %v", err)
	}
}

// TestLargePage follows a log over a slow network: pages that take too long are followed by smaller ones, and those
// that come by larger ones, so that all entries arrive.
func TestLargePage(t *testing.T) {
	t.Parallel()
	server, _, _ := openLog(t)
	ctx, cancel := context.WithTimeout(context.Background(), time.Minute)
	defer cancel()
	const last = 12
	other := New([]string{server.URL}, "r/", nil)
	for end := Start; end.Entry < last; {
		d := draft(strings.Repeat("x", 50_000))
		d.ID = fmt.Sprint(end.Entry)
		var err error
		end, err = other.Append(ctx, end, d)
		if err != nil {
			t.Fatal(err)
		}
	}
	const pageTime = 2 * time.Second
	narrow := httptest.NewServer(http.HandlerFunc(func(w http.ResponseWriter, r *http.Request) {
		answer := httptest.NewRecorder()
		server.Config.Handler.ServeHTTP(answer, r)
		text := answer.Body.Bytes()
		inTime := smaller(len(text), 5*67_000) // five entries come in the time for a page
		if _, err := w.Write(text[:inTime]); err != nil {
			return
		}
		if inTime < len(text) {
			Pause(r.Context(), 2*pageTime)
		}
	}))
	defer narrow.Close()
	log := New([]string{narrow.URL}, "r/", nil)
	log.times = shortTimes
	log.times.page = pageTime
	reading, stop := context.WithCancel(ctx)
	defer stop()
	from, taken := Start, 0
	for tries := 0; from.Entry < last && ctx.Err() == nil; tries++ {
		var err error
		from, err = log.Follow(reading, from, func(uint64) { stop() }, func(Entry) { taken++ })
		if err == nil || tries > 40 {
			t.Fatalf("after entry %d: %v", from.Entry, err)
		}
	}
	if taken != last {
		t.Errorf("%d entries came", taken)
	}
	if size := log.pageSize.Load(); size < 1 || size > 16 {
		t.Errorf("the next page has %d entries", size)
	}
}

func smaller(a, b int) int {
	if a < b {
		return a
	}
	return b
}

// TestPageSize checks how many entries the next page has: half after one that took too long, and one more after one
// that came.
func TestPageSize(t *testing.T) {
	log := New(nil, "r/", nil)
	for _, c := range []struct {
		err  error
		want int64
	}{
		{nil, pageSize}, {context.DeadlineExceeded, pageSize / 2}, {errors.New("refused"), pageSize / 2},
		{nil, pageSize/2 + 1},
		{context.DeadlineExceeded, pageSize / 4}, {context.DeadlineExceeded, 8}, {context.DeadlineExceeded, 4},
		{context.DeadlineExceeded, 2}, {context.DeadlineExceeded, 1}, {context.DeadlineExceeded, 1}, {nil, 2},
	} {
		if log.resize(log.pageSize.Load(), c.err); log.pageSize.Load() != c.want {
			t.Errorf("after %v: got %d, want %d", c.err, log.pageSize.Load(), c.want)
		}
	}
}

// TestLargeValues checks that requests with large values may take longer than others.
func TestLargeValues(t *testing.T) {
	store, _, ctx := openLog(t)
	log := New(nil, "r/", nil)
	log.times = shortTimes
	log.members = []string{slow(t, store.Config.Handler, log.times.call*3/2)}
	for name, request := range map[string]func() error{
		"an append":  func() error { return appended(ctx, log, strings.Repeat("x", 1<<20)) },
		"a piece":    func() error { return log.Put(ctx, "piece", make([]byte, 1<<19)) },
		"reading it": func() error { _, err := log.GetLarge(ctx, "piece", 1<<19); return err },
	} {
		store.Recount()
		if err := request(); err != nil || store.Counts().Requests != 1 {
			t.Errorf("%s: got %v, %v", name, store.Counts(), err)
		}
	}
}

// TestLongAnswers checks that little is read of a long error, and that a connection whose answer isn't read to its end
// is closed.
func TestLongAnswers(t *testing.T) {
	for _, status := range []int{http.StatusServiceUnavailable, http.StatusOK} {
		var open atomic.Int64
		server := httptest.NewUnstartedServer(http.HandlerFunc(func(w http.ResponseWriter, _ *http.Request) {
			w.WriteHeader(status)
			fmt.Fprint(w, "{}", strings.Repeat(" reason", 1<<20))
		}))
		server.Config.ConnState = func(_ net.Conn, state http.ConnState) {
			if state == http.StateNew {
				open.Add(1)
			} else if state == http.StateClosed {
				open.Add(-1)
			}
		}
		server.Start()
		err := New([]string{server.URL}, "r/", nil).read(context.Background(), usualTimes.page, "/",
			object{}, &found{})
		const reason = "503 Service Unavailable {} reason"
		if isError := status != http.StatusOK; (err != nil) != isError ||
			isError && (len(err.Error()) > 1000 || !strings.Contains(err.Error(), reason)) {
			t.Errorf("got %.2000v", err)
		}
		for begin := time.Now(); open.Load() != 0; time.Sleep(time.Millisecond) {
			if time.Since(begin) > 10*time.Second {
				t.Fatalf("%d: the connection stays", status)
			}
		}
		server.Close()
	}
}

// TestConnections checks that requests use connections again, also after errors, and also several at a time.
func TestConnections(t *testing.T) {
	var opened atomic.Int64
	handler := etcdtest.New()
	server := httptest.NewUnstartedServer(handler.Config.Handler)
	server.Config.ConnState = func(_ net.Conn, state http.ConnState) {
		if state == http.StateNew {
			opened.Add(1)
		}
	}
	server.Start()
	defer server.Close()
	log, ctx := New([]string{server.URL}, "r/", nil), context.Background()
	for i := 0; i < 20; i++ {
		handler.Refuse(i % 2)
		err := log.read(ctx, log.times.call, "/v3/kv/range", object{"key": log.key("head")}, &found{})
		if (err != nil) != (i%2 == 1) {
			t.Error(err)
		}
	}
	if count := opened.Load(); count > 3 { // few more than one, on a machine that is too busy to free one in time
		t.Errorf("%d connections for one request after another", count)
	}
	for round := 0; round < 10; round++ {
		var all sync.WaitGroup
		for i := 0; i < 10; i++ {
			all.Add(1)
			go func() {
				defer all.Done()
				log.Get(ctx, "head")
			}()
		}
		all.Wait()
	}
	if count := opened.Load(); count > 30 {
		t.Errorf("%d connections for 10 requests at a time", count)
	}
}

// TestPauses checks that there are pauses before a refused request is repeated, each longer than the one before.
func TestPauses(t *testing.T) {
	server, log, _ := openLog(t)
	log.times = shortTimes
	for name, request := range map[string]func(context.Context) error{
		"a query":   func(ctx context.Context) error { _, err := log.Get(ctx, "head"); return err },
		"a value":   func(ctx context.Context) error { return log.Put(ctx, "x", nil) },
		"an append": func(ctx context.Context) error { return appended(ctx, log, "a") },
	} {
		ctx, cancel := context.WithTimeout(context.Background(), 20*log.times.again)
		server.Recount()
		server.Refuse(1 << 30)
		if err := request(ctx); err != context.DeadlineExceeded {
			t.Errorf("%s: got %v", name, err)
		}
		if count := server.Counts().Requests; count < 2 || count > 10 {
			t.Errorf("%s: %d requests", name, count)
		}
		cancel()
	}
}

// TestBackoff checks that pauses double up to the longest one, that chance takes at most half of each, and that they
// begin again after a reset.
func TestBackoff(t *testing.T) {
	b, seen := Backoff{First: 100 * time.Millisecond, Most: time.Second}, map[time.Duration]bool{}
	for round := 0; round < 50; round++ {
		for _, most := range []time.Duration{100, 200, 400, 800, 1000, 1000} {
			most *= time.Millisecond
			pause := b.take()
			if seen[pause] = true; pause < most/2 || pause > most {
				t.Fatalf("got %v, want up to %v", pause, most)
			}
		}
		b.Reset()
	}
	if len(seen) < 100 {
		t.Errorf("of 300 pauses %d are different", len(seen))
	}
}

// TestFailover makes an entry by a first member that loses its answer, after which a snapshot cuts it off. Whether it
// was made can't be known, so the second member doesn't make it again.
func TestFailover(t *testing.T) {
	server, log, ctx := openLog(t)
	first := httptest.NewServer(http.HandlerFunc(func(w http.ResponseWriter, r *http.Request) {
		server.Config.Handler.ServeHTTP(httptest.NewRecorder(), r)
		if err := log.Cut(ctx, 1); err != nil {
			t.Error(err)
		}
		http.Error(w, "etcdserver: leader changed", http.StatusServiceUnavailable)
	}))
	defer first.Close()
	last, err := New([]string{first.URL, server.URL}, "r/", nil).Append(ctx, Start, draft("a"))
	if last.Entry != 1 || !errors.Is(err, ErrUnknown) {
		t.Errorf("got %v, %v", last, err)
	}
	made := 0
	for _, key := range server.Puts() {
		if strings.HasPrefix(key, "r/2/log/") {
			made++
		}
	}
	if made != 1 {
		t.Errorf("it was made %d times", made)
	}
}

// TestUnreachable checks that a connection has a limit for what the other side doesn't acknowledge, which is shorter
// than that of a request.
func TestUnreachable(t *testing.T) {
	on, err := net.Listen("tcp", "127.0.0.1:0")
	if err != nil {
		t.Fatal(err)
	}
	defer on.Close()
	conn, err := Dialer.Dial("tcp", on.Addr().String())
	if err != nil {
		t.Fatal(err)
	}
	defer conn.Close()
	raw, err := conn.(*net.TCPConn).SyscallConn()
	if err != nil {
		t.Fatal(err)
	}
	limit := 0
	var failed error
	err = raw.Control(func(descriptor uintptr) {
		limit, failed = syscall.GetsockoptInt(int(descriptor), syscall.IPPROTO_TCP, tcpUserTimeout)
	})
	if err != nil || failed != nil || limit != 3000 || Dialer.Timeout >= usualTimes.call {
		t.Errorf("got %d ms, %v, %v", limit, err, failed)
	}
}

// TestBounds checks that the log is read and cut in pieces, and that no value is read to cut it.
func TestBounds(t *testing.T) {
	server, log, ctx := openLog(t)
	const last = 1100
	for end := Start; end.Entry < last; {
		d := draft("a value")
		d.ID = fmt.Sprint(end.Entry)
		var err error
		end, err = log.Append(ctx, end, d)
		if err != nil {
			t.Fatal(err)
		}
	}
	server.Recount()
	reading, stop := context.WithCancel(ctx)
	log.Follow(reading, Start, func(uint64) { stop() }, func(Entry) {})
	if counts := server.Counts(); counts.Pairs != pageSize || counts.Requests != (last+pageSize-1)/pageSize {
		t.Errorf("reading: got %v", counts)
	}
	server.Recount()
	if err := log.Cut(ctx, last-1); err != nil {
		t.Fatal(err)
	}
	if counts := server.Counts(); counts.Deleted > 1000 || counts.Bytes > 0 || len(server.Keys()) != 5 {
		t.Errorf("cutting: got %v", counts)
	}
}

// TestEndedWatch checks that the log is not followed by a watch that etcd has ended.
func TestEndedWatch(t *testing.T) {
	for _, line := range []string{`{"result":{"canceled":true}}`, `{"error":{"message":"x"}}`, `{`} {
		server, log, ctx := openLog(t)
		seen := make(chan struct{}, 1)
		last, err := log.Follow(ctx, Start, func(uint64) {
			go func() {
				for server.Counts().Watches == 0 {
					time.Sleep(time.Millisecond)
				}
				if err := appended(ctx, log, "a"); err != nil {
					t.Error(err)
				}
				<-seen
				if line == "{" {
					server.CloseClientConnections()
				}
				server.TellWatches(line)
			}()
		}, func(Entry) { seen <- struct{}{} })
		if err == nil || ctx.Err() != nil || last.Entry != 1 {
			t.Errorf("%s: got %v, %v", line, last, err)
		}
	}
}

// TestOpenAppend loses the answer to an append whose number is taken. The entry gets another number, and if that was
// cut off, one more: since the first request was answered at last, it is known that it made nothing.
func TestOpenAppend(t *testing.T) {
	server, log, ctx := openLog(t)
	if err := appended(ctx, log, "a"); err != nil {
		t.Fatal(err)
	}
	server.LoseAnswers(1)
	server.Before(3, func() { // another gateway makes two entries and a snapshot in between
		for _, text := range []string{"b", "x"} {
			if err := appended(ctx, log, text); err != nil {
				t.Error(err)
			}
		}
		log.Cut(ctx, 2)
	})
	if last, err := log.Append(ctx, Start, draft("c")); last.Entry != 4 || err != nil {
		t.Errorf("got %v, %v", last, err)
	}
}

// TestReasons checks which failures are logged: each reason once until a request is answered, whatever addresses a
// connection had, and few of them.
func TestReasons(t *testing.T) {
	log := New(nil, "r/", nil)
	dial := func(port int) error {
		address := &net.TCPAddr{Port: port}
		return &url.Error{Err: &net.OpError{Op: "dial", Addr: address, Err: syscall.ECONNREFUSED}}
	}
	for _, c := range []struct {
		kind string
		err  error
		want bool
	}{
		{"get", dial(1), true}, {"get", dial(2), false}, {"get", errors.New("no space"), true},
		{"get", errors.New("no space"), false},
		{"append", errors.New("no space"), true}, {"get", &url.Error{Err: context.DeadlineExceeded}, true},
		{"get", fmt.Errorf("x: %w", &url.Error{URL: "a", Err: context.DeadlineExceeded}), false},
	} {
		if got := log.isNews(c.kind, reasonOf(c.err)); got != c.want {
			t.Errorf("%s: %v: got %v", c.kind, c.err, got)
		}
	}
	count := 3
	for i := 0; i < 100; i++ {
		if log.isNews("get", fmt.Sprint(i)) {
			count++
		}
	}
	if count != mostReasons {
		t.Errorf("%d reasons", count)
	}
	log.answers("get")
	if !log.isNews("get", "no space") || log.isNews("append", "no space") {
		t.Error("an answer of one kind counts for another one, or for none")
	}
}
