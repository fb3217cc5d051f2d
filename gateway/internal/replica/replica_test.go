package replica

import (
	"context"
	"fmt"
	"net"
	"os"
	"strings"
	"sync"
	"sync/atomic"
	"syscall"
	"testing"
	"time"

	"regd/gateway/internal/replica/regdtest"
	"regd/gateway/internal/wire"
)

func TestMain(m *testing.M) {
	regdtest.Main()
	os.Exit(m.Run())
}

// start returns a replica over a regd in miniature, and the states that it reports.
func start(t *testing.T) (*Replica, func() []State) { return startWith(t, Options{}) }

func startWith(t *testing.T, options Options) (*Replica, func() []State) {
	options.Program, options.Domain, options.Workers = os.Args[0], "ex.org", 3
	var mu sync.Mutex
	var states []State
	r, err := Start(context.Background(), options, func(s State) {
		mu.Lock()
		states = append(states, s)
		mu.Unlock()
	})
	if err != nil {
		t.Fatal(err)
	}
	t.Cleanup(r.Close)
	return r, func() []State {
		mu.Lock()
		defer mu.Unlock()
		return append([]State{}, states...)
	}
}

const prune, show = `{"ops":[{"op":"prune","before":0}]}`, `{"ops":[{"op":"show"}]}`

func tokened(number int, before int) string {
	return fmt.Sprintf(`{"ops":[{"op":"prune","before":%d}],"token":"00000000-0000-0000-0000-%012d"}`,
		before, number)
}

// apply executes lines as one entry and returns the tails of the replies.
func apply(t *testing.T, r *Replica, entry uint64, lines ...string) []string {
	var all [][]byte
	for _, line := range lines {
		all = append(all, []byte(line))
	}
	tails := make([]string, len(lines))
	r.Apply(Entry{Number: entry, Name: fmt.Sprint(entry), Lines: all}, nil, func(number int, reply []byte) {
		tails[number] = string(wire.Tail(reply))
	})
	r.Settle()
	return tails
}

func committed(place int) string {
	return fmt.Sprintf(`"place":%d,"replies":[{"pruned":["%d"]}],"result":"committed"}`, place, place)
}

func answered(call int) string {
	return fmt.Sprintf(`{"call":%d,"place":0,"replies":[],"result":"answered"}`, call)
}

func repeated(place int) string {
	return strings.Replace(committed(place), `"committed"`, `"repeated"`, 1)
}

func TestApply(t *testing.T) {
	r, states := start(t)
	apply(t, r, 1, prune, prune)
	apply(t, r, 2, `{"ops":[]}`)
	got := states()
	if len(got) != 2 || got[0].Entry != 1 || got[0].Place != 2 || got[1].Entry != 2 || got[1].Name != "2" ||
		got[1].Place != 2 {
		t.Errorf("got %v", got)
	}
	if got[0].Sum != got[1].Sum || got[0].Sum == (State{}).Sum {
		t.Error("a query makes a difference to the checksum, or changes make none")
	}
	other, _ := start(t)
	apply(t, other, 1, prune)
	apply(t, other, 2, prune, `{"ops":[]}`)
	if other.State().Sum != r.State().Sum {
		t.Error("the same lines in other entries have another checksum")
	}
	apply(t, other, 3, `{"ops":[{"op":"page","hint":"O8"}]}`)
	if other.State().Sum != r.State().Sum {
		t.Error("a page of an earlier book makes a difference to the checksum, " +
			"and a replica that begins with a snapshot doesn't have that book")
	}
	apply(t, other, 3, `{`)
	if other.State().Sum == r.State().Sum {
		t.Error("a refused line makes no difference to the checksum")
	}
	apply(t, r, 3, prune, `{`)
	apply(t, other, 4, prune, `{`)
	if other.State().Sum == r.State().Sum {
		t.Error("a reply makes no difference to the checksum when others follow")
	}
}

func TestTokens(t *testing.T) {
	r, _ := start(t)
	for _, c := range []struct{ name, line, want string }{
		{"the first", tokened(1, 0), committed(1)},
		{"again", tokened(1, 0), repeated(1)},
		{"another batch", tokened(1, 5), `"code":"O9","place":1,"result":"refused"}`},
		{"too early", strings.Replace(tokened(1, 0), "{", `{"after":2,`, 1),
			`"code":"W1","place":1,"result":"refused"}`},
		{"too early and another batch", strings.Replace(tokened(1, 5), "{", `{"after":2,`, 1),
			`"code":"W1","place":1,"result":"refused"}`},
		{"malformed", strings.Replace(tokened(1, 0), `"before"`, `"hint":"L5","before"`, 1), `{"code":"L5"`},
		{"another token", tokened(2, 0), committed(2)},
		{"in time", strings.Replace(tokened(1, 0), "{", `{"after":2,`, 1), repeated(1)},
		{"a refused batch", strings.Replace(tokened(3, 0), "prune", "delete", 1),
			`"code":"O3","op":0,"place":2,"result":"refused"}`},
		{"its token", tokened(3, 0), committed(3)},
		{"that again", tokened(3, 0), repeated(3)},
	} {
		if got := apply(t, r, 1, c.line)[0]; got != c.want {
			t.Errorf("%s: got %s, want %s", c.name, got, c.want)
		}
	}
	// so that it is under way when it comes again
	slow := strings.Replace(tokened(4, 0), `"before"`, `"hint":"SLOW","before"`, 1)
	got := apply(t, r, 2, slow, slow, prune, tokened(4, 1))
	want := []string{committed(4), repeated(4), committed(5), `"code":"O9","place":5,"result":"refused"}`}
	if strings.Join(got, "\n") != strings.Join(want, "\n") {
		t.Errorf("in one entry: got %q", got)
	}
	got = apply(t, r, 3, strings.Replace(tokened(5, 0), "prune", "delete", 1), tokened(5, 0))
	if got[1] != committed(6) {
		t.Errorf("after a refused batch in one entry: got %q", got)
	}
}

func TestRestore(t *testing.T) {
	r, _ := start(t)
	apply(t, r, 1, tokened(1, 0), prune, tokened(2, 0))
	other, _ := start(t)
	// and two lines that change nothing
	if err := other.Restore(r.State(), []string{prune}, r.Tokens()); err != nil || other.State() != r.State() {
		t.Fatalf("got %v, %v", other.State(), err)
	}
	for _, line := range []string{tokened(1, 0), tokened(2, 0), tokened(2, 9), prune} {
		if first, second := apply(t, r, 2, line)[0], apply(t, other, 2, line)[0]; first != second {
			t.Errorf("%s: got %s, want %s", line, second, first)
		}
	}
	if r.State() != other.State() {
		t.Errorf("got %v, want %v", other.State(), r.State())
	}
	third, _ := start(t)
	if err := third.Restore(State{Place: 2}, []string{prune, `{"ops":[]}`}, nil); err == nil {
		t.Error("a line of a snapshot that is not committed is no error")
	}
}

// TestReplicaSkips checks that a line which is left out is answered after those before it, and not at all if regd has
// ended.
func TestReplicaSkips(t *testing.T) {
	r, states := start(t)
	slow, kill := []byte(`{"ops":[{"op":"prune","hint":"SLOW"}]}`), []byte(`{"ops":[{"op":"prune","hint":"KILL"}]}`)
	var got []string
	skipped := func(numbers ...int) func(int) bool {
		return func(number int) bool {
			for _, one := range numbers {
				if one == number {
					return true
				}
			}
			return false
		}
	}
	answer := func(number int, reply []byte) {
		got = append(got, fmt.Sprint(number, " ", string(wire.Tail(reply))))
	}
	r.Apply(Entry{Number: 1, Name: "e", Lines: [][]byte{slow, kill, slow, kill}}, skipped(1, 3), answer)
	want := []string{"0 " + committed(1), `1 {"code":"G7"`, "2 " + committed(2), `3 {"code":"G7"`}
	if strings.Join(got, "\n") != strings.Join(want, "\n") {
		t.Errorf("got %q", got)
	}
	if all := states(); len(all) != 1 || all[0].Entry != 1 || all[0].Skipped != 2 || all[0].Place != 2 {
		t.Errorf("got %v", all)
	}
	got = nil
	r.Apply(Entry{Number: 2, Name: "e", Lines: [][]byte{slow, kill, slow}}, skipped(2), answer)
	if !r.HasEnded() || len(got) != 1 || len(states()) != 1 {
		t.Errorf("after the end: got %q, %v", got, states())
	}
}

// TestLeaves checks that no change is answered after one for which regd had no memory, nor after a repeated one.
func TestLeaves(t *testing.T) {
	for _, code := range []string{"L6", "L7", "L8"} {
		for _, line := range []string{`{"ops":[{"op":"prune","hint":"L6"}]}`,
			strings.Replace(tokened(1, 0), `"before"`, `"hint":"L6","before"`, 1)} {
			line = strings.Replace(line, "L6", code, 1)
			r, states := start(t)
			got := apply(t, r, 1, tokened(1, 0), line, prune)
			if got[0] != committed(1) || got[1] != "" || got[2] != "" || len(states()) != 0 {
				t.Errorf("%s: got %q, %v", line, got, states())
			}
			ends(t, r)
		}
	}
}

// ends waits for the end of a replica.
func ends(t *testing.T, r *Replica) {
	t.Helper()
	select {
	case <-r.Context().Done():
	case <-time.After(10 * time.Second):
		t.Fatal("the replica goes on")
	}
}

// waits waits until a condition holds.
func waits(t *testing.T, what string, condition func() bool) {
	t.Helper()
	for begin := time.Now(); !condition(); time.Sleep(time.Millisecond) {
		if time.Since(begin) > 10*time.Second {
			t.Fatal(what)
		}
	}
}

// TestClose checks that Close waits for a reply that is being passed on. So an ended replica reports nothing while
// there is another one.
func TestClose(t *testing.T) {
	begun, goOn := make(chan struct{}), make(chan struct{})
	r, err := Start(context.Background(), Options{Program: os.Args[0], Domain: "ex.org", Workers: 2}, func(State) {
		close(begun)
		<-goOn
	})
	if err != nil {
		t.Fatal(err)
	}
	r.Apply(Entry{Number: 1, Name: "e", Lines: [][]byte{[]byte(prune)}}, nil, func(int, []byte) {})
	<-begun
	closed := make(chan struct{})
	go func() {
		r.Close()
		close(closed)
	}()
	waits(t, "regd stays", func() bool { return syscall.Kill(r.Pid(), 0) != nil }) // nor does a zombie stay
	select {
	case <-closed:
		t.Error("Close did not wait")
	case <-time.After(200 * time.Millisecond):
	}
	close(goOn)
	<-closed
	if r.Context().Err() == nil {
		t.Error("the context goes on")
	}
}

// TestContext checks that regd ends with the context.
func TestContext(t *testing.T) {
	ctx, stop := context.WithCancel(context.Background())
	r, err := Start(ctx, Options{Program: os.Args[0], Domain: "ex.org", Workers: 2}, nil)
	if err != nil {
		t.Fatal(err)
	}
	stop()
	waits(t, "regd stays", func() bool { return syscall.Kill(r.Pid(), 0) != nil })
}

// TestOpenChanges lets regd hang: no more than mostOpen changes are sent to it.
func TestOpenChanges(t *testing.T) {
	r, _ := start(t)
	sent := func() int {
		r.links[0].mu.Lock()
		defer r.links[0].mu.Unlock()
		return len(r.links[0].waiting)
	}
	lines := [][]byte{[]byte(`{"ops":[{"op":"prune","hint":"HANG"}]}`)}
	for len(lines) < mostOpen+100 {
		lines = append(lines, []byte(`{}`))
	}
	done := make(chan struct{})
	go func() {
		r.Apply(Entry{Number: 1, Name: "e", Lines: lines}, nil, func(int, []byte) {})
		close(done)
	}()
	waits(t, "too few changes are open", func() bool { return sent() >= mostOpen })
	time.Sleep(100 * time.Millisecond)
	if count := sent(); count != mostOpen {
		t.Errorf("%d changes are open", count)
	}
	r.Close()
	<-done // the others are not answered either
	r.Settle()
}

// TestQueries sends different queries over one connection at the same time: each gets its own reply. Other numbers get
// another worker.
func TestQueries(t *testing.T) {
	r, _ := start(t)
	var all sync.WaitGroup
	for line, want := range map[string]string{`{"ops":[]}`: `"place":0,"replies":[],"result":"answered"}`,
		`{`: `{"code":"L2"`} {
		for i := 0; i < 4; i++ {
			all.Add(1)
			go func(line, want string) {
				defer all.Done()
				for i := 0; i < 500; i++ {
					if got := string(wire.Tail(r.Ask([]byte(line)))); got != want {
						t.Errorf("%s: got %s", line, got)
						return
					}
				}
			}(line, want)
		}
	}
	all.Wait()
	for number := 0; number < 2; number++ {
		r.Query(number, []byte(`{"ops":[{"op":"show","hint":"HANG"}]}`), func([]byte) {})
	}
	for number, l := range r.links {
		l.mu.Lock()
		if want := (number + 1) / 2; len(l.waiting) != want { // none for the one for changes
			t.Errorf("connection %d: %d queries wait", number, len(l.waiting))
		}
		l.mu.Unlock()
	}
}

// TestReplyBound checks that a large reply to a query is refused, and that of a change is not.
func TestReplyBound(t *testing.T) {
	r, _ := startWith(t, Options{ReplyBytes: 100_000})
	large := []byte(`{"ops":[{"op":"show","hint":"LARGE"}]}`)
	for _, line := range []string{string(large), `{"ops":[]}`, string(large)} {
		got := string(r.Ask([]byte(line)))
		if (got == string(wire.Refusal(wire.Busy))) != strings.Contains(line, "LARGE") {
			t.Errorf("got %.100s", got)
		}
	}
	r.Apply(Entry{Number: 1, Name: "e", Lines: [][]byte{large}}, nil, func(_ int, reply []byte) {
		if len(reply) < 100_000 {
			t.Errorf("a line of the log: got %s", reply)
		}
	})
	r.Settle()
	unbound, _ := start(t)
	if got := unbound.Ask(large); len(got) < 100_000 {
		t.Errorf("without a bound: got %s", got)
	}
}

// TestReplyCutOff checks that a reply without its end is none, and that what waited for one can be freed.
func TestReplyCutOff(t *testing.T) {
	inner, outer := net.Pipe()
	first := string(wire.Refused("W1", 0))
	first = strings.Replace(first, "0", "1", 1)
	go func() { outer.Write([]byte(first + "\n{")); outer.Close() }()
	var got []string
	note := func(reply []byte) { got = append(got, string(reply)) }
	waiting := []func([]byte){note, note}
	err := (&link{conn: inner, hang: time.Minute, most: 100, waiting: waiting}).read()
	if err == nil || len(got) != 2 || got[0] != first || got[1] != "" {
		t.Errorf("got %q, %v", got, err)
	}
	if waiting[0] != nil {
		t.Error("what waited for a reply stays in memory")
	}
}

// TestReplyToNothing checks that a reply to no line ends a connection.
func TestReplyToNothing(t *testing.T) {
	inner, outer := net.Pipe()
	go outer.Write([]byte(`{"code":"L2","line":1}` + "\n"))
	if err := (&link{conn: inner, most: 100}).read(); err != net.ErrClosed {
		t.Errorf("got %v", err)
	}
}

// TestReplyOrder checks that a reply has the number of the next call or of its line, and what may follow one for which
// regd had no memory.
func TestReplyOrder(t *testing.T) {
	call := func(number int) string {
		return fmt.Sprintf(`{"call":%d,"place":1,"replies":[],"result":"answered"}`, number)
	}
	line := func(code string, number int) string { return fmt.Sprintf(`{"code":"%s","line":%d}`, code, number) }
	for _, c := range []struct {
		name    string
		replies []string // "" for one that was too long to be kept
		isWrong bool     // the last one
	}{
		{"calls", []string{call(1), call(2), call(3)}, false},
		{"a refused line", []string{call(1), line("L2", 2), call(2), line("U1", 4)}, false},
		{"a missing call", []string{call(1), call(3)}, true},
		{"a call that comes again", []string{call(1), call(2), call(2)}, true},
		{"the first call", []string{call(2)}, true},
		{"an earlier line", []string{call(1), line("L2", 1)}, true},
		{"a later line", []string{call(1), line("L2", 3)}, true},
		{"no number", []string{"{}"}, true},
		{"no JSON", []string{"x"}, true},
		{"a long reply", []string{call(1), "", call(3), line("L2", 4)}, false},
		{"a long reply that counts", []string{call(1), "", call(2)}, true},
		{"a line without memory that took no call", []string{call(1), line("L6", 2), call(2), call(3)}, false},
		{"one that took a call", []string{call(1), line("L6", 2), call(3), call(4)}, false},
		{"one that took two", []string{call(1), line("L6", 2), call(4)}, true},
		{"three of them", []string{line("L6", 1), line("L7", 2), line("L8", 3), call(4), call(5)}, false},
		{"after one of them nothing is unsure", []string{line("L6", 1), call(1), call(3)}, true},
		{"no call is taken again after one", []string{call(1), line("L6", 2), call(1)}, true},
		{"a refused line takes no call", []string{line("L5", 1), call(2)}, true},
	} {
		var o order
		for i, reply := range c.replies {
			var err error
			if reply == "" {
				o.skip()
			} else {
				err = o.check([]byte(reply))
			}
			if (err != nil) != (c.isWrong && i == len(c.replies)-1) {
				t.Errorf("%s: reply %d: got %v", c.name, i+1, err)
			}
		}
	}
}

// TestShiftedReplies lets regd drop, double and swap a reply. The replica ends at the next reply, and no line gets the
// reply to another one.
func TestShiftedReplies(t *testing.T) {
	for _, hint := range []string{"DROP", "TWICE", "SWAP"} {
		for _, isChange := range []bool{false, true} {
			r, _ := start(t)
			wrong := `{"ops":[{"op":"show","hint":"` + hint + `"}]}`
			lines := []string{wrong, show, show}
			got := make(chan string, len(lines))
			if isChange {
				var all [][]byte
				for _, line := range lines {
					all = append(all, []byte(line))
				}
				e := Entry{Number: 1, Name: "e", Lines: all}
				r.Apply(e, nil, func(_ int, reply []byte) { got <- string(reply) })
			} else {
				for _, line := range lines {
					r.Query(0, []byte(line), func(reply []byte) { got <- string(reply) })
				}
			}
			ends(t, r)
			r.Close() // waits for the last reply
			close(got)
			call := 2 // the first one was that of the start
			for reply := range got {
				if strings.Contains(reply, `"call":`) && (hint == "DROP" || reply != answered(call)) {
					t.Errorf("%s: got %s", hint, reply)
				}
				call++
			}
		}
	}
}

// TestLateReplyToQuery lets a query take longer than a reply may. It is refused, and the replica goes on. A query
// behind it is given back, and others go to another worker, also that again. When no worker is left, a query is
// refused; and a worker whose reply has come is asked again.
func TestLateReplyToQuery(t *testing.T) {
	const hang = time.Second
	var late atomic.Int64
	r, _ := startWith(t, Options{Hang: hang, OnLate: func() { late.Add(1) }})
	slow := []byte(`{"ops":[{"op":"show","hint":"HALT"}]}`)
	ask := func(number int, line string) chan string {
		got := make(chan string, 1)
		r.Query(number, []byte(line), func(reply []byte) { got <- string(reply) })
		return got
	}
	front, behind := ask(0, string(slow)), ask(0, show)
	if got := <-front; got != string(wire.Refusal(wire.Busy)) {
		t.Errorf("the late query: got %s", got)
	}
	if got := <-behind; got != "" {
		t.Errorf("the one behind it: got %s", got)
	}
	if got := <-ask(0, show); got != answered(2) { // by the other worker
		t.Errorf("another one: got %s", got)
	}
	if got := <-ask(1, string(slow)); got != string(wire.Refusal(wire.Busy)) {
		t.Errorf("another late query: got %s", got)
	}
	for number := 0; number < 2; number++ {
		if got := <-ask(number, show); got != string(wire.Refusal(wire.Busy)) {
			t.Errorf("while no worker is left: got %s", got)
		}
	}
	if got := apply(t, r, 1, prune); got[0] != committed(1) {
		t.Errorf("a change: got %q", got)
	}
	waits(t, "late replies do not come", func() bool { return !r.links[1].isLate() && !r.links[2].isLate() })
	if got := <-ask(0, show); !strings.HasPrefix(got, `{"call":4,`) { // after the late one and that behind it
		t.Errorf("afterwards: got %s", got)
	}
	if r.Context().Err() != nil || late.Load() < 2 {
		t.Errorf("%v, %d late replies", r.Context().Err(), late.Load())
	}
}

func TestEnd(t *testing.T) {
	r, _ := start(t)
	got := make(chan []byte, 2)
	r.Query(0, []byte(`{"ops":[]}`), func(reply []byte) { got <- reply })
	if reply := <-got; !strings.Contains(string(reply), `"answered"`) {
		t.Errorf("got %s", reply)
	}
	// the first one may be the reason
	for _, line := range []string{`{"ops":[{"op":"show","hint":"KILL"}]}`, show} {
		r.Query(1, []byte(line), func(reply []byte) { got <- reply })
	}
	for _, want := range []string{string(wire.Refusal(wire.Busy)), ""} {
		if reply := <-got; string(reply) != want {
			t.Errorf("got %s, want %s", reply, want)
		}
	}
	<-r.Context().Done()
	r.Close() // waits until all connections are closed
	r.Query(0, []byte(`{}`), func(reply []byte) { got <- reply })
	first := Entry{Number: 1, Name: "e", Lines: [][]byte{[]byte(prune)}}
	r.Apply(first, nil, func(int, []byte) { t.Error("answered") })
	if reply := <-got; reply != nil {
		t.Errorf("got %s", reply)
	}
}

// TestHang checks that a replica ends if regd owes the reply to a change for too long, and neither if regd is slow nor
// if nothing is asked. It also ends if a query finds that regd hangs.
func TestHang(t *testing.T) {
	const hang = 800 * time.Millisecond
	late := func() { t.Error("a reply is late, and there was no query") }
	r, _ := startWith(t, Options{Hang: hang, OnLate: late})
	for place := 1; place <= 10; place++ {
		slow := []byte(`{"ops":[{"op":"prune","hint":"SLOW"}]}`)
		r.Apply(Entry{Number: 1, Name: "e", Lines: [][]byte{slow}}, nil, func(int, []byte) {})
	}
	r.Settle()
	time.Sleep(hang * 3 / 2)
	if got := apply(t, r, 2, prune); got[0] != committed(11) {
		t.Fatalf("got %q", got)
	}
	hung := [][]byte{[]byte(`{"ops":[{"op":"prune","hint":"HANG"}]}`)}
	r.Apply(Entry{Number: 3, Name: "e", Lines: hung}, nil, func(int, []byte) { t.Error("answered") })
	ends(t, r)
	other, _ := startWith(t, Options{Hang: hang})
	got := make(chan []byte, 1)
	syscall.Kill(other.Pid(), syscall.SIGSTOP)
	waits(t, "regd doesn't stop", func() bool {
		state, _ := os.ReadFile(fmt.Sprintf("/proc/%d/stat", other.Pid()))
		return strings.Contains(string(state), ") T ")
	})
	other.Query(0, []byte(show), func(reply []byte) { got <- reply })
	if reply := <-got; string(reply) != string(wire.Refusal(wire.Busy)) {
		t.Errorf("got %s", reply)
	}
	ends(t, other)
}

// TestHungStart checks that a regd that never listens is ended.
func TestHungStart(t *testing.T) {
	ctx, stop := context.WithTimeout(context.Background(), 10*time.Second)
	defer stop()
	hung := Options{Program: os.Args[0], Domain: "hung.org", Workers: 2, Hang: 300 * time.Millisecond}
	if r, err := Start(ctx, hung, nil); err == nil || ctx.Err() != nil {
		t.Errorf("got %v, %v", r, err)
	}
}

func TestStartFails(t *testing.T) {
	for _, options := range []Options{{Program: "/nonexistent", Domain: "ex.org", Workers: 2},
		{Program: "/bin/true", Domain: "ex.org", Workers: 2},
		{Program: os.Args[0], Domain: "shared.org", Workers: 2}} {
		if r, err := Start(context.Background(), options, nil); err == nil {
			r.Close()
			t.Errorf("%v started", options)
		}
	}
	for _, command := range []string{"exec %s \"$@\"", "echo listening; exec sleep 60; %s"} {
		program, pid := script(t, command)
		shared := Options{Program: program, Domain: "shared.org", Workers: 2}
		if _, err := Start(context.Background(), shared, nil); err == nil {
			t.Errorf("%s started", command)
		}
		waits(t, "regd stays", func() bool { return syscall.Kill(pid(), 0) != nil })
	}
}

// script returns a script that runs this program, and what returns the number of its process.
func script(t *testing.T, command string) (string, func() int) {
	folder := t.TempDir()
	text := fmt.Sprintf("#!/bin/sh\necho $$ > %s/pid\n"+command+"\nexit 0\n", folder, os.Args[0])
	if err := os.WriteFile(folder+"/regd", []byte(text), 0o700); err != nil {
		t.Fatal(err)
	}
	return folder + "/regd", func() (number int) {
		written, _ := os.ReadFile(folder + "/pid")
		fmt.Sscan(string(written), &number)
		return number
	}
}

// TestWrapper checks that Close ends the connections to a regd that is not the process which was started, so that regd
// ends too.
func TestWrapper(t *testing.T) {
	program, pid := script(t, "%s \"$@\"")
	r, err := Start(context.Background(), Options{Program: program, Domain: "ex.org", Workers: 2}, nil)
	if err != nil {
		t.Fatal(err)
	}
	if pid() != r.Pid() {
		t.Errorf("the process is %d and not %d", r.Pid(), pid())
	}
	closed := make(chan struct{})
	go func() {
		r.Close()
		close(closed)
	}()
	select {
	case <-closed:
	case <-time.After(10 * time.Second):
		t.Error("Close waits")
	}
}
