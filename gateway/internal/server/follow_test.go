package server

import (
	"crypto/sha256"
	"encoding/json"
	"fmt"
	"os"
	"reflect"
	"testing"
	"time"

	"regd/gateway/internal/etcd"
	"regd/gateway/internal/replica"
	"regd/gateway/internal/wire"
)

const kill = `{"ops":[{"op":"prune","hint":"KILL"}]}`

// append makes entries of one line each.
func (s *site) append(lines ...string) {
	for _, line := range lines {
		s.appendEntry(line)
	}
}

// appendEntry makes an entry, and returns where the log ends then.
func (s *site) appendEntry(lines ...string) etcd.Position {
	d := etcd.Draft{ID: wire.NewID()}
	for _, line := range lines {
		d.Lines = append(d.Lines, []byte(line))
	}
	end, err := s.log.End(s.ctx)
	if err == nil {
		end, err = s.log.Append(s.ctx, end, d)
	}
	if err != nil {
		s.t.Fatal(err)
	}
	return end
}

// entry returns an entry of the log.
func (s *site) entry(number uint64) etcd.Entry {
	value, err := s.log.Get(s.ctx, etcd.EntryKey(number))
	if err != nil {
		s.t.Fatal(err)
	}
	e, err := etcd.ReadEntry(number, value)
	if err != nil {
		s.t.Fatal(err)
	}
	return e
}

// endWith makes the log end with an entry.
func (s *site) endWith(at etcd.Position) {
	text := fmt.Sprint(at.Entry, " ", at.Time, " ", at.Name)
	if err := s.log.Put(s.ctx, "head", []byte(text)); err != nil {
		s.t.Fatal(err)
	}
}

// snapshot stores the snapshot of a book that was left by an entry, and has nothing but a commit for each entry.
func (s *site) snapshot(at etcd.Position) {
	state := replica.State{Entry: at.Entry, Name: at.Name, Time: at.Time, Place: at.Entry}
	text, err := json.Marshal(state)
	if err != nil {
		s.t.Fatal(err)
	}
	head := fmt.Sprintf(`{"Format":2,"Entry":%d,"Name":"%s","ID":"","Chunks":1,"Hash":"%x"}`, at.Entry, at.Name,
		sha256.Sum256(text))
	for key, value := range map[string]string{
		fmt.Sprintf("snapshot/%016x/00000000", at.Entry): string(text), "snapshot": head,
	} {
		if err := s.log.Put(s.ctx, key, []byte(value)); err != nil {
			s.t.Fatal(err)
		}
	}
}

// TestFailingLine appends a line that ends regd, in an entry with others. The status names it. When it is skipped, the
// gateway is ready, its caller gets G7, and the other lines are executed.
func TestFailingLine(t *testing.T) {
	t.Parallel()
	s := newSite(t)
	g, address, _ := s.gateway("a")
	s.expect("changes", s.call(address, prune, prune), committed(1, 1), committed(2, 2))
	s.store.Refuse(1 << 30)
	first := (&session{Gateway: g}).request([]byte(prune)) // the others wait until it is appended
	g.changes <- first
	within(t, "no append", func() (isUnderWay bool) {
		g.flights.Range(func(any, any) bool { isUnderWay = true; return false })
		return isUnderWay
	})
	conn, in := s.dial(address)
	fmt.Fprintln(conn, prune+"\n"+kill+"\n"+prune)
	within(t, "no changes", func() bool { return len(g.changes) == 3 })
	s.store.Refuse(0)
	failing := func() string {
		_, values := status(t, g)
		found, _ := values["failing"].(map[string]any)
		line, _ := found["line"].(string)
		return line
	}
	within(t, "no line fails", func() bool { return failing() != "" })
	line, ok := etcd.ParseLine(failing())
	if !ok || line.Number != 2 || samples(t, g)["regd_gateway_failing_entry"] != float64(line.Entry) {
		t.Errorf("got %s", failing())
	}
	s.append(prune)
	within(t, "the end of the log is not known", func() bool {
		_, values := status(t, g)
		return values["head"] == float64(line.Entry+1)
	})
	if err := s.log.Skip(s.ctx, line, "x"); err != nil {
		t.Fatal(err)
	}
	for _, want := range []string{committed(1, 4), refusal(wire.Skipped, 2), committed(2, 5)} {
		if got, err := in.ReadString('\n'); got != want+"\n" {
			t.Errorf("got %s, %v, want %s", got, err, want)
		}
	}
	s.expect("afterwards", s.call(address, prune), committed(1, 7))
	_, values := status(t, g)
	skipped, _ := values["skipped"].(map[string]any)
	if len(skipped) != 1 || skipped[line.String()] == nil || values["failing"] != nil ||
		samples(t, g)["regd_gateway_lines_skipped"] != 1 {
		t.Errorf("got %v", values)
	}
	if got := samples(t, g)["regd_gateway_failing_entry"]; got != 0 {
		t.Errorf("entry %v fails", got)
	}
}

// TestFailingLineIsFound sends many entries to regd together, one of which has a line that ends it.
func TestFailingLineIsFound(t *testing.T) {
	t.Parallel()
	s := newSite(t)
	const bad = 42
	for entry := 1; entry < bad; entry++ {
		s.append(prune)
	}
	s.append(kill, prune, prune)
	g := New(s.log,
		Options{Limits: s.limits, Replica: replica.Options{Program: os.Args[0], Domain: "ex.org", Workers: 2}})
	go g.follow(s.ctx)
	within(t, "no line fails", func() bool {
		f := g.failing(0)
		return f != nil && f.Line == etcd.Line{Entry: bad, Number: 1}
	})
	s.appendEntry(prune, prune, kill, prune)
	s.log.Skip(s.ctx, etcd.Line{Entry: bad, Number: 1}, "x")
	within(t, "no other line fails", func() bool {
		f := g.failing(bad)
		return f != nil && f.Line == etcd.Line{Entry: bad + 3, Number: 3}
	})
}

// TestSkipExecuted skips a line that two gateways have executed: both make another replica, and agree.
func TestSkipExecuted(t *testing.T) {
	t.Parallel()
	s := newSite(t)
	first, address, _ := s.gateway("a")
	second, _, fresh := s.gateway("b")
	s.append(prune, prune, prune)
	s.expect("before", s.call(fresh, show), answered(1, 3))
	if err := s.log.Skip(s.ctx, etcd.Line{Entry: 2, Number: 1}, "x"); err != nil {
		t.Fatal(err)
	}
	for _, g := range []*Gateway{first, second} {
		within(t, "the line is not skipped", func() bool {
			r, state := g.board.read()
			return r != nil && state.Entry == 4 && state.Place == 2
		})
	}
	s.expect("afterwards", s.call(address, prune), committed(1, 3))
	s.expect("elsewhere", s.call(fresh, show), answered(1, 3))
	_, one := first.board.read()
	_, two := second.board.read()
	if one != two || one.Skipped != 1 {
		t.Errorf("got %v and %v", one, two)
	}
	time.Sleep(3 * againTime)
	if got := samples(t, second)["regd_gateway_replicas_ended_total"]; got != 1 {
		t.Errorf("%v replicas ended", got)
	}
}

// TestTurnedBack takes entries away, as the restoration of a backup does: the gateway makes a replica of what is left.
func TestTurnedBack(t *testing.T) {
	s := newSite(t)
	g, address, _ := s.gateway("a")
	s.append(prune, prune, prune)
	within(t, "not all entries are executed", func() bool { _, state := g.board.read(); return state.Entry == 3 })
	s.endWith(s.entry(1).Position)
	s.log.Delete(s.ctx, etcd.EntryKey(2), etcd.EntryKey(4))
	s.store.TellWatches(`{"error":{"message":"x"}}`)
	within(t, "the replica stays", func() bool {
		r, state := g.board.read()
		return r != nil && state.Entry == 1 && state.Place == 1
	})
	s.expect("afterwards", s.call(address, prune), committed(1, 2))
}

// TestReplacedEntries replaces entries by others, as if a backup was restored and another gateway had appended more
// before this one noticed.
func TestReplacedEntries(t *testing.T) {
	t.Parallel()
	s := newSite(t)
	g, address, _ := s.gateway("a")
	s.append(prune, prune, prune)
	within(t, "not all entries are executed", func() bool { _, state := g.board.read(); return state.Entry == 3 })
	s.holdWatch(1)
	s.endWith(s.entry(1).Position)
	s.log.Delete(s.ctx, etcd.EntryKey(2), etcd.EntryKey(4))
	s.append("{", "{", "{")
	s.store.TellWatches(`{"error":{"message":"x"}}`)
	within(t, "the replica stays", func() bool {
		r, state := g.board.read()
		return r != nil && state.Entry == 4 && state.Place == 1
	})
	s.expect("afterwards", s.call(address, prune), committed(1, 2))
}

// TestSnapshotOfLostLog has a snapshot behind whose last entry etcd was restored, and another entry with its number.
func TestSnapshotOfLostLog(t *testing.T) {
	s := newSite(t)
	s.append(prune, prune, prune)
	s.snapshot(etcd.Position{Entry: 2, Name: etcd.Origin})
	g := New(s.log,
		Options{Limits: s.limits, Replica: replica.Options{Program: os.Args[0], Domain: "ex.org", Workers: 2}})
	go g.follow(s.ctx)
	within(t, "the replica stays", func() bool { return g.replicasEnded.Load() > 0 })
	if r, _ := g.board.read(); r != nil {
		t.Error("the replica is ready")
	}
}

// TestFailing checks when the status has a failing line.
func TestFailing(t *testing.T) {
	g := New(newSite(t).log, Options{})
	for _, c := range []struct {
		failure  *failure
		executed uint64
		want     bool
	}{
		{nil, 7, false}, {&failure{etcd.Line{Entry: 8, Number: 1}, 1, 9}, 7, false},
		{&failure{etcd.Line{Entry: 8, Number: 1}, 2, 9}, 7, true},
		{&failure{etcd.Line{Entry: 8, Number: 1}, 2, 9}, 8, false},
	} {
		if g.failure.Store(c.failure); (g.failing(c.executed) != nil) != c.want {
			t.Errorf("%v at entry %d: got %v", c.failure, c.executed, !c.want)
		}
	}
}

// TestEndFits checks which ends of the log show that a watch misses something.
func TestEndFits(t *testing.T) {
	came := time.Now()
	for name, c := range map[string]struct {
		end  *logEnd
		want bool
	}{
		"unknown":                {nil, true},
		"this entry":             {&logEnd{7, came.Add(time.Second)}, true},
		"a later one":            {&logEnd{8, came.Add(-time.Second)}, false},
		"an earlier one, before": {&logEnd{6, came.Add(-time.Second)}, true},
		"an earlier one, after":  {&logEnd{6, came.Add(time.Second)}, false},
	} {
		if c.end.fits(7, came) != c.want {
			t.Errorf("%s: got %v", name, !c.want)
		}
	}
}

// TestConcerns checks which entries are executed one line at a time: not those that replicas have executed.
func TestConcerns(t *testing.T) {
	f := &failure{etcd.Line{Entry: 8, Number: 1}, 1, 12}
	for entry, want := range map[uint64]bool{7: false, 8: true, 12: true, 13: false} {
		if f.concerns(entry) != want {
			t.Errorf("entry %d: got %v", entry, !want)
		}
	}
	if f = nil; f.concerns(8) {
		t.Error("an entry is concerned without a failure")
	}
}

func TestFailureAfter(t *testing.T) {
	line := func(entry uint64, number int) etcd.Line { return etcd.Line{Entry: entry, Number: number} }
	for _, c := range []struct {
		name     string
		before   *failure
		executed uint64
		at       etcd.Line
		sent     uint64
		want     *failure
	}{
		{"all was executed", nil, 7, etcd.Line{}, 7, nil},
		{"all was executed, after a failure", &failure{line(8, 2), 3, 9}, 9, line(9, 1), 9, nil},
		{"an entry ends a replica", nil, 7, etcd.Line{}, 12, &failure{line(8, 1), 1, 12}},
		{"and then a line of it", &failure{line(8, 1), 1, 12}, 7, line(8, 3), 12, &failure{line(8, 3), 1, 12}},
		{"again", &failure{line(8, 3), 1, 12}, 7, line(8, 3), 8, &failure{line(8, 3), 2, 12}},
		{"another one", &failure{line(8, 3), 2, 12}, 9, line(10, 1), 13, &failure{line(10, 1), 1, 13}},
		{"a later entry", &failure{line(8, 3), 2, 12}, 14, line(12, 1), 16, &failure{line(15, 1), 1, 16}},
	} {
		if got := c.before.after(c.executed, c.at, c.sent); !reflect.DeepEqual(got, c.want) {
			t.Errorf("%s: got %v", c.name, got)
		}
	}
}
