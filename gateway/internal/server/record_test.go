package server

import (
	"encoding/json"
	"fmt"
	"net"
	"os"
	"path/filepath"
	"strings"
	"testing"
	"time"

	"regd/gateway/internal/audit"
	"regd/gateway/internal/etcd"
)

// recordOf returns the changes that are recorded in a file.
func recordOf(t *testing.T, path string) (changes []audit.Change) {
	t.Helper()
	text, err := os.ReadFile(path)
	if err != nil {
		t.Fatal(err)
	}
	for _, line := range strings.Split(strings.TrimSuffix(string(text), "\n"), "\n") {
		if line == "" {
			continue
		}
		var c audit.Change
		if err := json.Unmarshal([]byte(line), &c); err != nil {
			t.Fatal(err)
		}
		changes = append(changes, c)
	}
	return changes
}

// TestRecordOfChanges sends changes by an operator with a certificate: each entry has the caller and the time, and the
// record the same, with the outcomes.
func TestRecordOfChanges(t *testing.T) {
	t.Parallel()
	s := newSite(t)
	path := filepath.Join(t.TempDir(), "audit")
	record, err := audit.Open(path, 1<<20, 1)
	if err != nil {
		t.Fatal(err)
	}
	s.audit = record
	a := newAuthority(t)
	a.leaf("server")
	a.leaf("operator", "spiffe://ex.org/operator")
	s.callers, s.operators = a.load("server"), []string{"spiffe://ex.org/operator"}
	_, address, _ := s.gateway("a")
	conn, err := a.load("operator").Dial(s.ctx, "tcp", address)
	if err != nil {
		t.Fatal(err)
	}
	defer conn.Close()
	begin := audit.TimeText(time.Now().UnixMilli())
	lines := []string{prune, tokened(1), tokened(1), strings.Replace(prune, "prune", "delete", 1)}
	for _, line := range lines {
		fmt.Fprintln(conn, line)
		if _, err := conn.Read(make([]byte, 1000)); err != nil {
			t.Fatal(err)
		}
	}
	want := []audit.Change{{Place: 1, Outcome: "committed"}, {Place: 2, Outcome: "committed"},
		{Place: 2, Outcome: "repeated"}, {Place: 2, Outcome: "refused", Code: "O3"}}
	within(t, "a change is not recorded", func() bool { return len(recordOf(t, path)) == len(want) })
	for i, got := range recordOf(t, path) {
		e := s.entry(uint64(i + 1))
		want := want[i]
		want.Time, want.Entry, want.Line = audit.TimeText(e.Time), e.Entry, 1
		want.Caller = "spiffe://ex.org/operator"
		if got != want || got.Time < begin || e.Caller(0) != want.Caller {
			t.Errorf("got %v, want %v", got, want)
		}
	}
}

// tokened returns a change with a token.
func tokened(number int) string {
	return fmt.Sprintf(`{"ops":[{"op":"prune","before":0}],"token":"00000000-0000-0000-0000-%012d"}`, number)
}

// TestRecordOnce executes an entry by two replicas, of which the first one ends in its middle, and gives up another
// one: each change is recorded once, and together with those of its entry.
func TestRecordOnce(t *testing.T) {
	path := filepath.Join(t.TempDir(), "audit")
	record, err := audit.Open(path, 1<<20, 1)
	if err != nil {
		t.Fatal(err)
	}
	g := New(newSite(t).log, Options{Limits: UsualLimits, Audit: record})
	agent := &session{Gateway: g, agent: n1}
	for _, id := range []string{"first", "second"} {
		f := &flight{passed: make(chan etcd.Position, 1)}
		for i := 0; i < 3; i++ {
			f.changes = append(f.changes, agent.request([]byte(prune)))
		}
		g.flights.Store(id, f)
	}
	draft := etcd.Draft{ID: "first", Callers: []string{n1}, By: []int{0, 0, 0}}
	first := etcd.Entry{Position: etcd.Position{Entry: 7, Time: 1000}, Draft: draft}
	for _, line := range []int{0, 1, 0, 1, 2} {
		if got := recordOf(t, path); len(got) != 0 {
			t.Errorf("before line %d: recorded %v", line, got)
		}
		g.answer(first, line, []byte(fmt.Sprintf(`{"call":1,"place":%d,"result":"committed"}`, line+1)))
	}
	if _, isOpen := g.flights.Load("first"); isOpen {
		t.Error("an entry that is answered takes memory")
	}
	draft.ID = "second"
	second := etcd.Entry{Position: etcd.Position{Entry: 8, Time: 1000}, Draft: draft}
	g.answer(second, 0, []byte(`{"call":1,"place":9,"result":"committed"}`))
	g.giveUp("second")
	g.answer(second, 1, []byte(`{"call":1,"place":10,"result":"committed"}`))
	var got []string
	for _, c := range recordOf(t, path) {
		if c.Caller != n1 || c.Time == "" {
			t.Errorf("recorded %v", c)
		}
		got = append(got, fmt.Sprint(c.Entry, ".", c.Line, " ", c.Place, " ", c.Outcome))
	}
	want := "7.1 1 committed, 7.2 2 committed, 7.3 3 committed, 8.1 9 committed, 0.2 0 unknown, 0.3 0 unknown"
	if strings.Join(got, ", ") != want {
		t.Errorf("recorded %q", got)
	}
}

// TestDraft checks that an entry names each of its callers once.
func TestDraft(t *testing.T) {
	inner, _ := net.Pipe()
	defer inner.Close()
	var changes []*request
	for _, agent := range []string{n1, n2, n1, ""} {
		changes = append(changes, (&session{agent: agent, conn: inner}).request([]byte("from "+agent)))
	}
	d := draftOf(changes)
	if len(d.Callers) != 3 || len(d.Lines) != 4 {
		t.Errorf("got %v", d)
	}
	for line, want := range []string{n1, n2, n1, ""} {
		if d.Caller(line) != want || string(d.Lines[line]) != "from "+want {
			t.Errorf("line %d is that of %s", line, d.Caller(line))
		}
	}
}
