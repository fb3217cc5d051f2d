package main

import (
	"encoding/json"
	"fmt"
	"os"
	"path/filepath"
	"strings"
	"testing"

	"regd/gateway/book"
	"regd/gateway/client"
	"regd/gateway/desired"
	"regd/gateway/internal/booktest"
)

// A stand is a server in memory with a folder of files.
type stand struct {
	*testing.T
	*booktest.Server
	model  *booktest.Model
	folder string
}

// newStand starts a server of ex.org.
func newStand(t *testing.T, isOld bool) *stand {
	t.Helper()
	m := booktest.New("ex.org")
	m.IsOld = isOld
	return &stand{t, booktest.Serve(t, m), m, t.TempDir()}
}

// file writes a file, and returns its name.
func (s *stand) file(name, text string) string {
	s.Helper()
	path := filepath.Join(s.folder, name)
	if err := os.WriteFile(path, []byte(text), 0o600); err != nil {
		s.Fatal(err)
	}
	return path
}

// do runs a command line, whose words are divided by spaces; @ is the folder, and % the @ of an address.
func (s *stand) do(line string) result {
	s.Helper()
	env := []string{"REGDCTL_ADDRESS=" + s.Address, "REGDCTL_DOMAIN=ex.org", "REGDCTL_TIMEOUT=10s"}
	return ctl(s.T, "", env, split(strings.NewReplacer("@", s.folder, "%", "@").Replace(line))...)
}

// expect runs a command line, and compares its status and what it prints. @ is the folder in both.
func (s *stand) expect(line string, status int, out string) {
	s.Helper()
	got := s.do(line)
	if printed := strings.ReplaceAll(got.out, s.folder, "@"); got.status != status || printed != out {
		s.Errorf("%s: status %d\n%s%s", line, got.status, printed, got.errs)
	}
}

// change sends operations of another client.
func (s *stand) change(ops string) {
	s.Helper()
	s.Do(func(m *booktest.Model) {
		if answer := m.Answer(`{"ops":[` + ops + `]}`); !strings.Contains(answer, "committed") {
			s.Fatal(answer)
		}
	})
}

const (
	prodHead = "regdctl: 1\ndomain: ex.org\nset: prod\n"
	prod     = prodHead + `
agents:
  - {id: /spire/agent/a, selectors: [host:a, rack:1]}
  - {id: /spire/agent/b, selectors: [host:b, rack:1]}
bundles: [{domain: partner.org, file: partner.json}]
aliases:
  - {identity: /node/rack-1, selectors: [rack:1]}
entries:
  - {identity: /web, parent: /node/rack-1, selectors: [unix:uid:1000]}
  - {identity: /migrate, parent: /node/rack-1, selectors: [unix:uid:1002]}
`
)

// later is prod with one change of each kind.
var later = strings.NewReplacer("[host:b, rack:1]", "[host:b, rack:2]", "[unix:uid:1000]", "[unix:uid:1000], hint: www",
	"{identity: /migrate, parent: /node/rack-1, selectors: [unix:uid:1002]}",
	"{identity: /api, parent: /node/rack-11, selectors: [unix:uid:1003]}").Replace(prod)

// applied starts a server with the set prod.
func applied(t *testing.T, isOld bool) *stand {
	s := newStand(t, isOld)
	s.file("partner.json", `{"keys":[]}`)
	s.file("prod.yaml", prod)
	s.file("later.yaml", later)
	if got := s.do("apply -yes -by me @/prod.yaml"); got.status != 0 || !strings.HasSuffix(got.out,
		"applied on exactly the book that was planned, 0; the book is now 1\n") {
		t.Fatalf("%v", got)
	}
	return s
}

func idOf(row string) string {
	return desired.Set{Domain: "ex.org", Name: "prod"}.ID("row spiffe://ex.org" + strings.Replace(row, " ",
		" spiffe://ex.org", 1))
}

// TestPlanCommand plans, stores the plan, applies it, and finds nothing afterwards.
func TestPlanCommand(t *testing.T) {
	for _, isOld := range []bool{false, true} {
		s := applied(t, isOld)
		s.expect("plan @/prod.yaml", 0, "book of ex.org at commit 1, set prod: 3 entries\n"+
			"no changes: 3 entries as the files have them\n"+map[bool]string{true: otherAgents +
			"\n"}[isOld])
		notes, count := "", 6
		if isOld {
			notes = otherAgents + "\nthis server doesn't know expect_agent and expect_bundle: an agent " +
				"or a bundle that " +
				"another client changes before `apply` is overwritten, and `apply` says so\n"
		}
		s.do("plan -out @/plan @/later.yaml")
		s.expect("plan @/later.yaml", 4, "book of ex.org at commit 1, set prod: 3 entries\n"+
			"  ~ agent   /spire/agent/b  host:b rack:1 -> host:b rack:2\n"+
			"  ~ entry   /web  "+idOf("/node/rack-1 /web")+"  revision 0\n        hint           \"\" -> "+
			"\"www\"\n"+
			"  + entry   /api  below /node/rack-11\n"+
			"  - entry   /migrate  "+idOf("/node/rack-1 /migrate")+"  revision 0\n"+
			"access:\n  /spire/agent/a  -/migrate\n  /spire/agent/b  -/migrate  -/node/rack-1  -/web\n"+
			"new findings:\n  orphan  /api  "+idOf("/node/rack-11 /api")+
			"  nothing has its parent's SPIFFE ID /node/rack-11; near: /node/rack-1\n"+
			fmt.Sprintf("plan %s: 4 changes, 1 entry unchanged, 1 batch of %d operations\n",
				s.stored("plan").ID, count)+
			notes)
		s.expect("apply @/plan", 0, "batch 1 of 1: committed at 2 (6 operations)\n"+
			"applied on exactly the book that was planned, 1; the book is now 2\n")
		s.expect("apply @/plan", 0, "batch 1 of 1: committed at 2, made before (6 operations)\n"+
			"applied on exactly the book that was planned, 1; the book is now 2\n")
		if got := s.do("plan @/later.yaml"); got.status != 0 {
			t.Errorf("%v", got)
		}
	}
}

// stored reads a plan of a file.
func (s *stand) stored(name string) *desired.Plan {
	s.Helper()
	text, err := os.ReadFile(filepath.Join(s.folder, name))
	if err != nil {
		s.Fatal(err)
	}
	p, isPlan := desired.ReadPlan(text)
	if !isPlan {
		s.Fatalf("%s", text)
	}
	return p
}

// TestPlanStatuses checks how commands end that can't plan or apply.
func TestPlanStatuses(t *testing.T) {
	s := applied(t, false)
	s.change(`{"op":"create","id":"24bbb05c-58d9-4fc7-bdb2-747061ad2046","parent":"spiffe://ex.org/node/rack-1",` +
		`"identity":"spiffe://ex.org/mail","selectors":["unix:uid:1004"]}`)
	s.file("hand.yaml", prod+"  - {identity: /mail, parent: /node/rack-1, selectors: [unix:uid:1004]}\n")
	s.file("assert.yaml", later+"assert: [{agent: /spire/agent/b, serves: [/web]}]\n")
	s.file("fault.yaml", "regdctl: 1\nset: &x a\n")
	s.file("other.yaml", strings.Replace(prod, "ex.org", "b.org", 1))
	for line, want := range map[string]struct {
		status int
		errs   string
	}{
		"plan":                {2, "an argument is missing"},
		"apply":               {2, "an argument is missing"},
		"plan @/fault.yaml":   {2, "@/fault.yaml:2: an anchor, &x"},
		"plan @/missing.yaml": {1, "no such file"},
		"plan @/other.yaml": {2, "@/other.yaml:2: the domain is b.org here, and ex.org " +
			"elsewhere"},
		"plan @/hand.yaml":        {1, "entries that the plan wants are there with other ids"},
		"apply -yes @/hand.yaml":  {1, "entries that the plan wants are there with other ids"},
		"plan -adopt @/hand.yaml": {4, ""},
		"plan @/assert.yaml": {2, "spiffe://ex.org/spire/agent/b would not serve " +
			"spiffe://ex.org/web"},
		"apply -yes @/assert.yaml":         {2, "would not serve"},
		"apply @/later.yaml":               {2, "no terminal to ask"},
		"apply -yes -dry-run @/later.yaml": {0, ""},
		"apply -yes @/prod.yaml":           {0, ""},
	} {
		got := s.do(line)
		if errs := strings.ReplaceAll(got.errs, s.folder, "@"); got.status != want.status ||
			!strings.Contains(errs, want.errs) {
			t.Errorf("%s: %v", line, got)
		}
	}
	if got := s.do("plan @/later.yaml -by " + strings.Repeat("x", 129)); got.status != 2 {
		t.Errorf("%v", got)
	}
	if got := s.do("apply -dry-run @/later.yaml"); !strings.HasSuffix(got.out,
		"would be accepted on commit 2; nothing was changed\n") {
		t.Errorf("%v", got)
	}
	if place := s.model.Place; place != 2 {
		t.Errorf("something was changed: %d", place)
	}
	if got := s.do("apply -yes -adopt @/hand.yaml"); got.status != 0 || len(s.model.Entries) != 5 {
		t.Errorf("%v", got)
	}
}

// TestFolders reads all files of a folder as one state, and standard input.
func TestFolders(t *testing.T) {
	s := newStand(t, false)
	s.file("a.yaml", prodHead)
	s.file("b.yml", "regdctl: 1\nentries: [{identity: /web, parent: /p, selectors: [x:1]}]")
	s.file("c.json", "not read")
	if got := s.do("plan @"); got.status != 4 || !strings.Contains(got.out, "+ entry   /web  below /p\n") {
		t.Errorf("%v", got)
	}
	if got := s.do("plan " + t.TempDir()); got.status != 2 || !strings.Contains(got.errs, "has no file *.yaml") {
		t.Errorf("%v", got)
	}
	got := ctl(t, prodHead+"entries: [{identity: /web, parent: /p, selectors: [x:1]}]",
		[]string{"REGDCTL_ADDRESS=" + s.Address}, "plan", "-", "-output", "json")
	var read desired.Plan
	if err := json.Unmarshal([]byte(got.out), &read); err != nil || got.status != 4 || read.Rows[0].Sign != "+" {
		t.Errorf("%v, %v", got, err)
	}
}

// TestApplyMoved applies stored plans to a book that others have changed meanwhile.
func TestApplyMoved(t *testing.T) {
	s := applied(t, false)
	s.do("plan -out @/plan @/later.yaml")
	s.change(`{"op":"set_agent","agent":"spiffe://ex.org/spire/agent/z","selectors":[]}`)
	s.expect("apply @/plan", 0, "batch 1 of 1: committed at 3 (6 operations)\n"+
		"applied on exactly the book that was planned, 2; the book is now 3\n")
	s.do("plan -out @/back @/prod.yaml")
	s.change(fmt.Sprintf(`{"op":"update","id":"%s","parent":"spiffe://ex.org/node/rack-1",`+
		`"identity":"spiffe://ex.org/web","selectors":["unix:uid:1000"],"hint":"other"}`,
		idOf("/node/rack-1 /web")))
	got := s.do("apply @/back")
	if got.status != 3 || !strings.Contains(got.errs, `"other" -> ""`) || s.model.Place != 4 {
		t.Errorf("%v", got)
	}
	s.change(fmt.Sprintf(`{"op":"delete","id":"%s"}`, idOf("/node/rack-11 /api"))) // and so it is by hand
	s.file("same.yaml", strings.NewReplacer("  - {identity: /api, parent: /node/rack-11, selectors: "+
		"[unix:uid:1003]}\n", "",
		"www", "other").Replace(later))
	s.do("plan -out @/same @/same.yaml") // no changes, so there is nothing to store
	if got := s.do("apply -yes @/same.yaml"); got.status != 0 || !strings.HasPrefix(got.out,
		"book of ex.org at commit 5") {
		t.Errorf("%v", got)
	}
}

// TestApplyRaces changes the book right before a batch arrives: what the batch has read is refused, and what an older
// server can't refuse is reported.
func TestApplyRaces(t *testing.T) {
	s := applied(t, false)
	s.Before(func(_ int, line string) bool {
		if strings.Contains(line, `"op":"set_agent"`) {
			s.Before(nil)
			s.change(`{"op":"set_agent","agent":"spiffe://ex.org/spire/agent/b","selectors":["other:1"]}`)
		}
		return false
	})
	if got := s.do("apply -yes @/later.yaml"); got.status != 3 || !strings.Contains(got.errs,
		"refused: O10 in operation 1") ||
		s.model.Place != 2 {
		t.Errorf("%v", got)
	}
	s = applied(t, true)
	s.file("later.yaml", strings.Replace(later, "partner.json", "other.json", 1))
	s.file("other.json", `{"keys":[1]}`)
	s.Before(func(_ int, line string) bool {
		if strings.Contains(line, `"op":"drop_agent"`) {
			s.Before(nil)
			s.change(`{"op":"set_agent","agent":"spiffe://ex.org/spire/agent/b","selectors":["other:1"]}`)
			s.change(`{"op":"set_bundle","domain":"partner.org","text":"other"}`)
		}
		return false
	})
	got := s.do("apply -yes @/later.yaml")
	if want := "batch 1 of 1: committed at 4 (7 operations)\n" +
		"  ! partner.org had sequence 2 and not sequence 1: the change of another client is replaced\n" +
		"  ! /spire/agent/b had other:1 and not host:b rack:1: the change of another client is replaced\n" +
		"    undo: regdctl agent set -spiffeID /spire/agent/b -selector other:1\n" +
		"applied; commits of others came between: 2 3\n"; got.status != 0 || !strings.HasSuffix(got.out, want) {
		t.Errorf("%v", got)
	}
}

// TestApplyResumes repeats a plan of several batches of which some are made: by their tokens, and by the marker if the
// server has forgotten the tokens.
func TestApplyResumes(t *testing.T) {
	text := prodHead + "entries:\n"
	for i := 0; i < 200; i++ {
		text += fmt.Sprintf("  - {parent: /p, identity: /i/%d, selectors: [x:1]}\n", i)
	}
	for _, isForgotten := range []bool{false, true} {
		s := newStand(t, false)
		s.file("many.yaml", text)
		if got := s.do("plan -out @/plan @/many.yaml"); got.status != 4 ||
			!strings.Contains(got.out, "4 batches: each is atomic, and they are not as a whole\n") {
			t.Fatalf("%v", got)
		}
		for _, batch := range s.stored("plan").Batches[:2] {
			line, err := client.Print(map[string]any{"ops": batch.Ops, "token": batch.Token})
			if err != nil {
				t.Fatal(err)
			}
			s.Do(func(m *booktest.Model) {
				if isForgotten {
					line = []byte(strings.Replace(string(line), `,"token":"`+batch.Token+`"`,
						"", 1))
				}
				m.Answer(string(line))
			})
		}
		want := "batch 1 of 4: committed at 1, made before (64 operations)\n" +
			"batch 2 of 4: committed at 2, made before (64 operations)\n"
		if isForgotten {
			want = ""
		}
		s.expect("apply @/plan", 0, want+"batch 3 of 4: committed at 3 (64 operations)\n"+
			"batch 4 of 4: committed at 4 (12 operations)\n"+
			end(isForgotten))
		s.expect("plan @/many.yaml", 0, "book of ex.org at commit 4, set prod: 200 entries\n"+
			"no changes: 200 entries as the files have them\n")
	}
}

// end returns the last line of an application that was resumed.
func end(isForgotten bool) string {
	if isForgotten {
		return "applied; commits of others came between: 1 2\n"
	}
	return "applied on exactly the book that was planned, 0; the book is now 4\n"
}

// TestApplyCut loses the answer to each batch: it is sent again, and made once.
func TestApplyCut(t *testing.T) {
	s := newStand(t, false)
	s.file("partner.json", `{"keys":[]}`)
	s.file("prod.yaml", prod)
	cuts := 0
	s.Before(func(number int, line string) bool {
		isCut := strings.Contains(line, `"token"`) && cuts < 3
		if isCut {
			cuts++
		}
		return isCut
	})
	if got := s.do("apply -yes @/prod.yaml"); got.status != 0 || cuts != 3 || s.model.Place != 1 ||
		!strings.Contains(got.out, "committed at 1, made before") {
		t.Errorf("%v, place %d", got, s.model.Place)
	}
}

// TestExport exports a set, and the whole book: planned, they have no changes; applied to an empty server, they make
// the same book.
func TestExport(t *testing.T) {
	s := applied(t, false)
	named := prod + "  - {name: second, identity: /web, parent: /node/rack-1, selectors: ['unix:path:a b'], " +
		"expiry: 7, " +
		"x509_svid_ttl: 60, domains: [partner.org]}\n"
	s.file("named.yaml", named)
	if got := s.do("apply -yes @/named.yaml"); got.status != 0 {
		t.Fatalf("%v", got)
	}
	exported := s.do("export -set prod")
	want := prodHead + "aliases:\n  - identity: /node/rack-1\n    selectors:\n      - rack:1\nentries:\n"
	if exported.status != 0 || !strings.HasPrefix(exported.out, want) || !strings.Contains(exported.out,
		"  - id: ") ||
		strings.Contains(exported.out, "regdctl/set") {
		t.Errorf("%v", exported)
	}
	s.file("exported.yaml", exported.out)
	if got := s.do("plan @/exported.yaml"); got.status != 0 {
		t.Errorf("%v", got)
	}
	for _, format := range []string{"yaml", "json"} {
		whole := s.do("export -as prod -output " + format)
		other := newStand(t, false)
		other.file("whole.yaml", whole.out)
		if got := other.do("apply -yes @/whole.yaml"); got.status != 0 {
			t.Errorf("%v", got)
		}
		if got := other.do("export -as prod -output " + format); got.out != whole.out || got.status != 0 {
			t.Errorf("got %s, want %s", got.out, whole.out)
		}
	}
	if got := s.do("export -format zip"); got.status != 2 {
		t.Errorf("%v", got)
	}
}

// TestMarkers checks that markers are no findings of their own, and that a plan which stopped is one.
func TestMarkers(t *testing.T) {
	s := applied(t, false)
	if got := s.do("check"); strings.Contains(got.out, "regdctl/set") {
		t.Errorf("%v", got)
	}
	set := desired.Set{Domain: "ex.org", Name: "prod"}
	e := s.model.Entries[set.MarkerID()]
	e.Hint = strings.Replace(e.Hint, `"batches":1`, `"batches":4`, 1)
	s.Do(func(m *booktest.Model) { m.Entries[e.ID] = e })
	if got := s.do("check"); got.status != 4 || !strings.Contains(got.out, "stopped after batch 1 of 4") {
		t.Errorf("%v", got)
	}
	if a, isOne := e.Applied(); !isOne || a.By != "me" || a.Set != "prod" || !(&book.Entry{Parent: e.Parent,
		Identity: e.Identity}).IsMarker() {
		t.Errorf("%+v", a)
	}
}

// TestApplyTogether applies two files of one set at the same time: the set is always that of one of them, and the other
// command is refused or plans again.
func TestApplyTogether(t *testing.T) {
	for _, isOld := range []bool{false, true} {
		s := newStand(t, isOld)
		text := prodHead + "agents: [{id: /spire/agent/a, selectors: ['x:HINT']}]\nentries:\n"
		for i := 0; i < 9; i++ {
			text += fmt.Sprintf("  - {parent: /p, identity: /i/%d, selectors: [x:1], hint: HINT}\n", i)
		}
		for _, hint := range []string{"red", "blue"} {
			s.file(hint, strings.ReplaceAll(text, "HINT", hint))
		}
		counts := map[int]int{}
		for round := 0; round < 20; round++ {
			statuses := make(chan int, 2)
			for _, hint := range []string{"red", "blue"} {
				go func(hint string) { statuses <- s.do("apply -yes @/" + hint).status }(hint)
			}
			counts[<-statuses]++
			counts[<-statuses]++
			s.Do(func(m *booktest.Model) { isOneFile(t, m) })
		}
		if counts[0]+counts[3] != 40 || counts[0] < 20 {
			t.Errorf("%v", counts)
		}
	}
}

// isOneFile checks that the entries and the agent of a book are of one file.
func isOneFile(t *testing.T, m *booktest.Model) {
	hints := map[string]bool{}
	for _, e := range m.Entries {
		if !e.IsMarker() {
			hints[e.Hint] = true
		}
	}
	selectors := m.Agents["spiffe://ex.org/spire/agent/a"]
	if len(hints) != 1 || len(m.Entries) != 10 || !hints[strings.TrimPrefix(selectors[0], "x:")] {
		t.Errorf("commit %d: %v %v", m.Place, hints, selectors)
	}
}
