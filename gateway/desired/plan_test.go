package desired

import (
	"encoding/json"
	"fmt"
	"math/rand"
	"os"
	"strconv"
	"strings"
	"testing"
	"time"

	"regd/gateway/book"
	"regd/gateway/client"
	"regd/gateway/internal/booktest"
)

const domain = "spiffe://ex.org"

// planned makes a plan for a model, as a client would.
func planned(t *testing.T, m *booktest.Model, s *State, o Options) *Plan {
	t.Helper()
	p, err := Make(m.Rows(), s, o)
	if err != nil {
		t.Fatal(err)
	}
	return p
}

// lineOf returns the line of a batch.
func lineOf(t *testing.T, b Batch) string {
	t.Helper()
	line, err := client.Print(map[string]any{"ops": b.Ops, "token": b.Token, "tries": 16})
	if err != nil {
		t.Fatal(err)
	}
	return string(line)
}

// applied sends the batches of a plan, and fails if one is refused.
func applied(t *testing.T, m *booktest.Model, p *Plan) {
	t.Helper()
	for _, b := range p.Batches {
		line := lineOf(t, b)
		if answer := m.Answer(line); !strings.Contains(answer, `"committed"`) {
			t.Fatalf("%s\nrefused: %s", line, answer)
		}
		if len(b.Ops) > 64 || len(line) > 256<<10 {
			t.Fatalf("%d operations, %d bytes", len(b.Ops), len(line))
		}
	}
}

func pick(r *rand.Rand, words ...string) string { return words[r.Intn(len(words))] }

// randomState returns a state with few keys, so that rows often exchange them.
func randomState(r *rand.Rand) *State {
	s := &State{Set: Set{"ex.org", "s"}}
	keys := map[string]bool{}
	for _, i := range r.Perm(9)[:r.Intn(9)] {
		e := book.Entry{ID: s.ID(fmt.Sprint(i)), Parent: domain + pick(r, "/p", "/spire/agent/1",
			"/spire/server"),
			Identity:  domain + pick(r, "/i", "/j", "/p"),
			Selectors: []string{fmt.Sprintf("x:%d", r.Intn(3))},
			Hint:      pick(r, "", "h"), Domains: []string{}}
		if r.Intn(4) == 0 {
			e.Domains = []string{pick(r, "a.org", "b.org")}
		}
		if !keys[e.Key()] {
			keys[e.Key()] = true
			s.Entries = append(s.Entries, Entry{e, "test"})
		}
	}
	for i := 0; i < 3; i++ {
		id := fmt.Sprintf("%s/spire/agent/%d", domain, i)
		switch r.Intn(3) {
		case 0:
			s.Agents = append(s.Agents, book.Agent{ID: id, Selectors: []string{pick(r, "x:0", "x:1")}})
		case 1:
			s.AbsentAgents = append(s.AbsentAgents, id)
		}
	}
	for _, name := range []string{"a.org", "b.org"} {
		s.Bundles = append(s.Bundles, book.Bundle{Domain: name, Text: pick(r, "{}", "[]")})
	}
	return s
}

// mixed returns a state whose entries have exchanged their parents, identities and selectors.
func mixed(r *rand.Rand, s *State) *State {
	next := *s
	next.Entries = nil
	order := r.Perm(len(s.Entries))
	for i, e := range s.Entries {
		other := s.Entries[order[i]]
		e.Parent, e.Identity, e.Selectors = other.Parent, other.Identity, other.Selectors
		if r.Intn(5) > 0 {
			next.Entries = append(next.Entries, e)
		}
	}
	return &next
}

// byHand adds entries that belong to no set, some of them similar to those of sets.
func byHand(r *rand.Rand, m *booktest.Model) {
	for i := 0; i < r.Intn(3); i++ {
		m.Answer(
			fmt.Sprintf(`{"ops":[{"op":"create","id":"%s","parent":"%s/p",`+
				`"identity":"%s/i","selectors":["x:%d"]}]}`,
				client.NewID(), domain, domain, r.Intn(4)))
	}
}

// differing returns what a state wants of a book and doesn't find.
func differing(m *booktest.Model, s *State) string {
	left := map[string]bool{}
	for id := range m.Entries {
		left[id] = s.Has(id) && id != s.MarkerID()
	}
	for _, e := range s.Entries {
		has, isThere := m.Entries[e.ID]
		if !isThere || book.Differences(has, e.Entry) != nil {
			return "entry " + e.ID
		}
		delete(left, e.ID)
	}
	for id, isOwn := range left {
		if isOwn {
			return "left " + id
		}
	}
	for _, a := range s.Agents {
		if !book.SameSet(m.Agents[a.ID], a.Selectors) || m.Agents[a.ID] == nil {
			return a.ID
		}
	}
	for _, id := range s.AbsentAgents {
		if m.Agents[id] != nil {
			return id
		}
	}
	for _, b := range s.Bundles {
		if m.Bundles[b.Domain].Text != b.Text {
			return b.Domain
		}
	}
	return ""
}

// TestPlansOfRandomStates applies plans between random states, and plans again: no batch is refused, the book has what
// the state says, and the later plan is empty.
func TestPlansOfRandomStates(t *testing.T) {
	count := 300
	if word := os.Getenv("REGDCTL_STATES"); word != "" {
		n, err := strconv.Atoi(word)
		if err != nil {
			t.Fatal(err)
		}
		count = n
	}
	rings, adopted := 0, 0
	for seed := 0; seed < count; seed++ {
		r := rand.New(rand.NewSource(int64(seed)))
		m := booktest.New("ex.org")
		o := Options{Expects: seed%2 == 0, IsAdopting: true, Now: time.Unix(1e9, 0)}
		s := randomState(r)
		for round := 0; round < 2; round++ {
			byHand(r, m)
			p := planned(t, m, s, o)
			text, err := json.Marshal(p)
			if err != nil {
				t.Fatal(err)
			}
			rings += strings.Count(string(text), movingSelector)
			adopted += strings.Count(string(text), `"adopted"`)
			applied(t, m, p)
			if found := differing(m, s); found != "" {
				t.Fatalf("seed %d: %s differs after %s", seed, found, text)
			}
			if again := planned(t, m, s, o); len(again.Batches) != 0 || len(again.Rows) != 0 {
				t.Fatalf("seed %d: a plan after its application: %+v", seed, again.Rows)
			}
			if seed%3 > 0 {
				s = mixed(r, s)
			} else {
				s = randomState(r)
			}
		}
	}
	if rings < count/20 || adopted < count/100 {
		t.Errorf("%d rings, %d entries made by hand", rings, adopted)
	}
	t.Logf("%d pairs of states, %d rings, %d entries made by hand", count, rings, adopted)
}

// rowsText prints the rows of a plan.
func rowsText(p *Plan) string {
	var lines []string
	for _, r := range p.Rows {
		lines = append(lines, strings.TrimSpace(fmt.Sprintf("%s %s %s %s", r.Sign, r.Kind,
			strings.TrimPrefix(r.Name, domain), r.Note)))
	}
	return strings.Join(lines, "\n")
}

// opsText prints the operations of a plan.
func opsText(p *Plan) string {
	var lines []string
	for _, b := range p.Batches {
		var names []string
		for _, op := range b.Ops {
			names = append(names, op.Name())
		}
		lines = append(lines, strings.Join(names, " "))
	}
	return strings.Join(lines, "\n")
}

// stateOf reads a state of the domain ex.org and the set s.
func stateOf(t *testing.T, text string) *State {
	t.Helper()
	s, err := Read(files(map[string]string{"f": head + text}), "", "f")
	if err != nil {
		t.Fatal(err)
	}
	return s
}

const two = `
agents:
  - {id: /spire/agent/a, selectors: [x:1]}
  - {id: /spire/agent/b, selectors: [x:2]}
bundles:
  - {domain: a.org, text: '{"keys":[]}'}
aliases:
  - {identity: /n, selectors: [x:1]}
entries:
  - {parent: /n, identity: /web, selectors: [u:1], domains: [a.org]}
  - {parent: /spire/agent/b, identity: /pay, selectors: [u:2]}
`

// TestPlan looks at each part of a plan, for a newer and an older server.
func TestPlan(t *testing.T) {
	for _, expects := range []bool{true, false} {
		m := booktest.New("ex.org")
		o := Options{Expects: expects, By: "me", Now: time.Unix(1e9, 0)}
		p := planned(t, m, stateOf(t, two), o)
		want := "create expect_bundle set_bundle expect_agent set_agent expect_agent set_agent create create " +
			"create"
		if !expects {
			want = "create set_bundle set_agent set_agent create create create"
		}
		if got := opsText(p); got != want {
			t.Errorf("got %s", got)
		}
		if got := rowsText(p); got != "+ bundle a.org\n+ agent /spire/agent/a\n+ agent /spire/agent/b\n+ "+
			"entry /n\n"+
			"+ entry /pay\n+ entry /web" {
			t.Errorf("got %s", got)
		}
		if got := fmt.Sprint(p.Access); got != "[{spiffe://ex.org/spire/agent/a [spiffe://ex.org/n "+
			"spiffe://ex.org/web] []} "+
			"{spiffe://ex.org/spire/agent/b [spiffe://ex.org/pay] []}]" {
			t.Error(got)
		}
		applied(t, m, p)
		marker := m.Entries[p.MarkerID()]
		if a, _ := marker.Applied(); a != (book.Applied{Set: "s", Plan: p.ID, Batch: 1, Batches: 1, By: "me"}) {
			t.Errorf("%+v", marker)
		}
		changed := strings.NewReplacer("[x:2]", "[x:1]", "u:2", "u:3", `{"keys":[]}`,
			`{"keys":[1]}`).Replace(two) +
			"absent: {agents: [/spire/agent/a]}\n"
		changed = strings.Replace(changed, "  - {id: /spire/agent/a, selectors: [x:1]}\n", "", 1)
		p = planned(t, m, stateOf(t, changed), o)
		want = "update expect_bundle set_bundle expect_agent set_agent update expect_agent drop_agent"
		if !expects {
			want = "update set_bundle drop_agent set_agent update drop_agent"
		}
		if got := opsText(p); got != want {
			t.Errorf("got %s", got)
		}
		if got := rowsText(p); got != "~ bundle a.org\n~ agent /spire/agent/b\n- agent /spire/agent/a\n~ "+
			"entry /pay" {
			t.Errorf("got %s", got)
		}
		applied(t, m, p)
	}
}

// TestExpectations checks that each condition names what the plan has read, and that a row which another client changes
// between plan and application is refused by it.
func TestExpectations(t *testing.T) {
	o := Options{Expects: true}
	for _, other := range []string{
		`{"op":"set_agent","agent":"spiffe://ex.org/spire/agent/a","selectors":["other:1"]}`,
		`{"op":"set_agent","agent":"spiffe://ex.org/spire/agent/n","selectors":["other:1"]}`,
		`{"op":"drop_agent","agent":"spiffe://ex.org/spire/agent/a"}`,
		`{"op":"set_agent","agent":"spiffe://ex.org/spire/agent/z","selectors":["other:1"]}`,
		`{"op":"set_bundle","domain":"a.org","text":"other"}`,
		`{"op":"set_bundle","domain":"n.org","text":"other"}`,
		`{"op":"set_bundle","domain":"z.org","text":"other"}`,
		`{"op":"update","id":"` + (Set{"ex.org", "s"}).ID("name e") + `","parent":"spiffe://ex.org/p",` +
			`"identity":"spiffe://ex.org/i","selectors":["other:1"]}`,
		`{"op":"delete","id":"` + (Set{"ex.org", "s"}).ID("name f") + `"}`,
		`{"op":"create","id":"` + (Set{"ex.org", "s"}).ID("name g") + `","parent":"spiffe://ex.org/p",` +
			`"identity":"spiffe://ex.org/i","selectors":["other:2"]}`,
		`{"op":"update","id":"` + (Set{"ex.org", "s"}).MarkerID() + `","parent":"spiffe://ex.org/regdctl",` +
			`"identity":"spiffe://ex.org/regdctl/set","selectors":["other:3"]}`,
	} {
		m := booktest.New("ex.org")
		applied(t, m, planned(t, m, stateOf(t, `
agents: [{id: /spire/agent/a, selectors: [x:1]}, {id: /spire/agent/z, selectors: [x:1]}]
bundles: [{domain: a.org, text: a}, {domain: z.org, text: a}]
entries:
  - {parent: /p, identity: /i, selectors: [x:1], name: e}
  - {parent: /p, identity: /i, selectors: [x:2], name: f}
`), o))
		p := planned(t, m, stateOf(t, `
agents: [{id: /spire/agent/a, selectors: [x:2]}, {id: /spire/agent/n, selectors: [x:1]}]
bundles: [{domain: a.org, text: b}, {domain: n.org, text: b}]
entries:
  - {parent: /p, identity: /i, selectors: [x:3], name: e}
  - {parent: /p, identity: /i, selectors: [x:4], name: g}
absent: {agents: [/spire/agent/z], bundles: [z.org]}
`), o)
		if answer := m.Answer(`{"ops":[` + other + `]}`); !strings.Contains(answer, "committed") {
			t.Fatal(answer)
		}
		before := fmt.Sprint(m.Rows())
		if answer := m.Answer(lineOf(t, p.Batches[0])); !strings.Contains(answer, `"refused"`) ||
			fmt.Sprint(m.Rows()) != before {
			t.Errorf("%s: %s", other, answer)
		}
	}
}

// TestBlocked checks entries that were made by hand, or that belong to another set.
func TestBlocked(t *testing.T) {
	m := booktest.New("ex.org")
	m.Answer(`{"ops":[{"op":"create","id":"24bbb05c-58d9-4fc7-bdb2-747061ad2046","parent":"spiffe://ex.org/p",` +
		`"identity":"spiffe://ex.org/i","selectors":["x:1"]}]}`)
	other, err := Read(files(map[string]string{"f": "regdctl: 1\ndomain: ex.org\nset: other\n" +
		"entries: [{parent: /p, identity: /o, selectors: [x:1]}]"}), "", "f")
	if err != nil {
		t.Fatal(err)
	}
	applied(t, m, planned(t, m, other, Options{}))
	s := stateOf(t, "entries: [{parent: /p, identity: /i, selectors: [x:1]}, {parent: /p, identity: /o, "+
		"selectors: [x:1]}]")
	p := planned(t, m, s, Options{})
	if got := rowsText(p); !p.IsBlocked || got != "! entry /i the same entry is there with another id, made by "+
		"hand: "+
		"24bbb05c-58d9-4fc7-bdb2-747061ad2046; -adopt replaces it\n! entry /o the same entry belongs to the "+
		"set other: "+
		other.Entries[0].ID+"; remove it there at first" {
		t.Error(got)
	}
	p = planned(t, m, s, Options{IsAdopting: true})
	if got := rowsText(p); !p.IsBlocked || !strings.HasPrefix(got, "+ entry /i\n- entry /i adopted\n! entry /o") {
		t.Error(got)
	}
	s.Entries = s.Entries[:1]
	p = planned(t, m, s, Options{IsAdopting: true})
	if got := opsText(p); p.IsBlocked || got != "create delete create" {
		t.Error(got)
	}
	applied(t, m, p)
}

// TestBatches divides a plan.
func TestBatches(t *testing.T) {
	text := "entries:\n"
	for i := 0; i < 200; i++ {
		text += fmt.Sprintf("  - {parent: /p, identity: /i/%d, selectors: [x:1]}\n", i)
	}
	m := booktest.New("ex.org")
	s := stateOf(t, text)
	p := planned(t, m, s, Options{})
	var sizes []int
	for i, b := range p.Batches {
		sizes = append(sizes, len(b.Ops))
		hint := b.Ops[0]["hint"].(string)
		if want := fmt.Sprintf(`"batch":%d,"batches":4`, i+1); !strings.Contains(hint, want) {
			t.Errorf("batch %d: %s", i, hint)
		}
	}
	if fmt.Sprint(sizes) != "[64 64 64 12]" {
		t.Error(sizes)
	}
	tokens := map[string]bool{}
	for _, b := range append(p.Batches, planned(t, m, s, Options{}).Batches...) {
		tokens[b.Token] = true
	}
	m.Place++
	for _, b := range planned(t, m, s, Options{}).Batches {
		tokens[b.Token] = true
	}
	if len(tokens) != 8 { // the same plan of the same book has the same tokens, and one of another book has others
		t.Errorf("%d tokens", len(tokens))
	}
	m.Place--
	applied(t, m, &Plan{Batches: p.Batches[:2]})
	if found := m.Rows().Check(time.Unix(1, 0), 0); len(found) == 0 || found[len(found)-1].Kind != book.Marker {
		t.Errorf("a plan that has stopped: %v", found)
	}
	p = planned(t, m, s, Options{})
	if len(p.Batches) != 2 || p.Changes() != 74 {
		t.Errorf("%d batches, %d changes", len(p.Batches), p.Changes())
	}
	applied(t, m, p)
	long := strings.Repeat("x", 1000)
	s = stateOf(t, strings.ReplaceAll(text, "[x:1]", "[x:1], hint: "+long))
	if p = planned(t, booktest.New("ex.org"), s, Options{}); len(p.Batches) != 4 {
		t.Errorf("%d batches", len(p.Batches))
	}
	applied(t, m, planned(t, m, s, Options{}))
}

// TestStopped checks that a plan which stopped, and of which nothing is left, is ended by a change of the marker alone.
func TestStopped(t *testing.T) {
	m := booktest.New("ex.org")
	s := stateOf(t, "entries: [{parent: /p, identity: /i, selectors: [x:1]}]")
	applied(t, m, planned(t, m, s, Options{}))
	e, err := s.marker(book.Applied{Set: "s", Plan: "abc", Batch: 1, Batches: 2})
	if err != nil {
		t.Fatal(err)
	}
	m.Entries[e.ID] = e
	p := planned(t, m, s, Options{})
	if got := rowsText(p); got != "~ marker /regdctl/set plan abc had stopped after batch 1 of 2" {
		t.Error(got)
	}
	applied(t, m, p)
	if p = planned(t, m, s, Options{}); len(p.Batches) != 0 {
		t.Errorf("%+v", p)
	}
}

// TestChainTooLong checks that changes which can't be in one batch are named.
func TestChainTooLong(t *testing.T) {
	m, s := booktest.New("ex.org"), stateOf(t, "")
	for i := 0; i < 70; i++ {
		s.Entries = append(s.Entries, Entry{book.Entry{ID: s.ID(fmt.Sprint(i)), Parent: domain + "/p",
			Identity: domain + "/i", Selectors: []string{fmt.Sprintf("x:%d", i)}, Domains: []string{}},
			"f"})
	}
	applied(t, m, planned(t, m, s, Options{}))
	for i := range s.Entries {
		s.Entries[i].Selectors = []string{fmt.Sprintf("x:%d", i+1)}
	}
	if _, err := Make(m.Rows(), s, Options{}); err == nil || !strings.Contains(err.Error(),
		"70 changes of entries") {
		t.Error(err)
	}
}

// TestFullBook deletes first where the book would be too full between two batches.
func TestFullBook(t *testing.T) {
	b := &book.Book{Domain: "ex.org"}
	s := stateOf(t, "")
	for i := 0; i < 16380; i++ {
		b.Entries = append(b.Entries, book.Entry{ID: s.ID(fmt.Sprint(i)), Parent: domain + "/p",
			Identity: fmt.Sprintf("%s/i/%d", domain, i), Selectors: []string{"x:1"}, Domains: []string{}})
		if i >= 100 {
			s.Entries = append(s.Entries, Entry{b.Entries[i], "f"})
		}
	}
	for i := 0; i < 100; i++ {
		s.Entries = append(s.Entries, Entry{book.Entry{ID: s.ID(fmt.Sprint("new", i)), Parent: domain + "/p",
			Identity: fmt.Sprintf("%s/n/%d", domain, i), Selectors: []string{"x:1"},
			Domains: []string{}}, "f"})
	}
	b.Sort()
	p, err := Make(b, s, Options{})
	if err != nil || !p.DeletesFirst || p.Batches[0].Ops[1].Name() != "delete" {
		t.Errorf("%v %v", p.DeletesFirst, err)
	}
}

// TestAsserts checks what a plan says of its result: assertions, refusals that can be foreseen, and new findings.
func TestAsserts(t *testing.T) {
	m := booktest.New("ex.org")
	applied(t, m, planned(t, m, stateOf(t, two), Options{}))
	changed := strings.NewReplacer("/n, identity: /web", "/nn, identity: /web", "bundles:", "assert: []",
		"  - {domain: a.org, text: '{\"keys\":[]}'}\n", "").Replace(two)
	s := stateOf(t, strings.Replace(changed, "assert: []\n", "", 1)+`
  - {parent: /p, identity: /q, selectors: [u:2], domains: [none.org]}
assert:
  - {agent: /spire/agent/b, serves: [/pay], not: [/web]}
  - {agent: /spire/agent/b, serves: [/web], not: [/pay]}
  - {agent: /spire/agent/c, not: [/pay]}
absent: {bundles: [a.org]}
`)
	p := planned(t, m, s, Options{Now: time.Unix(1e9, 0)})
	want := "f:17: spiffe://ex.org/spire/agent/b would not serve spiffe://ex.org/web\n" +
		"f:17: spiffe://ex.org/spire/agent/b would serve spiffe://ex.org/pay\n" +
		"f:18: the agent spiffe://ex.org/spire/agent/c is not registered\n" +
		"f:11: a.org has no bundle, in the book or in the file\nf:14: none.org has no bundle, in the book or " +
		"in the file\n" +
		"the bundle of a.org can't be removed: spiffe://ex.org/web names it, "
	if got := strings.Join(p.Broken, "\n"); !strings.HasPrefix(got, want) {
		t.Error(got)
	}
	if len(p.Findings) != 2 || p.Findings[0].Kind != book.Orphan || p.Findings[0].Near != domain+"/n" {
		t.Errorf("%+v", p.Findings)
	}
	if got := fmt.Sprint(p.Access); got != "[{spiffe://ex.org/spire/agent/a [] [spiffe://ex.org/web]}]" {
		t.Error(got)
	}
}

// TestReadPlan stores a plan, and reads it with every number as it was.
func TestReadPlan(t *testing.T) {
	m := booktest.New("ex.org")
	p := planned(t, m, stateOf(t, two), Options{Expects: true})
	p.Batches[0].Ops[1]["revision"] = ^uint64(0) - 1
	text, err := json.Marshal(p)
	if err != nil {
		t.Fatal(err)
	}
	read, isPlan := ReadPlan(text)
	if !isPlan || read.ID != p.ID || lineOf(t, read.Batches[0]) != lineOf(t, p.Batches[0]) ||
		read.State.Name != "s" {
		t.Errorf("%v %+v", isPlan, read)
	}
	for _, other := range []string{"", "{}", "[]", `{"regdctl":1}`, head} {
		if _, isPlan := ReadPlan([]byte(other)); isPlan {
			t.Error(other)
		}
	}
}

// TestAbsent removes what has to be gone, also if it is of no set, and nothing if it is gone already.
func TestAbsent(t *testing.T) {
	m := booktest.New("ex.org")
	m.Answer(`{"ops":[{"op":"create","id":"24bbb05c-58d9-4fc7-bdb2-747061ad2046","parent":"spiffe://ex.org/p",` +
		`"identity":"spiffe://ex.org/i","selectors":["x:1"]}]}`)
	s := stateOf(t, "absent: {entries: [24BBB05C-58d9-4fc7-bdb2-747061ad2046], agents: [/spire/agent/x], "+
		"bundles: [x.org]}")
	p := planned(t, m, s, Options{})
	if got := rowsText(p); got != "- entry /i" {
		t.Error(got)
	}
	applied(t, m, p)
	if p = planned(t, m, s, Options{}); len(p.Rows) != 0 {
		t.Errorf("%+v", p.Rows)
	}
}

// TestDeleteOfChanged checks that an entry which another client changes is not deleted.
func TestDeleteOfChanged(t *testing.T) {
	m := booktest.New("ex.org")
	row := "entries: [{parent: /p, identity: /i, selectors: [x:1]}]"
	applied(t, m, planned(t, m, stateOf(t, row), Options{}))
	p := planned(t, m, stateOf(t, ""), Options{})
	m.Answer(
		fmt.Sprintf(
			`{"ops":[{"op":"update","id":"%s","parent":"spiffe://ex.org/p","identity":"spiffe://ex.org/i",`+
				`"selectors":["x:1"],"hint":"other"}]}`, stateOf(t, row).Entries[0].ID))
	if answer := m.Answer(lineOf(t, p.Batches[0])); !strings.Contains(answer, `"code":"O4","op":1`) {
		t.Error(answer)
	}
}

// TestLongPlans divides entries that are too long together for one line.
func TestLongPlans(t *testing.T) {
	text := "bundles:\n"
	for i := 0; i < 9; i++ {
		text += fmt.Sprintf("  - {domain: b%d.org, text: %s}\n", i, strings.Repeat("x", 60000))
	}
	m := booktest.New("ex.org")
	p := planned(t, m, stateOf(t, text), Options{})
	if len(p.Batches) != 3 {
		t.Errorf("%d batches", len(p.Batches))
	}
	applied(t, m, p)
}

// TestPlanAgentsAlone shows what an agent gains by its selectors alone.
func TestPlanAgentsAlone(t *testing.T) {
	m := booktest.New("ex.org")
	applied(t, m, planned(t, m, stateOf(t, two), Options{}))
	p := planned(t, m, stateOf(t, strings.Replace(two, "[x:2]", "[x:1]", 1)), Options{})
	if got := fmt.Sprint(p.Access); got != "[{spiffe://ex.org/spire/agent/b [spiffe://ex.org/n "+
		"spiffe://ex.org/web] []}]" {
		t.Error(got)
	}
}
