package book

import (
	"fmt"
	"math/rand"
	"strings"
	"testing"
)

const randomBooks = 3000

// eachBook calls a test with random books, and with the number of each, from which it is made again.
func eachBook(t *testing.T, test func(t *testing.T, number int, b *Book)) {
	t.Helper()
	for number := 0; number < randomBooks && !t.Failed(); number++ {
		test(t, number, randomBook(rand.New(rand.NewSource(int64(number)))))
	}
}

// TestReach compares what an agent may serve with the rule, and each chain with what a chain is.
func TestReach(t *testing.T) {
	count := 0
	eachBook(t, func(t *testing.T, number int, b *Book) {
		for i := range b.Agents {
			a := &b.Agents[i]
			reach := b.Reach(a)
			if got, want := idsOf(reach.Entries()), idsIn(served(b, a)); got != want {
				t.Errorf("book %d, %s: got %s, want %s", number, a.ID, got, want)
			}
			for _, e := range reach.Entries() {
				count++
				checkChain(t, number, b, a, e, reach.Chain(e))
			}
		}
	})
	if count < 1000 {
		t.Errorf("only %d chains", count)
	}
}

func checkChain(t *testing.T, number int, b *Book, a *Agent, e *Entry, chain []*Entry) {
	t.Helper()
	if len(chain) == 0 || chain[len(chain)-1] != e || !leads(b, a, *chain[0], nil) {
		t.Errorf("book %d, %s: the chain %s of %s doesn't begin or end", number, a.ID, idsOf(chain), e.ID)
	}
	for i := 1; i < len(chain); i++ {
		if chain[i].Parent != chain[i-1].Identity {
			t.Errorf("book %d: the chain %s has a gap", number, idsOf(chain))
		}
	}
}

// repaired returns the book with a missing link made.
func repaired(b *Book, a *Agent, m Missing) (*Book, *Agent) {
	next := copied(b)
	var changed *Agent
	for i := range next.Agents {
		if next.Agents[i].ID == a.ID {
			changed = &next.Agents[i]
		}
	}
	if m.Kind == LacksSelectors {
		changed.Selectors = append(append([]string{}, a.Selectors...), m.Selectors...)
		return next, changed
	}
	link := Entry{ID: "ffffffff", Parent: a.ID, Identity: m.Entry().Parent, Selectors: []string{"new:1"}}
	next.Entries = append(next.Entries, link)
	return next, changed
}

// TestMissing checks that each entry which an agent may not serve has a missing link, and that the chain goes on when
// any of them is made.
func TestMissing(t *testing.T) {
	kinds := map[string]int{}
	eachBook(t, func(t *testing.T, number int, b *Book) {
		for i := range b.Agents {
			a := &b.Agents[i]
			reach := b.Reach(a)
			for j := range b.Entries {
				e := &b.Entries[j]
				if reach.Chain(e) == nil {
					checkMissing(t, number, b, a, e, kinds)
				}
			}
		}
	})
	for _, kind := range []string{LacksSelectors, NoParent, OtherAgent, Cycle} {
		if kinds[kind] < 50 {
			t.Errorf("%d links of the kind %s", kinds[kind], kind)
		}
	}
}

func checkMissing(t *testing.T, number int, b *Book, a *Agent, e *Entry, kinds map[string]int) {
	t.Helper()
	missing := b.Missing(a, e)
	if len(missing) == 0 {
		t.Errorf("book %d: nothing is missing between %s and %s", number, a.ID, e.ID)
	}
	for _, m := range missing {
		kinds[m.Kind]++
		isCorrect := m.Path[0] == e
		for i := 1; i < len(m.Path); i++ {
			isCorrect = isCorrect && m.Path[i].Identity == m.Path[i-1].Parent
		}
		for _, x := range m.Path {
			isCorrect = isCorrect && !served(b, a)[x.ID]
		}
		if !isCorrect {
			t.Errorf("book %d, %s: the path %s is wrong", number, a.ID, idsOf(m.Path))
		}
		next, agent := repaired(b, a, m)
		if !served(next, agent)[e.ID] {
			t.Errorf("book %d, %s: %s is not served when %s is repaired at %s", number, a.ID, e.ID, m.Kind,
				m.Entry().ID)
		}
	}
}

// TestWhoCan checks that exactly the agents that may serve an entry meet a condition, also agents that are not known.
func TestWhoCan(t *testing.T) {
	eachBook(t, func(t *testing.T, number int, b *Book) {
		for j := range b.Entries {
			e := &b.Entries[j]
			conditions := b.WhoCan(e)
			for i := range b.Agents {
				if got, want := isKnownFor(conditions, &b.Agents[i]),
					served(b, &b.Agents[i])[e.ID]; got != want {
					t.Errorf("book %d: %s for %s: got %v", number, e.ID, b.Agents[i].ID, got)
				}
			}
			for _, name := range []string{"/spire/agent/9", "/spire/agent/8"} {
				stranger := &Agent{ID: domain + name, Selectors: []string{"x:1", "x:3"}}
				if got, want := isMet(conditions, stranger), served(b, stranger)[e.ID]; got != want {
					t.Errorf("book %d: %s for %s: got %v", number, e.ID, name, got)
				}
			}
		}
	})
}

func isKnownFor(conditions []Condition, a *Agent) bool {
	for _, c := range conditions {
		for _, known := range c.Agents {
			if known == a {
				return true
			}
		}
	}
	return false
}

func isMet(conditions []Condition, a *Agent) bool {
	for _, c := range conditions {
		if c.Agent == a.ID || c.Alias != nil && len(Lacking(c.Alias.Selectors, a.Selectors)) == 0 {
			return true
		}
	}
	return false
}

// TestTree checks that the tree has each entry, and below each agent and its aliases exactly those that it may serve.
func TestTree(t *testing.T) {
	eachBook(t, func(t *testing.T, number int, b *Book) {
		tree := b.Tree()
		below, printed := map[string][]*Node{}, map[string]bool{}
		var note func(nodes []*Node)
		note = func(nodes []*Node) {
			for _, n := range nodes {
				printed[n.Entry.ID] = true
				if len(n.Children) > 0 {
					below[n.Entry.Identity] = n.Children
				}
				note(n.Children)
			}
		}
		for _, v := range tree.Agents {
			note(v.Children)
		}
		note(tree.Aliases)
		note(tree.Loose)
		if len(printed) != len(b.Entries) {
			t.Errorf("book %d: %d of %d entries", number, len(printed), len(b.Entries))
		}
		for i, v := range tree.Agents {
			want := idsIn(served(b, &b.Agents[i]))
			if got := idsIn(inTree(below, append(v.Held, v.Children...))); got != want {
				t.Errorf("book %d, %s: got %s, want %s", number, v.Agent.ID, got, want)
			}
			own := b.View(&b.Agents[i])
			below := map[string][]*Node{}
			noteChildren(below, append(append([]*Node{}, own.Held...), own.Children...))
			if got := idsIn(inTree(below, append(own.Held, own.Children...))); got != want {
				t.Errorf("book %d, the view of %s: got %s, want %s", number, v.Agent.ID, got, want)
			}
		}
		for _, n := range tree.Loose {
			if len(b.Children(n.Entry.Parent)) == 0 || n.Entry.IsAlias() || b.Agent(n.Entry.Parent) != nil {
				t.Errorf("book %d: %s is loose", number, n.Entry.ID)
			}
		}
	})
}

func noteChildren(below map[string][]*Node, nodes []*Node) {
	for _, n := range nodes {
		if len(n.Children) > 0 {
			below[n.Entry.Identity] = n.Children
		}
		noteChildren(below, n.Children)
	}
}

// inTree returns the entries of some nodes and of all below them, where the children of an identity are printed once.
func inTree(below map[string][]*Node, nodes []*Node) map[string]bool {
	found := map[string]bool{}
	work := append([]*Node{}, nodes...)
	for next := 0; next < len(work); next++ {
		if e := work[next].Entry; !found[e.ID] {
			found[e.ID] = true
			work = append(work, below[e.Identity]...)
		}
	}
	return found
}

// TestStranded checks what a cascade deletes: what some agent could be given before, and none can afterwards.
func TestStranded(t *testing.T) {
	eachBook(t, func(t *testing.T, number int, b *Book) {
		r := rand.New(rand.NewSource(int64(number)))
		deleted, agent := map[string]bool{}, ""
		for _, e := range b.Entries {
			if r.Intn(6) == 0 {
				deleted[e.ID] = true
			}
		}
		if r.Intn(2) == 0 {
			agent = b.Agents[0].ID
		}
		rest := copied(b)
		rest.Entries = nil
		for _, e := range b.Entries {
			if !deleted[e.ID] {
				rest.Entries = append(rest.Entries, e)
			}
		}
		want := map[string]bool{}
		before, after := anyServed(b, ""), anyServed(rest, agent)
		for _, e := range b.Entries {
			want[e.ID] = deleted[e.ID] || before[e.ID] && !after[e.ID]
			if !want[e.ID] {
				delete(want, e.ID)
			}
		}
		if got := idsOf(b.Stranded(deleted, agent)); got != idsIn(want) {
			t.Errorf("book %d: got %s, want %s", number, got, idsIn(want))
		}
	})
}

// anyServed returns the entries that an agent with all selectors and any ID but one may serve.
func anyServed(b *Book, without string) map[string]bool {
	found := map[string]bool{}
	for _, name := range []string{"0", "1", "9"} {
		a := &Agent{ID: domain + AgentPath + name, Selectors: []string{"x:1", "x:2", "x:3", "x:4"}}
		if a.ID == without {
			a.ID = domain + "/spire/agent/other"
		}
		for id := range served(b, a) {
			found[id] = true
		}
	}
	return found
}

// TestNear checks which SPIFFE ID is offered in place of one that doesn't exist.
func TestNear(t *testing.T) {
	b := &Book{Agents: []Agent{{ID: domain + "/spire/agent/a"}}}
	for i, path := range []string{"/node/rack-1", "/node/rack-2", "/web"} {
		b.Entries = append(b.Entries, Entry{ID: fmt.Sprint(i), Identity: domain + path, Parent: domain + "/p",
			Selectors: []string{"x:1"}})
	}
	for path, want := range map[string]string{
		"/node/rack-11": "/node/rack-1", "/node/rack-22": "/node/rack-2", "/node/rak-1": "/node/rack-1",
		"/wbe": "/web", "/spire/agent/b": "/spire/agent/a", "/other": "",
		"/node/rac-11": "/node/rack-1", "/web": "",
	} {
		if got := b.Near(domain + path); strings.TrimPrefix(got, domain) != want {
			t.Errorf("%s: got %s, want %s", path, got, want)
		}
	}
}

// TestDistance compares the distance of two texts with its definition.
func TestDistance(t *testing.T) {
	var slow func(a, b string) int
	slow = func(a, b string) int {
		if a == "" || b == "" {
			return len(a) + len(b)
		}
		cost := 1
		if a[0] == b[0] {
			cost = 0
		}
		return smallest(slow(a[1:], b[1:])+cost, slow(a[1:], b)+1, slow(a, b[1:])+1)
	}
	r := rand.New(rand.NewSource(1))
	word := func() string {
		text := ""
		for i := r.Intn(6); i > 0; i-- {
			text += pick(r, "a", "b")
		}
		return text
	}
	for i := 0; i < 2000; i++ {
		a, b := word(), word()
		got, want := distance(a, b, 3), slow(a, b)
		if got != want && !(got > 3 && want > 3) {
			t.Errorf("%q and %q: got %d, want %d", a, b, got, want)
		}
	}
}
