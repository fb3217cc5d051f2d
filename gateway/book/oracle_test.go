package book

import (
	"bufio"
	"encoding/json"
	"math/rand"
	"os"
	"os/exec"
	"strconv"
	"testing"
)

// A registrar is a running `regd plain`, whose book is replaced for each test.
type registrar struct {
	t    *testing.T
	in   *bufio.Writer
	out  *bufio.Reader
	last *Book
}

type op map[string]any

// newRegistrar starts the program that REGD names, or skips the test.
func newRegistrar(t *testing.T) *registrar {
	program := os.Getenv("REGD")
	if program == "" {
		t.Skip("REGD names no program")
	}
	command := exec.Command(program, "plain", "--domain", "ex.org")
	in, err := command.StdinPipe()
	if err != nil {
		t.Fatal(err)
	}
	out, err := command.StdoutPipe()
	if err != nil {
		t.Fatal(err)
	}
	if err := command.Start(); err != nil {
		t.Fatal(err)
	}
	t.Cleanup(func() {
		in.Close()
		if err := command.Wait(); err != nil {
			t.Errorf("regd: %v", err)
		}
	})
	return &registrar{t, bufio.NewWriter(in), bufio.NewReader(out), &Book{}}
}

type reply struct {
	Entries []Entry `json:"entries"`
}

// run sends a batch, which has to be accepted, and returns its replies.
func (g *registrar) run(ops ...op) []reply {
	g.t.Helper()
	line, err := json.Marshal(map[string]any{"ops": ops})
	if err != nil {
		g.t.Fatal(err)
	}
	if _, err := g.in.Write(append(line, '\n')); err != nil {
		g.t.Fatal(err)
	}
	if err := g.in.Flush(); err != nil {
		g.t.Fatal(err)
	}
	answer, err := g.out.ReadBytes('\n')
	if err != nil {
		g.t.Fatal(err)
	}
	var read struct{ Replies []reply }
	if err := json.Unmarshal(answer, &read); err != nil || len(read.Replies) != len(ops) {
		g.t.Fatalf("%s\nwas answered %s", line, answer)
	}
	return read.Replies
}

func created(e Entry) op {
	return op{"op": "create", "id": e.ID, "parent": e.Parent, "identity": e.Identity, "selectors": e.Selectors}
}

func registered(a Agent) op {
	selectors := append([]string{}, a.Selectors...)
	return op{"op": "set_agent", "agent": a.ID, "selectors": selectors}
}

// hold makes the server's book the given one.
func (g *registrar) hold(b *Book) {
	g.t.Helper()
	ops := []op{{"op": "prune", "before": 1}}
	for _, e := range g.last.Entries {
		ops = append(ops, op{"op": "delete", "id": e.ID})
	}
	for _, a := range g.last.Agents {
		ops = append(ops, op{"op": "drop_agent", "agent": a.ID})
	}
	for _, e := range b.Entries {
		ops = append(ops, created(e))
	}
	for _, a := range b.Agents {
		ops = append(ops, registered(a))
	}
	g.run(ops...)
	g.last = copied(b)
}

// books returns how many random books are tried: REGDCTL_BOOKS, or a few.
func books(t *testing.T) int {
	count, err := strconv.Atoi(os.Getenv("REGDCTL_BOOKS"))
	if err != nil {
		return 100
	}
	return count
}

// TestAuthorisedByServer compares what agents may serve with the server's answers, and makes each missing link on the
// server: then the agent may serve the entry.
func TestAuthorisedByServer(t *testing.T) {
	g := newRegistrar(t)
	links := 0
	count := books(t)
	for number := 0; number < count && !t.Failed(); number++ {
		b := randomBook(rand.New(rand.NewSource(int64(1_000_000 + number))))
		g.hold(b)
		for i := range b.Agents {
			a := &b.Agents[i]
			theirs := g.run(op{"op": "authorised", "agent": a.ID})[0].Entries
			reach := b.Reach(a)
			if got, want := idsOf(reach.Entries()), idsOf(pointers(theirs)); got != want {
				t.Errorf("book %d, %s: got %s, the server %s", number, a.ID, got, want)
			}
			for j := range b.Entries {
				if e := &b.Entries[j]; reach.Chain(e) == nil {
					links += g.repairAll(number, b, a, e)
				}
			}
		}
	}
	t.Logf("%d books, %d missing links", count, links)
}

func pointers(entries []Entry) []*Entry {
	var found []*Entry
	for i := range entries {
		found = append(found, &entries[i])
	}
	return found
}

// repairAll makes each missing link, asks for the agent's entries, and removes the link, in one batch.
func (g *registrar) repairAll(number int, b *Book, a *Agent, e *Entry) int {
	g.t.Helper()
	missing := b.Missing(a, e)
	for _, m := range missing {
		link := Entry{ID: "ffffffff-ffff-4fff-8fff-ffffffffffff", Parent: a.ID, Identity: m.Entry().Parent,
			Selectors: []string{"new:1"}}
		repair, undo := created(link), op{"op": "delete", "id": link.ID}
		if m.Kind == LacksSelectors {
			repair = registered(Agent{ID: a.ID,
				Selectors: append(append([]string{}, a.Selectors...), m.Selectors...)})
			undo = registered(*a)
		}
		replies := g.run(repair, op{"op": "authorised", "agent": a.ID}, undo)
		isServed := false
		for _, served := range replies[1].Entries {
			isServed = isServed || served.ID == e.ID
		}
		if !isServed {
			g.t.Errorf("book %d, %s: %s is not served when %s is repaired at %s", number, a.ID,
				e.ID, m.Kind,
				m.Entry().ID)
		}
	}
	return len(missing)
}

// TestAgentsByServer compares who can get each entry, and what is below each agent in the tree, with the server's
// answers.
func TestAgentsByServer(t *testing.T) {
	g := newRegistrar(t)
	count := books(t)
	for number := 0; number < count && !t.Failed(); number++ {
		b := randomBook(rand.New(rand.NewSource(int64(2_000_000 + number))))
		g.hold(b)
		ops := []op{}
		for _, a := range b.Agents {
			ops = append(ops, op{"op": "authorised", "agent": a.ID})
		}
		tree, below := b.Tree(), map[string][]*Node{}
		for _, v := range tree.Agents {
			noteChildren(below, v.Children)
		}
		noteChildren(below, append(append([]*Node{}, tree.Aliases...), tree.Loose...))
		for i, r := range g.run(ops...) {
			served := map[string]bool{}
			for _, e := range r.Entries {
				served[e.ID] = true
			}
			v := tree.Agents[i]
			if got := idsIn(inTree(below,
				append(append([]*Node{}, v.Held...), v.Children...))); got != idsIn(served) {
				t.Errorf("book %d: below %s in the tree: %s, by the server: %s", number, v.Agent.ID,
					got, idsIn(served))
			}
			for j := range b.Entries {
				if e := &b.Entries[j]; isKnownFor(b.WhoCan(e), &b.Agents[i]) != served[e.ID] {
					t.Errorf("book %d: %s can get %s: %v by the server", number, b.Agents[i].ID,
						e.ID, served[e.ID])
				}
			}
		}
	}
}
