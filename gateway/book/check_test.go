package book

import (
	"fmt"
	"sort"
	"strings"
	"syscall"
	"testing"
	"time"
)

var now = time.Unix(1_800_000_000, 0)

// written returns a book of lines: "agent NAME SELECTORS", "bundle DOMAIN TEXT", or "ID PARENT IDENTITY SELECTORS
// [KEY=VALUE..]".
func written(lines string) *Book {
	b := &Book{Domain: "ex.org", AllAgents: true, AllBundles: true}
	for _, line := range strings.Split(strings.TrimSpace(lines), "\n") {
		words := strings.Fields(line)
		switch words[0] {
		case "agent":
			b.Agents = append(b.Agents, Agent{ID: domain + AgentPath + words[1], Selectors: words[2:]})
			continue
		case "bundle":
			b.Bundles = append(b.Bundles, Bundle{Domain: words[1], Text: strings.Join(words[2:], " ")})
			continue
		}
		e := Entry{ID: words[0], Parent: domain + words[1], Identity: domain + words[2]}
		for _, word := range words[3:] {
			if strings.HasPrefix(word, "expiry=") {
				fmt.Sscanf(word, "expiry=%d", &e.Expiry)
			} else if strings.HasPrefix(word, "domain=") {
				e.Domains = append(e.Domains, word[len("domain="):])
			} else {
				e.Selectors = append(e.Selectors, word)
			}
		}
		b.Entries = append(b.Entries, e)
	}
	return b
}

func findings(b *Book) string {
	var found []string
	for _, f := range b.Check(now, time.Hour) {
		text := fmt.Sprintf("%s %s%s", f.Kind, f.ID, f.Domain)
		if f.Near != "" {
			text += " near " + pathOf(f.Near)
		}
		if !f.IsCertain {
			text += "?"
		}
		found = append(found, text)
	}
	return strings.Join(found, ", ")
}

// TestCheck checks each finding, and its neighbours that have none.
func TestCheck(t *testing.T) {
	for _, one := range []struct{ what, lines, want string }{
		{"nothing", "agent a x:1\n1 /spire/server /n x:1\n2 /n /web u:1\n3 /spire/agent/a /own u:1", ""},
		{"an orphan, and an entry below it",
			"agent a x:1\n1 /spire/agent/a /rack-1 u:1\n2 /rack-11 /api u:1\n3 /api /sub u:1",
			"orphan 2 near /rack-1, unserved 3"},
		{"an agent that is not registered", "agent a x:1\n1 /spire/agent/b /api u:1",
			"no agent 1 near /spire/agent/a"},
		{"an agent's ID that is an entry's",
			"agent a x:1\n1 /spire/agent/a /spire/agent/zzz u:1\n2 /spire/agent/zzz /api u:1", ""},
		{"an alias that no agent holds", "agent a x:1\n1 /spire/server /n x:1 x:2\n2 /n /web u:1",
			"unserved 1, unserved 2"},
		{"a cycle", "agent a x:1\n1 /q /p u:1\n2 /p /q u:1\n3 /q /below u:1", "unserved 3, cycle 1"},
		{"a cycle that is reached",
			"agent a x:1\n0 /spire/agent/a /p u:1\n1 /q /p u:1\n2 /p /q u:1", "cycle 1"},
		{"an entry that is its own parent", "agent a x:1\n1 /p /p u:1", "cycle 1"},
		{"two cycles", "agent a x:1\n1 /q /p u:1\n2 /p /q u:1\n3 /r /r u:1", "cycle 1, cycle 3"},
		{"expiry", "agent a x:1\n1 /spire/agent/a /a u:1 expiry=1799999999\n2 /spire/agent/a /b u:1 " +
			"expiry=1800000000\n" +
			"3 /spire/agent/a /c u:1 expiry=1800003600\n4 /spire/agent/a /d u:1 expiry=1800003601",
			"expired 1, expires 2, expires 3"},
		{"covered",
			"agent a x:1\n1 /spire/agent/a /w u:1 u:2\n2 /spire/agent/a /w u:2\n3 /spire/agent/a /w u:3\n" +
				"4 /spire/agent/a /v u:1 u:2",
			"covered 1"},
		{"bundles",
			"agent a x:1\n1 /spire/agent/a /w u:1 domain=b.org domain=c.org domain=d.org\nbundle b.org " +
				"{\"keys\":[]}\n" +
				"bundle c.org {}\nbundle d.org text\nbundle e.org {\"keys\":[1]}",
			"bundle c.org, bundle d.org, unused bundle e.org"},
	} {
		b := written(one.lines)
		if got := findings(b); got != one.want {
			t.Errorf("%s: got %s, want %s", one.what, got, one.want)
		}
	}
}

// TestUnusual checks what is found of values, and their neighbours of which nothing is.
func TestUnusual(t *testing.T) {
	for _, one := range []struct {
		selector          string
		expiry, x509, jwt uint64
		agent             string
		want              string
	}{
		{"u:1", LastSecond, 31622400, 31622400, "x:1", ""},
		{"u:A", 0, 0, 0, "x:A", ""},
		{"u:1 ", 0, 0, 0, "x:1", `the selector "u:1 ", which is compared byte for byte`},
		{" u:1", 0, 0, 0, "x:1", `the selector " u:1", which is compared byte for byte`},
		{"U:1", 0, 0, 0, "x:1", `the selector "U:1", which is compared byte for byte`},
		{"u:1", LastSecond + 1, 0, 0, "x:1", "its expiry isn't in seconds: 10000000000"},
		{"u:1", 0, 31622401, 0, "x:1", "a lifetime of more than a year: 31622401 s"},
		{"u:1", 0, 0, 31622401, "x:1", "a lifetime of more than a year: 31622401 s"},
		{"u:1", 0, 0, 0, "X:1", `the selector "X:1", which is compared byte for byte`},
	} {
		id := domain + AgentPath + "a"
		b := &Book{AllAgents: true, Agents: []Agent{{ID: id, Selectors: []string{one.agent}}}}
		b.Entries = []Entry{{ID: "1", Parent: id, Identity: domain + "/w", Selectors: []string{one.selector},
			Expiry: one.expiry, X509TTL: one.x509, JWTTTL: one.jwt}}
		var texts []string
		for _, f := range b.Check(now, time.Hour) {
			if f.Kind == Unusual && f.IsCertain && (f.ID == "1" || f.Identity == id) {
				texts = append(texts, f.Text)
			}
		}
		if got := strings.Join(texts, ", "); got != one.want {
			t.Errorf("%v: got %s", one, got)
		}
	}
}

// TestCheckOfSomeAgents checks which findings depend on agents that are not known.
func TestCheckOfSomeAgents(t *testing.T) {
	b := written("agent a x:1\n1 /spire/server /n x:2\n2 /n /web u:1\n3 /nothing /w u:1\n4 /spire/agent/b /v u:1")
	b.AllAgents = false
	if got := findings(b); got != "orphan 3, no agent 4 near /spire/agent/a, unserved 1?, unserved 2?" {
		t.Errorf("got %s", got)
	}
}

// TestUnserved checks, in random books, that exactly the entries that no agent serves have a finding which says so, or
// are in a cycle; and that exactly the entries that are above themselves are in one.
func TestUnserved(t *testing.T) {
	eachBook(t, func(t *testing.T, number int, b *Book) {
		any := map[string]bool{}
		for i := range b.Agents {
			for id := range served(b, &b.Agents[i]) {
				any[id] = true
			}
		}
		found := map[string]string{}
		for _, f := range b.Check(now, 0) {
			if f.Kind == Orphan || f.Kind == NoAgent || f.Kind == Unserved {
				found[f.ID] = f.Kind
			}
		}
		_, inCycle := b.cycles()
		for i := range b.Entries {
			e := &b.Entries[i]
			if isAboveItself(b, e) != inCycle[e] {
				t.Errorf("book %d: %s in a cycle: %v", number, e.ID, inCycle[e])
			}
			if want := !any[e.ID] && !inCycle[e]; want != (found[e.ID] != "") {
				t.Errorf("book %d: %s is served: %v, found: %s", number, e.ID, any[e.ID], found[e.ID])
			}
		}
	})
}

// isAboveItself returns true if entries lead from an entry's identity to its parent.
func isAboveItself(b *Book, e *Entry) bool {
	reached := map[string]bool{e.Identity: true}
	for count := 0; count != len(reached); {
		count = len(reached)
		for _, other := range b.Entries {
			if reached[other.Parent] {
				reached[other.Identity] = true
			}
		}
	}
	return reached[e.Parent]
}

// largeBook has as many rows as a book may have: chains of four entries below 4,000 aliases, which 4,096 agents hold.
func largeBook() *Book {
	b := &Book{Domain: "ex.org", AllAgents: true}
	for i := 0; i < 4096; i++ {
		b.Agents = append(b.Agents,
			Agent{ID: fmt.Sprintf("%s/spire/agent/%05d", domain, i), Selectors: []string{
				"all:1", fmt.Sprintf("host:%d", i), fmt.Sprintf("rack:%d", i%4000)}})
	}
	for i := 0; i < 16384; i++ {
		e := Entry{ID: fmt.Sprintf("%08d", i), Identity: fmt.Sprintf("%s/e/%d", domain, i),
			Parent:    fmt.Sprintf("%s/e/%d", domain, i-1),
			Selectors: []string{fmt.Sprintf("unix:uid:%d", i)}}
		if i%4 == 0 {
			e.Parent, e.Selectors = domain+ServerPath, []string{"all:1", fmt.Sprintf("rack:%d", i/4)}
		}
		b.Entries = append(b.Entries, e)
	}
	sort.Slice(b.Entries, func(i, j int) bool { return b.Entries[i].ID < b.Entries[j].ID })
	return b
}

// TestLargeBook checks that a full book is searched in a second, which a search of all pairs of rows would take many
// times.
func TestLargeBook(t *testing.T) {
	b := largeBook()
	begin := used(t)
	if found := b.Check(now, time.Hour); len(found) != 4*96 {
		t.Errorf("%d findings", len(found))
	}
	if tree := b.Tree(); len(tree.Agents) != 4096 || len(tree.Aliases) != 4096 || len(tree.Loose) != 0 {
		t.Errorf("a tree of %d agents, %d aliases, %d loose", len(tree.Agents), len(tree.Aliases),
			len(tree.Loose))
	}
	for i := 0; i < 10; i++ {
		if chain := b.Reach(&b.Agents[i]).Chain(b.Entry(fmt.Sprintf("%08d", 4*i+3))); len(chain) != 4 {
			t.Errorf("a chain of %d", len(chain))
		}
	}
	if took := used(t) - begin; took > 5*time.Second {
		t.Errorf("it took %s", took)
	}
}

// used returns the processor time of this process, which other processes don't lengthen.
func used(t *testing.T) time.Duration {
	t.Helper()
	var usage syscall.Rusage
	if err := syscall.Getrusage(syscall.RUSAGE_SELF, &usage); err != nil {
		t.Fatal(err)
	}
	return time.Duration(usage.Utime.Nano() + usage.Stime.Nano())
}
