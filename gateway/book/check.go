package book

import (
	"encoding/json"
	"fmt"
	"sort"
	"strings"
	"time"
)

// The findings of Check. Their names are for programs, and stay.
const (
	Orphan       = "orphan"        // no entry has the SPIFFE ID of its parent, and this is no agent's
	NoAgent      = "no agent"      // its parent is an agent that is not registered
	Unserved     = "unserved"      // no known agent may serve it
	InCycle      = "cycle"         // entries that are each other's parents
	Expired      = "expired"       // expired, and not pruned
	Expires      = "expires"       // expires soon
	Covered      = "covered"       // a similar entry needs fewer selectors
	Unusual      = "unusual"       // a value that is accepted and probably a slip
	BadBundle    = "bundle"        // its text is not JSON with `keys`
	UnusedBundle = "unused bundle" // no entry names its domain
	Marker       = "marker"        // a plan that stopped, or a marker that agents can reach
)

// Finding is something in a book that is probably a mistake.
type Finding struct {
	Kind     string `json:"finding"`
	Identity string `json:"identity,omitempty"`
	ID       string `json:"id,omitempty"`
	Domain   string `json:"domain,omitempty"`
	Text     string `json:"text"`
	// Near is an existing SPIFFE ID that may be meant.
	Near string `json:"near,omitempty"`
	// IsCertain is false if agents that are not known could make it wrong.
	IsCertain bool `json:"certain"`
}

func of(kind string, e *Entry, isCertain bool, text string) Finding {
	return Finding{Kind: kind, Identity: e.Identity, ID: e.ID, Text: text, IsCertain: isCertain}
}

// Check returns what looks wrong, by kind and then by id. Entries that expire within `soon` after `now` are among it.
func (b *Book) Check(now time.Time, soon time.Duration) []Finding {
	found := b.unserved()
	found = append(found, b.expiries(uint64(now.Unix()), uint64(now.Add(soon).Unix()))...)
	found = append(found, b.covered()...)
	found = append(found, b.unusual()...)
	found = append(found, b.bundles()...)
	found = append(found, b.markers()...)
	kinds := map[string]int{}
	for i, kind := range []string{Orphan, NoAgent, Unserved, InCycle, Expired, Expires, Covered, Unusual, BadBundle,
		UnusedBundle, Marker} {
		kinds[kind] = i
	}
	sort.SliceStable(found, func(i, j int) bool {
		if found[i].Kind != found[j].Kind {
			return kinds[found[i].Kind] < kinds[found[j].Kind]
		}
		return found[i].ID+found[i].Domain < found[j].ID+found[j].Domain
	})
	return found
}

// Served returns the entries that a known agent may serve.
func (b *Book) Served() Reach {
	var first []*Entry
	for i := range b.Agents {
		first = append(append(first, b.Held(&b.Agents[i])...), b.Children(b.Agents[i].ID)...)
	}
	return b.below(first)
}

// unserved finds the entries that no agent serves, each with the nearest reason, and the cycles.
func (b *Book) unserved() []Finding {
	found, inCycle := b.cycles()
	served := b.Served()
	for i := range b.Entries {
		e := &b.Entries[i]
		_, isServed := served[e]
		if isServed || inCycle[e] || e.IsMarker() {
			continue
		}
		m := b.missing(&Agent{}, e)
		switch m.Kind {
		case NoParent:
			f := of(Orphan, e, true, "nothing has its parent's SPIFFE ID "+pathOf(e.Parent))
			f.Near = m.Near
			found = append(found, f)
		case OtherAgent:
			f := of(NoAgent, e, true,
				"its parent is the agent "+pathOf(e.Parent)+", which is not registered")
			f.Near = m.Near
			found = append(found, f)
		case LacksSelectors:
			text := "no agent has " + strings.Join(e.Selectors, " ")
			found = append(found, of(Unserved, e, b.AllAgents, text))
		default:
			text := "no chain leads to its parent " + pathOf(e.Parent)
			found = append(found, of(Unserved, e, b.AllAgents, text))
		}
	}
	return found
}

func pathOf(id string) string {
	_, path := SplitID(id)
	return path
}

// cycles finds the entries that are each other's parents, and returns a finding for each group of them.
func (b *Book) cycles() ([]Finding, map[*Entry]bool) {
	groups := b.groups()
	members := map[int][]*Entry{}
	inCycle := map[*Entry]bool{}
	for i := range b.Entries {
		e := &b.Entries[i]
		if from, isIn := groups[e.Parent]; isIn && from == groups[e.Identity] {
			members[from] = append(members[from], e)
			inCycle[e] = true
		}
	}
	var found []Finding
	for _, entries := range members {
		var names []string
		for _, e := range entries {
			names = append(names, pathOf(e.Identity))
		}
		text := "its chain of parents leads back to it"
		if len(names) > 1 {
			text = fmt.Sprintf("%d entries are each other's parents: %s", len(names),
				strings.Join(names, " "))
		}
		found = append(found, of(InCycle, entries[0], true, text))
	}
	return found, inCycle
}

// groups gives two SPIFFE IDs the same number if entries lead from each of them to the other: Tarjan's algorithm, where
// an entry leads from its parent to its identity.
func (b *Book) groups() map[string]int {
	g := &grouping{book: b, number: map[string]int{}, least: map[string]int{}, group: map[string]int{}}
	for i := range b.Entries {
		if parent := b.Entries[i].Parent; g.number[parent] == 0 {
			g.visit(parent)
		}
	}
	return g.group
}

type grouping struct {
	book          *Book
	number, least map[string]int // from 1, in the order of visits
	group         map[string]int // of those that are done
	stack         []string
}

func (g *grouping) visit(id string) {
	g.number[id] = len(g.number) + 1
	g.least[id] = g.number[id]
	g.stack = append(g.stack, id)
	for _, e := range g.book.Children(id) {
		next := e.Identity
		if g.number[next] == 0 {
			g.visit(next)
		}
		if _, isDone := g.group[next]; !isDone && g.least[next] < g.least[id] {
			g.least[id] = g.least[next]
		}
	}
	if g.least[id] != g.number[id] {
		return
	}
	for isOwn := false; !isOwn; {
		last := len(g.stack) - 1
		isOwn = g.stack[last] == id
		g.group[g.stack[last]] = g.number[id]
		g.stack = g.stack[:last]
	}
}

func (b *Book) expiries(now, soon uint64) []Finding {
	var found []Finding
	for i := range b.Entries {
		e := &b.Entries[i]
		if e.Expiry == 0 || e.Expiry > soon {
			continue
		}
		at := time.Unix(int64(e.Expiry), 0).UTC().Format(time.RFC3339)
		if e.Expiry < now {
			found = append(found, of(Expired, e, true, "expired at "+at+" and is still answered"))
		} else {
			found = append(found, of(Expires, e, true, "expires at "+at))
		}
	}
	return found
}

// covered finds entries for which another one with the same parent and identity needs fewer selectors.
func (b *Book) covered() []Finding {
	var found []Finding
	groups := map[[2]string]map[string][]*Entry{} // by parent and identity, then by the first selector
	for i := range b.Entries {
		e := &b.Entries[i]
		key := [2]string{e.Parent, e.Identity}
		if groups[key] == nil {
			groups[key] = map[string][]*Entry{}
		}
		groups[key][e.Selectors[0]] = append(groups[key][e.Selectors[0]], e)
	}
	for i := range b.Entries {
		e := &b.Entries[i]
		if other := coveredBy(e, groups[[2]string{e.Parent, e.Identity}]); other != nil {
			text := "another entry needs only " + strings.Join(other.Selectors, " ") + ": " + other.ID
			found = append(found, of(Covered, e, true, text))
		}
	}
	return found
}

// coveredBy returns an entry whose selectors are some of e's, but not all of them, or nil.
func coveredBy(e *Entry, byFirst map[string][]*Entry) *Entry {
	for _, selector := range e.Selectors {
		for _, other := range byFirst[selector] {
			isFewer := len(other.Selectors) < len(e.Selectors)
			if isFewer && len(Lacking(other.Selectors, e.Selectors)) == 0 {
				return other
			}
		}
	}
	return nil
}

const (
	// LastSecond is the last moment of ten digits, in the year 2286. A later one is probably in milliseconds.
	LastSecond = 9_999_999_999
	longestTTL = 366 * 86400
)

// unusual finds selectors that probably no process and no agent has, and numbers that are probably in another unit.
func (b *Book) unusual() []Finding {
	var found []Finding
	for i := range b.Entries {
		e := &b.Entries[i]
		texts := unusualSelectors(e.Selectors)
		if e.Expiry > LastSecond {
			texts = append(texts, fmt.Sprintf("its expiry isn't in seconds: %d", e.Expiry))
		}
		for _, ttl := range []uint64{e.X509TTL, e.JWTTTL} {
			if ttl > longestTTL {
				texts = append(texts, fmt.Sprintf("a lifetime of more than a year: %d s", ttl))
			}
		}
		for _, text := range texts {
			found = append(found, of(Unusual, e, true, text))
		}
	}
	for _, a := range b.Agents {
		for _, text := range unusualSelectors(a.Selectors) {
			found = append(found, Finding{Kind: Unusual, Identity: a.ID, Text: text, IsCertain: true})
		}
	}
	return found
}

// unusualSelectors returns what is unusual about selectors: white space at an end, or a type in upper case.
func unusualSelectors(selectors []string) []string {
	var texts []string
	for _, selector := range selectors {
		kind, _, _ := strings.Cut(selector, ":")
		if strings.TrimSpace(selector) != selector || strings.ToLower(kind) != kind {
			texts = append(texts, fmt.Sprintf("the selector %q, which is compared byte for byte", selector))
		}
	}
	return texts
}

func (b *Book) bundles() []Finding {
	var found []Finding
	used := map[string]bool{}
	for i := range b.Entries {
		for _, domain := range b.Entries[i].Domains {
			used[domain] = true
		}
	}
	for _, bundle := range b.Bundles {
		if text := FaultOfBundle(bundle.Text); text != "" {
			found = append(found,
				Finding{Kind: BadBundle, Domain: bundle.Domain, Text: text, IsCertain: true})
		}
		if !used[bundle.Domain] {
			text := "no entry federates with this domain"
			found = append(found,
				Finding{Kind: UnusedBundle, Domain: bundle.Domain, Text: text, IsCertain: true})
		}
	}
	return found
}

// FaultOfBundle returns what is wrong with the text of a bundle, or "": it has to be JSON with a list `keys`.
func FaultOfBundle(text string) string {
	var keys map[string]json.RawMessage
	if err := json.Unmarshal([]byte(text), &keys); err != nil {
		return "its text is not a JSON object: " + err.Error()
	}
	var list []json.RawMessage
	if err := json.Unmarshal(keys["keys"], &list); err != nil {
		return "its text has no list `keys`"
	}
	return ""
}

// markers finds plans that stopped before their last batch, and entries that lead to the markers of sets.
func (b *Book) markers() []Finding {
	var found []Finding
	for i := range b.Entries {
		e := &b.Entries[i]
		_, path := SplitID(e.Identity)
		switch {
		case e.IsMarker():
			if a, isOne := e.Applied(); isOne && a.Batch < a.Batches {
				text := fmt.Sprintf("plan %s of the set %s stopped after batch %d of %d", a.Plan,
					a.Set, a.Batch,
					a.Batches)
				found = append(found, of(Marker, e, true, text))
			}
		case path == MarkerParent:
			found = append(found, of(Marker, e, true, "agents that may serve it may also serve the "+
				"markers of sets"))
		}
	}
	return found
}
