package book

import "sort"

// inOrder sorts entries by their ids.
func inOrder(entries []*Entry) []*Entry {
	sort.Slice(entries, func(i, j int) bool { return entries[i].ID < entries[j].ID })
	return entries
}

// A Reach has the entries that an agent may serve, each with the entry before it in a shortest chain. That is nil for
// the first entry of a chain: an alias that the agent holds, or an entry whose parent is the agent.
type Reach map[*Entry]*Entry

// Reach finds the entries that an agent may serve.
func (b *Book) Reach(a *Agent) Reach {
	return b.below(append(b.Held(a), b.Children(a.ID)...))
}

// below finds what can be reached from the first entries of chains, these among them.
func (b *Book) below(first []*Entry) Reach {
	reach, followed := Reach{}, map[string]bool{}
	var work []*Entry
	add := func(e, before *Entry) {
		if _, isIn := reach[e]; !isIn {
			reach[e] = before
			work = append(work, e)
		}
	}
	for _, e := range first {
		add(e, nil)
	}
	for next := 0; next < len(work); next++ {
		e := work[next]
		if followed[e.Identity] {
			continue
		}
		followed[e.Identity] = true
		for _, child := range b.Children(e.Identity) {
			add(child, e)
		}
	}
	return reach
}

// Entries returns the entries, in the order of ids.
func (r Reach) Entries() []*Entry {
	entries := make([]*Entry, 0, len(r))
	for e := range r {
		entries = append(entries, e)
	}
	return inOrder(entries)
}

// Chain returns a shortest chain that ends in the entry, or nil if the agent may not serve it.
func (r Reach) Chain(e *Entry) []*Entry {
	var chain []*Entry
	if _, isIn := r[e]; !isIn {
		return nil
	}
	for ; e != nil; e = r[e] {
		chain = append([]*Entry{e}, chain...)
	}
	return chain
}

// The kinds of a missing link.
const (
	LacksSelectors = "selectors" // an alias needs selectors that the agent lacks
	NoParent       = "parent"    // nothing has the SPIFFE ID of the parent
	OtherAgent     = "agent"     // the parent is another agent
	Cycle          = "cycle"     // the parents lead back to the entry
)

// Missing is a link that is missing in all chains through an entry.
type Missing struct {
	Kind string
	// Path leads from the entry that was asked about to the one whose link upwards is missing.
	Path []*Entry
	// Selectors are those that the agent lacks.
	Selectors []string
	// Near is an existing SPIFFE ID that differs from the parent in one or two letters, or "".
	Near string
}

// Entry returns the entry whose link upwards is missing.
func (m Missing) Entry() *Entry { return m.Path[len(m.Path)-1] }

// Missing returns why an agent may not serve an entry, the links next to the entry first. With one of them repaired, a
// chain leads from the agent to the entry. The agent must not have a chain to the entry.
func (b *Book) Missing(a *Agent, e *Entry) []Missing {
	var found []Missing
	below := map[*Entry]*Entry{e: nil}
	work := []*Entry{e}
	for next := 0; next < len(work); next++ {
		x := work[next]
		if m := b.missing(a, x); m.Kind != "" {
			m.Path = path(below, x)
			found = append(found, m)
			continue
		}
		for _, parent := range b.WithIdentity(x.Parent) {
			if _, isIn := below[parent]; !isIn {
				below[parent] = x
				work = append(work, parent)
			}
		}
	}
	if len(found) == 0 {
		found = []Missing{b.cycle(e)}
	}
	return found
}

// path returns the way from the entry that was asked about to x.
func path(below map[*Entry]*Entry, x *Entry) []*Entry {
	var way []*Entry
	for ; x != nil; x = below[x] {
		way = append([]*Entry{x}, way...)
	}
	return way
}

// missing returns what is missing right above an entry. Its kind is "" if the parent is the SPIFFE ID of entries.
func (b *Book) missing(a *Agent, x *Entry) Missing {
	switch {
	case x.IsAlias():
		return Missing{Kind: LacksSelectors, Selectors: Lacking(x.Selectors, a.Selectors)}
	case len(b.WithIdentity(x.Parent)) > 0:
		return Missing{}
	case IsAgentID(x.Parent):
		return Missing{Kind: OtherAgent, Near: b.Near(x.Parent)}
	}
	return Missing{Kind: NoParent, Near: b.Near(x.Parent)}
}

// cycle follows the first parents from an entry, of which each has one, until one returns.
func (b *Book) cycle(e *Entry) Missing {
	m, seen := Missing{Kind: Cycle}, map[*Entry]bool{}
	for ; !seen[e]; e = b.WithIdentity(e.Parent)[0] {
		seen[e] = true
		m.Path = append(m.Path, e)
	}
	return m
}

// A Condition is what an agent needs for an entry: it is this agent, or it holds this alias.
type Condition struct {
	Agent string // an agent's ID, or ""
	Alias *Entry
	// Agents are the known agents that meet the condition.
	Agents []*Agent
}

// WhoCan returns the conditions of which an agent has to meet one to serve the entry. The list doesn't depend on which
// agents are known.
func (b *Book) WhoCan(e *Entry) []Condition {
	var found []Condition
	b.above([]*Entry{e}, func(alias *Entry, agent string) {
		if alias != nil {
			found = append(found, Condition{Alias: alias, Agents: b.holders(alias)})
		} else {
			found = append(found, b.byName(agent))
		}
	})
	return found
}

// above finds the aliases, and the IDs of agents, from which chains lead to one of the entries, each once.
func (b *Book) above(entries []*Entry, take func(alias *Entry, agent string)) {
	seen, named := map[*Entry]bool{}, map[string]bool{}
	var work []*Entry
	add := func(some []*Entry) {
		for _, e := range some {
			if !seen[e] {
				seen[e] = true
				work = append(work, e)
			}
		}
	}
	add(entries)
	for next := 0; next < len(work); next++ {
		x := work[next]
		if x.IsAlias() {
			take(x, "")
			continue
		}
		if IsAgentID(x.Parent) && !named[x.Parent] {
			named[x.Parent] = true
			take(nil, x.Parent)
		}
		add(b.WithIdentity(x.Parent))
	}
}

// Touched returns the known agents that may serve one of the entries, by their IDs.
func (b *Book) Touched(entries []*Entry) map[string]bool {
	found, aliases := map[string]bool{}, map[*Entry]bool{}
	b.above(entries, func(alias *Entry, agent string) {
		if alias != nil {
			aliases[alias] = true
		} else if b.Agent(agent) != nil {
			found[agent] = true
		}
	})
	for i := range b.Agents {
		for _, alias := range b.Held(&b.Agents[i]) {
			if aliases[alias] {
				found[b.Agents[i].ID] = true
			}
		}
	}
	return found
}

// Identities returns the SPIFFE IDs that an agent may serve. An agent that is not known may serve none.
func (b *Book) Identities(agent string) map[string]bool {
	found := map[string]bool{}
	if a := b.Agent(agent); a != nil {
		for e := range b.Reach(a) {
			found[e.Identity] = true
		}
	}
	return found
}

func (b *Book) byName(id string) Condition {
	c := Condition{Agent: id}
	if a := b.Agent(id); a != nil {
		c.Agents = []*Agent{a}
	}
	return c
}

// holders returns the known agents that hold an alias.
func (b *Book) holders(alias *Entry) []*Agent {
	var found []*Agent
	for i := range b.Agents {
		if len(Lacking(alias.Selectors, b.Agents[i].Selectors)) == 0 {
			found = append(found, &b.Agents[i])
		}
	}
	return found
}

// Near returns the existing SPIFFE ID that is nearest to one that doesn't exist, at most two letters away, or "".
func (b *Book) Near(id string) string {
	known := b.find().near
	if found, isKnown := known[id]; isKnown {
		return found // many entries may have the same parent
	}
	known[id] = b.nearest(id)
	return known[id]
}

func (b *Book) nearest(id string) string {
	best, least := "", 3
	_, wanted := SplitID(id)
	try := func(other string) {
		_, path := SplitID(other)
		if d := distance(wanted, path, least); other != id &&
			(d < least || d == least && least < 3 && other < best) {
			best, least = other, d
		}
	}
	for identity := range b.find().byIdentity {
		try(identity)
	}
	for i := range b.Agents {
		try(b.Agents[i].ID)
	}
	return best
}

// distance returns how many letters have to be added, removed or replaced, or a larger number than `most`.
func distance(from, to string, most int) int {
	if len(from)-len(to) > most || len(to)-len(from) > most {
		return most + 1
	}
	row := make([]int, len(to)+1)
	for j := range row {
		row[j] = j
	}
	for i := 1; i <= len(from); i++ {
		diagonal, least := row[0], i
		row[0] = i
		for j := 1; j <= len(to); j++ {
			cost := diagonal
			if from[i-1] != to[j-1] {
				cost++
			}
			diagonal = row[j]
			row[j] = smallest(cost, row[j]+1, row[j-1]+1)
			least = smallest(least, row[j], least)
		}
		if least > most {
			return most + 1
		}
	}
	return row[len(to)]
}

func smallest(a, b, c int) int {
	if b < a {
		a = b
	}
	if c < a {
		a = c
	}
	return a
}

// Stranded returns the entries that are deleted, and those to which a chain would lead now, from some alias or agent's
// ID, but not without the deleted ones and the agent. Which agents are registered makes no difference.
func (b *Book) Stranded(deleted map[string]bool, agent string) []*Entry {
	rest := &Book{}
	for _, e := range b.Entries {
		if !deleted[e.ID] {
			rest.Entries = append(rest.Entries, e)
		}
	}
	left := map[string]bool{}
	for e := range rest.below(rest.roots(agent)) {
		left[e.ID] = true
	}
	found := Reach{}
	for e := range b.below(b.roots("")) {
		if !left[e.ID] {
			found[e] = nil
		}
	}
	for i := range b.Entries {
		if e := &b.Entries[i]; deleted[e.ID] {
			found[e] = nil
		}
	}
	return found.Entries()
}

// roots returns the aliases and the entries whose parent is an agent's ID, but for one agent.
func (b *Book) roots(without string) []*Entry {
	var first []*Entry
	for i := range b.Entries {
		if e := &b.Entries[i]; e.IsAlias() || IsAgentID(e.Parent) && e.Parent != without {
			first = append(first, e)
		}
	}
	return first
}
