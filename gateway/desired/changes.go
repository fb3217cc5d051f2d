package desired

import (
	"fmt"
	"sort"
	"strings"

	"regd/gateway/book"
)

// The changes of a row.
const (
	Add    = "+"
	Change = "~"
	Remove = "-"
	// Blocked is a row that needs a decision: a similar entry is there that doesn't belong to the set.
	Blocked = "!"
)

// Row is the change of a row, as a plan shows it.
type Row struct {
	Sign     string            `json:"change"`
	Kind     string            `json:"kind"` // bundle, agent, entry or marker
	Name     string            `json:"name"` // a domain or a SPIFFE ID
	ID       string            `json:"id,omitempty"`
	Parent   string            `json:"parent,omitempty"`
	Revision *uint64           `json:"revision,omitempty"`
	Columns  []book.Difference `json:"columns,omitempty"`
	Note     string            `json:"note,omitempty"`
}

// A move is the change of an entry: without a former row it is made, without a later one it is deleted.
type move struct{ before, after *book.Entry }

// id returns the id of the entry.
func (m *move) id() string {
	if m.before != nil {
		return m.before.ID
	}
	return m.after.ID
}

// frees returns the key that no row has any more after the move, or "".
func (m *move) frees() string {
	if m.before == nil || m.after != nil && m.after.Key() == m.before.Key() {
		return ""
	}
	return m.before.Key()
}

// takes returns the key that a row has only after the move, or "".
func (m *move) takes() string {
	if m.after == nil || m.before != nil && m.after.Key() == m.before.Key() {
		return ""
	}
	return m.after.Key()
}

// row shows a move.
func (m *move) row() Row {
	switch {
	case m.before == nil:
		return Row{Sign: Add, Kind: "entry", Name: m.after.Identity, ID: m.after.ID, Parent: m.after.Parent}
	case m.after == nil:
		return Row{Sign: Remove, Kind: "entry", Name: m.before.Identity, ID: m.before.ID,
			Revision: &m.before.Revision}
	}
	return Row{Sign: Change, Kind: "entry", Name: m.after.Identity, ID: m.after.ID, Revision: &m.before.Revision,
		Columns: book.Differences(*m.before, *m.after)}
}

// moves finds the changes of entries.
func (p *planner) moves() {
	wanted := map[string]*book.Entry{}
	for i := range p.state.Entries {
		e := &p.state.Entries[i].Entry
		wanted[e.ID] = e
	}
	isAbsent := map[string]bool{}
	for _, id := range p.state.AbsentEntries {
		isAbsent[id] = true
	}
	gone := map[string]bool{} // keys that no row has in the result, unless a row of the set takes them
	for i := range p.book.Entries {
		e := &p.book.Entries[i]
		isOwn := p.state.Has(e.ID) && !e.IsMarker()
		if (isOwn || isAbsent[e.ID]) && e.ID != p.state.MarkerID() {
			gone[e.Key()] = true
			if isOwn {
				p.plan.Own++
			}
			if wanted[e.ID] == nil {
				p.move(&move{before: e}, "")
			}
		}
	}
	similar := map[string]*book.Entry{} // rows that this plan leaves as they are
	for i := range p.book.Entries {
		if e := &p.book.Entries[i]; !gone[e.Key()] {
			similar[e.Key()] = e
		}
	}
	for i := range p.state.Entries {
		p.want(&p.state.Entries[i].Entry, similar)
	}
}

// want finds the change of an entry that the state has.
func (p *planner) want(e *book.Entry, similar map[string]*book.Entry) {
	before := p.book.Entry(e.ID)
	if other := similar[e.Key()]; other != nil && !p.adopt(e, other) {
		return
	}
	switch {
	case before == nil:
		p.move(&move{after: e}, "")
	case len(book.Differences(*before, *e)) > 0:
		p.move(&move{before: before, after: e}, "")
	default:
		p.plan.Unchanged++
	}
}

// adopt removes an entry in favour of one of the set, if that is allowed.
func (p *planner) adopt(e, other *book.Entry) bool {
	owner := p.owner(other.ID)
	if p.options.IsAdopting && owner == "" {
		p.move(&move{before: other}, "adopted")
		return true
	}
	note := "the same entry is there with another id, made by hand: " + other.ID + "; -adopt replaces it"
	if owner != "" {
		note = "the same entry belongs to the set " + owner + ": " + other.ID + "; remove it there at first"
	}
	p.plan.IsBlocked = true
	p.plan.Rows = append(p.plan.Rows, Row{Sign: Blocked, Kind: "entry", Name: e.Identity, ID: e.ID,
		Parent: e.Parent,
		Note:   note})
	return false
}

// owner returns the set to which an id belongs, or "".
func (p *planner) owner(id string) string {
	for _, marker := range p.book.WithIdentity("spiffe://" + p.state.Domain + book.MarkerIdentity) {
		name := strings.TrimPrefix(marker.Selectors[0], book.MarkerSelector)
		if set := (Set{p.state.Domain, name}); marker.IsMarker() && set.Has(id) {
			return name
		}
	}
	return ""
}

// move records the change of an entry.
func (p *planner) move(m *move, note string) {
	row := m.row()
	row.Note = note
	p.plan.Rows = append(p.plan.Rows, row)
	p.changed = append(p.changed, m)
}

// bundles finds the changes of bundles: those that are set, and those that have to be gone.
func (p *planner) bundles() {
	there := map[string]*book.Bundle{}
	for i := range p.book.Bundles {
		there[p.book.Bundles[i].Domain] = &p.book.Bundles[i]
	}
	for i := range p.state.Bundles {
		b := &p.state.Bundles[i]
		before := there[b.Domain]
		if before != nil && before.Text == b.Text {
			continue
		}
		row := Row{Sign: Add, Kind: "bundle", Name: b.Domain}
		if before != nil {
			row.Sign, row.Revision = Change, &before.Sequence
			row.Columns = []book.Difference{{Name: "text", Before: size(before.Text), After: size(b.Text)}}
		}
		p.plan.Rows = append(p.plan.Rows, row)
		p.setBundle(before, b)
	}
	for _, domain := range p.state.AbsentBundles {
		if before := there[domain]; before != nil {
			p.plan.Rows = append(p.plan.Rows, Row{Sign: Remove, Kind: "bundle", Name: domain,
				Revision: &before.Sequence})
			p.dropBundle(before)
		}
	}
}

// size returns the length of a text with the first digits of its hash.
func size(text string) string {
	sum := hash(text)
	return fmt.Sprintf("%d bytes, %x", len(text), sum[:4])
}

func selectorText(selectors []string) string { return strings.Join(book.Ordered(selectors), " ") }

// agents finds the changes of agents.
func (p *planner) agents() {
	for i := range p.state.Agents {
		a := &p.state.Agents[i]
		before := p.book.Agent(a.ID)
		if before != nil && book.SameSet(before.Selectors, a.Selectors) {
			continue
		}
		row := Row{Sign: Add, Kind: "agent", Name: a.ID}
		had := ""
		if before != nil {
			row.Sign, had = Change, selectorText(before.Selectors)
		}
		row.Columns = []book.Difference{{Name: "selectors", Before: had, After: selectorText(a.Selectors)}}
		p.plan.Rows = append(p.plan.Rows, row)
		p.setAgent(before, a)
	}
	for _, id := range p.state.AbsentAgents {
		if before := p.book.Agent(id); before != nil {
			p.plan.Rows = append(p.plan.Rows, Row{Sign: Remove, Kind: "agent", Name: id,
				Columns: []book.Difference{{Name: "selectors",
					Before: selectorText(before.Selectors)}}})
			p.dropAgent(before)
		}
	}
}

// sortRows puts rows in an order: bundles, agents, entries; what is changed, added, removed and blocked.
func sortRows(rows []Row) {
	kinds := map[string]int{"bundle": 0, "agent": 1, "entry": 2, "marker": 3}
	sort.SliceStable(rows, func(i, j int) bool {
		one, other := rows[i], rows[j]
		switch {
		case kinds[one.Kind] != kinds[other.Kind]:
			return kinds[one.Kind] < kinds[other.Kind]
		case one.Sign != other.Sign:
			return strings.Index("~+-!", one.Sign) < strings.Index("~+-!", other.Sign)
		case one.Name != other.Name:
			return one.Name < other.Name
		}
		return one.ID < other.ID
	})
}
