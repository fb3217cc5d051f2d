package desired

import (
	"bytes"
	"encoding/json"
	"fmt"
	"time"

	"regd/gateway/book"
	"regd/gateway/client"
)

// Options say how to plan.
type Options struct {
	// Expects is true if the server knows expect_agent and expect_bundle.
	Expects bool
	// IsAdopting lets entries of the set replace those that were made by hand.
	IsAdopting bool
	// By says who plans, for the marker.
	By string
	// Now is the time for the findings of a check. IsCertain leaves out findings that depend on unknown agents.
	Now       time.Time
	IsCertain bool
}

// Plan is what has to be changed in a book, so that it has what a state says.
type Plan struct {
	Set
	// Version is that of the format.
	Version int `json:"regdctl"`
	// Place is the commit number of the book that was read, Last the one of its agents and bundles.
	Place uint64 `json:"place"`
	Last  uint64 `json:"last"`
	// ID is made of the operations.
	ID        string `json:"plan"`
	Rows      []Row  `json:"rows"`
	IsBlocked bool   `json:"blocked"`
	// Own is the number of entries that the set has before the plan, Unchanged of those that stay as they are.
	Own       int            `json:"entries"`
	Unchanged int            `json:"unchanged"`
	Access    []Access       `json:"access"`
	Findings  []book.Finding `json:"findings"`
	// Broken are assertions that don't hold in the result, and changes that the server would refuse.
	Broken  []string `json:"broken"`
	Batches []Batch  `json:"batches"`
	// IsKnown is true if all agents are known.
	IsKnown bool `json:"complete"`
	// DeletesFirst is true if the book would otherwise be too full between two batches.
	DeletesFirst bool   `json:"deletes_first,omitempty"`
	State        *State `json:"state"`
	IsAdopting   bool   `json:"adopt"`
	// Expects is true if the batches have conditions on agents and bundles.
	Expects bool `json:"expects"`
	// MarkerRevision is that of the marker, if there is one.
	MarkerRevision *uint64 `json:"marker_revision"`
}

// Batch is a line of a plan.
type Batch struct {
	Token string      `json:"token"`
	Ops   []client.Op `json:"ops"`
}

const (
	mostOps = 64
	// mostBytes is the length of a line that gateways accept, without what is around the operations and the marker.
	mostBytes   = 256<<10 - 4096
	mostEntries = 16384 // of a book
)

// A planner makes a plan.
type planner struct {
	book    *book.Book
	state   *State
	options Options
	plan    *Plan
	changed []*move
	units   []unit
}

// Make plans the changes of a book.
func Make(b *book.Book, s *State, o Options) (*Plan, error) {
	p := &planner{book: b, state: s, options: o}
	p.plan = &Plan{Set: s.Set, Version: 1, Place: b.Place, Last: b.Last, State: s, IsKnown: b.AllAgents,
		IsAdopting: o.IsAdopting, Expects: o.Expects}
	p.bundles()
	p.agents()
	p.moves()
	p.order()
	after := p.after()
	p.check(after)
	marker := b.Entry(s.MarkerID())
	if marker != nil {
		p.plan.MarkerRevision = &marker.Revision
	}
	p.stopped(marker)
	sortRows(p.plan.Rows)
	return p.plan, p.divide(marker)
}

// stopped makes a plan that ends a former one, although the book has what it should.
func (p *planner) stopped(marker *book.Entry) {
	if marker == nil || len(p.units) > 0 {
		return
	}
	if a, isOne := marker.Applied(); isOne && a.Batch < a.Batches {
		p.plan.Rows = append(p.plan.Rows, Row{Sign: Change, Kind: "marker", Name: marker.Identity,
			Note: fmt.Sprintf("plan %s had stopped after batch %d of %d", a.Plan, a.Batch, a.Batches)})
		p.unit(ofDeletes, "")
	}
}

// after returns the book that the plan makes.
func (p *planner) after() *book.Book {
	b := p.book
	next := &book.Book{Domain: b.Domain, Place: b.Place, Last: b.Last, AllAgents: b.AllAgents,
		AllBundles: b.AllBundles}
	isGone, now := map[string]bool{}, map[string]*book.Entry{}
	var added []book.Entry
	for _, m := range p.changed {
		switch {
		case m.before == nil:
			added = append(added, *m.after)
		case m.after == nil:
			isGone[m.before.ID] = true
		default:
			now[m.before.ID] = m.after
		}
	}
	for _, e := range b.Entries {
		if changed := now[e.ID]; changed != nil {
			e = *changed
		}
		if !isGone[e.ID] {
			next.Entries = append(next.Entries, e)
		}
	}
	next.Entries = append(next.Entries, added...)
	next.Agents = replaced(b.Agents, p.state.Agents, p.state.AbsentAgents,
		func(a book.Agent) string { return a.ID })
	next.Bundles = replaced(b.Bundles, p.state.Bundles, p.state.AbsentBundles,
		func(b book.Bundle) string { return b.Domain })
	next.Sort()
	return next
}

// replaced returns rows with those that are set and without those that are absent.
func replaced[T any](rows, set []T, absent []string, name func(T) string) []T {
	isOther := map[string]bool{}
	for _, one := range set {
		isOther[name(one)] = true
	}
	for _, one := range absent {
		isOther[one] = true
	}
	found := append([]T{}, set...)
	for _, one := range rows {
		if !isOther[name(one)] {
			found = append(found, one)
		}
	}
	return found
}

// divide makes batches of the units.
func (p *planner) divide(marker *book.Entry) error {
	creates := len(p.book.Entries) + 1 // the marker
	for _, m := range p.changed {
		if m.before == nil {
			creates++
		}
	}
	all, err := p.parts()
	if err != nil {
		return err
	}
	if p.plan.DeletesFirst = len(all) > 1 && creates > mostEntries; p.plan.DeletesFirst {
		if all, err = p.parts(); err != nil {
			return err
		}
	}
	text, err := client.Print(all)
	if err != nil {
		return err
	}
	sum := hash("regdctl plan", string(text))
	p.plan.ID = fmt.Sprintf("%x", sum[:4])
	for i, ops := range all {
		batch, err := p.batch(marker, i, len(all), string(sum[:]), ops)
		if err != nil {
			return err
		}
		p.plan.Batches = append(p.plan.Batches, batch)
	}
	return nil
}

// parts divides the units into the operations of batches. A unit is not divided.
func (p *planner) parts() ([][]client.Op, error) {
	sortUnits(p.units, p.plan.DeletesFirst)
	var parts [][]client.Op
	bytes := 0
	for _, u := range p.units {
		size := 0
		for _, op := range u.ops {
			text, err := client.Print(op)
			if err != nil {
				return nil, err
			}
			size += len(text) + 1
		}
		if len(u.ops) >= mostOps || size > mostBytes {
			return nil, &Invalid{p.state.Name, fmt.Sprintf(
				"%d changes of entries depend on each other, from %s on, more than a batch can "+
					"have; change some of them at first", len(u.ops), u.name)}
		}
		last := len(parts) - 1
		if last < 0 || len(parts[last])+len(u.ops) >= mostOps || bytes+size > mostBytes {
			parts, bytes, last = append(parts, nil), 0, last+1
		}
		parts[last] = append(parts[last], u.ops...)
		bytes += size
	}
	return parts, nil
}

// batch returns a batch, which begins with the marker at the revision that it has then.
func (p *planner) batch(marker *book.Entry, i, count int, sum string, ops []client.Op) (Batch, error) {
	e, err := p.state.marker(book.Applied{Set: p.state.Name, Plan: p.plan.ID, Batch: i + 1, Batches: count,
		By: p.options.By})
	if err != nil {
		return Batch{}, err
	}
	first, revision := client.Create(e), "none"
	if marker != nil || i > 0 {
		expected := uint64(i)
		if marker == nil {
			expected--
		} else {
			expected += marker.Revision
		}
		first, revision = client.Update(e, &expected), fmt.Sprint(expected)
	}
	token := Token("regdctl token", sum, fmt.Sprint(p.book.Place), revision, fmt.Sprint(i))
	return Batch{token, append([]client.Op{first}, ops...)}, nil
}

// Changes returns the number of rows that the plan changes.
func (p *Plan) Changes() int {
	count := 0
	for _, row := range p.Rows {
		if row.Sign != Blocked {
			count++
		}
	}
	return count
}

// Made returns how many batches of this plan a marker shows as made, and false if the marker is not this plan's.
func (p *Plan) Made(marker *book.Entry) (batches int, isThis bool) {
	if marker == nil {
		return 0, false
	}
	before := ^uint64(0) // of a marker that the first batch makes
	if p.MarkerRevision != nil {
		before = *p.MarkerRevision
	}
	a, isOne := marker.Applied()
	isThis = isOne && a.Plan == p.ID && a.Batches == len(p.Batches) && marker.Revision == before+uint64(a.Batch)
	return a.Batch, isThis
}

// Operations returns the number of operations.
func (p *Plan) Operations() int {
	count := 0
	for _, batch := range p.Batches {
		count += len(batch.Ops)
	}
	return count
}

// ReadPlan reads a plan that was stored, and returns false if the text is none.
func ReadPlan(text []byte) (*Plan, bool) {
	var p Plan
	decoder := json.NewDecoder(bytes.NewReader(text))
	decoder.UseNumber() // revisions are printed as they came
	if decoder.Decode(&p) != nil || p.Version != 1 || p.Batches == nil || p.State == nil {
		return nil, false
	}
	return &p, true
}
