package book

import "sort"

// Book is a copy of a book. Make one, fill its rows, and ask; the rows must not change after the first question.
type Book struct {
	Domain string
	// Place is the commit number of the entries. Last is the highest one of the other rows: Place, unless others
	// changed the book while it was read.
	Place, Last uint64
	// Entries are in the order of their ids, Agents and Bundles in that of their keys.
	Entries []Entry
	Agents  []Agent
	Bundles []Bundle
	// AllAgents is true if Agents has all of them, and not only those that are known by name.
	AllAgents, AllBundles bool

	index *index
}

// Saw records that rows were read at a commit number.
func (b *Book) Saw(place uint64) {
	if place > b.Last {
		b.Last = place
	}
}

// An index finds rows by their columns.
type index struct {
	byID       map[string]*Entry
	byParent   map[string][]*Entry
	byIdentity map[string][]*Entry
	agents     map[string]*Agent
	aliases    []*Entry
	// byKey has each alias under one of its selectors, the one that the fewest aliases have.
	byKey map[string][]*Entry
	// near has the existing SPIFFE IDs that were found for others.
	near map[string]string
}

func (b *Book) find() *index {
	if b.index != nil {
		return b.index
	}
	x := &index{byID: map[string]*Entry{}, byParent: map[string][]*Entry{}, byIdentity: map[string][]*Entry{},
		agents: map[string]*Agent{}, byKey: map[string][]*Entry{}, near: map[string]string{}}
	common := map[string]int{}
	for i := range b.Entries {
		e := &b.Entries[i]
		x.byID[e.ID] = e
		x.byParent[e.Parent] = append(x.byParent[e.Parent], e)
		x.byIdentity[e.Identity] = append(x.byIdentity[e.Identity], e)
		if e.IsAlias() {
			x.aliases = append(x.aliases, e)
			for _, selector := range e.Selectors {
				common[selector]++
			}
		}
	}
	for i := range b.Agents {
		x.agents[b.Agents[i].ID] = &b.Agents[i]
	}
	for _, alias := range x.aliases {
		key := alias.Selectors[0]
		for _, selector := range alias.Selectors {
			if common[selector] < common[key] {
				key = selector
			}
		}
		x.byKey[key] = append(x.byKey[key], alias)
	}
	b.index = x
	return x
}

// Entry returns the entry of an id, or nil.
func (b *Book) Entry(id string) *Entry { return b.find().byID[id] }

// Agent returns the agent of an ID, or nil.
func (b *Book) Agent(id string) *Agent { return b.find().agents[id] }

// WithIdentity returns the entries of a SPIFFE ID, in the order of ids.
func (b *Book) WithIdentity(id string) []*Entry { return b.find().byIdentity[id] }

// Children returns the entries of a parent, in the order of ids.
func (b *Book) Children(parent string) []*Entry { return b.find().byParent[parent] }

// Lacking returns the selectors that are not among those that are had.
func Lacking(wanted, had []string) []string {
	set := make(map[string]bool, len(had))
	for _, selector := range had {
		set[selector] = true
	}
	var lacking []string
	for _, selector := range wanted {
		if !set[selector] {
			lacking = append(lacking, selector)
		}
	}
	return lacking
}

// Held returns the aliases that an agent holds, in the order of ids.
func (b *Book) Held(a *Agent) []*Entry {
	var held []*Entry
	for _, selector := range a.Selectors {
		for _, alias := range b.find().byKey[selector] {
			if len(Lacking(alias.Selectors, a.Selectors)) == 0 {
				held = append(held, alias)
			}
		}
	}
	return inOrder(held)
}

// Sort puts the rows in their order.
func (b *Book) Sort() {
	sort.Slice(b.Entries, func(i, j int) bool { return b.Entries[i].ID < b.Entries[j].ID })
	sort.Slice(b.Agents, func(i, j int) bool { return b.Agents[i].ID < b.Agents[j].ID })
	sort.Slice(b.Bundles, func(i, j int) bool { return b.Bundles[i].Domain < b.Bundles[j].Domain })
}
