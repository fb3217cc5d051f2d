package desired

import (
	"sort"

	"regd/gateway/book"
	"regd/gateway/client"
)

// A unit is a list of operations that stay together in one batch.
type unit struct {
	rank    int // units of a lower rank come first
	name    string
	ops     []client.Op
	deletes bool // it begins with a delete
}

// The ranks of units. A row is there before others need it, and goes when none needs it any more.
const (
	ofBundles = iota
	ofAgents
	ofCreates
	ofUpdates
	ofDeletes
	ofAbsent
)

func (p *planner) unit(rank int, name string, ops ...client.Op) {
	p.units = append(p.units, unit{rank: rank, name: name, ops: ops})
}

// expecting puts a condition before operations, if the server knows it.
func (p *planner) expecting(condition client.Op, ops ...client.Op) []client.Op {
	if p.options.Expects {
		return append([]client.Op{condition}, ops...)
	}
	return ops
}

// ExpectBundle is the condition that a bundle is as it was read, or missing.
func expectBundle(domain string, before *book.Bundle) client.Op {
	if before == nil {
		return client.ExpectBundle(domain, nil)
	}
	return client.ExpectBundle(domain, &before.Sequence)
}

func expectAgent(agent string, before *book.Agent) client.Op {
	if before == nil {
		return client.ExpectAgent(agent, nil)
	}
	return client.ExpectAgent(agent, append([]string{}, before.Selectors...))
}

func (p *planner) setBundle(before, after *book.Bundle) {
	p.unit(ofBundles, after.Domain, p.expecting(expectBundle(after.Domain, before),
		client.SetBundle(after.Domain, after.Text))...)
}

func (p *planner) dropBundle(before *book.Bundle) {
	p.unit(ofAbsent, before.Domain, p.expecting(expectBundle(before.Domain, before),
		client.DropBundle(before.Domain, "restrict"))...)
}

// setAgent sets an agent. Where the server knows no conditions, an agent that is there is removed before: the reply has
// the selectors that it had.
func (p *planner) setAgent(before, after *book.Agent) {
	ops := []client.Op{client.SetAgent(*after)}
	if before != nil && !p.options.Expects {
		ops = append([]client.Op{client.DropAgent(after.ID)}, ops...)
	}
	p.unit(ofAgents, after.ID, p.expecting(expectAgent(after.ID, before), ops...)...)
}

func (p *planner) dropAgent(before *book.Agent) {
	p.unit(ofAbsent, before.ID, p.expecting(expectAgent(before.ID, before), client.DropAgent(before.ID))...)
}

// op returns the operation of a move.
func (m *move) op() client.Op {
	switch {
	case m.before == nil:
		return client.Create(*m.after)
	case m.after == nil:
		return client.Delete(m.before.ID, &m.before.Revision)
	}
	return client.Update(*m.after, &m.before.Revision)
}

// order makes units of moves. A move that takes the parent, identity and selectors of another row comes after the move
// that frees them. Each has at most one before it and one behind it, so these are chains and rings.
func (p *planner) order() {
	freed := map[string]*move{}
	for _, m := range p.changed {
		if key := m.frees(); key != "" {
			freed[key] = m
		}
	}
	before, behind := map[*move]*move{}, map[*move]*move{}
	for _, m := range p.changed {
		if other := freed[m.takes()]; other != nil {
			before[m], behind[other] = other, m
		}
	}
	sort.Slice(p.changed, func(i, j int) bool { return p.changed[i].id() < p.changed[j].id() })
	isDone := map[*move]bool{}
	follow := func(m *move) []*move {
		var chain []*move
		for ; m != nil && !isDone[m]; m = behind[m] {
			isDone[m] = true
			chain = append(chain, m)
		}
		return chain
	}
	for _, m := range p.changed {
		if before[m] == nil {
			p.units = append(p.units, chainOf(follow(m)))
		}
	}
	for _, m := range p.changed { // what is left are rings
		if !isDone[m] {
			p.units = append(p.units, ringOf(follow(m)))
		}
	}
}

// chainOf returns the unit of a chain.
func chainOf(chain []*move) unit {
	first := chain[0]
	u := unit{rank: ofUpdates, name: first.id(), deletes: first.after == nil}
	if len(chain) == 1 && first.before == nil {
		u.rank = ofCreates
	}
	if len(chain) == 1 && first.after == nil {
		u.rank = ofDeletes
	}
	for _, m := range chain {
		u.ops = append(u.ops, m.op())
	}
	return u
}

// MovingSelector is, with an id, the selector of an entry that waits until another one of its ring has moved.
const movingSelector = "regdctl:moving:"

// ringOf returns the unit of a ring of updates. The first entry moves out of the way, and at the end to its place.
func ringOf(ring []*move) unit {
	first := ring[0]
	away, next := *first.after, first.before.Revision+1
	away.Selectors = []string{movingSelector + away.ID}
	u := unit{rank: ofUpdates, name: first.id()}
	u.ops = append(u.ops, client.Update(away, &first.before.Revision))
	for _, m := range ring[1:] {
		u.ops = append(u.ops, m.op())
	}
	u.ops = append(u.ops, client.Update(*first.after, &next))
	return u
}

// sortUnits puts units in the order of their ranks. If the book would be too full in between, deletes come first.
func sortUnits(units []unit, deletesFirst bool) {
	rank := func(u unit) int {
		if deletesFirst && u.deletes {
			return ofBundles
		}
		return u.rank
	}
	sort.SliceStable(units, func(i, j int) bool {
		if rank(units[i]) != rank(units[j]) {
			return rank(units[i]) < rank(units[j])
		}
		return units[i].name < units[j].name
	})
}
