package desired

import (
	"fmt"
	"strings"
	"time"

	"regd/gateway/book"
)

// Access is what an agent may serve after a plan and not before, and the other way round: SPIFFE IDs.
type Access struct {
	Agent string   `json:"agent"`
	Gains []string `json:"gains"`
	Loses []string `json:"loses"`
}

// soon is how early a check finds what expires.
const soon = 7 * 24 * time.Hour

// check compares the book that the plan makes with the one before it.
func (p *planner) check(after *book.Book) {
	p.access(after)
	before := map[string]bool{}
	for _, f := range p.book.Check(p.options.Now, soon) {
		before[nameOfFinding(f)] = true
	}
	for _, f := range after.Check(p.options.Now, soon) {
		if !before[nameOfFinding(f)] && (f.IsCertain || !p.options.IsCertain) {
			p.plan.Findings = append(p.plan.Findings, f)
		}
	}
	for _, a := range p.state.Asserts {
		p.assert(after, a)
	}
	p.refusals(after)
}

func nameOfFinding(f book.Finding) string {
	return f.Kind + " " + f.Identity + " " + f.ID + " " + f.Domain
}

// access finds which agents gain and lose SPIFFE IDs.
func (p *planner) access(after *book.Book) {
	touched := map[string]bool{}
	note := func(ids map[string]bool) {
		for id := range ids {
			touched[id] = true
		}
	}
	var were, are []*book.Entry
	for _, m := range p.changed {
		if m.before != nil {
			were = append(were, m.before)
		}
		if m.after != nil {
			are = append(are, after.Entry(m.after.ID))
		}
	}
	note(p.book.Touched(were))
	note(after.Touched(are))
	for _, row := range p.plan.Rows {
		if row.Kind == "agent" {
			touched[row.Name] = true
		}
	}
	for _, id := range sorted(touched) {
		had, has := p.book.Identities(id), after.Identities(id)
		a := Access{id, without(has, had), without(had, has)}
		if len(a.Gains)+len(a.Loses) > 0 {
			p.plan.Access = append(p.plan.Access, a)
		}
	}
}

func sorted(set map[string]bool) []string {
	var found []string
	for name := range set {
		found = append(found, name)
	}
	return book.Ordered(found)
}

// without returns the texts of a set that are not in another one.
func without(set, other map[string]bool) []string {
	found := []string{}
	for _, text := range sorted(set) {
		if !other[text] {
			found = append(found, text)
		}
	}
	return found
}

// assert records what doesn't hold of an assertion.
func (p *planner) assert(after *book.Book, a Assert) {
	broken := func(format string, values ...any) {
		p.plan.Broken = append(p.plan.Broken, a.Where+": "+fmt.Sprintf(format, values...))
	}
	if after.Agent(a.Agent) == nil {
		broken("the agent %s is not registered", a.Agent)
		return
	}
	served := after.Identities(a.Agent)
	for _, id := range a.Serves {
		if !served[id] {
			broken("%s would not serve %s", a.Agent, id)
		}
	}
	for _, id := range a.Not {
		if served[id] {
			broken("%s would serve %s", a.Agent, id)
		}
	}
}

// refusals records changes that the server would refuse: an entry with a domain that has no bundle (O5), and a bundle
// that is removed although an entry names its domain (O6).
func (p *planner) refusals(after *book.Book) {
	has := map[string]bool{}
	for _, b := range after.Bundles {
		has[b.Domain] = true
	}
	for _, e := range p.state.Entries {
		for _, domain := range e.Entry.Domains {
			if !has[domain] {
				p.plan.Broken = append(p.plan.Broken, fmt.Sprintf(
					"%s: %s has no bundle, in the book or in the file",
					e.Where, domain))
			}
		}
	}
	for _, domain := range p.state.AbsentBundles {
		for _, e := range after.Entries {
			if strings.Contains(" "+strings.Join(e.Domains, " ")+" ", " "+domain+" ") {
				p.plan.Broken = append(p.plan.Broken, fmt.Sprintf(
					"the bundle of %s can't be removed: %s names it, %s", domain, e.Identity, e.ID))
				break
			}
		}
	}
}
