package client

import "regd/gateway/book"

// Op is an operation of a request line, with the keys of docs/LINES.md.
type Op map[string]any

// Name returns the operation's name.
func (o Op) Name() string {
	name, _ := o["op"].(string)
	return name
}

// row returns the columns of an entry that a caller sets. Those with their default are left out.
func row(name string, e book.Entry) Op {
	op := Op{"op": name, "id": e.ID, "parent": e.Parent, "identity": e.Identity, "selectors": list(e.Selectors)}
	if e.Hint != "" {
		op["hint"] = e.Hint
	}
	if len(e.Domains) > 0 {
		op["domains"] = e.Domains
	}
	numbers := map[string]uint64{"expiry": e.Expiry, "x509_svid_ttl": e.X509TTL, "jwt_svid_ttl": e.JWTTTL}
	for key, value := range numbers {
		if value != 0 {
			op[key] = value
		}
	}
	return op
}

// list returns a list that is printed as [] if it is empty.
func list(words []string) []string {
	if words == nil {
		return []string{}
	}
	return words
}

// Create makes an entry. Its revision is not used.
func Create(e book.Entry) Op { return row("create", e) }

// Update replaces all columns of an entry, if it has the given revision or none is given.
func Update(e book.Entry, revision *uint64) Op { return expecting(row("update", e), revision) }

// Delete removes an entry, if it has the given revision or none is given.
func Delete(id string, revision *uint64) Op { return expecting(Op{"op": "delete", "id": id}, revision) }

func expecting(op Op, revision *uint64) Op {
	if revision != nil {
		op["revision"] = *revision
	}
	return op
}

// Show reads an entry.
func Show(id string) Op { return Op{"op": "show", "id": id} }

// ShowAgent reads an agent.
func ShowAgent(agent string) Op { return Op{"op": "show_agent", "agent": agent} }

// ShowBundle reads the bundle of a domain.
func ShowBundle(domain string) Op { return Op{"op": "show_bundle", "domain": domain} }

// Children reads the entries of a parent.
func Children(parent string) Op { return Op{"op": "children", "parent": parent} }

// Authorised reads the entries that an agent may serve.
func Authorised(agent string) Op { return Op{"op": "authorised", "agent": agent} }

// Trust reads the bundles that an agent needs.
func Trust(agent string) Op { return Op{"op": "trust", "agent": agent} }

// Prune removes the entries that expire before a moment, in seconds.
func Prune(before uint64) Op { return Op{"op": "prune", "before": before} }

// SetAgent registers an agent, or replaces its selectors.
func SetAgent(a book.Agent) Op {
	return Op{"op": "set_agent", "agent": a.ID, "selectors": list(a.Selectors)}
}

// DropAgent removes an agent.
func DropAgent(agent string) Op { return Op{"op": "drop_agent", "agent": agent} }

// SetBundle sets the bundle of a domain.
func SetBundle(domain, text string) Op {
	return Op{"op": "set_bundle", "domain": domain, "text": text}
}

// DropBundle removes the bundle of a domain in a mode: restrict, delete or dissociate.
func DropBundle(domain, mode string) Op {
	return Op{"op": "drop_bundle", "domain": domain, "mode": mode}
}

// PageSize is the number of rows of a page that this package asks for, the most that a server accepts.
const PageSize = 500

// Filter says which entries a page has. Empty parts pass every entry.
type Filter struct {
	Parent, Identity, Domain string
	Selectors                []string
	Match                    string
}

// page reads a page of the entries after `from`, of the book `at` or of the newest one.
func page(size int, from string, at *uint64, f Filter) Op {
	op := Op{"op": "page", "size": size}
	texts := map[string]string{"from": from, "parent": f.Parent, "identity": f.Identity, "domain": f.Domain}
	for key, value := range texts {
		if value != "" {
			op[key] = value
		}
	}
	if len(f.Selectors) > 0 {
		op["selectors"] = f.Selectors
		if f.Match != "" {
			op["match"] = f.Match
		}
	}
	if at != nil {
		op["at"] = *at
	}
	return op
}

// listing reads a page of agents or bundles, which older servers lack.
func listing(name, from string, size int) Op {
	op := Op{"op": name, "size": size}
	if from != "" {
		op["from"] = from
	}
	return op
}

// Counts reads the numbers of rows, which older servers lack.
func Counts() Op { return Op{"op": "counts"} }

// ExpectAgent refuses its batch unless the agent has exactly these selectors, or is missing if they are nil. Older
// servers lack it.
func ExpectAgent(agent string, selectors []string) Op {
	op := Op{"op": "expect_agent", "agent": agent}
	if selectors != nil {
		op["selectors"] = selectors
	}
	return op
}

// ExpectBundle refuses its batch unless the bundle has this sequence, or is missing without one. Older servers lack it.
func ExpectBundle(domain string, sequence *uint64) Op {
	op := Op{"op": "expect_bundle", "domain": domain}
	if sequence != nil {
		op["sequence"] = *sequence
	}
	return op
}
