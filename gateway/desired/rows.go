package desired

import (
	"strings"

	"regd/gateway/book"
	"regd/gateway/document"
)

// textOf returns a text.
func textOf(n *document.Node) (string, error) {
	switch n.Kind {
	case document.Text:
		return n.Text, nil
	case document.Null:
		return "", document.Faultf(n.Line, "a value is missing; an empty text is written \"\"")
	}
	return "", n.As("a text")
}

// id returns a SPIFFE ID, which may be a path of the domain.
func (r *reader) id(n *document.Node) (string, error) {
	text, err := textOf(n)
	if err != nil || strings.HasPrefix(text, "spiffe://"+r.state.Domain+"/") {
		return text, err
	}
	if !strings.HasPrefix(text, "/") {
		return "", n.As("a SPIFFE ID of the domain " + r.state.Domain + ", such as /web,")
	}
	return "spiffe://" + r.state.Domain + text, nil
}

// toText, toID, toTexts and toNumber return what reads a key into a variable.
func toText(to *string) func(*document.Node) error {
	return func(n *document.Node) (err error) {
		*to, err = textOf(n)
		return err
	}
}

func (r *reader) toID(to *string) func(*document.Node) error {
	return func(n *document.Node) (err error) {
		*to, err = r.id(n)
		return err
	}
}

func toTexts(to *[]string, read func(*document.Node) (string, error)) func(*document.Node) error {
	return func(n *document.Node) error {
		*to = []string{}
		return each(n, func(item *document.Node) error {
			text, err := read(item)
			*to = append(*to, text)
			return err
		})
	}
}

func toNumber(to *uint64, read func(string) (uint64, error)) func(*document.Node) error {
	return func(n *document.Node) (err error) {
		if n.Kind != document.Text && n.Kind != document.Number {
			return n.As("a number")
		}
		if *to, err = read(n.Text); err != nil {
			return document.Faultf(n.Line, "%v", err)
		}
		return nil
	}
}

// idOf returns the id of an entry as servers print it.
func idOf(n *document.Node) (string, error) {
	text, err := textOf(n)
	return strings.ToLower(text), err
}

// domainOf returns a trust domain, which may be given as a SPIFFE ID.
func domainOf(n *document.Node) (string, error) {
	text, err := textOf(n)
	return strings.TrimPrefix(text, "spiffe://"), err
}

func (r *reader) agent(n *document.Node) error {
	var a book.Agent
	if err := r.members(n, fields{"id": r.toID(&a.ID), "selectors": toTexts(&a.Selectors, textOf)}); err != nil {
		return err
	}
	if a.ID == "" || a.Selectors == nil {
		return document.Faultf(n.Line, "an agent has `id` and `selectors`")
	}
	if !book.IsAgentID(a.ID) {
		return document.Faultf(n.Line, "the path of an agent begins with %s: %s", book.AgentPath, a.ID)
	}
	r.state.Agents = append(r.state.Agents, a)
	return r.once("agent", a.ID, n.Line)
}

func (r *reader) bundle(n *document.Node) error {
	var b book.Bundle
	var file string
	read := func(n *document.Node) (err error) {
		b.Domain, err = domainOf(n)
		return err
	}
	if err := r.members(n, fields{"domain": read, "file": toText(&file), "text": toText(&b.Text)}); err != nil {
		return err
	}
	if b.Domain == "" || (file == "") == (n.Get("text") == nil) {
		return document.Faultf(n.Line, "a bundle has `domain`, and either `file` or `text`")
	}
	if file != "" {
		text, err := r.open(relative(r.file, file))
		if err != nil {
			return err
		}
		b.Text = string(text)
	}
	r.state.Bundles = append(r.state.Bundles, b)
	return r.once("bundle", b.Domain, n.Line)
}

func (r *reader) alias(n *document.Node) error {
	if n.Get("parent") != nil {
		return document.Faultf(n.Line, "an alias has no parent")
	}
	return r.row(n, "spiffe://"+r.state.Domain+book.ServerPath)
}

func (r *reader) entry(n *document.Node) error { return r.row(n, "") }

// row reads an entry. It is known by its name, or else by its parent and identity.
func (r *reader) row(n *document.Node, parent string) error {
	e := book.Entry{Parent: parent, Domains: []string{}}
	var name, id string
	err := r.members(n, fields{"name": toText(&name), "id": toText(&id), "identity": r.toID(&e.Identity),
		"parent": r.toID(&e.Parent), "selectors": toTexts(&e.Selectors, textOf), "hint": toText(&e.Hint),
		"domains": toTexts(&e.Domains, domainOf), "expiry": toNumber(&e.Expiry, book.Moment),
		"x509_svid_ttl": toNumber(&e.X509TTL, book.Seconds), "jwt_svid_ttl": toNumber(&e.JWTTTL, book.Seconds)})
	switch {
	case err != nil:
		return err
	case e.Parent == "" || e.Identity == "" || len(e.Selectors) == 0:
		return document.Faultf(n.Line, "an entry has `parent`, `identity` and at least one of `selectors`")
	case id != "" && name != "":
		return document.Faultf(n.Line, "an entry has a name or an id, and not both")
	case id != "" && (!r.state.Has(id) || id == r.state.MarkerID()):
		return document.Faultf(n.Line, "the id %s is not one of the set %s", id, r.state.Name)
	case e.IsMarker():
		return document.Faultf(n.Line, "%s is for the markers of sets", book.MarkerIdentity)
	}
	e.ID = id
	if id == "" {
		e.ID = r.state.ID(nameOf(name, e))
	}
	e.Selectors, e.Domains = book.Ordered(e.Selectors), book.Ordered(e.Domains)
	r.state.Entries = append(r.state.Entries, Entry{e, r.where(n.Line)})
	if err := r.once("entry", r.called(name, id, e), n.Line); err != nil {
		return err
	}
	return r.once("entry with parent, identity and selectors", e.Key(), n.Line)
}

// nameOf returns what the id of an entry is made of.
func nameOf(name string, e book.Entry) string {
	if name != "" {
		return "name " + name
	}
	return "row " + e.Parent + " " + e.Identity
}

// called returns how an entry is known.
func (r *reader) called(name, id string, e book.Entry) string {
	switch {
	case name != "":
		return name
	case id != "":
		return id
	}
	return e.Identity + " below " + e.Parent + " (give one a `name`)"
}

func (r *reader) assert(n *document.Node) error {
	a := Assert{Where: r.where(n.Line)}
	err := r.members(n, fields{"agent": r.toID(&a.Agent), "serves": toTexts(&a.Serves, r.id),
		"not": toTexts(&a.Not, r.id)})
	if err == nil && (a.Agent == "" || len(a.Serves)+len(a.Not) == 0) {
		err = document.Faultf(n.Line, "an assertion has `agent`, and `serves` or `not`")
	}
	r.state.Asserts = append(r.state.Asserts, a)
	return err
}

// absent reads the rows that have to be gone.
func (r *reader) absent(n *document.Node) error {
	read := func(kind string, to *[]string, one func(*document.Node) (string, error)) func(*document.Node) error {
		return func(n *document.Node) error {
			return each(n, r.behind(func(item *document.Node) error {
				text, err := one(item)
				if err != nil {
					return err
				}
				*to = append(*to, text)
				return r.once(kind, text, item.Line)
			}))
		}
	}
	return r.members(n, fields{"agents": read("agent", &r.state.AbsentAgents, r.id),
		"bundles": read("bundle", &r.state.AbsentBundles, domainOf),
		"entries": read("absent entry", &r.state.AbsentEntries, idOf)})
}

// AgentNames returns the agents that the state names.
func (s *State) AgentNames() []string {
	names := append([]string{}, s.AbsentAgents...)
	for _, a := range s.Agents {
		names = append(names, a.ID)
	}
	for _, a := range s.Asserts {
		names = append(names, a.Agent)
	}
	return book.Ordered(names)
}

// Domains returns the domains that the state names.
func (s *State) Domains() []string {
	names := append([]string{}, s.AbsentBundles...)
	for _, b := range s.Bundles {
		names = append(names, b.Domain)
	}
	for _, e := range s.Entries {
		names = append(names, e.Entry.Domains...)
	}
	return book.Ordered(names)
}
