package booktest

import (
	"encoding/json"

	"regd/gateway/book"
)

type op = map[string]json.RawMessage

func (m *Model) perform(o op) (any, *refusal) {
	switch text(o, "op") {
	case "create", "update":
		return m.put(o)
	case "delete":
		return m.remove(o)
	case "set_agent":
		a := book.Agent{ID: text(o, "agent"), Selectors: set(texts(o, "selectors"))}
		m.Agents[a.ID] = a.Selectors
		return map[string]any{"agent": a}, nil
	case "drop_agent":
		a := book.Agent{ID: text(o, "agent"), Selectors: m.Agents[text(o, "agent")]}
		if a.Selectors == nil {
			return nil, &refusal{code: "O7"}
		}
		delete(m.Agents, a.ID)
		return map[string]any{"agent": a}, nil
	case "set_bundle":
		b := book.Bundle{Domain: text(o, "domain"), Text: text(o, "text")}
		if before, isThere := m.Bundles[b.Domain]; isThere {
			b.Sequence = before.Sequence + 1
		}
		m.Bundles[b.Domain] = b
		return map[string]any{"bundle": b}, nil
	case "drop_bundle":
		return m.dropBundle(o)
	case "prune":
		return m.prune(*number(o, "before"))
	}
	return m.ask(o)
}

// set returns a set, which is [] if it is empty.
func set(texts []string) []string { return append([]string{}, book.Ordered(texts)...) }

func (m *Model) put(o op) (any, *refusal) {
	e := book.Entry{ID: text(o, "id"), Parent: text(o, "parent"), Identity: text(o, "identity"),
		Hint:      text(o, "hint"),
		Selectors: set(texts(o, "selectors")), Domains: set(texts(o, "domains"))}
	for key, to := range map[string]*uint64{"expiry": &e.Expiry, "x509_svid_ttl": &e.X509TTL,
		"jwt_svid_ttl": &e.JWTTTL} {
		if n := number(o, key); n != nil {
			*to = *n
		}
	}
	before, isThere := m.Entries[e.ID]
	isCreate := text(o, "op") == "create"
	switch expected := number(o, "revision"); {
	case isCreate && isThere:
		return nil, &refusal{code: "O1"}
	case !isCreate && !isThere:
		return nil, &refusal{code: "O3"}
	case expected != nil && *expected != before.Revision:
		return nil, &refusal{code: "O4"}
	}
	for _, other := range m.Entries {
		if other.ID != e.ID && other.Key() == e.Key() {
			return nil, &refusal{"O2", other.ID}
		}
	}
	for _, domain := range e.Domains {
		if _, isSet := m.Bundles[domain]; !isSet {
			return nil, &refusal{"O5", domain}
		}
	}
	if !isCreate {
		e.Revision = before.Revision + 1
	}
	m.Entries[e.ID] = e
	return map[string]any{"entry": e}, nil
}

func (m *Model) remove(o op) (any, *refusal) {
	e, isThere := m.Entries[text(o, "id")]
	switch expected := number(o, "revision"); {
	case !isThere:
		return nil, &refusal{code: "O3"}
	case expected != nil && *expected != e.Revision:
		return nil, &refusal{code: "O4"}
	}
	delete(m.Entries, e.ID)
	return map[string]any{"entry": e}, nil
}

// dropBundle knows the mode `restrict` alone.
func (m *Model) dropBundle(o op) (any, *refusal) {
	domain := text(o, "domain")
	if _, isSet := m.Bundles[domain]; !isSet {
		return nil, &refusal{"O5", domain}
	}
	users := inOrder(m.Entries, func(e book.Entry) bool {
		return len(book.Lacking([]string{domain},
			e.Domains)) == 0
	})
	if len(users) > 0 {
		return nil, &refusal{code: "O6"}
	}
	delete(m.Bundles, domain)
	return map[string]any{"deleted": []string{}, "dissociated": []string{}}, nil
}

func (m *Model) prune(before uint64) (any, *refusal) {
	pruned := []string{}
	for _, e := range inOrder(m.Entries, func(e book.Entry) bool { return e.Expiry != 0 && e.Expiry < before }) {
		delete(m.Entries, e.ID)
		pruned = append(pruned, e.ID)
	}
	return map[string]any{"pruned": pruned}, nil
}

// ask answers a query.
func (m *Model) ask(o op) (any, *refusal) {
	switch text(o, "op") {
	case "show":
		if e, isThere := m.Entries[text(o, "id")]; isThere {
			return map[string]any{"entry": e}, nil
		}
		return map[string]any{"entry": nil}, nil
	case "show_agent":
		if selectors, isThere := m.Agents[text(o, "agent")]; isThere {
			return map[string]any{"agent": book.Agent{ID: text(o, "agent"), Selectors: selectors}}, nil
		}
		return map[string]any{"agent": nil}, nil
	case "show_bundle":
		if b, isThere := m.Bundles[text(o, "domain")]; isThere {
			return map[string]any{"bundle": b}, nil
		}
		return map[string]any{"bundle": nil}, nil
	case "children":
		return map[string]any{"entries": inOrder(m.Entries,
			func(e book.Entry) bool { return e.Parent == text(o, "parent") })}, nil
	case "authorised":
		b := m.Rows()
		a := b.Agent(text(o, "agent"))
		if a == nil {
			return nil, &refusal{code: "O7"}
		}
		found := []book.Entry{}
		for _, e := range b.Reach(a).Entries() {
			found = append(found, *e)
		}
		return map[string]any{"entries": found}, nil
	case "page":
		return m.page(o)
	}
	return m.askNewer(o)
}

// page knows the filters of parent, identity and domain.
func (m *Model) page(o op) (any, *refusal) {
	entries := m.Entries
	if at := number(o, "at"); at != nil {
		var isThere bool
		if entries, isThere = m.former[*at]; !isThere {
			return nil, &refusal{code: "O8"}
		}
	}
	found := inOrder(entries, func(e book.Entry) bool {
		isIn := func(key, value string) bool { return text(o, key) == "" || text(o, key) == value }
		return e.ID > text(o, "from") && isIn("parent", e.Parent) && isIn("identity", e.Identity) &&
			(text(o, "domain") == "" || len(book.Lacking([]string{text(o, "domain")}, e.Domains)) == 0)
	})
	next, size := any(nil), int(*number(o, "size"))
	if len(found) > size {
		found, next = found[:size], found[size-1].ID
	}
	return map[string]any{"entries": found, "next": next}, nil
}

// askNewer answers the queries that an older server lacks.
func (m *Model) askNewer(o op) (any, *refusal) {
	b := m.Rows()
	switch text(o, "op") {
	case "agents":
		found, next := pageOf(b.Agents, func(a book.Agent) string { return a.ID }, o)
		return map[string]any{"agents": found, "next": next}, nil
	case "bundles":
		for i := range b.Bundles {
			b.Bundles[i].Text = ""
		}
		found, next := pageOf(b.Bundles, func(b book.Bundle) string { return b.Domain }, o)
		return map[string]any{"bundles": found, "next": next}, nil
	case "counts":
		return map[string]any{"counts": map[string]int{"entries": len(m.Entries), "agents": len(m.Agents),
			"bundles": len(m.Bundles), "tokens": len(m.tokens)}}, nil
	case "expect_agent":
		has, isThere := m.Agents[text(o, "agent")]
		wanted := texts(o, "selectors")
		if isThere != (wanted != nil) || isThere && !book.SameSet(has, wanted) {
			return nil, &refusal{code: "O10"}
		}
		return map[string]any{"expected": true}, nil
	case "expect_bundle":
		has, isThere := m.Bundles[text(o, "domain")]
		wanted := number(o, "sequence")
		if isThere != (wanted != nil) || isThere && has.Sequence != *wanted {
			return nil, &refusal{code: "O10"}
		}
		return map[string]any{"expected": true}, nil
	}
	return nil, &refusal{code: "L5"}
}

// pageOf returns the rows behind `from`, and where the next page begins.
func pageOf[T any](rows []T, name func(T) string, o op) (found []T, next any) {
	size := int(*number(o, "size"))
	found = []T{}
	for _, row := range rows {
		if name(row) > text(o, "from") && len(found) < size {
			found = append(found, row)
		}
	}
	if last := len(rows) - 1; len(found) == size && name(found[size-1]) != name(rows[last]) {
		next = name(found[size-1])
	}
	return found, next
}
