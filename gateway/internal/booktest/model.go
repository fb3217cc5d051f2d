// Package booktest has a server in memory for the tests of clients. It follows docs/BOOK.md for what they send; the
// part client/model of gateway/test compares it with `regd plain`.
package booktest

import (
	"bytes"
	"encoding/json"
	"fmt"
	"sort"
	"strings"

	"regd/gateway/book"
)

// A refusal is the code of an operation, with its detail.
type refusal struct{ code, detail string }

// Model is a server's book, with the tokens of batches and the last books.
type Model struct {
	Domain string
	// IsOld is true for a server without agents, bundles, counts, expect_agent and expect_bundle.
	IsOld   bool
	Place   uint64
	Entries map[string]book.Entry
	Agents  map[string][]string
	Bundles map[string]book.Bundle
	tokens  map[string]stored
	former  map[uint64]map[string]book.Entry
	calls   int
}

type stored struct{ ops, answer string }

// New returns an empty server.
func New(domain string) *Model {
	m := &Model{Domain: domain, Entries: map[string]book.Entry{}, Agents: map[string][]string{},
		Bundles: map[string]book.Bundle{}, tokens: map[string]stored{}}
	m.former = map[uint64]map[string]book.Entry{0: {}}
	return m
}

// Request is a line.
type request struct {
	Ops   []map[string]json.RawMessage `json:"ops"`
	After uint64                       `json:"after"`
	Token string                       `json:"token"`
}

// Answer runs a line, and returns its answer.
func (m *Model) Answer(line string) string {
	var r request
	if err := json.Unmarshal([]byte(line), &r); err != nil {
		return `{"code":"L2","line":1}`
	}
	for i, op := range r.Ops {
		if m.IsOld && isNew[text(op, "op")] {
			return fmt.Sprintf(`{"code":"L5","field":"op","line":1,"op":%d}`, i)
		}
	}
	m.calls++
	if m.Place < r.After {
		return m.line(`"code":"W1",`, `"result":"refused"`)
	}
	ops := printed(r.Ops)
	if before, isThere := m.tokens[r.Token]; isThere && r.Token != "" {
		if before.ops == ops {
			return strings.Replace(before.answer, `"committed"`, `"repeated"`, 1)
		}
		return m.line(`"code":"O9",`, `"result":"refused"`)
	}
	return m.run(r, ops)
}

var isNew = map[string]bool{"agents": true, "bundles": true, "counts": true, "expect_agent": true,
	"expect_bundle": true}

// run runs the operations on a copy, which becomes the book if none is refused and one is a change.
func (m *Model) run(r request, ops string) string {
	next := m.copied()
	isChange := false
	var replies []string
	for i, op := range r.Ops {
		reply, refused := next.perform(op)
		if refused != nil {
			detail := ""
			if refused.detail != "" {
				detail = fmt.Sprintf(`"detail":%q,`, refused.detail)
			}
			return m.line(fmt.Sprintf(`"code":%q,%s"op":%d,`, refused.code, detail, i),
				`"result":"refused"`)
		}
		isChange = isChange || isChanging[text(op, "op")]
		replies = append(replies, printed(reply))
	}
	end := `"replies":[` + strings.Join(replies, ",") + `],"result":`
	if !isChange {
		return m.line("", end+`"answered"`)
	}
	m.Entries, m.Agents, m.Bundles = next.Entries, next.Agents, next.Bundles
	m.Place++
	m.former[m.Place] = m.Entries
	delete(m.former, m.Place-64)
	answer := m.line("", end+`"committed"`)
	if r.Token != "" {
		m.tokens[r.Token] = stored{ops, answer}
	}
	return answer
}

func (m *Model) line(before, after string) string {
	return fmt.Sprintf(`{"call":%d,%s"place":%d,%s}`, m.calls, before, m.Place, after)
}

var isChanging = map[string]bool{"create": true, "update": true, "delete": true, "prune": true, "set_agent": true,
	"drop_agent": true, "set_bundle": true, "drop_bundle": true}

func (m *Model) copied() *Model {
	next := New(m.Domain)
	next.Place, next.former = m.Place, m.former
	for id, e := range m.Entries {
		next.Entries[id] = e
	}
	for id, selectors := range m.Agents {
		next.Agents[id] = selectors
	}
	for domain, b := range m.Bundles {
		next.Bundles[domain] = b
	}
	return next
}

// printed returns a value as JSON without escapes of HTML.
func printed(value any) string {
	var out bytes.Buffer
	encoder := json.NewEncoder(&out)
	encoder.SetEscapeHTML(false)
	if err := encoder.Encode(value); err != nil {
		panic(err) // it was read from JSON
	}
	return strings.TrimSuffix(out.String(), "\n")
}

func text(op map[string]json.RawMessage, key string) string {
	var found string
	if raw := op[key]; raw != nil {
		if err := json.Unmarshal(raw, &found); err != nil {
			panic(err)
		}
	}
	return found
}

func number(op map[string]json.RawMessage, key string) *uint64 {
	var found *uint64
	if raw := op[key]; raw != nil {
		if err := json.Unmarshal(raw, &found); err != nil {
			panic(err)
		}
	}
	return found
}

func texts(op map[string]json.RawMessage, key string) []string {
	var found []string
	if raw := op[key]; raw != nil {
		if err := json.Unmarshal(raw, &found); err != nil {
			panic(err)
		}
	}
	return found
}

// Rows returns a copy of the book.
func (m *Model) Rows() *book.Book {
	b := &book.Book{Domain: m.Domain, Place: m.Place, Last: m.Place, AllAgents: true, AllBundles: true}
	for _, e := range m.Entries {
		b.Entries = append(b.Entries, e)
	}
	for id, selectors := range m.Agents {
		b.Agents = append(b.Agents, book.Agent{ID: id, Selectors: selectors})
	}
	for _, one := range m.Bundles {
		b.Bundles = append(b.Bundles, one)
	}
	b.Sort()
	return b
}

// inOrder returns the entries that pass, by their ids.
func inOrder(entries map[string]book.Entry, passes func(book.Entry) bool) []book.Entry {
	found := []book.Entry{}
	for _, e := range entries {
		if passes(e) {
			found = append(found, e)
		}
	}
	sort.Slice(found, func(i, j int) bool { return found[i].ID < found[j].ID })
	return found
}
