package book

import (
	"fmt"
	"math/rand"
	"sort"
	"strings"
)

const domain = "spiffe://ex.org"

func pick(r *rand.Rand, words ...string) string { return words[r.Intn(len(words))] }

// set returns some of the selectors x:1 to x:4.
func set(r *rand.Rand, least int) []string {
	var found []string
	for _, i := range r.Perm(4)[:least+r.Intn(4-least)] {
		found = append(found, fmt.Sprintf("x:%d", i+1))
	}
	sort.Strings(found)
	return found
}

// randomBook returns a small book with aliases, agents, cycles and parents that don't exist. An agent's ID is also the
// identity of some entries.
func randomBook(r *rand.Rand) *Book {
	b := &Book{Domain: "ex.org", AllAgents: true, AllBundles: true}
	for i := 0; i < 1+r.Intn(3); i++ {
		b.Agents = append(b.Agents,
			Agent{ID: fmt.Sprintf("%s/spire/agent/%d", domain, i), Selectors: set(r, 0)})
	}
	identities := []string{"/a", "/b", "/c", "/d", "/ee", "/e", "/spire/agent/1"}
	parents := append([]string{ServerPath,
		ServerPath, "/spire/agent/0", "/spire/agent/1", "/spire/agent/9", "/nothing", "/bb"}, identities...)
	known := map[string]bool{}
	for i := 0; i < r.Intn(14); i++ {
		e := Entry{ID: fmt.Sprintf("%08x-0000-4000-8000-%012x", r.Uint32(), i), Identity: domain + pick(r,
			identities...),
			Parent: domain + pick(r, parents...), Selectors: set(r, 1), Domains: []string{}}
		if key := e.Parent + e.Identity + strings.Join(e.Selectors, " "); !known[key] {
			known[key] = true
			b.Entries = append(b.Entries, e)
		}
	}
	sort.Slice(b.Entries, func(i, j int) bool { return b.Entries[i].ID < b.Entries[j].ID })
	return b
}

// served returns the ids of the entries that an agent may serve, by repeating the rule of docs/BOOK.md until nothing is
// added.
func served(b *Book, a *Agent) map[string]bool {
	found := map[string]bool{}
	for isMore := true; isMore; {
		isMore = false
		for _, e := range b.Entries {
			if !found[e.ID] && leads(b, a, e, found) {
				found[e.ID], isMore = true, true
			}
		}
	}
	return found
}

// leads returns true if the entry begins a chain, or continues one that ends in an entry that was found.
func leads(b *Book, a *Agent, e Entry, found map[string]bool) bool {
	if e.Parent == domain+ServerPath {
		for _, selector := range e.Selectors {
			if !strings.Contains(" "+strings.Join(a.Selectors, " ")+" ", " "+selector+" ") {
				return false
			}
		}
		return true
	}
	if e.Parent == a.ID {
		return true
	}
	for _, before := range b.Entries {
		if found[before.ID] && before.Identity == e.Parent {
			return true
		}
	}
	return false
}

// copied returns a book with the same rows, which may be changed.
func copied(b *Book) *Book {
	next := &Book{Domain: b.Domain, AllAgents: b.AllAgents, AllBundles: b.AllBundles}
	next.Entries = append(next.Entries, b.Entries...)
	next.Agents = append(next.Agents, b.Agents...)
	next.Bundles = append(next.Bundles, b.Bundles...)
	return next
}

func idsIn(set map[string]bool) string {
	var ids []string
	for id := range set {
		ids = append(ids, id)
	}
	sort.Strings(ids)
	return strings.Join(ids, " ")
}

func idsOf(entries []*Entry) string {
	var ids []string
	for _, e := range entries {
		ids = append(ids, e.ID)
	}
	return strings.Join(ids, " ")
}
