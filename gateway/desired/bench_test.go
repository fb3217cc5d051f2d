package desired

import (
	"fmt"
	"testing"
	"time"

	"regd/gateway/book"
)

// fullBook returns a book with as many entries as fit, all made by hand, and the state of a set that wants them all.
func fullBook() (*book.Book, *State) {
	b := &book.Book{Domain: "ex.org", AllAgents: true, AllBundles: true}
	s := &State{Set: Set{"ex.org", "s"}}
	for i := 0; i < mostEntries; i++ {
		parent := fmt.Sprintf("%s/e/%d", domain, i-1)
		if i%4 == 0 {
			parent = domain + book.ServerPath
		}
		e := book.Entry{ID: fmt.Sprintf("%08x-0000-4000-8000-000000000000", i), Parent: parent,
			Identity: fmt.Sprintf("%s/e/%d", domain, i), Selectors: []string{fmt.Sprintf("x:%d", i/4)},
			Domains: []string{}}
		b.Entries = append(b.Entries, e)
		e.ID = s.ID(nameOf("", e))
		s.Entries = append(s.Entries, Entry{e, "f"})
	}
	for i := 0; i < 4096; i++ {
		b.Agents = append(b.Agents, book.Agent{ID: fmt.Sprintf("%s/spire/agent/%d", domain, i),
			Selectors: []string{fmt.Sprintf("x:%d", i)}})
	}
	b.Sort()
	return b, s
}

// BenchmarkPlan plans the replacement of every entry of a full book.
func BenchmarkPlan(bench *testing.B) {
	for n := 0; n < bench.N; n++ {
		b, s := fullBook()
		if _, err := Make(b, s, Options{IsAdopting: true, Now: time.Unix(1e9, 0)}); err != nil {
			bench.Fatal(err)
		}
	}
}
