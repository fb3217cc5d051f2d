package main

import (
	"bytes"
	"encoding/json"
	"flag"
	"fmt"
	"strings"

	"regd/gateway/book"
	"regd/gateway/client"
	"regd/gateway/desired"
	"regd/gateway/document"
)

// export prints the book, or a set of it, as a desired state.
func export(flags *flag.FlagSet) runner {
	set := flags.String("set", "", "only the entries of this `set`, which may then be planned and applied")
	as := flags.String("as", "book", "without -set: the `name` of the set that the file describes")
	format := flags.String("format", "state", "the `format`: state, or spire for `spire-server entry create -data`")
	names := defineNames(flags)
	return func(s *session) error {
		if err := s.noArguments(); err != nil {
			return err
		}
		if !isOneOf(*format, "state", "spire") {
			return invalidf("-format is state or spire, and not %s", *format)
		}
		known, err := names(s)
		if err != nil {
			return err
		}
		what := client.Reading{}
		if *set == "" {
			what = client.Reading{Agents: true, Names: known.agents, Bundles: true, Texts: true,
				Domains: known.domains}
		}
		b, err := s.readCopy(what)
		if err != nil {
			return err
		}
		if b.Domain == "" {
			return invalidf("the book is empty, so its domain is not known\n  cure:   add -domain D")
		}
		state := stateOf(b, *set, *as)
		if *format == "spire" {
			return s.printSpire(state.Entries)
		}
		if *set == "" && (!b.AllAgents || !b.AllBundles) {
			s.warn("regdctl: %s", otherAgents)
		}
		return s.showState(state)
	}
}

// stateOf returns the state that a book has. Markers belong to no state.
func stateOf(b *book.Book, set, as string) *desired.State {
	state := &desired.State{Set: desired.Set{Domain: b.Domain, Name: as}, Agents: b.Agents, Bundles: b.Bundles}
	if set != "" {
		state.Name, state.Agents, state.Bundles = set, nil, nil
	}
	for _, e := range b.Entries {
		if !e.IsMarker() && (set == "" || state.Has(e.ID)) {
			state.Entries = append(state.Entries, desired.Entry{Entry: e})
		}
	}
	return state
}

// showState prints a state as YAML, or as JSON, which `plan` reads as well.
func (s *session) showState(state *desired.State) error {
	file := state.File()
	if s.settings.output == "json" {
		return s.show(file, nil)
	}
	node, err := document.FromValue(file)
	if err != nil {
		return fmt.Errorf("the state can't be printed: %w", err)
	}
	return s.print(node.YAML())
}

// A spireEntry is an entry as `spire-server entry create -data` takes it.
type spireEntry struct {
	Selectors     []spireSelector `json:"selectors"`
	ParentID      string          `json:"parent_id"`
	SpiffeID      string          `json:"spiffe_id"`
	X509TTL       uint64          `json:"x509_svid_ttl,omitempty"`
	FederatesWith []string        `json:"federates_with,omitempty"`
	EntryID       string          `json:"entry_id"`
	Expiry        uint64          `json:"entryExpiry,omitempty"`
	JWTTTL        uint64          `json:"jwt_svid_ttl,omitempty"`
	Hint          string          `json:"hint,omitempty"`
}

type spireSelector struct {
	Type  string `json:"type"`
	Value string `json:"value"`
}

// printSpire prints entries for SPIRE.
func (s *session) printSpire(entries []desired.Entry) error {
	rows := []spireEntry{}
	for _, e := range entries {
		row := spireEntry{ParentID: e.Parent, SpiffeID: e.Identity, X509TTL: e.X509TTL, EntryID: e.ID,
			Expiry: e.Expiry,
			JWTTTL: e.JWTTTL, Hint: e.Hint}
		for _, selector := range e.Selectors {
			kind, value, _ := strings.Cut(selector, ":")
			row.Selectors = append(row.Selectors, spireSelector{kind, value})
		}
		for _, domain := range e.Domains {
			row.FederatesWith = append(row.FederatesWith, "spiffe://"+domain)
		}
		rows = append(rows, row)
	}
	var out bytes.Buffer
	encoder := json.NewEncoder(&out)
	encoder.SetEscapeHTML(false)
	encoder.SetIndent("", "  ")
	if err := encoder.Encode(map[string]any{"entries": rows}); err != nil {
		return err
	}
	return s.print(out.String())
}
