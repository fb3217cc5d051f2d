package main

import (
	"bytes"
	"errors"
	"flag"
	"fmt"
	"os"
	"strconv"
	"strings"
	"time"

	"regd/gateway/book"
	"regd/gateway/client"
	"regd/gateway/desired"
)

// An edition is a book of one of the arguments of diff.
type edition struct {
	*book.Book
	name    string
	rows    bool           // it has agents and bundles, and not only entries
	isWhole bool           // it has all of them
	state   *desired.State // of a file that describes a set
}

// diff compares two books: each is a place, a file or another server.
func diff(flags *flag.FlagSet) runner {
	names := defineNames(flags)
	return func(s *session) error {
		if err := s.argumentCount(2, 2); err != nil {
			return err
		}
		known, err := names(s)
		if err != nil {
			return err
		}
		var editions [2]*edition
		for i, word := range s.arguments {
			if editions[i], err = s.editionOf(word, known); err != nil {
				return err
			}
		}
		before, after := editions[0], editions[1]
		limitTo(before, after)
		limitTo(after, before)
		rows := desired.Compare(before.Book, after.Book)
		value := map[string]any{"rows": rows, "before": before.name, "after": after.name}
		text := func() string { return s.diffText(rows, before, after) }
		if len(rows) == 0 {
			return s.show(value, text)
		}
		if err := s.show(value, text); err != nil {
			return err
		}
		return errNo
	}
}

// editionOf reads the book that a word names.
func (s *session) editionOf(word string, known names) (*edition, error) {
	if place, err := strconv.ParseUint(word, 10, 64); err == nil {
		entries, err := s.client.EntriesAt(s.ctx, place, client.Filter{})
		return &edition{Book: &book.Book{Entries: entries}, name: "commit " + word}, err
	}
	if strings.HasPrefix(word, "@") {
		other := client.New(s.options(strings.Split(strings.TrimPrefix(word, "@"), ",")))
		defer other.Close()
		b, err := other.ReadBook(s.ctx, client.Reading{Domain: s.settings.domain, Agents: true,
			Names:   known.agents,
			Bundles: true, Texts: true, Domains: known.domains})
		if err != nil {
			return nil, fmt.Errorf("%s: %w", word, err)
		}
		return &edition{Book: b, name: fmt.Sprintf("%s at %s", word, heading(b)), rows: true,
			isWhole: b.AllAgents && b.AllBundles}, nil
	}
	return s.editionOfFile(word)
}

// editionOfFile reads a backup or a desired state.
func (s *session) editionOfFile(word string) (*edition, error) {
	text, err := s.readFile(word)
	if errors.Is(err, os.ErrNotExist) {
		return nil, invalidf("%s: neither a place, nor a file, nor @ADDRESS of a server", word)
	}
	if err != nil {
		return nil, err
	}
	if bytes.HasPrefix(bytes.TrimSpace(text), []byte(`{"ops"`)) {
		batches, err := readLines(text)
		if err != nil {
			return nil, invalidf("%s: %v", word, err)
		}
		b, err := replay(batches)
		if err != nil {
			return nil, invalidf("%s: %v", word, err)
		}
		return &edition{Book: b, name: word, rows: true, isWhole: true}, nil
	}
	state, err := s.readState([]string{word})
	if err != nil {
		return nil, err
	}
	b := &book.Book{Agents: state.Agents, Bundles: state.Bundles}
	for _, e := range state.Entries {
		b.Entries = append(b.Entries, e.Entry)
	}
	return &edition{Book: b, name: word, rows: true, state: state}, nil
}

// limitTo leaves of a book what another one can have: entries if that is one of a place; the entries of a set, and the
// agents and bundles that it names, if that is the file of a set.
func limitTo(v, other *edition) {
	if !other.rows {
		v.Agents, v.Bundles = nil, nil
	}
	if other.state == nil {
		return
	}
	var entries []book.Entry
	for _, e := range v.Entries {
		if other.state.Has(e.ID) && !e.IsMarker() {
			entries = append(entries, e)
		}
	}
	named := map[string]bool{}
	for _, name := range append(other.state.AgentNames(), other.state.Domains()...) {
		named[name] = true
	}
	v.Entries = entries
	v.Agents = filtered(v.Agents, func(a book.Agent) bool { return named[a.ID] })
	v.Bundles = filtered(v.Bundles, func(b book.Bundle) bool { return named[b.Domain] })
}

func filtered[T any](rows []T, passes func(T) bool) (found []T) {
	for _, row := range rows {
		if passes(row) {
			found = append(found, row)
		}
	}
	return found
}

func (s *session) diffText(rows []desired.Row, before, after *edition) string {
	text := ""
	for _, r := range rows {
		text += s.changeText(r)
	}
	if len(rows) == 0 {
		text = fmt.Sprintf("no difference between %s and %s\n", before.name, after.name)
	}
	for _, v := range []*edition{before, after} {
		if v.rows && !v.isWhole && v.state == nil {
			text += v.name + ": " + otherAgents + "\n"
		}
	}
	return text
}

// changeText prints the difference of a row.
func (s *session) changeText(r desired.Row) string {
	text := fmt.Sprintf("%s %s", r.Sign, s.short(r.Name))
	if r.Kind == "entry" {
		text += "  " + r.ID
	} else {
		text += "  " + r.Kind
	}
	if r.Sign != desired.Change {
		return text + "\n"
	}
	for _, d := range r.Columns {
		text += fmt.Sprintf("\n      %-14s %q -> %q", d.Name, s.short(d.Before), s.short(d.After))
	}
	return text + "\n"
}

const oldest = 63 // books before the newest one can still be read

// watch prints each commit with the entries that it changed.
func watch(flags *flag.FlagSet) runner {
	f := &client.Filter{}
	flags.StringVar(&f.Parent, "parentID", "", "only entries of this `parent`")
	flags.StringVar(&f.Identity, "spiffeID", "", "only entries of this SPIFFE `ID`")
	set := flags.String("set", "", "only entries of this `set`")
	interval := flags.Duration("interval", time.Second, "the `time` between two looks")
	until := flags.Uint64("until", ^uint64(0), "end at the commit of this `number`")
	return func(s *session) (err error) {
		if err := s.noArguments(); err != nil {
			return err
		}
		if f.Parent, err = s.id(f.Parent); err != nil {
			return err
		}
		if f.Identity, err = s.id(f.Identity); err != nil {
			return err
		}
		if *set != "" && s.settings.domain == "" {
			return invalidf("-set takes -domain")
		}
		w := &watcher{session: s, filter: *f, set: desired.Set{Domain: s.settings.domain, Name: *set}}
		return w.run(*interval, *until)
	}
}

// A watcher has the entries of the last commit that it has printed.
type watcher struct {
	*session
	filter  client.Filter
	set     desired.Set
	place   uint64
	entries []book.Entry
}

// run prints commits until the program ends, or until a commit.
func (w *watcher) run(interval time.Duration, until uint64) error {
	for isFirst := true; ; isFirst = false {
		end := w.limit()
		err := w.look(isFirst)
		end()
		if w.base.Err() != nil {
			return nil // the caller has ended the program
		}
		if err != nil || w.place >= until {
			return err
		}
		w.client.Close() // a connection would hold a worker
		select {
		case <-w.base.Done():
			return nil
		case <-time.After(interval):
		}
	}
}

// look prints the commits since the last look.
func (w *watcher) look(isFirst bool) error {
	answer, err := w.client.Ask(w.ctx, client.Op{"op": "page", "size": 1})
	if err != nil {
		return err
	}
	newest := answer.Place
	if isFirst {
		w.place, w.entries, err = newest, nil, nil
		w.entries, err = w.read(newest)
		return err
	}
	if newest > oldest && w.place < newest-oldest {
		w.warn("regdctl: commits %d to %d are too old by now; the next one shows all that they changed, "+
			"too", w.place+1,
			newest-oldest-1)
		w.place = newest - oldest - 1
	}
	for w.place < newest {
		entries, err := w.read(w.place + 1)
		if isTooOld(err) {
			return nil // others are faster; the next look says which commits are missed
		}
		if err != nil {
			return err
		}
		rows := desired.CompareEntries(w.entries, entries)
		w.place, w.entries = w.place+1, entries
		if err := w.tell(rows); err != nil {
			return err
		}
	}
	return nil
}

// isTooOld returns true if a book can't be read any more.
func isTooOld(err error) bool {
	var refused *client.Refused
	return errors.As(err, &refused) && refused.Answer.Code == "O8"
}

// read reads the entries of a commit.
func (w *watcher) read(place uint64) ([]book.Entry, error) {
	entries, err := w.client.EntriesAt(w.ctx, place, w.filter)
	if err != nil || w.set.Name == "" {
		return entries, err
	}
	return filtered(entries, func(e book.Entry) bool { return w.set.Has(e.ID) && !e.IsMarker() }), nil
}

func (w *watcher) tell(rows []desired.Row) error {
	value := map[string]any{"place": w.place, "rows": rows}
	return w.show(value, func() string {
		if len(rows) == 0 {
			return fmt.Sprintf("commit %d  no entry changed\n", w.place)
		}
		text := ""
		for _, r := range rows {
			text += fmt.Sprintf("commit %d  %s", w.place, w.changeText(r))
		}
		return text
	})
}
