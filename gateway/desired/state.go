// Package desired reads files that say what a book should have, and plans the changes that make it so. It sends
// nothing. docs/CTL.md has the format of the files, and what a plan promises.
package desired

import (
	"fmt"
	"path/filepath"
	"sort"
	"strings"

	"regd/gateway/book"
	"regd/gateway/document"
)

// State is what a book should have: the entries of a set, and rows that belong to no set.
type State struct {
	Set
	Entries []Entry       `json:"entries"`
	Agents  []book.Agent  `json:"agents"`
	Bundles []book.Bundle `json:"bundles"` // without their sequences
	// AbsentAgents, AbsentBundles and AbsentEntries are rows that should be gone.
	AbsentAgents  []string `json:"absent_agents"`
	AbsentBundles []string `json:"absent_bundles"`
	AbsentEntries []string `json:"absent_entries"`
	Asserts       []Assert `json:"assert"`
}

// Entry is an entry of a set. Its id comes from its name.
type Entry struct {
	book.Entry
	Where string `json:"where"` // its file and line
}

// An Assert says what an agent may serve in the result, and what not.
type Assert struct {
	Agent  string   `json:"agent"`
	Serves []string `json:"serves"`
	Not    []string `json:"not"`
	Where  string   `json:"where"`
}

// Invalid is what is wrong with a file.
type Invalid struct{ Where, Text string }

func (i *Invalid) Error() string { return i.Where + ": " + i.Text }

// Read reads files, which together make one state. The domain is that of the files if it is empty.
func Read(open func(name string) ([]byte, error), domain string, names ...string) (*State, error) {
	r := &reader{open: open, state: &State{Set: Set{Domain: domain}}, places: map[string]string{}}
	for _, name := range names {
		text, err := open(name)
		if err != nil {
			return nil, err
		}
		r.file = name
		if err := r.read(text); err != nil {
			return nil, r.located(err)
		}
	}
	return r.state, r.finish()
}

// A reader reads the files of a state.
type reader struct {
	open   func(name string) ([]byte, error)
	state  *State
	file   string
	places map[string]string // of rows that may be there once
	later  []func() error    // what needs the domain
}

// located adds the file to a fault of a line.
func (r *reader) located(err error) error {
	if fault, isFault := err.(*document.Fault); isFault {
		return &Invalid{r.where(fault.Line), fault.Text}
	}
	return err
}

func (r *reader) where(line int) string { return fmt.Sprintf("%s:%d", r.file, line) }

// once refuses a second row of the same name.
func (r *reader) once(kind, name string, line int) error {
	key := kind + " " + name
	if before := r.places[key]; before != "" {
		return document.Faultf(line, "a second %s, which is also at %s", key, before)
	}
	r.places[key] = r.where(line)
	return nil
}

// fields are the keys of a mapping with what reads them.
type fields map[string]func(*document.Node) error

// members reads the members of a mapping.
func (r *reader) members(n *document.Node, known fields) error {
	if n.Kind != document.Map {
		return n.As("a mapping")
	}
	for _, m := range n.Members {
		read := known[m.Key]
		if read == nil {
			names := make([]string, 0, len(known))
			for name := range known {
				names = append(names, name)
			}
			sort.Strings(names)
			return document.Faultf(m.Line, "an unknown key, %q; known are %s", m.Key,
				strings.Join(names, ", "))
		}
		if err := read(m.Value); err != nil {
			return err
		}
	}
	return nil
}

// each reads the items of a list. A list that is left out is empty.
func each(n *document.Node, read func(*document.Node) error) error {
	if n.Kind != document.List {
		return n.As("a list")
	}
	for _, item := range n.Items {
		if err := read(item); err != nil {
			return err
		}
	}
	return nil
}

func (r *reader) read(text []byte) error {
	n, err := document.Read(text)
	if err != nil {
		return err
	}
	if n.Kind != document.Map || n.Get("regdctl") == nil {
		return document.Faultf(n.Line, "a desired state begins with `regdctl: 1`")
	}
	list := func(read func(*document.Node) error) func(*document.Node) error {
		return func(n *document.Node) error { return each(n, r.behind(read)) }
	}
	return r.members(n, fields{
		"regdctl": version, "domain": r.header(&r.state.Domain, "domain"),
		"set":    r.header(&r.state.Name, "set"),
		"agents": list(r.agent), "bundles": list(r.bundle), "aliases": list(r.alias), "entries": list(r.entry),
		"assert": list(r.assert), "absent": r.absent,
	})
}

// behind returns a function that reads a row when all headers were read, with the same file.
func (r *reader) behind(read func(*document.Node) error) func(*document.Node) error {
	return func(n *document.Node) error {
		file := r.file
		r.later = append(r.later, func() error {
			r.file = file
			return r.located(read(n))
		})
		return nil
	}
}

func version(n *document.Node) error {
	if n.Text != "1" {
		return n.As("1, the version of the format,")
	}
	return nil
}

// header reads a key that all files have in common.
func (r *reader) header(to *string, name string) func(*document.Node) error {
	return func(n *document.Node) error {
		text, err := textOf(n)
		if err != nil {
			return err
		}
		text = strings.TrimPrefix(text, "spiffe://")
		if *to != "" && *to != text {
			return document.Faultf(n.Line, "the %s is %s here, and %s elsewhere", name, text, *to)
		}
		*to = text
		return nil
	}
}

// finish reads the rows.
func (r *reader) finish() error {
	switch {
	case r.state.Domain == "":
		return &Invalid{r.file, "the key `domain` is missing"}
	case r.state.Name == "":
		return &Invalid{r.file, "the key `set` is missing"}
	case !setName.MatchString(r.state.Name):
		return &Invalid{r.file, "the name of a set has up to 64 letters, digits, `.`, `_` and `-`: " +
			r.state.Name}
	}
	for _, read := range r.later {
		if err := read(); err != nil {
			return err
		}
	}
	for _, e := range r.state.Entries {
		if where := r.places["absent entry "+e.ID]; where != "" {
			return &Invalid{where, "the state also has the entry " + e.ID + ", at " + e.Where}
		}
	}
	return nil
}

// relative returns a file that another one names.
func relative(file, name string) string {
	if filepath.IsAbs(name) || file == "-" {
		return name
	}
	return filepath.Join(filepath.Dir(file), name)
}
