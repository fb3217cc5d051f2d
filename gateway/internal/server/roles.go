package server

import (
	"bufio"
	"bytes"
	"errors"
	"fmt"
	"os"
	"strings"
	"sync"

	"regd/gateway/internal/logline"
)

// A Kind says what a caller may send.
type Kind int

// The kinds. Without a role a caller may send nothing.
const (
	NoRole    Kind = iota
	Agent          // queries about itself
	Reader         // all queries
	Registrar      // all queries, and changes of entries whose identity is below a prefix
	Operator       // everything
)

// kinds has the names of kinds in a file of roles.
var kinds = map[string]Kind{"agent": Agent, "reader": Reader, "registrar": Registrar, "operator": Operator}

// A Role is that of a caller.
type Role struct {
	Kind   Kind
	Prefix string // of the identities of a registrar's entries, which ends with a slash
}

// mayChange returns true if the caller may send some changes.
func (r Role) mayChange() bool { return r.Kind >= Registrar }

// A roleTable is what a file of roles says.
type roleTable struct {
	roles  map[string]Role // of callers
	agents []string        // IDs of agents, or what their IDs begin with, up to a slash; nil: all others are agents
}

// of returns the role of a caller.
func (t *roleTable) of(id string) Role {
	role, isNamed := t.roles[id]
	switch {
	case isNamed:
		return role
	case id == "":
		return Role{}
	case t.agents == nil:
		return Role{Kind: Agent}
	}
	for _, one := range t.agents {
		if id == one || strings.HasSuffix(one, "/") && strings.HasPrefix(id, one) {
			return Role{Kind: Agent}
		}
	}
	return Role{}
}

// Roles are those of callers. A file is read again when it changes. While it is not valid, what it said before stays in
// use.
type Roles struct {
	file, domain string

	mu    sync.Mutex
	table *roleTable
	stamp string // of the file
	fails logline.Rare
}

// RolesOf returns roles without a file: operators, and all others are agents.
func RolesOf(operators []string) *Roles {
	table := &roleTable{roles: map[string]Role{}}
	for _, operator := range operators {
		if operator != "" {
			table.roles[operator] = Role{Kind: Operator}
		}
	}
	return &Roles{table: table}
}

// LoadRoles reads a file of roles.
func LoadRoles(file, domain string) (*Roles, error) {
	r := &Roles{file: file, domain: domain, stamp: stampOf(file)}
	text, err := os.ReadFile(file)
	if err != nil {
		return nil, err
	}
	r.table, err = readRoles(text, domain)
	if err != nil {
		return nil, fmt.Errorf("%s: %w", file, err)
	}
	return r, nil
}

// Of returns the role of a caller, as the file says it now.
func (r *Roles) Of(id string) Role { return r.current().of(id) }

// current returns what the file says now, or said when it was valid.
func (r *Roles) current() *roleTable {
	r.mu.Lock()
	defer r.mu.Unlock()
	r.refresh()
	return r.table
}

// refresh reads the file again if it has changed. r.mu is locked.
func (r *Roles) refresh() {
	if r.file == "" {
		return
	}
	stamp := stampOf(r.file)
	if stamp == r.stamp {
		return
	}
	text, err := os.ReadFile(r.file)
	var table *roleTable
	if err == nil {
		table, err = readRoles(text, r.domain)
	}
	if err != nil {
		r.fails.Error("roles not loaded", "file", r.file, "error", err)
		return
	}
	r.table, r.stamp = table, stamp
	logline.Info("roles loaded", "file", r.file, "callers", len(table.roles))
}

// readRoles reads the text of a file of roles: in each line a role and a SPIFFE ID, and for a registrar a prefix. Lines
// that begin with # are left out.
func readRoles(text []byte, domain string) (*roleTable, error) {
	table := &roleTable{roles: map[string]Role{}}
	in := bufio.NewScanner(bytes.NewReader(text))
	for number := 1; in.Scan(); number++ {
		words := strings.Fields(in.Text())
		if len(words) == 0 || strings.HasPrefix(words[0], "#") {
			continue
		}
		err := table.add(words, domain)
		if err != nil {
			return nil, fmt.Errorf("line %d: %w", number, err)
		}
	}
	return table, in.Err()
}

// add takes the words of a line.
func (t *roleTable) add(words []string, domain string) error {
	kind, isKnown := kinds[words[0]]
	switch {
	case !isKnown:
		return fmt.Errorf("an unknown role: %s", words[0])
	case len(words) != 2 && (kind != Registrar || len(words) != 3):
		return errors.New("a line has a role and a SPIFFE ID, and for a registrar also a prefix")
	case kind == Registrar && (len(words) != 3 || !isPrefix(words[2], domain)):
		return errors.New("a registrar has a prefix such as spiffe://ex.org/team/")
	case kind == Agent && isPrefix(words[1], domain):
		t.agents = append(t.agents, words[1])
		return nil
	case !IsCallerID(words[1], domain):
		return fmt.Errorf("%q is no SPIFFE ID of a caller in %s", words[1], domain)
	case kind == Agent:
		t.agents = append(t.agents, words[1])
		return nil
	case t.roles[words[1]] != Role{}:
		return fmt.Errorf("%s has two roles", words[1])
	}
	role := Role{Kind: kind}
	if kind == Registrar {
		role.Prefix = words[2]
	}
	t.roles[words[1]] = role
	return nil
}

// isPrefix returns true if a text is a SPIFFE ID with a slash behind it.
func isPrefix(text, domain string) bool {
	return strings.HasSuffix(text, "/") && IsCallerID(strings.TrimSuffix(text, "/"), domain)
}

// stampOf changes when a file does.
func stampOf(name string) string {
	info, err := os.Stat(name)
	if err != nil {
		return ""
	}
	return fmt.Sprintln(info.ModTime().UnixNano(), info.Size())
}
