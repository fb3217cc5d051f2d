// Package document reads a file in JSON or in YAML into a tree whose parts know their lines. In YAML every value is a
// text, which nothing guesses to be a number or a truth value; the caller reads it as what its key says.
package document

import (
	"bytes"
	"fmt"
)

// Kind is what a node has.
type Kind int

// The kinds of nodes.
const (
	Text   Kind = iota
	Number      // of JSON
	List
	Map
	Null // of JSON, or a value of YAML that is left out
	Bool // of JSON
)

var kindNames = map[Kind]string{Text: "a text", Number: "a number", List: "a list", Map: "a mapping", Null: "no value",
	Bool: "a truth value"}

func (k Kind) String() string { return kindNames[k] }

// Node is a value of a file.
type Node struct {
	Line    int
	Kind    Kind
	Text    string // of a text or a number
	Items   []*Node
	Members []Member
}

// Member is a key of a mapping with its value.
type Member struct {
	Key   string
	Line  int
	Value *Node
}

// Fault is what is wrong with a file, and where.
type Fault struct {
	Line int
	Text string
}

func (f *Fault) Error() string { return fmt.Sprintf("line %d: %s", f.Line, f.Text) }

// Faultf returns a fault of a line.
func Faultf(line int, format string, values ...any) error {
	return &Fault{line, fmt.Sprintf(format, values...)}
}

// most is how deep lists and mappings may nest.
const most = 100

// Read reads a file: JSON if it begins with a brace or a bracket, and otherwise YAML.
func Read(text []byte) (*Node, error) {
	start := bytes.TrimLeft(text, " \t\r\n")
	if len(start) > 0 && (start[0] == '{' || start[0] == '[') {
		return readJSON(text)
	}
	return readYAML(text)
}

// Get returns the value of a key, or nil.
func (n *Node) Get(key string) *Node {
	for _, m := range n.Members {
		if m.Key == key {
			return m.Value
		}
	}
	return nil
}

// add adds a member, or returns a fault if the key is there already.
func (n *Node) add(key string, line int, value *Node) error {
	for _, m := range n.Members {
		if m.Key == key {
			return Faultf(line, "the key %q is there twice, also in line %d", key, m.Line)
		}
	}
	n.Members = append(n.Members, Member{key, line, value})
	return nil
}
