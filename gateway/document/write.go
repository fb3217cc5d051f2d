package document

import (
	"encoding/json"
	"regexp"
	"strings"
)

// plain are texts that YAML takes for texts without quotes.
var plain = regexp.MustCompile(`^[A-Za-z/][\w./-]*(:[\w./-]+)*$`)

// words are texts that some readers of YAML take for something else.
var words = map[string]bool{"null": true, "true": true, "false": true, "yes": true, "no": true, "on": true, "off": true,
	"y": true, "n": true}

// scalar returns a text in quotes if it needs them, or a number, true, false or null.
func (n *Node) scalar() string {
	switch {
	case n.Kind == Null:
		return "null"
	case n.Kind == Text:
		return quoted(n.Text)
	case n.Kind == List:
		return "[]"
	case n.Kind == Map:
		return "{}"
	}
	return n.Text
}

func quoted(text string) string {
	if plain.MatchString(text) && !words[strings.ToLower(text)] {
		return text
	}
	printed, err := json.Marshal(text)
	if err != nil {
		panic(err) // a text has no value that JSON can't have
	}
	return string(printed)
}

func (n *Node) isEmpty() bool { return len(n.Items)+len(n.Members) == 0 }

// YAML returns a value as YAML, with its keys in their order.
func (n *Node) YAML() string {
	var out strings.Builder
	n.write(&out, "", "")
	return out.String()
}

// write writes a value. first comes before its first line, and indent before the others.
func (n *Node) write(out *strings.Builder, first, indent string) {
	if n.isEmpty() {
		out.WriteString(first + n.scalar() + "\n")
	}
	for i, m := range n.Members {
		if i > 0 {
			first = indent
		}
		out.WriteString(first + quoted(m.Key) + ":")
		if m.Value.isEmpty() {
			m.Value.write(out, " ", "")
		} else {
			out.WriteString("\n")
			m.Value.write(out, indent+"  ", indent+"  ")
		}
	}
	for i, item := range n.Items {
		if i > 0 {
			first = indent
		}
		item.write(out, first+"- ", indent+"  ")
	}
}

// FromValue returns a value as the tree of its JSON.
func FromValue(value any) (*Node, error) {
	text, err := json.Marshal(value)
	if err != nil {
		return nil, err
	}
	return readJSON(text)
}
