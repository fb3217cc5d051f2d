package document

import (
	"bytes"
	"errors"
	"fmt"
	"io"
	"regexp"
	"strconv"

	"gopkg.in/yaml.v3"
)

// lineOfFault finds the line in a message of the reader.
var lineOfFault = regexp.MustCompile(`^yaml: (?:line (\d+): )?(.*)$`)

func readYAML(text []byte) (node *Node, err error) {
	defer func() { // the reader ends with a panic if it finds a fault of its own
		if found := recover(); found != nil {
			node, err = nil, Faultf(1, "it can't be read as YAML: %v", found)
		}
	}()
	var document, more yaml.Node
	decoder := yaml.NewDecoder(bytes.NewReader(text))
	if err := decoder.Decode(&document); errors.Is(err, io.EOF) {
		return nil, Faultf(1, "the file has no value")
	} else if err != nil {
		return nil, faultOf(err)
	}
	if err := decoder.Decode(&more); err == nil {
		return nil, Faultf(more.Line, "a second document")
	} else if !errors.Is(err, io.EOF) {
		return nil, faultOf(err)
	}
	if len(document.Content) != 1 {
		return nil, Faultf(1, "the file has no value")
	}
	return convert(document.Content[0], 0)
}

func faultOf(err error) error {
	found := lineOfFault.FindStringSubmatch(err.Error())
	if found == nil {
		return Faultf(1, "%v", err)
	}
	line, isLine := strconv.Atoi(found[1])
	if isLine != nil {
		line = 1
	}
	return Faultf(line, "%s", found[2])
}

// convert refuses what guesses, or hides where a value comes from: tags, anchors and aliases.
func convert(from *yaml.Node, depth int) (*Node, error) {
	node := &Node{Line: from.Line}
	switch {
	case from.Kind == yaml.AliasNode:
		return nil, Faultf(from.Line, "an alias, *%s: write the value again", from.Value)
	case from.Anchor != "":
		return nil, Faultf(from.Line, "an anchor, &%s: write values where they are used", from.Anchor)
	case from.Style&yaml.TaggedStyle != 0:
		return nil, Faultf(from.Line, "a tag, %s: each key says what its value is", from.Tag)
	case depth > most:
		return nil, Faultf(from.Line, "lists and mappings nest more than %d deep", most)
	case from.Kind == yaml.MappingNode:
		node.Kind = Map
		return node, convertMembers(node, from.Content, depth)
	case from.Kind == yaml.SequenceNode:
		node.Kind = List
		for _, one := range from.Content {
			item, err := convert(one, depth+1)
			if err != nil {
				return nil, err
			}
			node.Items = append(node.Items, item)
		}
		return node, nil
	case from.Kind != yaml.ScalarNode:
		return nil, Faultf(from.Line, "it can't be read as YAML: a node of kind %d", from.Kind)
	case from.Value == "" && from.Style == 0:
		node.Kind = Null
		return node, nil
	}
	node.Text = from.Value
	return node, nil
}

func convertMembers(node *Node, content []*yaml.Node, depth int) error {
	for i := 0; i+1 < len(content); i += 2 {
		key := content[i]
		if key.Kind != yaml.ScalarNode {
			return Faultf(key.Line, "a key that is not a text")
		}
		read, err := convert(key, depth+1)
		if err != nil {
			return err
		}
		value, err := convert(content[i+1], depth+1)
		if err != nil {
			return err
		}
		if err := node.add(read.Text, key.Line, value); err != nil {
			return err
		}
	}
	return nil
}

// As returns a fault that says what a node should be.
func (n *Node) As(wanted string) error {
	what := n.Kind.String()
	if n.Kind == Text || n.Kind == Number || n.Kind == Bool {
		what = fmt.Sprintf("%q", n.Text)
	}
	return Faultf(n.Line, "%s is expected here, and not %s", wanted, what)
}
