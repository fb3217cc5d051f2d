package document

import (
	"encoding/json"
	"math/rand"
	"os"
	"os/exec"
	"reflect"
	"strings"
	"testing"
)

// parts are words of YAML, of which random files are made.
var parts = []string{"a", "b", "no", "1e3", "~", "a: ", "b: ", "- ", "\n", "\n", "\n  ", "\n    ", "[", "]", "{", "}",
	", ", "'x y'", `"z\n"`, " # c", ": ", "a:b", "|", "\n- ", "''", ">", "?", "=", "0x10", "2027-01-01"}

// asPython returns a value as BaseLoader reads it: every scalar is a text.
func asPython(n *Node) any {
	switch n.Kind {
	case List:
		list := []any{}
		for _, item := range n.Items {
			list = append(list, asPython(item))
		}
		return list
	case Map:
		members := map[string]any{}
		for _, m := range n.Members {
			members[m.Key] = asPython(m.Value)
		}
		return members
	}
	return n.Text
}

const script = `
import json, sys, yaml
for text in json.load(sys.stdin):
    try:
        print(json.dumps(yaml.load(text, Loader=yaml.BaseLoader)))
    except yaml.YAMLError as error:
        print(json.dumps({"error": str(error)}))
`

// TestReadAsPython compares what is read from random files with what another reader makes of them.
func TestReadAsPython(t *testing.T) {
	python := os.Getenv("REGDCTL_PYTHON")
	if python == "" {
		t.Skip("REGDCTL_PYTHON names no Python with the module yaml")
	}
	r := rand.New(rand.NewSource(1))
	var texts []string
	var wanted []any
	for len(texts) < 20000 {
		var text strings.Builder
		for i := 0; i < 1+r.Intn(12); i++ {
			text.WriteString(parts[r.Intn(len(parts))])
		}
		start := strings.TrimLeft(text.String(), " \n")
		if strings.HasPrefix(start, "{") || strings.HasPrefix(start, "[") {
			continue // that is JSON
		}
		if n, err := Read([]byte(text.String())); err == nil {
			texts, wanted = append(texts, text.String()), append(wanted, asPython(n))
		}
	}
	in, err := json.Marshal(texts)
	if err != nil {
		t.Fatal(err)
	}
	reader := exec.Command(python, "-c", script)
	reader.Stdin = strings.NewReader(string(in))
	out, err := reader.Output()
	if err != nil {
		t.Fatal(err)
	}
	decoder := json.NewDecoder(strings.NewReader(string(out)))
	differing := 0
	for i, text := range texts {
		var got any
		if err := decoder.Decode(&got); err != nil {
			t.Fatal(err)
		}
		if !reflect.DeepEqual(got, wanted[i]) {
			differing++
			if differing < 20 {
				t.Errorf("%q: got %v, another reader %v", text, wanted[i], got)
			}
		}
	}
	t.Logf("%d files of %d read as another reader does", len(texts)-differing, len(texts))
}
