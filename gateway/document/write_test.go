package document

import "testing"

// TestYAML checks that texts which YAML would take for something else are quoted, and what values look like.
func TestYAML(t *testing.T) {
	for text, want := range map[string]string{"no": `"no"`, "Null": `"Null"`,
		"1": `"1"`, "a: b": `"a: b"`, "a:b": "a:b", "": `""`, "a #b": `"a #b"`,
		"- a": `"- a"`, "a\nb": `"a\nb"`, "/web": "/web", "a:": `"a:"`, "*a": `"*a"`, "~": `"~"`} {
		if got := quoted(text); got != want {
			t.Errorf("%q: got %s, want %s", text, got, want)
		}
		n := &Node{Kind: List, Items: []*Node{{Kind: Text, Text: text}}}
		if read, err := Read([]byte(n.YAML())); err != nil || read.Items[0].Text != text {
			t.Errorf("%q: read as %v, %v", text, read, err)
		}
	}
	n, err := FromValue(map[string]any{"b": []any{[]any{1, "x"}, map[string]any{}}, "a": nil,
		"c": map[string]any{"d": true}})
	if want := "a: null\nb:\n  - - 1\n    - x\n  - {}\nc:\n  d: true\n"; err != nil || n.YAML() != want {
		t.Errorf("got %s, want %s, %v", n.YAML(), want, err)
	}
}
