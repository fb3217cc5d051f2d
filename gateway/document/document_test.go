package document

import (
	"fmt"
	"strings"
	"testing"
)

// text prints a node with the lines of its parts.
func text(n *Node) string {
	switch n.Kind {
	case List:
		var items []string
		for _, item := range n.Items {
			items = append(items, text(item))
		}
		return fmt.Sprintf("%d[%s]", n.Line, strings.Join(items, " "))
	case Map:
		var members []string
		for _, m := range n.Members {
			members = append(members, fmt.Sprintf("%d:%s=%s", m.Line, m.Key, text(m.Value)))
		}
		return fmt.Sprintf("%d{%s}", n.Line, strings.Join(members, " "))
	case Null:
		return fmt.Sprintf("%d-", n.Line)
	}
	return fmt.Sprintf("%d%s", n.Line, map[Kind]string{Text: "'", Number: "#", Bool: "?"}[n.Kind]+n.Text)
}

// TestReadDocument reads each construct, with the lines of its parts. No text of YAML is taken for anything else.
func TestReadDocument(t *testing.T) {
	for given, want := range map[string]string{
		"a: b":                                    "1{1:a=1'b}",
		"# c\na: no # c\nb: 1e3\n":                "2{2:a=2'no 3:b=3'1e3}",
		"a: 0x10\nb: ~\nc: null\nd: yes":          "1{1:a=1'0x10 2:b=2'~ 3:c=3'null 4:d=4'yes}",
		"a: 2027-01-01T00:00:00Z":                 "1{1:a=1'2027-01-01T00:00:00Z}",
		"a:\nb: \"\"":                             "1{1:a=1- 2:b=2'}",
		"- a\n- b: c\n  d: [e, 'f g', \"h\\ti\"]": "1[1'a 2{2:b=2'c 3:d=3[3'e 3'f g 3'h\ti]}]",
		"a: {b: c}\nx:y: z":                       "1{1:a=1{1:b=1'c} 2:x:y=2'z}",
		"a: |\n  b\n  c\n":                        "1{1:a=1'b\nc\n}",
		"a: unix:uid:1000":                        "1{1:a=1'unix:uid:1000}",
		"<<: b":                                   "1{1:<<=1'b}",
		`{"a": [1, "1",` + "\n" + `true, null], "b": {}}`: "1{1:a=1[1#1 1'1 2?true 2-] 2:b=2{}}",
		"\n [\"\\ud83d\\ude00\", 18446744073709551615]":   "2[2'\U0001F600 2#18446744073709551615]",
	} {
		n, err := Read([]byte(given))
		if err != nil {
			t.Errorf("%q: %v", given, err)
		} else if got := text(n); got != want {
			t.Errorf("%q: got %s, want %s", given, got, want)
		}
	}
}

// TestDocumentFaults checks that each fault is named with its line.
func TestDocumentFaults(t *testing.T) {
	deep := strings.Repeat("[", 200) + strings.Repeat("]", 200)
	for given, want := range map[string]string{
		"":                            "line 1: the file has no value",
		"# c\n":                       "line 1: the file has no value",
		"a: b\nc: d\na: e":            `line 3: the key "a" is there twice, also in line 1`,
		"b:\n  - a: &x b":             "line 2: an anchor, &x",
		"b: &x {a: b}":                "line 1: an anchor, &x",
		"a: &x b\nc: *x":              "line 1: an anchor",
		"a: b\nc: !!str d":            "line 2: a tag, !!str",
		"a: !own {b: c}":              "line 1: a tag, !own",
		"!!str a: b":                  "line 1: a tag",
		"a: b\n---\nc: d":             "line 2: a second document",
		"a: b: c":                     "line 1: mapping values are not allowed",
		"a:\n\t- b":                   "line 2: found character that cannot start any token",
		"[a, b]: c":                   "line 1: ",
		"? [a]\n: b":                  "line 1: a key that is not a text",
		"a: 'b":                       "line 1: found unexpected end of stream",
		"x: " + deep:                  "nest more than 100 deep",
		`{"a": 1` + "\n" + `,"a": 2}`: `line 2: the key "a" is there twice, also in line 1`,
		`{"a": 1`:                     "line 1: the file ends within the JSON value",
		"{\"a\":\n\nb}":               "line 3: invalid character 'b'",
		"{}\n{}":                      "line 2: there is more behind",
		"[1]\nx":                      "line 2: there is more behind",
		deep:                          "nest more than 100 deep",
		"{\"a\": 1e}":                 "line 1: invalid character",
	} {
		n, err := Read([]byte(given))
		if err == nil {
			t.Errorf("%q: read as %s", given, text(n))
		} else if got := err.Error(); !strings.Contains(got, want) {
			t.Errorf("%q: got %s, want %s", given, got, want)
		}
	}
}

// TestGet finds a key, and names what a node should be.
func TestGet(t *testing.T) {
	n, err := Read([]byte("a: b\nc:\n  - d\n"))
	if err != nil || n.Get("a").Text != "b" || n.Get("b") != nil {
		t.Fatalf("%v %v", n, err)
	}
	for key, want := range map[string]string{"a": `line 1: a list is expected here, and not "b"`,
		"c": "line 3: a list is expected here, and not a list"} {
		if got := n.Get(key).As("a list"); got.Error() != want {
			t.Errorf("got %v, want %s", got, want)
		}
	}
}

// FuzzRead checks that no file makes the reader end otherwise than with a value or a fault of a line.
func FuzzRead(f *testing.F) {
	for _, text := range []string{"a: b", "- [a, {b: c}]", `{"a": [1]}`, "a: &x |\n b", "? a\n: b",
		"a: \"\\u00e9\""} {
		f.Add([]byte(text))
	}
	f.Fuzz(func(t *testing.T, given []byte) {
		n, err := Read(given)
		fault, isFault := err.(*Fault)
		if err != nil && (!isFault || fault.Line < 1) || err == nil && n.Line < 1 {
			t.Errorf("%q: %v, %v", given, n, err)
		}
	})
}
