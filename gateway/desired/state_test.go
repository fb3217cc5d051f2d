package desired

import (
	"errors"
	"fmt"
	"io/fs"
	"strings"
	"testing"

	"regd/gateway/book"
)

// files returns a function that opens these files.
func files(texts map[string]string) func(string) ([]byte, error) {
	return func(name string) ([]byte, error) {
		text, isThere := texts[name]
		if !isThere {
			return nil, fmt.Errorf("%s: %w", name, fs.ErrNotExist)
		}
		return []byte(text), nil
	}
}

func readOne(text string) (*State, error) {
	return Read(files(map[string]string{"in/book.yaml": text, "in/partner.json": `{"keys":[]}`}), "",
		"in/book.yaml")
}

const example = `# the book of production
regdctl: 1
domain: ex.org
set: prod
agents:
  - id: /spire/agent/a
    selectors: [host:a, rack:1]
  - {id: spiffe://ex.org/spire/agent/b, selectors: []}
bundles:
  - domain: partner.org
    file: partner.json
  - domain: spiffe://other.org
    text: '{"keys": []}'
aliases:
  - identity: /node/rack-1
    selectors: [rack:1]
entries:
  - identity: /web
    parent: /node/rack-1
    selectors: [unix:uid:1000, a:b]
    hint: no
    x509_svid_ttl: 1h
    jwt_svid_ttl: 90
  - name: the second
    identity: /web
    parent: /node/rack-1
    selectors: [unix:uid:1001]
    domains: [spiffe://partner.org]
    expiry: 2027-01-01T00:00:00Z
assert:
  - agent: /spire/agent/a
    serves: [/web]
    not: [/pay]
absent:
  agents: [/spire/agent/z]
  bundles: [old.org]
  entries: [24BBB05C-58d9-4fc7-bdb2-747061ad2046]
`

// TestReadState reads each key.
func TestReadState(t *testing.T) {
	s, err := readOne(example)
	if err != nil {
		t.Fatal(err)
	}
	set := Set{"ex.org", "prod"}
	var got []string
	for _, e := range s.Entries {
		e.ID = map[string]string{set.ID("row " + e.Parent + " " + e.Identity): "of the row",
			set.ID("name the second"): "of the name"}[e.ID]
		got = append(got, fmt.Sprintf("%+v %s", e.Entry, e.Where))
	}
	want := []string{
		"{ID:of the row Identity:spiffe://ex.org/node/rack-1 Parent:spiffe://ex.org/spire/server " +
			"Selectors:[rack:1] Hint: Domains:[] Expiry:0 X509TTL:0 JWTTTL:0 Revision:0} in/book.yaml:15",
		"{ID:of the row Identity:spiffe://ex.org/web Parent:spiffe://ex.org/node/rack-1 " +
			"Selectors:[a:b unix:uid:1000] Hint:no Domains:[] Expiry:0 X509TTL:3600 JWTTTL:90 " +
			"Revision:0} " +
			"in/book.yaml:18",
		"{ID:of the name Identity:spiffe://ex.org/web Parent:spiffe://ex.org/node/rack-1 " +
			"Selectors:[unix:uid:1001] Hint: Domains:[partner.org] Expiry:1798761600 X509TTL:0 JWTTTL:0 " +
			"Revision:0} " +
			"in/book.yaml:24",
	}
	if strings.Join(got, "\n") != strings.Join(want, "\n") {
		t.Errorf("got\n%s", strings.Join(got, "\n"))
	}
	rest := fmt.Sprintf("%v %v %v %v %v %v %v", s.Set, s.Agents, s.Bundles, s.AbsentAgents, s.AbsentBundles,
		s.AbsentEntries, s.Asserts)
	if rest != `{ex.org prod} [{spiffe://ex.org/spire/agent/a [host:a rack:1]} {spiffe://ex.org/spire/agent/b `+
		`[]}] `+
		`[{partner.org 0 {"keys":[]}} {other.org 0 {"keys": []}}] [spiffe://ex.org/spire/agent/z] [old.org] `+
		`[24bbb05c-58d9-4fc7-bdb2-747061ad2046] `+
		`[{spiffe://ex.org/spire/agent/a [spiffe://ex.org/web] [spiffe://ex.org/pay] in/book.yaml:31}]` {
		t.Error(rest)
	}
	if names := fmt.Sprint(s.AgentNames(), s.Domains()); names != "[spiffe://ex.org/spire/agent/a "+
		"spiffe://ex.org/spire/agent/b spiffe://ex.org/spire/agent/z] [old.org other.org partner.org]" {
		t.Error(names)
	}
}

const head = "regdctl: 1\ndomain: ex.org\nset: s\n"

// TestStateFaults checks that each fault is named with its file and line.
func TestStateFaults(t *testing.T) {
	row := "  - {parent: /p, identity: /i, selectors: [x:1]"
	for text, want := range map[string]string{
		"a: b": "in/book.yaml:1: a desired state begins with `regdctl: 1`",
		"- a":  "in/book.yaml:1: a desired state begins with `regdctl: 1`",
		"regdctl: 2": `in/book.yaml:1: 1, the version of the format, is expected ` +
			`here, and not "2"`,
		"regdctl: 1\nset: s":              "in/book.yaml: the key `domain` is missing",
		"regdctl: 1\ndomain: d":           "in/book.yaml: the key `set` is missing",
		"regdctl: 1\ndomain: d\nset: a b": "the name of a set has",
		head + "zz: 1": `in/book.yaml:4: an unknown key, "zz"; known are absent, ` +
			`agents, aliases,`,
		head + "entries: a":   `in/book.yaml:4: a list is expected here, and not "a"`,
		head + "entries:":     "in/book.yaml:4: a list is expected here, and not no value",
		head + "entries: [a]": `in/book.yaml:4: a mapping is expected here, and not "a"`,
		head + "entries:\n" + row + ", hint: }": "in/book.yaml:5: a value is missing; an empty text is " +
			"written \"\"",
		head + "entries:\n" + row + ", hint: []}": "in/book.yaml:5: a text is expected here, and not " +
			"a list",
		head + "entries:\n" + row + ", hin: a}": `in/book.yaml:5: an unknown key, "hin"; known are ` +
			`domains, expiry, hint`,
		head + "entries:\n" + row + ", expiry: x}": "in/book.yaml:5: not a time",
		head + "entries:\n" + row + ", expiry: []}": "in/book.yaml:5: a number is expected here, and " +
			"not a list",
		head + "entries:\n" + row + ", x509_svid_ttl: 1w}": "in/book.yaml:5: not a lifetime",
		head + "entries:\n" + row + "}\n" + row + "}": "in/book.yaml:6: a second entry spiffe://ex.org/i " +
			"below " +
			"spiffe://ex.org/p (give one a `name`), which is also at in/book.yaml:5",
		head + "entries:\n" + row + ", name: a}\n" + row +
			", name: a}": "in/book.yaml:6: a second entry a, which",
		head + "entries:\n" + row + ", name: a}\n" + row +
			", name: b}": "in/book.yaml:6: a second entry with parent, ",
		head + "entries:\n" + row + ", name: a, id: b}": "a name " +
			"or an id, and not both",
		head + "entries:\n" + row + ", id: 24bbb05c-58d9-4fc7-bdb2-747061ad2046}": "is not " +
			"one of the set s",
		head + "entries:\n" + row + ", id: " + (Set{"ex.org", "s"}).MarkerID() +
			"}": "is not one of the set s",
		head + "entries:\n  - {parent: /p, identity: " +
			"/i}": "in/book.yaml:5: an entry has `parent`",
		head + "entries:\n  - {parent: /p, identity: /i, selectors: " +
			"[]}": "in/book.yaml:5: an entry has `parent`",
		head + "entries:\n  - {parent: p, identity: /i, selectors: [x:1]}": "a SPIFFE " +
			"ID of the domain ex.org",
		head + "entries:\n  - {parent: spiffe://b.org/p, identity: /i, selectors: [x:1]}": "a SPIFFE " +
			"ID of the domain",
		head + "entries:\n  - {parent: /regdctl, identity: /regdctl/set, selectors: [x:1]}": "is for " +
			"the markers",
		head + "aliases:\n" + row +
			"}": "in/book.yaml:5: an alias has " +
			"no parent",
		head + "agents:\n  - id: " +
			"/spire/agent/a": "in/book.yaml:5: an agent " +
			"has `id` and `selectors`",
		head + "agents:\n  - {id: /a, selectors: " +
			"[]}": "in/book.yaml:5: the path of an agent " +
			"begins with /spire/agent/",
		head + "agents: [{id: /spire/agent/a, selectors: []}]\nabsent: " +
			"{agents: [/spire/agent/a]}": "a second agent",
		head + "bundles: [{domain: " +
			"b.org}]": "in/book.yaml:4: a bundle " +
			"has `domain`, and either `file` or `text`",
		head + "bundles: [{domain: b.org, file: a, text: b}]": "either " +
			"`file` or `text`",
		head + "bundles: [{domain: b.org, file: " +
			"missing}]": "in/missing: file does not exist",
		head + "assert: [{agent: /spire/agent/a}]": "an " +
			"assertion has `agent`, and `serves` or `not`",
		head + "absent: {entry: []}": `an ` +
			`unknown key, "entry"`,
		head + "entries:\n" + row + ", name: a}\nabsent: {entries: [" + (Set{"ex.org", "s"}).ID("name a") +
			"]}": "in/book.yaml:6: the state also has the entry",
		`{"regdctl": 1, "domain": "ex.org", "set": 7}`: `in/book.yaml:1: a text is expected here, and not "7"`,
	} {
		if _, err := readOne(text); err == nil || !strings.Contains(err.Error(), want) {
			t.Errorf("%s: got %v, want %s", text, err, want)
		}
	}
}

// TestReadSeveral reads files that together make one state.
func TestReadSeveral(t *testing.T) {
	open := files(map[string]string{"a": head + "entries: [{parent: /p, identity: /i, selectors: [x:1]}]",
		"b": "regdctl: 1\nentries: [{parent: /p, identity: /j, selectors: [x:1]}]", "c": "regdctl: 1\nset: t",
		"d": `{"regdctl": 1, "entries": [{"parent": "/p", "identity": "/i", "selectors": ["x:2"], "expiry": ` +
			`7}]}`})
	s, err := Read(open, "", "b", "a") // the domain of the rows may come later
	if err != nil || len(s.Entries) != 2 || s.Entries[0].Parent != "spiffe://ex.org/p" ||
		s.Entries[0].Where != "b:2" {
		t.Errorf("%v, %v", s, err)
	}
	for _, one := range []struct{ name, want string }{{"c", "c:2: the set is t here, and s elsewhere"},
		{"d", "d:1: a second entry spiffe://ex.org/i below spiffe://ex.org/p (give one a `name`), which is " +
			"also at a:4"}} {
		if _, err := Read(open, "", "a", one.name); err == nil || err.Error() != one.want {
			t.Errorf("%s: %v", one.name, err)
		}
	}
	if _, err := Read(open, "b.org", "a"); err == nil || !strings.Contains(err.Error(),
		"the domain is ex.org here") {
		t.Error(err)
	}
	if _, err := Read(open, "", "none"); !errors.Is(err, fs.ErrNotExist) {
		t.Error(err)
	}
}

// TestSets checks the ids of a set: fixed ones, of version 8, in the range, which an id of a server is never in.
func TestSets(t *testing.T) {
	s := Set{"ex.org", "prod"}
	for name, want := range map[string]string{"": "aa07b090-d004-87ba-b567-30b3d8fda049",
		"row spiffe://ex.org/p spiffe://ex.org/i": "aa07b090-d004-8c5e-bdb3-cfa62c621e74"} {
		if got := s.ID(name); got != want || !s.Has(got) {
			t.Errorf("%q: %s", name, got)
		}
	}
	if got := s.MarkerID(); got != "aa07b090-d004-8000-8000-000000000000" || !s.Has(got) {
		t.Error(got)
	}
	other := strings.Replace(s.ID("x"), "-8", "-4", 1)
	for _, id := range []string{other, Set{"ex.org", "other"}.ID("x"), Set{"b.org", "prod"}.ID("x"), "", "x"} {
		if s.Has(id) {
			t.Error(id)
		}
	}
	e, err := s.marker(book.Applied{Set: "prod", Plan: "p", Batch: 1, Batches: 2})
	a, isOne := e.Applied()
	if err != nil || !e.IsMarker() || !isOne || a.Batch != 1 || e.Selectors[0] != "regdctl:set:prod" {
		t.Errorf("%v, %v", e, err)
	}
}
