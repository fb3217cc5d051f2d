package main

import (
	"encoding/json"
	"fmt"
	"os"
	"strings"
	"testing"

	"regd/gateway/internal/booktest"
)

const samples = "testdata/spire/"

// TestImport reads each form of SPIRE's files as a desired state.
func TestImport(t *testing.T) {
	begin := "regdctl: 1\ndomain: ex.org\nset: spire\n"
	for name, want := range map[string]string{
		"show.json": begin + "aliases:\n  - identity: /node/rack-1\n    selectors:\n      - " +
			"rack:1\nentries:\n" +
			"  - identity: /web\n    parent: /node/rack-1\n    selectors:\n      - unix:uid:1000\n" +
			"      - \"unix:path:/usr/bin/a b\"\n    hint: \"no\"\n    domains:\n      - partner.org\n" +
			"    expiry: 1900000000\n    x509_svid_ttl: 3600\n    jwt_svid_ttl: 300\n",
		"show-older.json": begin + "entries:\n  - identity: /web\n    parent: /spire/agent/a\n    " +
			"selectors:\n" +
			"      - unix:uid:1000\n    domains:\n      - partner.org\n    x509_svid_ttl: 60\n",
		"agents.json": begin + "agents:\n  - id: /spire/agent/k8s_psat/prod/0d3f\n    selectors:\n" +
			"      - k8s_psat:cluster:prod\n",
		"static.json": begin + "entries:\n  - identity: /web\n    parent: /node/rack-1\n    selectors:\n" +
			"      - k8s:ns:prod\n      - k8s:sa:web\n    hint: h\n    domains:\n      - partner.org\n" +
			"    x509_svid_ttl: 3600\n",
		"bundles": begin + "bundles:\n  - domain: partner.org\n" +
			"    text: \"{\\\"keys\\\": [], \\\"spiffe_sequence\\\": 7}\\n\"\n",
	} {
		got := ctl(t, "", []string{"REGDCTL_DOMAIN=ex.org"}, "import", samples+name)
		if got.status != 0 || got.out != want || got.errs != "" {
			t.Errorf("%s: %v", name, got)
		}
	}
	if got := ctl(t, "", nil, "import", "-set", "x", samples+"show.json"); !strings.HasPrefix(got.out,
		"regdctl: 1\ndomain: ex.org\nset: x\n") {
		t.Errorf("%v", got)
	}
}

// TestImportRefuses names everything that can't be carried over, and prints nothing else.
func TestImportRefuses(t *testing.T) {
	got := ctl(t, "", nil, "import", samples+"refused.json", samples+"agents.json")
	want := "regdctl: 2 of 3 rows can't be imported:\n" +
		"  entry 6b2e8a6e-7a9f-4b53-9f0a-9d5c2b0f7a12  /node/demo  dns_names: db.internal db\n" +
		"  entry cluster1.8a6e7a9f                     /admin      a_later_field; admin; downstream\n" +
		"  cure:   remove or change them in SPIRE, or leave these columns out: " +
		"-without a_later_field,admin,dns_names,downstream\n"
	if got.status != statusInvalid || got.out != "" || got.errs != want {
		t.Errorf("%v", got)
	}
	got = ctl(t, "", nil, "import", "-without", "a_later_field,admin,dns_names,downstream", samples+"refused.json")
	if got.status != 0 || !strings.Contains(got.out, "/node/demo") || !strings.Contains(got.out, "/admin") {
		t.Errorf("%v", got)
	}
	entry := func(more string) string {
		return `{"entries":[{"id":"i","spiffe_id":"spiffe://ex.org/w","parent_id":"spiffe://ex.org/p",` +
			`"selectors":[{"type":"a","value":"b"}],` + more + `}]}`
	}
	agent := func(more string) string {
		return `{"agents":[{"id":{"trust_domain":"ex.org","path":"/spire/agent/a"},` + more + `}]}`
	}
	selectors := func(count int) string {
		return `"selectors":[` + strings.TrimSuffix(strings.Repeat(`{"type":"a","value":"b"},`, count),
			",") + `]`
	}
	long := strings.Repeat("x", 1025)
	for text, want := range map[string]string{
		entry(`"spiffe_id":"spiffe://b.org/w"`): "another trust domain: " +
			"spiffe://b.org/w (B3)",
		entry(`"parent_id":"spiffe://ex.org"`): "an ID without a path: " +
			"spiffe://ex.org (B4)",
		entry(`"selectors":[]`): "it has no selectors, or more than " +
			"16 (B6)",
		entry(selectors(17)): "it has no selectors, or more than " +
			"16 (B6)",
		entry(`"selectors":[{"type":"a","value":"` + long +
			`"}]`): "a selector of more than 512 bytes (S4)",
		entry(`"hint":"` + long + `"`): "its hint has more than 1,024 bytes " +
			"(B8)",
		entry(`"hint":7`):                    "hint: not a text",
		entry(`"federates_with":["ex.org"]`): "the server's own trust domain (O5)",
		entry(`"federates_with":["1","2","3","4","5","6","7","8","9"]`): "more than 8 trust domains (B7)",
		entry(`"expires_at":"-1"`):                                      "expires_at: not a number from 0: -1",
		agent(`"banned":true`):                                          "agent  /spire/agent/a  banned",
		agent(selectors(65)):                                            "it has more than 64 selectors (B6)",
		agent(`"later":"x"`):                                            "agent  /spire/agent/a  later",
		`{"agents":[{"id":"spiffe://ex.org/a"}]}`: "its path doesn't begin with " +
			"/spire/agent/ (B10)",
		`{"bundles":[{"trust_domain":"ex.org"}]}`: "bundle  ex.org  it is the server's " +
			"own (B11)",
		`{"bundles":[{"trust_domain":"b.org","x":"` + strings.Repeat("x", 65536) +
			`"}]}`: "more than 65,536 bytes (B12)",
		`{"bundles":[{"x":1}]}`:                "it has no trust_domain",
		`{"items":[{"kind":"Pod"}]}`:           "item 1    it is no ClusterStaticEntry",
		`{"entries":[],"next_page_token":"x"}`: "it is one page of several",
		`{"entries":[7]}`:                      "entries: item 1 is not an object",
		`{"x":1}`:                              "it has no list `entries`",
		`[`:                                    "unexpected EOF",
	} {
		got := ctl(t, text, []string{"REGDCTL_DOMAIN=ex.org"}, "import", "-")
		if got.status != statusInvalid || got.out != "" || !strings.Contains(got.errs, want) {
			t.Errorf("%.200s: %v", text, got)
		}
	}
}

// TestImportSends creates rows directly: the same call again makes nothing twice. What SPIRE's entry create takes comes
// back byte for byte.
func TestImportSends(t *testing.T) {
	s := newStand(t, false)
	data := samples + "data.json"
	if got := s.do("import -send " + data); got.status != 3 || !strings.Contains(got.errs, "refused: O5") ||
		len(s.model.Entries) != 0 {
		t.Errorf("%v", got)
	}
	s.expect("import -send "+samples+"bundles "+data, 0, "3 operations imported by 1 batch; at commit 1\n")
	s.expect("import -send "+samples+"bundles "+data, 0,
		"3 operations imported by 1 batch, of which 1 made before; at commit 1\n")
	want, err := os.ReadFile(data)
	if err != nil {
		t.Fatal(err)
	}
	if got := s.do("export -format spire"); got.status != 0 || got.out != string(want) {
		t.Errorf("%v", got)
	}
	s = newStand(t, true)
	got := s.do("import -send " + samples + "bundles " + samples + "agents.json " + samples + "show.json")
	if got.status != 0 || !strings.HasPrefix(got.errs, "renamed: cluster1.8c5a7c0e is now ") ||
		len(s.model.Agents) != 1 ||
		s.model.Entries["4b1a4f2e-6a1c-4b7e-9d6f-0d8f7a1c2e10"].Identity != "spiffe://ex.org/node/rack-1" {
		t.Errorf("%v", got)
	}
}

// TestImportLines prints the lines that -send sends, for many rows.
func TestImportLines(t *testing.T) {
	var rows []string
	for i := 0; i < 130; i++ {
		rows = append(rows, fmt.Sprintf(`{"spiffe_id":"spiffe://ex.org/w","parent_id":"spiffe://ex.org/p",`+
			`"selectors":[{"type":"a","value":"%d"}]}`, i))
	}
	got := ctl(t, `{"entries":[`+strings.Join(rows, ",")+`]}`, nil, "import", "-lines", "-")
	m := booktest.New("ex.org")
	lines := strings.Split(strings.TrimSuffix(got.out, "\n"), "\n")
	for _, line := range lines {
		if answer := m.Answer(line); !strings.Contains(answer, "committed") || !json.Valid([]byte(line)) {
			t.Errorf("%s: %s", line, answer)
		}
	}
	if len(lines) != 3 || len(m.Entries) != 130 {
		t.Errorf("%d lines, %d entries, %v", len(lines), len(m.Entries), got.errs)
	}
}
