package main

import (
	"encoding/json"
	"fmt"
	"strings"
	"testing"

	"regd/gateway/book"
)

// placed returns a row of an entry.
func placed(number int, parent, identity, more string, selectors ...string) string {
	text, err := json.Marshal(selectors)
	if err != nil {
		panic(err)
	}
	if more == "" {
		more = `"expiry":0`
	}
	return fmt.Sprintf(`{"domains":[],"hint":"","id":"%d1111111-0000-1000-8000-000000000000",`+
		`"identity":"spiffe://ex.org%s",`+
		`"parent":"spiffe://ex.org%s","revision":0,"selectors":%s,%s}`, number, identity, parent, text, more)
}

// The book of these tests: an alias with an entry, an entry of an agent, and one below a parent that doesn't exist.
var (
	rack = placed(1, "/spire/server", "/node/rack-1", "", "rack:1")
	site = placed(2, "/node/rack-1", "/web", `"expiry":0`, "u:1")
	bill = placed(3, "/spire/agent/b", "/pay", "", "u:2")
	lost = placed(4, "/node/rack-11", "/api", "", "u:3")

	twoAgents = `{"agents":[{"id":"spiffe://ex.org/spire/agent/a","selectors":["host:a",` +
		`"rack:1"]},{"id":"spiffe://ex.org/spire/agent/b","selectors":["host:b"]}],"next":null}`
)

// reading returns the answers to a reading of the book, and then others.
func reading(more ...string) []string {
	return append([]string{answered(agentOf("null"), pageOf(rack, site, bill, lost)), answered(twoAgents)}, more...)
}

func whole(number int) string { return fmt.Sprintf("%d1111111-0000-1000-8000-000000000000", number) }

const same = "the server's own answer: the same entries\n"

// TestExplain runs the command on the book, with chains and each kind of missing link.
func TestExplain(t *testing.T) {
	ofA, ofB := answered(entries(rack, site)), answered(entries(bill))
	for _, r := range []row{
		{"explain /spire/agent/a /web", reading(ofA), "", "YES  /web  " +
			whole(2) + "  (commit 7)\n     /spire/agent/a\n" +
			"     holds alias /node/rack-1  " + whole(1) +
			": has rack:1\n     which is the parent of /web  " +
			whole(2) + "\n" + same, 0, ""},
		{"explain /spire/agent/b /web", reading(ofB), "", "NO   /web  " + whole(2) + "  (commit 7)\n" +
			"     its parent is the SPIFFE ID of /node/rack-1  " + whole(1) +
			", which this agent may not serve:\n" +
			"     MISSING LINK: the alias /node/rack-1 needs rack:1, which the agent lacks\n" +
			"     cure: regdctl agent set -spiffeID /spire/agent/b -selector host:b -selector rack:1\n" +
			same, 4, ""},
		{"explain /spire/agent/a /api", reading(ofA), "", "NO   /api  " + whole(4) + "  (commit 7)\n" +
			"     MISSING LINK: no entry has the SPIFFE ID /node/rack-11, and it is no agent\n     did " +
			"you mean /node/rack-1?\n" +
			"     cure: regdctl entry set -entryID " + whole(4) + " -parentID /node/rack-1\n" +
			same, 4, ""},
		{"explain /spire/agent/a 31111111", reading(ofA), "", "NO   /pay  " + whole(3) + "  (commit 7)\n" +
			"     MISSING LINK: the parent of /pay is another agent, /spire/agent/b\n     did you mean " +
			"/spire/agent/a?\n" +
			"     cure: regdctl entry set -entryID " + whole(3) + " -parentID /spire/agent/a\n" +
			same, 4, ""},
		{"explain /spire/agent/a /wep", reading(ofA), "",
			"NO   no entry has the SPIFFE ID /wep  (commit 7)\n     did you mean /web?\n" + same, 4, ""},
		{"explain /spire/agent/c /web", reading(), "",
			"NO   the agent /spire/agent/c is not registered  (commit 7)\n" +
				"     cure: regdctl agent set -spiffeID /spire/agent/c -selector TYPE:VALUE\n", 4, ""},
		{"explain /spire/agent/a", reading(ofA), "",
			"/spire/agent/a  [host:a rack:1]  may serve 2 entries  (commit 7)\n" +
				"  /node/rack-1  " + whole(1) + "  alias  /node/rack-1\n  /web          " +
				whole(2) + "  alias  /node/rack-1 > /web\n" + same, 0, ""},
		{"explain /spire/agent/a -workload u:1,u:9", reading(ofA), "",
			"gets     /web          " + whole(2) + "\n" +
				"lacks 1  /node/rack-1  " + whole(1) + "  rack:1\n" + same, 0, ""},
		{"explain -workload u:9 /spire/agent/b", reading(ofB), "", "gets nothing  (commit 7)\nlacks 1  /pay  " +
			whole(3) + "  u:2\n" + same, 4, ""},
		{"explain /spire/agent/a /web", reading(ofB), "", "", 1,
			"a fault: the server's own answer at commit 7"},
	} {
		check1(t, r)
	}
	moved := strings.Replace(ofA, `"place":7`, `"place":8`, 1)
	s := play(t, reading(moved)...)
	if got := ctl(t, "", at(s), "explain", "/spire/agent/a", "/web"); got.status != 0 || !strings.HasSuffix(got.out,
		"not compared with the server's own answer: others have changed the book, which is at commit 8\n") {
		t.Errorf("%v", got)
	}
}

// TestExplainCycle explains an entry whose parents lead back to it, and one below an agent that is not registered.
func TestExplainCycle(t *testing.T) {
	ring := []string{placed(1, "/q", "/p", "", "u:1"), placed(2, "/p", "/q", "", "u:1"),
		placed(3, "/spire/agent/zzzz", "/r", "", "u:1")}
	answers := []string{answered(agentOf("null"), pageOf(ring...)), answered(twoAgents), answered(entries())}
	s := play(t, answers...)
	got := ctl(t, "", at(s), "explain", "/spire/agent/a", "/p")
	if !strings.Contains(got.out, "     MISSING LINK: the parents lead back: the parent of /q is /p, a cycle\n") {
		t.Errorf("%v", got)
	}
	s = play(t, answers...)
	got = ctl(t, "", at(s), "explain", "/spire/agent/a", "/r")
	if !strings.Contains(got.out, "MISSING LINK: the parent of /r is the agent /spire/agent/zzzz, which is not "+
		"registered\n") {
		t.Errorf("%v", got)
	}
}

// TestWhoCanCommand prints conditions, and the agents that meet them.
func TestWhoCanCommand(t *testing.T) {
	oldServer := []string{answered(agentOf("null"), pageOf(rack, site, bill, lost)), noOp,
		answered(agentOf("null"))}
	for _, r := range []row{
		{"who-can /web", reading(), "",
			"each agent with rack:1  (alias /node/rack-1)\n    /spire/agent/a\n(commit 7)\n", 0, ""},
		{"who-can /pay", reading(), "", "the agent /spire/agent/b\n    /spire/agent/b\n(commit 7)\n", 0, ""},
		{"who-can /api", reading(), "",
			"/api  " + whole(4) + "\nno agent: no alias and no agent is above it\n(commit 7)\n", 4, ""},
		{"who-can /apx", reading(), "",
			"NO   no entry has the SPIFFE ID /apx  (commit 7)\n     did you mean /api?\n",
			4, ""},
		{"who-can /web", oldServer, "",
			"each agent with rack:1  (alias /node/rack-1)\n    none that is known\n(commit 7; " +
				otherAgents + ")\n", 0, ""},
	} {
		check1(t, r)
	}
	s := play(t, reading()...)
	got := ctl(t, "", at(s), "who-can", "/web", "-output", "json")
	var read struct {
		Conditions []condition
		Complete   bool
	}
	if err := json.Unmarshal([]byte(got.out), &read); err != nil || !read.Complete || len(read.Conditions) != 1 ||
		read.Conditions[0].Agents[0] != "spiffe://ex.org/spire/agent/a" {
		t.Errorf("%v, %v", got, err)
	}
}

// TestTreeCommand prints the tree, and the view of an agent.
func TestTreeCommand(t *testing.T) {
	more := placed(5, "/web", "/sub", "", "u:5")
	book := []string{answered(agentOf("null"), pageOf(rack, site, bill, lost, more)), answered(twoAgents)}
	for _, r := range []row{
		{"tree", book, "",
			"/spire/agent/a  [host:a rack:1]\n   as /node/rack-1\n/spire/agent/b  [host:b]\n└─ /pay  " +
				"u:2  31111111\n" +
				"/node/rack-1  alias of agents with rack:1  11111111\n└─ /web  u:1  21111111\n   └─ " +
				"/sub  u:5  " +
				"51111111\nbelow nothing\n" +
				"└─ /api  u:3  41111111\n(commit 7)\n", 0, ""},
		{"tree -agent /spire/agent/a", book, "",
			"/spire/agent/a  [host:a rack:1]\n   as /node/rack-1\n   └─ /web  u:1  21111111\n" +
				"      └─ /sub  u:5  51111111\n(commit 7)\n", 0, ""},
		{"tree -agent /spire/agent/c", book, "",
			"NO   the agent /spire/agent/c is not registered  (commit 7)\n" +
				"     cure: regdctl agent set -spiffeID /spire/agent/c -selector TYPE:VALUE\n", 4, ""},
	} {
		check1(t, r)
	}
	s := play(t, book...)
	got := ctl(t, "", at(s), "tree", "-output", "json")
	var read map[string]any
	if err := json.Unmarshal([]byte(got.out), &read); err != nil || len(read["agents"].([]any)) != 2 ||
		len(read["aliases"].([]any)) != 1 {
		t.Errorf("%v, %v", got, err)
	}
}

// TestCheckCommand prints findings, with their names in JSON.
func TestCheckCommand(t *testing.T) {
	named := strings.Replace(bill, `"domains":[]`, `"domains":["b.org"]`, 1)
	bundles := []string{answered(`{"bundles":[{"domain":"b.org","sequence":0}],"next":null}`),
		answered(`{"bundle":{"domain":"b.org","sequence":0,"text":"{}"}}`)}
	wholeBook := append([]string{answered(agentOf("null"), pageOf(rack, site, named, lost)), answered(twoAgents)},
		bundles...)
	want := "orphan  /api   " + whole(4) +
		"  nothing has its parent's SPIFFE ID /node/rack-11; near: /node/rack-1\n" +
		"bundle  b.org  -                                     its text has no list `keys`\n" +
		"4 entries, 2 agents, 1 bundle at commit 7: 2 findings\n"
	check1(t, row{"check", wholeBook, "", want, 4, ""})
	clean := append([]string{answered(agentOf("null"), pageOf(rack, site)), answered(twoAgents)},
		answered(`{"bundles":[],"next":null}`))
	check1(t, row{"check", clean, "", "2 entries, 2 agents, 0 bundles at commit 7: 0 findings\n", 0, ""})
	uncertain := []string{answered(agentOf("null"), pageOf(rack)), noOp, noOp}
	unsure := "1 entry, 0 agents, 0 bundles at commit 7: %s\n" + otherAgents + "\n" + unservedNote + "\n"
	check1(t, row{"check", uncertain, "", fmt.Sprintf(unsure, "0 findings"), 0, ""})
	names := file(t, `{"ops":[{"op":"set_agent","agent":"spiffe://ex.org/spire/agent/a"}]}`)
	uncertain = []string{answered(agentOf("null"), pageOf(rack)), noOp, answered(agentOf("null")), noOp}
	check1(t, row{"check -names " + names, uncertain, "", "unserved  /node/rack-1  " + whole(1) +
		"  no agent has rack:1 (as far as agents are known)\n" + fmt.Sprintf(unsure, "1 finding"), 0, ""})
	check1(t, row{"check -soon never", nil, "", "", 2, "not a lifetime"})
	s := play(t, wholeBook...)
	got := ctl(t, "", at(s), "check", "-output", "json")
	var read struct{ Findings []book.Finding }
	if err := json.Unmarshal([]byte(got.out), &read); err != nil || len(read.Findings) != 2 ||
		read.Findings[0].Kind != "orphan" {
		t.Errorf("%v, %v", got, err)
	}
}

// TestFresh checks that commands which read the whole book do so on the port of -fresh.
func TestFresh(t *testing.T) {
	usual, fresh := play(t), play(t, reading()...)
	got := ctl(t, "", append(at(usual), "REGDCTL_FRESH="+fresh.address), "tree")
	if got.status != 0 || usual.sent() != "" {
		t.Errorf("%v, sent %s", got, usual.sent())
	}
}

// TestNamesOfAgents checks that agents which request lines have set are asked for.
func TestNamesOfAgents(t *testing.T) {
	names := file(t, "not "+
		"JSON\n"+`{"ops":[{"op":"set_agent","agent":"spiffe://ex.org/spire/agent/a",`+
		`"selectors":[]},{"op":"prune",`+
		`"before":1}]}`+"\n")
	s := play(t, answered(agentOf("null"), pageOf()), noOp, answered(agentOf(agent)))
	got := ctl(t, "", at(s), "agent", "list", "-names", names)
	if got.out != agentRow+"1 agent at commit 7\n"+otherAgents+"\n" {
		t.Errorf("%v", got)
	}
}

// TestNamesOfBundles checks that the bundles which request lines set are asked for.
func TestNamesOfBundles(t *testing.T) {
	names := file(t,
		`{"ops":[{"op":"set_bundle","domain":"b.org","text":""},{"op":"drop_bundle","domain":"c.org"}]}`)
	bundle := `{"bundle":{"domain":"b.org","sequence":1,"text":"x"}}`
	for _, command := range []string{"list", "count"} {
		s := play(t, answered(agentOf("null"), pageOf()), noOp, answered(bundle))
		got := ctl(t, "", at(s), "bundle", command, "-names", names)
		if !strings.HasSuffix(got.out, "1 bundle at commit 7\n"+otherBundles+"\n") ||
			!strings.HasSuffix(s.sent(), `{"ops":[{"domain":"b.org","op":"show_bundle"}],"after":7}`) {
			t.Errorf("%v, sent %s", got, s.sent())
		}
	}
	s := play(t, answered(agentOf("null"), pageOf()), noOp, noOp, answered(bundle))
	got := ctl(t, "", at(s), "check", "-names", names)
	if got.status != statusNo ||
		!strings.HasPrefix(got.out, "bundle         b.org  -  its text is not a JSON object") ||
		!strings.Contains(got.out, "\nunused bundle  b.org  -  no entry federates with this domain\n") {
		t.Errorf("%v", got)
	}
}

// TestDomainOfBook checks that IDs are printed as paths if the domain is that of the book, without -domain.
func TestDomainOfBook(t *testing.T) {
	s := play(t, answered(pageOf(rack, site)), answered(twoAgents))
	got := ctl(t, "", []string{"REGDCTL_ADDRESS=" + s.address}, "tree")
	if !strings.HasPrefix(got.out, "/spire/agent/a ") {
		t.Errorf("%v", got)
	}
}
