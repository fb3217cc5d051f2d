package main

import (
	"bufio"
	"bytes"
	"context"
	"fmt"
	"net"
	"os"
	"path/filepath"
	"regexp"
	"strings"
	"sync"
	"testing"
)

// A script is a server with an answer for each line. It records the lines.
type script struct {
	address string
	mu      sync.Mutex
	lines   []string
}

func play(t *testing.T, answers ...string) *script {
	t.Helper()
	on, err := net.Listen("tcp", "127.0.0.1:0")
	if err != nil {
		t.Fatal(err)
	}
	t.Cleanup(func() { on.Close() })
	s := &script{address: on.Addr().String()}
	go func() {
		for {
			stream, err := on.Accept()
			if err != nil {
				return
			}
			go s.converse(stream, answers)
		}
	}()
	return s
}

func (s *script) converse(stream net.Conn, answers []string) {
	defer stream.Close()
	for lines := bufio.NewScanner(stream); lines.Scan(); {
		s.mu.Lock()
		number := len(s.lines)
		s.lines = append(s.lines, lines.Text())
		s.mu.Unlock()
		if number >= len(answers) || answers[number] == "" {
			return // no more answers: the connection ends
		}
		if _, err := fmt.Fprintln(stream, answers[number]); err != nil {
			return
		}
	}
}

var (
	uuid  = regexp.MustCompile(`[0-9a-f]{8}-[0-9a-f]{4}-4[0-9a-f]{3}-[89ab][0-9a-f]{3}-[0-9a-f]{12}`)
	token = regexp.MustCompile(`"token":"[^"]*","tries":16`)
)

// sent returns the lines, with T for the token and tries of a change and U for a random UUID.
func (s *script) sent() string {
	s.mu.Lock()
	defer s.mu.Unlock()
	text := token.ReplaceAllString(strings.Join(s.lines, "\n"), `T`)
	return uuid.ReplaceAllString(text, "U")
}

// A call is what a command printed, and its status.
type result struct {
	out, errs string
	status    int
}

// ctl runs a command line with these settings: "NAME=value".
func ctl(t *testing.T, in string, env []string, words ...string) result {
	t.Helper()
	var out, errs bytes.Buffer
	status := run(context.Background(), words, strings.NewReader(in), &out, &errs,
		func(name string) (string, bool) {
			for _, one := range env {
				if key, value, _ := strings.Cut(one, "="); key == name {
					return value, true
				}
			}
			return "", false
		})
	return result{out.String(), errs.String(), status}
}

// at returns settings for a server of ex.org.
func at(s *script) []string {
	return []string{"REGDCTL_ADDRESS=" + s.address, "REGDCTL_DOMAIN=ex.org", "REGDCTL_TIMEOUT=2s"}
}

const (
	id1 = "11111111-0000-1000-8000-000000000001"
	id2 = "22222222-0000-1000-8000-000000000002"
	web = `{"domains":[],"expiry":0,"hint":"www","id":"` +
		id1 + `","identity":"spiffe://ex.org/web","parent":"spiffe://ex.org/n","revision":3,` +
		`"selectors":["u:1","u:2"]}`
	pay = `{"domains":["b.org"],"expiry":1700000000,"hint":"","id":"` +
		id2 + `","identity":"spiffe://ex.org/pay","parent":"spiffe://ex.org/web","revision":0,` +
		`"selectors":["u:3"],"x509_svid_ttl":60}`
	agent = `{"id":"spiffe://ex.org/spire/agent/a","selectors":["x:1"]}`
	noOp  = `{"code":"L5","field":"op","line":1,"op":0}`

	webRow = "ENTRY ID                              SPIFFE ID  PARENT ID  SELECTORS  REV  EXPIRES  FEDERATES " +
		"WITH  HINT\n" +
		id1 + "  /web       /n         u:1 u:2    3    never    -               www\n"
	bothRows = "ENTRY ID                              SPIFFE ID  PARENT ID  SELECTORS  REV  " +
		"EXPIRES               FEDERATES WITH  HINT  X509 TTL  JWT TTL\n" +
		id1 + "  /web       /n         u:1 u:2    3    never                 -               www   default   " +
		"default\n" +
		id2 + "  /pay       /web       u:3        0    2023-11-14T22:13:20Z  b.org           -     60s       " +
		"default\n"
	agentRow = "SPIFFE ID       SELECTORS\n/spire/agent/a  x:1\n"
)

func committed(replies ...string) string {
	return `{"call":1,"place":7,"replies":[` + strings.Join(replies, ",") + `],"result":"committed"}`
}

func answered(replies ...string) string {
	return `{"call":1,"place":7,"replies":[` + strings.Join(replies, ",") + `],"result":"answered"}`
}

func refused(code string, op int) string {
	return fmt.Sprintf(`{"call":1,"code":"%s","op":%d,"place":7,"result":"refused"}`, code, op)
}

func entry(row string) string   { return `{"entry":` + row + `}` }
func agentOf(row string) string { return `{"agent":` + row + `}` }
func entries(rows ...string) string {
	return `{"entries":[` + strings.Join(rows, ",") + `]}`
}
func pageOf(rows ...string) string {
	return `{"entries":[` + strings.Join(rows, ",") + `],"next":null}`
}

// file writes a file, and returns its path.
func file(t *testing.T, text string) string {
	t.Helper()
	path := filepath.Join(t.TempDir(), "file")
	if err := os.WriteFile(path, []byte(text), 0o600); err != nil {
		t.Fatal(err)
	}
	return path
}

// A row of the tests: a command line, the answers of the server, and what is sent and printed. An empty `sent` is not
// compared.
type row struct {
	line    string
	answers []string
	sent    string
	out     string
	status  int
	errs    string // a part of it
}

func check1(t *testing.T, r row) {
	t.Helper()
	s := play(t, r.answers...)
	got := ctl(t, "", at(s), split(r.line)...)
	if got.out != r.out || got.status != r.status {
		t.Errorf("%s: status %d, printed\n%s%s\nwant %d\n%s", r.line, got.status, got.out, got.errs,
			r.status, r.out)
	}
	if !strings.Contains(got.errs, r.errs) || r.errs == "" && got.errs != "" {
		t.Errorf("%s: on standard error %q, want %q", r.line, got.errs, r.errs)
	}
	if sent := s.sent(); r.sent != "" && sent != r.sent {
		t.Errorf("%s: sent\n%s\nwant\n%s", r.line, sent, r.sent)
	}
}

// split returns the words of a line, with ” for an empty one.
func split(line string) []string {
	words := strings.Fields(line)
	for i, word := range words {
		if word == "''" {
			words[i] = ""
		}
	}
	return words
}

// The lines of these tests.
const (
	createWeb = `{"ops":[{"id":"U","identity":"spiffe://ex.org/web","op":"create","parent":"spiffe://ex.org/n",` +
		`"selectors":["u:1","u:2"]`
	updateWeb = `{"ops":[{"hint":"%s","id":"` + id1 +
		`","identity":"spiffe://ex.org/web","op":"update","parent":"spiffe://ex.org/n","revision":3,` +
		`"selectors":["u:1","u:2"]}],"after":7,T}`
	showWeb = `{"ops":[{"id":"` + id1 + `","op":"show"}]`
)

// entryRows are the commands for entries.
var entryRows = []row{
	{"entry create -parentID /n -spiffeID /web -selector u:1 -selector u:2", []string{committed(entry(web))},
		createWeb + `}],T}`, webRow + "created at commit 7\n", 0, ""},
	{"entry create -parentID spiffe://ex.org/n -spiffeID spiffe://ex.org/web -selector u:1 -selector u:2",
		[]string{strings.Replace(committed(entry(web)), `"committed"`, `"repeated"`, 1)}, createWeb + `}],T}`,
		webRow + "created at commit 7, made before\n", 0, ""},
	{"entry create -node -spiffeID /web -selector u:1 -entryID " + id1 +
		" -hint h -federatesWith spiffe://b.org -federatesWith c.org -entryExpiry 2023-11-14T22:13:20Z " +
		"-x509SVIDTTL 1h -jwtSVIDTTL 90",
		[]string{committed(entry(pay))},
		`{"ops":[{"domains":["b.org","c.org"],"expiry":1700000000,"hint":"h","id":"` +
			id1 + `","identity":"spiffe://ex.org/web","jwt_svid_ttl":90,"op":"create",` +
			`"parent":"spiffe://ex.org/spire/server","selectors":["u:1"],"x509_svid_ttl":3600}],T}`,
		"ENTRY ID                              SPIFFE ID  PARENT ID  SELECTORS  REV  EXPIRES               " +
			"FEDERATES WITH  HINT  X509 TTL  JWT TTL\n" +
			id2 +
			"  /pay       /web       u:3        0    2023-11-14T22:13:20Z  b.org           -     " +
			"60s       default\ncreated at commit 7\n",
		0, ""},
	{"entry create -parentID /n -spiffeID /web -selector u:1 -selector u:2 -dry-run", []string{refused("O3", 1)},
		strings.TrimSuffix(createWeb, "") + `},{"id":"U","op":"delete","revision":18446744073709551615}]}`,
		"would be accepted on commit 7; nothing was changed\n", 0, ""},
	{"entry create -parentID /n -spiffeID /web -selector u:1 -dry-run", []string{refused("O2", 0)}, "", "", 3,
		"refused: O2 in operation 0, create, at commit 7: another entry has the same parent, identity and " +
			"selectors"},
	{"entry create -parentID /n -spiffeID /web -selector u:1 -dry-run", []string{committed(entry(web),
		entry(web))}, "", "", 1,
		"has not refused what it has to refuse"},
	{"entry create -parentID /n -spiffeID /web -selector u:2 -selector u:1 -hint www -ifAbsent",
		[]string{strings.Replace(refused("O2", 0), `"op"`, `"detail":"`+id1+`","op"`, 1),
			answered(entry(web))}, "",
		webRow + "it was there before\n", 0, ""},
	{"entry create -parentID /n -spiffeID /web -selector u:2 -selector u:1 -hint other -ifAbsent",
		[]string{strings.Replace(refused("O2", 0), `"op"`, `"detail":"`+id1+`","op"`, 1),
			answered(entry(web))}, "", "", 3,
		"regdctl entry show -entryID " + id1},
	{"entry show -entryID " + id1, []string{answered(entry(web))}, showWeb + "}", webRow + "1 entry at commit 7\n",
		0, ""},
	{"entry show -entryID " + id1, []string{answered(`{"entry":null}`)}, showWeb + "}", "no entries at commit 7\n",
		4, ""},
	{"entry show -entryID 11111111", []string{answered(pageOf(web, pay)), answered(entry(web))},
		`{"ops":[{"op":"page","size":500}]}` + "\n" + showWeb + `,"after":7}`, webRow + "1 entry at commit 7\n",
		0, ""},
	{"entry show -entryID 33333333", []string{answered(pageOf(web, pay))}, "", "",
		2, "no entry has an id that begins with 33333333"},
	{"entry show -parentID /n",
		[]string{answered(entries(web))}, `{"ops":[{"op":"children","parent":"spiffe://ex.org/n"}]}`,
		webRow + "1 entry at commit 7\n", 0, ""},
	{"entry show -spiffeID /web -selector u:1 -matchSelectorsOn any -federatesWith b.org -federatesWith c.org",
		[]string{answered(pageOf(pay))},
		`{"ops":[{"domain":"b.org","identity":"spiffe://ex.org/web","match":"any","op":"page",` +
			`"selectors":["u:1"],"size":500}]}`,
		"no entries at commit 7\n", 0, ""},
	{"entry show -hint www", []string{answered(pageOf(web, pay))}, "", webRow + "1 entry at commit 7\n", 0, ""},
	{"entry show -matchSelectorsOn some", nil, "", "", 2, "-matchSelectorsOn is exact"},
	{"entry count", []string{noOp, answered(pageOf(web,
		pay))}, `{"ops":[{"op":"counts"}]}` + "\n" + `{"ops":[{"op":"page","size":500}]}`,
		"2 entries at commit 7\n", 0, ""},
	{"entry count", []string{answered(`{"counts":{"entries":9}}`)}, "", "9 entries at commit 7\n", 0, ""},
	{"entry count -spiffeID /web", []string{answered(pageOf(web))}, "", "1 entry at commit 7\n", 0, ""},
	{"entry update -entryID " + id1 +
		" -parentID /n -spiffeID /web -selector u:1 -selector u:2 -hint h -revision 3",
		[]string{committed(entry(web))}, strings.Replace(fmt.Sprintf(updateWeb, "h"), `"after":7,`, "", 1),
		webRow + "updated at commit 7\n", 0, ""},
	{"entry update -entryID " + id1 + " -parentID /n -spiffeID /web", nil, "", "", 2, "-selector is missing"},
	{"entry update -parentID /n -spiffeID /web -selector u:1", nil, "", "", 2, "-entryID is missing"},
	{"entry update -entryID x -parentID /n -spiffeID /web -selector u:1 -revision -1", nil, "", "",
		2, "-revision is not a number"},
	{"entry set -entryID " + id1 + " -hint h", []string{answered(entry(web)), committed(entry(web))},
		showWeb + "}\n" + fmt.Sprintf(updateWeb, "h"), webRow + "updated at commit 7\n", 0, ""},
	{"entry set -entryID " + id1 + " -hint h", []string{answered(entry(web)), refused("O4", 0),
		answered(entry(web)), committed(entry(web))},
		"", webRow + "updated at commit 7\n", 0, ""},
	{"entry set -entryID " + id1 + " -hint h", []string{answered(`{"entry":null}`)}, "", "",
		4, "there is no entry " + id1},
	{"entry set -entryID " + id1 + " -entryID " + id2 + " -entryID " + id1 + " -parentID /m",
		[]string{answered(entry(web), entry(pay)), committed(entry(web), entry(pay))},
		`{"ops":[{"id":"` + id1 + `","op":"show"},{"id":"` + id2 + `","op":"show"}]}` + "\n" +
			`{"ops":[{"hint":"www","id":"` + id1 +
			`","identity":"spiffe://ex.org/web","op":"update","parent":"spiffe://ex.org/m",` +
			`"revision":3,"selectors":["u:1","u:2"]},{"domains":["b.org"],` +
			`"expiry":1700000000,"id":"` +
			id2 +
			`","identity":"spiffe://ex.org/pay","op":"update","parent":"spiffe://ex.org/m","revision":0,` +
			`"selectors":["u:3"],"x509_svid_ttl":60}],"after":7,T}`,
		bothRows + "updated at commit 7\n", 0, ""},
	{"entry set -entryID " + id1 + " -entryID " + id2 + " -hint h",
		[]string{answered(entry(web), `{"entry":null}`)}, "", "", 4, "there is no entry " + id2},
	{"entry set -hint h", nil, "", "", 2, "-entryID or -file is missing"},
	{"entry set -entryID " + id1 + " -entryExpiry 1893456000000", []string{answered(entry(web))}, "", "", 2,
		"1893456000000 is not in seconds since 1970"},
	{"entry set -entryID " + id1 + " -hint h -dry-run", []string{answered(entry(web)), refused("O3", 1)}, "",
		"would be accepted on commit 7; nothing was changed\n", 0, ""},
	{"entry delete -entryID " + id1, []string{committed(entry(web)), answered(pageOf()), answered(entries())},
		`{"ops":[{"id":"` +
			id1 + `","op":"delete"}],T}` + "\n" +
			`{"ops":[{"identity":"spiffe://ex.org/web","op":"page","size":500}],"after":7}` +
			"\n" + `{"ops":[{"op":"children","parent":"spiffe://ex.org/web"}],"after":7}`,
		webRow + "deleted at commit 7\n", 0, ""},
	{"entry delete " + id1, []string{committed(entry(web)), answered(pageOf()), answered(entries(pay))}, "",
		webRow +
			"deleted at commit 7\nwarning: nothing has the SPIFFE ID of these entries' parent any " +
			"more:\n  " +
			id2 + "  /pay\n", 0, ""},
	{"entry delete -entryID " + id1, []string{committed(entry(web)), answered(pageOf(web))}, "",
		webRow + "deleted at commit 7\n", 0, ""},
	{"entry delete -entryID " + id1 + " -revision 3 -dry-run", []string{refused("O4", 0)},
		`{"ops":[{"id":"` +
			id1 + `","op":"delete","revision":3},{"id":"U","op":"delete",` +
			`"revision":18446744073709551615}]}`,
		"", 3,
		"the entry has another revision"},
	{"entry delete -entryID " + id1 + " -entryID " + id2 + " -revision 3", nil, "", "",
		2, "-revision takes a single entry"},
	{"entry delete -dry-run -entryID " + id1, []string{refused("O3", 0)}, "", "",
		3, "refused: O3 in operation 0, delete"},
	{"entry delete", nil, "", "", 2, "-entryID or -file is missing"},
}

// TestEntries runs the commands for entries.
func TestEntries(t *testing.T) {
	for _, r := range entryRows {
		check1(t, r)
	}
}

// TestCascade deletes an entry with what only it leads to.
func TestCascade(t *testing.T) {
	root := strings.Replace(web, `/n"`, `/spire/server"`, 1)
	s := play(t, answered(agentOf("null"), pageOf(root, pay)), committed(entry(root), entry(pay)),
		answered(pageOf()),
		answered(entries()),
		answered(pageOf()), answered(entries()))
	got := ctl(t, "", at(s), "entry", "delete", "-cascade", "-entryID", id1)
	want := `{"ops":[{"id":"` + id1 + `","op":"delete","revision":3},{"id":"` +
		id2 + `","op":"delete","revision":0}],"after":7,T}`
	if lines := strings.Split(s.sent(), "\n"); got.status != 0 || lines[1] != want {
		t.Errorf("status %d, sent %s\n%s", got.status, lines, got.errs)
	}
}

// TestAgents runs the commands for agents.
func TestAgents(t *testing.T) {
	set := `{"agent":"spiffe://ex.org/spire/agent/a","op":"set_agent","selectors":["x:1"]}]`
	expect := `{"ops":[{"agent":"spiffe://ex.org/spire/agent/a","op":"expect_agent"`
	webBelow := strings.Replace(web, "ex.org/n", "ex.org/spire/agent/a", 1)
	for _, r := range []row{
		{"agent set -spiffeID /spire/agent/a -selector x:1", []string{committed(agentOf(agent))}, `{"ops":[` +
			set + `,T}`,
			agentRow + "registered at commit 7\n", 0, ""},
		{"agent set /spire/agent/a -selector ''", []string{committed(agentOf(agent))},
			`{"ops":[{"agent":"spiffe://ex.org/spire/agent/a","op":"set_agent","selectors":[]}],T}`,
			agentRow + "registered at commit 7\n", 0, ""},
		{"agent set /spire/agent/a", nil, "", "", 2, "-selector is missing"},
		{"agent set -selector x:1", nil, "", "", 2, "-spiffeID is missing"},
		{"agent set /spire/agent/a -selector x:1 -ifAbsent", []string{answered(`{"expected":true}`),
			committed(`{"expected":true}`, agentOf(agent))},
			expect + "}]}\n" + expect + `},` + set + `,"after":7,T}`,
			agentRow + "registered at commit 7\n", 0, ""},
		{"agent set /spire/agent/a -selector x:1 -ifSelector x:2",
			[]string{refused("O10", 0), refused("O10", 0)},
			expect + `,"selectors":["x:2"]}]}` + "\n" + expect + `,"selectors":["x:2"]},` + set + `,T}`, "",
			3, "refused: O10"},
		{"agent set /spire/agent/a -selector x:1 -ifSelector x:1", []string{noOp, answered(agentOf(agent)),
			committed(agentOf(agent))}, "",
			agentRow + "registered at commit 7\n", 0, "checked before the change and not together with it"},
		{"agent set /spire/agent/a -selector x:1 -ifAbsent", []string{noOp, answered(agentOf(agent))}, "", "",
			4, "the condition doesn't hold"},
		{"agent set /spire/agent/a -selector x:1 -ifAbsent -ifSelector x:1", nil, "", "", 2,
			"exclude each other"},
		{"agent show -spiffeID /spire/agent/a", []string{answered(agentOf(agent))}, "",
			agentRow + "at commit 7\n",
			0, ""},
		{"agent show /spire/agent/a", []string{answered(agentOf("null"))}, "",
			"/spire/agent/a is not registered at commit 7\n", 4, ""},
		{"agent list", []string{answered(agentOf("null"), pageOf()), answered(`{"agents":[` +
			agent + `],"next":null}`)},
			`{"ops":[{"agent":"spiffe://ex.org/spire/agent/regdctl","op":"show_agent"},{"op":"page",` +
				`"size":500}]}` +
				"\n" +
				`{"ops":[{"op":"agents","size":500}],"after":7}`,
			agentRow + "1 agent at commit 7\n", 0, ""},
		{"agent list -selector x:2", []string{answered(agentOf("null"), pageOf()), answered(`{"agents":[` +
			agent + `],"next":null}`)}, "",
			"SPIFFE ID  SELECTORS\n0 agents at commit 7\n", 0, ""},
		{"agent list",
			[]string{answered(agentOf("null"), pageOf(webBelow)), noOp, answered(agentOf(agent))}, "",
			agentRow + "1 agent at commit 7\n" + otherAgents + "\n", 0, ""},
		{"agent count",
			[]string{answered(agentOf("null"), pageOf(webBelow)), noOp, answered(agentOf(agent))}, "",
			"1 agent at commit 7\n" + otherAgents + "\n", 0, ""},
		{"agent evict /spire/agent/a", []string{committed(agentOf(agent)), answered(entries(webBelow))},
			`{"ops":[{"agent":"spiffe://ex.org/spire/agent/a","op":"drop_agent"}],T}` + "\n" +
				`{"ops":[{"op":"children","parent":"spiffe://ex.org/spire/agent/a"}],"after":7}`,
			agentRow +
				"removed at commit 7\nwarning: nothing has the SPIFFE ID of these entries' parent " +
				"any more:\n  " +
				id1 + "  /web\n", 0, ""},
		{"agent evict /spire/agent/a -dry-run", []string{refused("O7", 0)}, "", "", 3,
			"cure:   `set_agent`: regdctl agent set -spiffeID /spire/agent/a"},
		{"agent entries /spire/agent/a",
			[]string{answered(entries(web))},
			`{"ops":[{"agent":"spiffe://ex.org/spire/agent/a","op":"authorised"}]}`,
			webRow + "1 entry at commit 7\n", 0, ""},
		{"agent bundles /spire/agent/a",
			[]string{answered(`{"bundles":[{"domain":"b.org","sequence":2,"text":"{}"}]}`)},
			`{"ops":[{"agent":"spiffe://ex.org/spire/agent/a","op":"trust"}]}`,
			"TRUST DOMAIN  SEQUENCE  BYTES\nb.org         2         2\n1 bundle at commit 7\n", 0, ""},
	} {
		check1(t, r)
	}
	below := answered(agentOf("null"), pageOf(webBelow, pay))
	s := play(t, below, committed(entry(webBelow), entry(pay), agentOf(agent)))
	if got := ctl(t, "", at(s), "agent", "evict", "-cascade", "/spire/agent/a"); got.status != 0 ||
		!strings.Contains(s.sent(),
			`[{"id":"`+id1+`","op":"delete","revision":3},{"id":"`+id2+`","op":"delete","revision":0},`+
				`{"agent":"spiffe://ex.org/spire/agent/a","op":"drop_agent"}]`) {
		t.Errorf("evict -cascade: %d %s\n%s", got.status, got.errs, s.sent())
	}
}

// TestBundles runs the commands for bundles, and prune.
func TestBundles(t *testing.T) {
	good, bad := file(t, `{"keys":[]}`), file(t, `{"key":[]}`)
	bundle := `{"bundle":{"domain":"b.org","sequence":1,"text":"{\"keys\":[]}"}}`
	bundleRow := "TRUST DOMAIN  SEQUENCE  BYTES\nb.org         1         11\n"
	set := `{"domain":"b.org","op":"set_bundle","text":"{\"keys\":[]}"}]`
	for _, r := range []row{
		{"bundle set -id spiffe://b.org -path " + good, []string{committed(bundle)}, `{"ops":[` + set + `,T}`,
			bundleRow + "set at commit 7\n", 0, ""},
		{"bundle set -id b.org -path " + bad, nil, "", "", 2, "no list `keys`"},
		{"bundle set -id b.org -raw -path " + bad, []string{committed(bundle)}, "",
			bundleRow + "set at commit 7\n",
			0, ""},
		{"bundle set -id b.org -path " + good + "x", nil, "", "", 1, "no such file"},
		{"bundle set -id b.org", nil, "", "", 2, "-path is missing"},
		{"bundle set -path " + good, nil, "", "", 2, "-id is missing"},
		{"bundle set -id b.org -ifSequence 4 -path " + good, []string{answered(`{"expected":true}`),
			committed(`{"expected":true}`, bundle)},
			`{"ops":[{"domain":"b.org","op":"expect_bundle","sequence":4}]}` + "\n" +
				`{"ops":[{"domain":"b.org","op":"expect_bundle","sequence":4},` + set + `,"after":7,T}`,
			bundleRow + "set at commit 7\n", 0, ""},
		{"bundle set -id b.org -ifAbsent -path " + good, []string{noOp, answered(bundle)}, "", "",
			4, "the condition doesn't hold"},
		{"bundle set -id b.org -ifSequence 1 -path " + good,
			[]string{noOp, answered(bundle), committed(bundle)}, "",
			bundleRow + "set at commit 7\n", 0, "doesn't know expect_bundle"},
		{"bundle set -id b.org -ifSequence 4 -path " + good, []string{noOp, answered(bundle)}, "", "", 4,
			"the condition doesn't hold"},
		{"bundle show b.org", []string{answered(bundle)}, "", `{"keys":[]}`, 0, ""},
		{"bundle show b.org", []string{answered(`{"bundle":null}`)}, "", "", 4,
			"b.org has no bundle at commit 7"},
		{"bundle list -id b.org", []string{answered(bundle)}, "", bundleRow + "1 bundle at commit 7\n", 0, ""},
		{"bundle list", []string{answered(agentOf("null"), pageOf(pay)), noOp, answered(bundle)}, "",
			bundleRow + "1 bundle at commit 7\n" + otherBundles + "\n", 0, ""},
		{"bundle list", []string{answered(agentOf("null"), pageOf()),
			answered(`{"bundles":[{"domain":"b.org","sequence":1}],"next":null}`)}, "",
			"TRUST DOMAIN  SEQUENCE  BYTES\nb.org         1         -\n1 bundle at commit 7\n", 0, ""},
		{"bundle count", []string{answered(agentOf("null"), pageOf()),
			answered(`{"bundles":[],"next":null}`)}, "", "0 bundles at commit 7\n", 0, ""},
		{"bundle delete -id b.org", []string{refused("O6",
			0)}, `{"ops":[{"domain":"b.org","mode":"restrict","op":"drop_bundle"}],T}`, "", 3,
			"regdctl entry show -federatesWith spiffe://b.org"},
		{"bundle delete -id b.org -mode dissociate", []string{committed(`{"deleted":["` +
			id1 + `"],"dissociated":["` + id2 + `"]}`)},
			`{"ops":[{"domain":"b.org","mode":"dissociate","op":"drop_bundle"}],T}`,
			"deleted      " + id1 + "\ndissociated  " + id2 + "\nremoved at commit 7\n", 0, ""},
		{"bundle delete -id b.org -mode some", nil, "", "", 2, "-mode is restrict"},
		{"prune -before 1700000000", []string{committed(`{"pruned":["` +
			id1 + `"]}`)}, `{"ops":[{"before":1700000000,"op":"prune"}],T}`,
			id1 + "\n1 entry removed at commit 7\n", 0, ""},
		{"prune -before yesterday", nil, "", "", 2, "not a time"},
		{"prune -before 1700000000000", nil, "", "", 2, "divide milliseconds by 1000"},
		{"prune -dry-run", []string{refused("O3", 1)}, "",
			"would be accepted on commit 7; nothing was changed\n",
			0, ""},
	} {
		check1(t, r)
	}
}

// TestPruneNow checks that prune takes the present time.
func TestPruneNow(t *testing.T) {
	s := play(t, committed(`{"pruned":[]}`))
	got := ctl(t, "", at(s), "prune")
	if got.status != 0 || !regexp.MustCompile(`"before":[1-9]\d{9},`).MatchString(s.sent()) {
		t.Errorf("%d %s", got.status, s.sent())
	}
}
