package main

import (
	"encoding/json"
	"fmt"
	"net/http"
	"net/http/httptest"
	"os"
	"os/exec"
	"path/filepath"
	"strings"
	"testing"
	"time"

	"regd/gateway/book"
)

// TestStatuses checks the exit status of what can go wrong outside of a command.
func TestStatuses(t *testing.T) {
	lost := []string{"REGDCTL_TIMEOUT=200ms"}
	for _, one := range []struct {
		line, errs string
		status     int
	}{
		{"status", "it runs|cure:   check -address", statusFailed},
		{"", "a command is missing", statusInvalid},
		{"nothing", "there is no command nothing", statusInvalid},
		{"entry", "takes one of: create, show, count, update, set, edit, delete", statusInvalid},
		{"entry create -admin", "no column for -admin", statusInvalid},
		{"entry create -nothing", "see `regdctl entry create -h`", statusInvalid},
		{"agent ban -spiffeID x", "regdctl agent evict", statusInvalid},
		{"federation create x", "regdctl bundle set", statusInvalid},
		{"status more", "an unknown word: more", statusInvalid},
		{"explain", "an argument is missing", statusInvalid},
		{"-timeout x status", "-timeout is not a time", statusInvalid},
		{"-output x status", "-output is table", statusInvalid},
		{"-address 127.0.0.1 status", "an address has a port", statusInvalid},
		{"agent show /spire/agent/a", "add -domain D, set REGDCTL_DOMAIN, or write spiffe://D/spire/agent/a",
			statusInvalid},
		{"-certificate x status", "TLS takes -", statusFailed},
		{"-keys missing status", "no such file", statusFailed},
	} {
		got := ctl(t, "", lost, append([]string{"-address", "127.0.0.1:1"}, split(one.line)...)...)
		wanted := one.errs[strings.IndexByte(one.errs, '|')+1:]
		if got.status != one.status || got.out != "" || !strings.Contains(got.errs, wanted) {
			t.Errorf("%s: status %d, %s%s", one.line, got.status, got.out, got.errs)
		}
	}
}

// TestVersionOfClient checks that regdctl prints the version of the file VERSION.
func TestVersionOfClient(t *testing.T) {
	want, err := os.ReadFile("../../VERSION")
	if err != nil {
		t.Fatal(err)
	}
	word := strings.TrimSpace(string(want))
	for _, flag := range []string{"-version", "--version"} {
		got := ctl(t, "", nil, flag)
		if got.status != statusDone || !strings.HasPrefix(got.out, "regdctl "+word) ||
			!strings.HasSuffix(got.out, ", for the lines of regd "+word+"\n") {
			t.Errorf("%s: %v", flag, got)
		}
	}
}

// TestUnknownOutcome checks that a change without an answer ends with the line that makes it at most once.
func TestUnknownOutcome(t *testing.T) {
	s := play(t, "")
	got := ctl(t, "", at(s), "-timeout", "300ms", "agent", "set", "/spire/agent/a", "-selector", "x:'1")
	if got.status != statusUnknown || !strings.Contains(got.errs, `regdctl call -retry '{"ops":[`) ||
		!strings.Contains(got.errs, `x:'\''1`) {
		t.Errorf("status %d: %s", got.status, got.errs)
	}
}

// TestCallCommand sends lines as they are.
func TestCallCommand(t *testing.T) {
	s := play(t, answered(`{"entry":null}`), noOp)
	got := ctl(t, "{\"ops\":[]}\n{ }", at(s), "call")
	if want := answered(`{"entry":null}`) + "\n" + noOp + "\n"; got.out != want || got.status != statusRefused ||
		s.sent() != "{\"ops\":[]}\n{ }" {
		t.Errorf("status %d: %s%s, sent %s", got.status, got.out, got.errs, s.sent())
	}
	s = play(t, `{"code":"L6","line":1}`)
	if got := ctl(t, "", at(s), "call", "{}"); got.status != statusRefused ||
		got.out != `{"code":"L6","line":1}`+"\n" {
		t.Errorf("without -retry: %v", got)
	}
	s = play(t, `{"code":"L6","line":1}`, committed())
	line := `{"ops":[{"op":"prune","before":1}],"token":"` + id1 + `"}`
	if got := ctl(t, "", at(s), "call", "-retry", line); got.status != 0 || got.out != committed()+"\n" ||
		s.sent() != line+"\n"+line {
		t.Errorf("with -retry: %v", got)
	}
	s = play(t, "")
	if got := ctl(t, "", at(s), "call", `{"ops":[{"op":"prune","before":1}]}`); got.status != statusUnknown ||
		!strings.Contains(got.errs, "look whether it was made") {
		t.Errorf("a change without a token: %v", got)
	}
	for _, words := range [][]string{{"call", "-retry", `{"ops":[{"op":"prune","before":1}]}`},
		{"call", "{}\n{}"}} {
		if got := ctl(t, "", at(s), words...); got.status != statusInvalid {
			t.Errorf("%q: %v", words, got)
		}
	}
}

// TestStatusAndWait checks the commands that ask for the commit number.
func TestStatusAndWait(t *testing.T) {
	s := play(t, answered(pageOf()), answered(`{"counts":{"entries":1,"agents":2,"bundles":3,"tokens":4}}`))
	got := ctl(t, "", at(s), "status")
	if got.status != 0 || !strings.HasPrefix(got.out, s.address+" answers at commit 7, in ") ||
		!strings.HasSuffix(got.out, "\n1 entries, 2 agents, 3 bundles, 4 tokens\n") {
		t.Errorf("%v", got)
	}
	gateway := httptest.NewServer(http.HandlerFunc(func(w http.ResponseWriter,
		r *http.Request) {
		fmt.Fprint(w, `{"ready":true}`)
	}))
	defer gateway.Close()
	s = play(t, answered(pageOf()), noOp)
	got = ctl(t, "", at(s), "status", "-status", strings.TrimPrefix(gateway.URL, "http://"))
	if got.status != 0 || !strings.HasSuffix(got.out, "\n{\"ready\":true}\n") {
		t.Errorf("%v", got)
	}
	early := strings.Replace(refused("W1", 0), `"op":0,`, "", 1)
	s = play(t, early, early, answered(pageOf()))
	if got = ctl(t, "", at(s), "wait", "-after", "5"); got.out != "at commit 7\n" ||
		!strings.HasSuffix(s.sent(), `],"after":5}`) {
		t.Errorf("%v, sent %s", got, s.sent())
	}
	if got = ctl(t, "", at(s), "wait"); got.status != statusInvalid {
		t.Errorf("%v", got)
	}
}

// TestEnv checks the settings, and where they come from.
func TestEnv(t *testing.T) {
	variables := []string{"REGDCTL_DOMAIN=ex.org", "REGDCTL_OUTPUT=json", "REGDCTL_KEYS="}
	got := ctl(t, "", variables, "-domain", "b.org", "env", "-timeout", "3s")
	var read map[string]map[string]string
	if err := json.Unmarshal([]byte(got.out), &read); err != nil {
		t.Fatalf("%v: %v", got, err)
	}
	for name, want := range map[string]string{"DOMAIN": "b.org -domain", "OUTPUT": "json REGDCTL_OUTPUT",
		"TIMEOUT": "3s -timeout",
		"ADDRESS": "127.0.0.1:8471 the default", "KEYS": " the default"} {
		if one := read["REGDCTL_"+name]; one["value"]+" "+one["from"] != want {
			t.Errorf("%s: %v", name, one)
		}
	}
}

// TestOutputs checks the formats.
func TestOutputs(t *testing.T) {
	for format, want := range map[string]string{
		"table": webRow + "1 entry at commit 7\n", "pretty": webRow + "1 entry at commit 7\n",
		"lines": answered(entry(web)) + "\n",
		"json": "{\n  \"entries\": [\n    {\n      \"id\": \"" +
			id1 + "\",\n      \"identity\": \"spiffe://ex.org/web\",\n" +
			"      \"parent\": \"spiffe://ex.org/n\",\n      \"selectors\": [\n        \"u:1\",\n        " +
			"\"u:2\"\n      ],\n" +
			"      \"hint\": \"www\",\n      \"domains\": [],\n      \"expiry\": 0,\n      \"revision\": " +
			"3\n    }\n  ],\n  \"place\": 7\n}\n",
		"yaml": "entries:\n  - domains: []\n    expiry: 0\n    hint: www\n    id: \"" +
			id1 + "\"\n    identity: spiffe://ex.org/web\n" +
			"    parent: spiffe://ex.org/n\n    revision: 3\n    selectors:\n      - u:1\n      - u:2\n" +
			"place: 7\n",
	} {
		s := play(t, answered(entry(web)))
		if got := ctl(t, "", at(s), "entry", "show", "-entryID", id1, "-output", format); got.out != want ||
			got.status != 0 {
			t.Errorf("%s: %v", format, got)
		}
	}
}

// TestTrace checks the lines on standard error.
func TestTrace(t *testing.T) {
	s := play(t, answered(pageOf()))
	got := ctl(t, "", at(s), "-trace", "wait", "-after", "0")
	if want := "> {\"ops\":[{\"op\":\"page\",\"size\":1}]}\n< " + answered(pageOf()) + "\n"; got.errs != want {
		t.Errorf("got %s", got.errs)
	}
}

// TestRefusals checks that each code is printed with its meaning, cause and cure, also as JSON.
func TestRefusals(t *testing.T) {
	for name, known := range codes {
		if known.meaning == "" || known.cure == "" {
			t.Errorf("%s has no meaning or cure", name)
		}
		answers := []string{refused(name, 0)}
		env := at(play(t, answers...))
		if isOneOf(name, "W1", "L6", "L8", "G5", "G8", "G9") { // it is sent again until the time is over
			for len(answers) < 100 {
				answers = append(answers, answers[0])
			}
			env = append([]string{"REGDCTL_TIMEOUT=400ms"}, at(play(t, answers...))...)
		}
		got := ctl(t, "", env, "prune", "-output", "json")
		var read refusal
		if err := json.Unmarshal([]byte(got.out), &read); err != nil {
			t.Fatalf("%s: %v: %v", name, got, err)
		}
		isSame := read.Code == name && read.Meaning == known.meaning && read.Cause == known.cause &&
			read.Cure == known.cure
		if got.status != statusRefused || !isSame || read.Operation != "prune" || *read.Op != 0 ||
			*read.Place != 7 {
			t.Errorf("%s: %v", name, got)
		}
		if !strings.Contains(got.errs,
			"refused: "+name+" in operation 0, prune, at commit 7: "+known.meaning) ||
			!strings.Contains(got.errs, known.cure) {
			t.Errorf("%s: %s", name, got.errs)
		}
	}
	s := play(t, refused("Z1", 0))
	if got := ctl(t, "", at(s), "prune"); got.status != statusRefused || !strings.Contains(got.errs, "the server "+
		"is newer") {
		t.Errorf("%v", got)
	}
	s = play(t, "", refused("O7", 0))
	if got := ctl(t, "", at(s), "prune"); !strings.Contains(got.errs, "may still be run") {
		t.Errorf("%v", got)
	}
}

// TestCures checks the commands to type.
func TestCures(t *testing.T) {
	detail := func(code, detail string) string {
		return strings.Replace(refused(code, 0), `"op"`, `"detail":"`+detail+`","op"`, 1)
	}
	for _, one := range []struct{ answer, line, want string }{
		{refused("O1", 0), "entry create -parentID /n -spiffeID /w -selector u:1 -entryID " +
			id1, "regdctl entry show -entryID " + id1},
		{detail("O2", id2), "entry create -parentID /n -spiffeID /w -selector u:1",
			"regdctl entry show -entryID " +
				id2},
		{detail("O5", "b.org"), "entry create -parentID /n -spiffeID /w -selector u:1",
			"regdctl bundle set -id spiffe://b.org -path FILE"},
		{detail("O5", "b.org"), "bundle delete -id b.org", "regdctl bundle list"},
		{refused("O7", 0), "agent entries /spire/agent/a", "regdctl agent set -spiffeID /spire/agent/a"},
		{refused("W3", 0), "entry create -parentID /n -spiffeID /w -selector u:1", "regdctl prune"},
	} {
		s := play(t, one.answer)
		if got := ctl(t, "", at(s), split(one.line)...); !strings.Contains(got.errs, one.want) {
			t.Errorf("%s: %s", one.line, got.errs)
		}
	}
}

// TestData reads files of entries: SPIRE's and ours.
func TestData(t *testing.T) {
	ours := `[{"parent":"/n","identity":"/web","selectors":["u:1"],"hint":"h","expiry":7,"revision":3,` +
		`"domains":["b.org"]}]`
	flags := `{"entries":[{"parent_id":"spiffe://ex.org/n","spiffe_id":"spiffe://ex.org/web",` +
		`"selectors":[{"type":"u","value":"1"}],"hint":"h","expires_at":"7",` +
		`"federates_with":["spiffe://b.org"],"admin":false,"dns_names":[],"created_at":"5",` +
		`"revision_number":"3"}]}`
	messages := `{"entries":[{"parent_id":{"trust_domain":"ex.org","path":"/n"},` +
		`"spiffe_id":{"trust_domain":"ex.org","path":"/web"},"selectors":[{"type":"u","value":"1"}],` +
		`"hint":"h","entryExpiry":7,"federates_with":["b.org"],"downstream":false}]}`
	want := `{"ops":[{"domains":["b.org"],"expiry":7,"hint":"h","id":"U","identity":"spiffe://ex.org/web",` +
		`"op":"create","parent":"spiffe://ex.org/n","selectors":["u:1"]}],T}`
	for _, text := range []string{ours, flags, messages} {
		s := play(t, committed(entry(web)))
		if got := ctl(t, text, at(s), "entry", "create", "-data", "-"); got.status != 0 || s.sent() != want {
			t.Errorf("%s: %v, sent %s", text, got, s.sent())
		}
	}
	whole := `"parent":"/n","identity":"/web","selectors":["u:1"]`
	for text, want := range map[string]string{
		`{"entries":[{"spiffe_id":"/web","admin":true}]}`: "entry 1: admin: the book has no column", `[{` +
			whole + `,"zz":1}]`: "zz: an unknown key",
		`[{"parent":"/n"}]`: "takes a parent, an identity and selectors", `[]`: "no entries",
		`{}`: "neither a list", `[7]`: "not an object",
		`{"entries":[],"next_page_token":"x"}`: "one page of several", `[] []`: "more behind",
		`[{` + whole + `,"expiry":-1}]`: "not a number", `[{` +
			whole + `,"hint":7}]`: "not a text", `{`: "unexpected EOF",
		`[{` + whole + `,"dns_names":["x"]}]`: "dns_names: the book has no column", `[{` +
			whole + `,"domains":"x"}]`: "not a list",
	} {
		if got := ctl(t, "", []string{"REGDCTL_DOMAIN=ex.org"}, "entry", "create", "-data", file(t,
			text)); got.status != statusInvalid ||
			!strings.Contains(got.errs, want) {
			t.Errorf("%s: %v", text, got)
		}
	}
	// the samples of SPIRE have columns that the book lacks
	got := ctl(t, "", nil, "entry", "create", "-data", "../../examples/spire/entries.json")
	if got.status != statusInvalid || !strings.Contains(got.errs, "entry 3: dns_names: the book has no column") {
		t.Errorf("%v", got)
	}
	if got := ctl(t, "", nil, "entry", "create", "-data", "x", "-spiffeID", "y"); got.status != statusInvalid {
		t.Errorf("%v", got)
	}
	ids := file(t, `{"ids":["`+id1+`"]}`)
	s := play(t, committed(entry(web)), answered(pageOf(web)))
	if got := ctl(t, "", at(s), "entry", "delete", "-file", ids); got.status != 0 {
		t.Errorf("%v", got)
	}
}

// many returns some entries to create, as a file.
func many(t *testing.T, count int, hint string) string {
	var rows []string
	for i := 0; i < count; i++ {
		rows = append(rows,
			fmt.Sprintf(`{"parent":"/n","identity":"/w%d","selectors":["u:1"],"hint":"%s"}`, i, hint))
	}
	return file(t, "["+strings.Join(rows, ",")+"]")
}

// TestSeveral makes more changes than a line can have.
func TestSeveral(t *testing.T) {
	rows := func(n int) string {
		return committed(strings.TrimSuffix(strings.Repeat(entry(web)+",", n), ","))
	}
	s := play(t, rows(64), rows(6))
	got := ctl(t, "", at(s), "entry", "create", "-several", "-data", many(t, 70, ""))
	if !strings.HasSuffix(got.out, "batch 1 of 2: 64 entries created at commit 7\nbatch 2 of 2: 6 entries created "+
		"at commit 7\n") {
		t.Errorf("%v", got)
	}
	s = play(t, rows(64), refused("W3", 0))
	got = ctl(t, "", at(s), "entry", "create", "-several", "-data", many(t, 70, ""))
	if got.status != statusRefused || !strings.Contains(got.errs, "batches 1 to 1 of 2 are made, with 64 "+
		"operations; nothing of batch 2 is") {
		t.Errorf("%v", got)
	}
	for _, words := range [][]string{{"-data", many(t, 70, "")}, {"-dry-run", "-data", many(t, 64, "")}, {"-data",
		many(t, 60, strings.Repeat("x", 9000))}} {
		if got = ctl(t, "", at(s),
			append([]string{"entry", "create"}, words...)...); got.status != statusInvalid {
			t.Errorf("%v", got)
		}
	}
	s = play(t, rows(64))
	if got = ctl(t, "", at(s), "entry", "create", "-data", many(t, 64, "")); got.status != 0 {
		t.Errorf("%v", got)
	}
}

// TestSetSeveral changes 70 entries: in one line they don't fit; in two, a refusal of the second one ends the command.
func TestSetSeveral(t *testing.T) {
	list, shows, updates := []string{}, []string{}, []string{}
	for i := 0; i < 70; i++ {
		id := fmt.Sprintf("00000000-0000-1000-8000-%012d", i)
		row := entry(strings.Replace(web, id1, id, 1))
		list, shows, updates = append(list, `"`+id+`"`), append(shows, row), append(updates, row)
	}
	ids := file(t, "["+strings.Join(list, ",")+"]")
	read := []string{answered(shows[:64]...), answered(shows[64:]...)}
	s := play(t, read...)
	got := ctl(t, "", at(s), "entry", "set", "-file", ids, "-hint", "h")
	if got.status != statusInvalid || !strings.Contains(got.errs, "add -several for 2 changes") ||
		strings.Count(strings.Split(s.sent(), "\n")[0], `"op":"show"`) != 64 {
		t.Errorf("%v", got)
	}
	s = play(t, append(read, committed(updates[:64]...), committed(updates[64:]...))...)
	got = ctl(t, "", at(s), "entry", "set", "-several", "-file", ids, "-hint", "h")
	if !strings.HasSuffix(got.out,
		"batch 1 of 2: 64 entries updated at commit 7\nbatch 2 of 2: 6 entries updated at "+
			"commit 7\n") {
		t.Errorf("%v", got)
	}
	s = play(t, append(read, committed(updates[:64]...), refused("O4", 0), read[0])...)
	got = ctl(t, "", at(s), "entry", "set", "-several", "-file", ids, "-hint", "h")
	if got.status != statusRefused || strings.Count(s.sent(), "\n") != 3 {
		t.Errorf("%v, %d lines", got, strings.Count(s.sent(), "\n")+1)
	}
}

// TestShortIDs checks which IDs are printed as paths.
func TestShortIDs(t *testing.T) {
	s := &session{settings: settings{domain: "ex.org"}}
	for id, want := range map[string]string{"spiffe://ex.org/w": "/w", "spiffe://b.org/w": "spiffe://b.org/w",
		"spiffe://ex.org": "spiffe://ex.org"} {
		if got := s.short(id); got != want {
			t.Errorf("%s: %s", id, got)
		}
	}
}

// TestUnits reads lifetimes.
func TestUnits(t *testing.T) {
	for text, want := range map[string]uint64{"": 0, "90": 90, "90s": 90, "30m": 1800, "1h": 3600, "7d": 604800} {
		if got, err := seconds(text); err != nil || got != want {
			t.Errorf("%s: %d, %v", text, got, err)
		}
	}
	for _, text := range []string{"h", "1.5h", "-1", "1w", "1h30m"} {
		if got, err := seconds(text); err == nil {
			t.Errorf("%s: %d", text, got)
		}
	}
}

// TestFirstDigits finds entries by the first digits of their ids.
func TestFirstDigits(t *testing.T) {
	rows := []book.Entry{{ID: id1}, {ID: id2}, {ID: strings.Replace(id2, "0002", "0003", 1)}}
	if got, err := idWithDigits(rows, "11111111"); err != nil || got != id1 {
		t.Errorf("%s, %v", got, err)
	}
	for text, want := range map[string]string{"22222222": "2 entries have ids", "33333333": "no entry has an id"} {
		if got, err := idWithDigits(rows, text); err == nil || !strings.Contains(err.Error(), want) {
			t.Errorf("%s: %s, %v", text, got, err)
		}
	}
}

// TestPrintable checks that a text in a table changes nothing else on a terminal.
func TestPrintable(t *testing.T) {
	for text, want := range map[string]string{"a b": "a b", "ü": "ü", "a\x1b[2J": `"a\x1b[2J"`, "a\nb": `"a\nb"`} {
		if got := printable(text); got != want {
			t.Errorf("%q: %s", text, got)
		}
	}
}

// TestRecord checks which lines are recorded, and that a failure of that is reported.
func TestRecord(t *testing.T) {
	path := filepath.Join(t.TempDir(), "record")
	before := `{"ops":[{"op":"create","parent":"spiffe://ex.org/n","identity":"spiffe://ex.org/web",` +
		`"selectors":["u:1"]},{"op":"create","id":"` +
		id2 +
		`","parent":"x","identity":"y","selectors":["<"],"expiry":18446744073709551615}],"after":3}`
	s := play(t, committed(entry(web), entry(pay)), refused("O3", 0), answered(entry(web)),
		strings.Replace(committed(`{"pruned":[]}`), "committed", "repeated", 1))
	lines := []string{before, `{"ops":[{"op":"delete","id":"x"}]}`, `{"ops":[{"op":"show","id":"x"}]}`,
		`{"ops":[{"op":"prune","before":1}],"token":"t"}`}
	got := ctl(t, strings.Join(lines, "\n")+"\n", append(at(s), "REGDCTL_RECORD="+path), "call")
	text, err := os.ReadFile(path)
	want := `{"ops":[{"id":"` + id1 +
		`","identity":"spiffe://ex.org/web","op":"create","parent":"spiffe://ex.org/n",` +
		`"selectors":["u:1"]},{"expiry":18446744073709551615,"id":"` +
		id2 + `","identity":"y","op":"create","parent":"x","selectors":["<"]}]}` + "\n" +
		`{"ops":[{"before":1,"op":"prune"}],"token":"t"}` + "\n"
	if err != nil || string(text) != want || got.status != statusRefused {
		t.Errorf("%v: %v\n%s", err, got, text)
	}
	s = play(t, answered(entry(web)), committed(entry(web)))
	got = ctl(t, "", at(s), "entry", "set", "-entryID", id1, "-hint", "h", "-record", path)
	if text, err = os.ReadFile(path); err != nil || strings.Count(string(text), "\n") != 3 ||
		strings.Contains(string(text), "after") || got.status != 0 {
		t.Errorf("%v: %v\n%s", err, got, text)
	}
	s = play(t, committed(agentOf(agent)))
	got = ctl(t, "", at(s), "agent", "set", "/spire/agent/a", "-selector", "x:1", "-record", path+"/none")
	if got.status != statusFailed || !strings.Contains(got.errs, "the change was made, but its line is not in") ||
		!strings.Contains(got.errs, `line: {"ops":[{"agent":`) {
		t.Errorf("%v", got)
	}
}

// TestProgress checks what is printed of long work, and that the line is removed at the end.
func TestProgress(t *testing.T) {
	var out strings.Builder
	second := time.Second
	p := progress{out: &out, begin: time.Now().Add(-4 * second)}
	p.tell(64, 128, 1, 2)
	p.tell(128, 128, 2, 2) // too early
	if want := "\r\033[K64 of 128 operations, batch 1 of 2, 4s left"; out.String() != want {
		t.Errorf("got %q", out.String())
	}
	p.last = time.Now().Add(-second)
	p.read(1000)
	p.clear()
	if want := "\r\033[K1000 entries read\r\033[K"; !strings.HasSuffix(out.String(), want) {
		t.Errorf("got %q", out.String())
	}
	out.Reset()
	for _, quiet := range []progress{{out: &out, begin: time.Now()}, {begin: time.Now().Add(-4 * second)}} {
		quiet.tell(64, 128, 1, 2)
		quiet.read(1000)
		quiet.clear()
	}
	p = progress{}
	p.start(&out)
	if p.out != nil || out.String() != "" {
		t.Errorf("printed early, or to what is no terminal: %q", out.String())
	}
}

// editor writes a script that edits a file.
func editor(t *testing.T, command string) string {
	t.Helper()
	path := filepath.Join(t.TempDir(), "editor")
	if err := os.WriteFile(path, []byte("#!/bin/sh\n"+command+"\n"), 0o700); err != nil {
		t.Fatal(err)
	}
	return path
}

// TestEdit changes an entry in an editor.
func TestEdit(t *testing.T) {
	t.Setenv("TMPDIR", t.TempDir())
	sed := func(what string) string { return editor(t, `sed -i '`+what+`' "$1"`) }
	other := strings.NewReplacer(`"revision":3`, `"revision":4`, `["u:1","u:2"]`, `["u:9"]`).Replace(web)
	for _, one := range []struct {
		what, editor string
		answers      []string
		status       int
		sent, errs   string
	}{
		{"a change", sed("s/www/new/"), []string{answered(entry(web)), committed(entry(web))}, 0,
			`{"hint":"new","id":"` +
				id1 + `","identity":"spiffe://ex.org/web","op":"update","parent":"spiffe://ex.org/n",` +
				`"revision":3`,
			""},
		{"nothing", "true", []string{answered(entry(web))}, 0, "", ""},
		{"another client's change of another value", sed("s/www/new/"),
			[]string{answered(entry(web)), refused("O4", 0), answered(entry(other)),
				committed(entry(web))}, 0,
			`"hint":"new","id":"` +
				id1 + `","identity":"spiffe://ex.org/web","op":"update","parent":"spiffe://ex.org/n",` +
				`"revision":4,"selectors":["u:9"]`,
			`selectors      "u:1 u:2" -> "u:9"`},
		{"of the same value", sed("s/www/new/"), []string{answered(entry(web)), refused("O4", 0),
			answered(entry(strings.Replace(other, "www", "w", 1)))},
			3, "", "both changes concern the same value"},
		{"not JSON", editor(t, `echo { > "$1"`), []string{answered(entry(web))}, 2, "", "unexpected EOF"},
		{"another id", sed("s/11111111/33333333/"), []string{answered(entry(web))}, 2, "",
			"the id can't be changed"},
		{"an editor that fails", "false", []string{answered(entry(web))}, 1, "", "the editor false"},
		{"no entry", "true", []string{answered(`{"entry":null}`)}, 4, "", "there is no entry"},
	} {
		s := play(t, one.answers...)
		got := ctl(t, "", at(s), "entry", "edit", "-entryID", id1, "-editor", one.editor)
		if got.status != one.status || !strings.Contains(s.sent(), one.sent) ||
			!strings.Contains(got.errs, one.errs) {
			t.Errorf("%s: %v, sent %s", one.what, got, s.sent())
		}
	}
}

// TestCompletion checks that each command and each flag is offered, and that the scripts are valid.
func TestCompletion(t *testing.T) {
	offered := func(words ...string) string {
		return " " + strings.Join(strings.Fields(ctl(t, "", nil,
			append([]string{"__complete"}, words...)...).out), " ") + " "
	}
	for _, c := range allCommands() {
		words := strings.Fields(c.name)
		for i := range words {
			if got := offered(append(append([]string{}, words[:i]...), "")...); !strings.Contains(got, " "+
				""+words[i]+" ") {
				t.Errorf("%s is not offered: %s", c.name, got)
			}
		}
		got := offered(append(words, "-")...)
		for _, name := range flagsOf(&c) {
			if !strings.Contains(got, " "+name+" ") {
				t.Errorf("%s %s is not offered", c.name, name)
			}
		}
	}
	for words, want := range map[string]string{"entry cr": " create ", "-address x entry cou": " count ",
		"-trace entry cou":                " count ",
		"entry create -matchSelectorsOn":  " ",
		"entry show -matchSelectorsOn su": " subset superset ", "bundle delete -mode d": " delete dissociate ",
		"tree -output ": " json lines table yaml ", "completion ": " bash fish zsh ",
		"entry show -entryID 1": " "} {
		if got := offered(strings.Split(words, " ")...); strings.TrimSpace(got) != strings.TrimSpace(want) {
			t.Errorf("%s: got %s, want %s", words, got, want)
		}
	}
	s := play(t, answered(pageOf(web, pay)), answered(pageOf(web, pay)), answered(pageOf(web, pay)))
	env := append(at(s), "REGDCTL_COMPLETE=ids")
	for _, one := range [][2]string{{"-entryID", id1 + "\n" + id2 + "\n"}, {"-parentID", "/n\n/web\n"},
		{"-spiffeID", "/pay\n/web\n"}} {
		if got := ctl(t, "", env, "__complete", "entry", "show", one[0], ""); got.out != one[1] {
			t.Errorf("%s: %v", one[0], got)
		}
	}
	for _, shell := range []string{"bash", "zsh", "fish"} {
		got := ctl(t, "", nil, "completion", shell)
		if got.status != 0 || got.out == "" {
			t.Errorf("%s: %v", shell, got)
		}
		if path, err := exec.LookPath(shell); err == nil {
			if out, err := exec.Command(path, "-n", file(t, got.out)).CombinedOutput(); err != nil {
				t.Errorf("%s: %v: %s", shell, err, out)
			}
		}
	}
	if got := ctl(t, "", nil, "completion", "csh"); got.status != statusInvalid {
		t.Errorf("%v", got)
	}
}

// TestHelp checks that each command, flag and setting is in the help.
func TestHelp(t *testing.T) {
	all := ctl(t, "", nil, "-h")
	for _, c := range allCommands() {
		if !strings.Contains(all.out, "  "+c.name) || c.about == "" {
			t.Errorf("%s is not in the help", c.name)
		}
		got, again := ctl(t, "", nil, append(strings.Fields(c.name), "-h")...), ctl(t, "", nil,
			append([]string{"help"}, strings.Fields(c.name)...)...)
		if got.status != 0 || got.out != again.out ||
			!strings.HasPrefix(got.out, "usage: regdctl "+c.name+" ") {
			t.Errorf("%s: %v", c.name, got)
		}
	}
	for _, one := range allSettings {
		if !strings.Contains(all.out, "  -"+one.name+" ") ||
			!strings.Contains(all.out, " "+one.variable()+" ") {
			t.Errorf("-%s is not in the help", one.name)
		}
	}
	if got := ctl(t, "", nil, "--version"); got.status != 0 || !strings.HasPrefix(got.out, "regdctl "+version) {
		t.Errorf("%v", got)
	}
}
