package wire

import (
	"strings"
	"testing"
)

const team = "spiffe://ex.org/team/"

// registered returns what the log gets for a registrar's line, if the entries are these.
func registered(line string, found ...Found) string {
	r, ok := ReadRegistration([]byte(line), team)
	if !ok {
		return NotAllowed
	}
	if len(r.Targets) != len(found) {
		return "other targets: " + strings.Join(r.Targets, " ")
	}
	made, code := r.Line(found, team)
	return string(made) + code
}

// TestReadRegistration checks which lines a registrar may send.
func TestReadRegistration(t *testing.T) {
	create := func(identity string) string { return `{"op":"create","id":"i","identity":"` + identity + `"}` }
	for _, c := range []struct {
		name, line string
		want       bool
	}{
		{"a create", `{"ops":[` + create(team+"a") + `]}`, true},
		{"with a token, after and tries", `{"ops":[` + create(team+"a") + `],"token":"t","after":1,"tries":2}`,
			true},
		{"two creates", `{"ops":[` + create(team+"a") + "," + create(team+"b/c") + `]}`, true},
		{"one elsewhere", `{"ops":[` + create(team+"a") + "," + create("spiffe://ex.org/b") + `]}`, false},
		{"the prefix", `{"ops":[` + create(team) + `]}`, false},
		{"the prefix without its slash", `{"ops":[` + create(strings.TrimSuffix(team, "/")) + `]}`, false},
		{"a longer name of the team", `{"ops":[` + create("spiffe://ex.org/teams/a") + `]}`, false},
		{"no identity", `{"ops":[{"op":"create"}]}`, false},
		{"an identity that is no text", `{"ops":[{"op":"create","identity":["` + team + `a"]}]}`, false},
		{"an identity that comes twice",
			`{"ops":[{"op":"create","identity":"` + team + `a","identity":"spiffe://ex.org/b"}]}`, false},
		{"operations that come twice", `{"ops":[` + create(team+"a") + `],"ops":[{"op":"prune","before":1}]}`,
			false},
		{"a key in capitals", `{"ops":[` + create(team+"a") + `],"Ops":[{"op":"prune"}]}`, false},
		{"an update", `{"ops":[{"op":"update","id":"i","identity":"` + team + `a"}]}`, true},
		{"an update to elsewhere", `{"ops":[{"op":"update","id":"i","identity":"spiffe://ex.org/b"}]}`, false},
		{"an update without id", `{"ops":[{"op":"update","identity":"` + team + `a"}]}`, false},
		{"a delete", `{"ops":[{"op":"delete","id":"i"}]}`, true},
		{"a delete of null", `{"ops":[{"op":"delete","id":null}]}`, false},
		{"a prune", `{"ops":[{"op":"prune","before":0}]}`, false},
		{"a create and a prune", `{"ops":[` + create(team+"a") + `,{"op":"prune","before":0}]}`, false},
		{"a create and a query", `{"ops":[` + create(team+"a") + `,{"op":"show","id":"i"}]}`, false},
		{"another operation with keys of a create",
			`{"ops":[{"op":"prune","before":0,"id":"i","identity":"` + team + `a"}]}`, false},
		{"set_agent", `{"ops":[{"op":"set_agent","agent":"a","selectors":[]}]}`, false},
		{"drop_agent", `{"ops":[{"op":"drop_agent","agent":"a"}]}`, false},
		{"set_bundle", `{"ops":[{"op":"set_bundle","domain":"a","text":""}]}`, false},
		{"drop_bundle", `{"ops":[{"op":"drop_bundle","domain":"a"}]}`, false},
		{"an unknown key", `{"ops":[` + create(team+"a") + `],"x":1}`, false},
		{"no operation", `{"ops":[]}`, false},
		{"too many", `{"ops":[` + strings.Repeat(create(team+"a")+",", 64) + create(team+"a") + `]}`, false},
		{"no object", `[]`, false},
		{"half a line", `{"ops":[` + create(team+"a"), false},
		{"two lines in one", `{"ops":[` + create(team+"a") + `]}{}`, false},
		{"an escaped name", `{"ops":[{"\u006fp":"pr\u0075ne","before":0}]}`, false},
	} {
		if _, ok := ReadRegistration([]byte(c.line), team); ok != c.want {
			t.Errorf("%s: got %v", c.name, ok)
		}
	}
	if _, ok := ReadRegistration([]byte(`{"ops":[`+create(team+"a")+`]}`), ""); ok {
		t.Error("without a prefix anything is below it")
	}
}

// TestRegistrationLine checks what the log gets: the line as it was read, with the revisions of the entries.
func TestRegistrationLine(t *testing.T) {
	mine, other := Found{true, team + "a", 7}, Found{true, "spiffe://ex.org/b", 7}
	const none = "18446744073709551615"
	update := func(more string) string {
		return `{"ops":[{"op":"update","id":"i","identity":"` + team + `b"` + more + `}]}`
	}
	made := func(op, revision string) string {
		return `{"ops":[{"id":"i","identity":"` + team + `b","op":"` + op + `","revision":` + revision + `}]}`
	}
	for _, c := range []struct {
		name, line string
		found      []Found
		want       string
	}{
		{"an update", update(""), []Found{mine}, made("update", "7")},
		{"of another one's entry", update(""), []Found{other}, NotAllowed},
		{"of no entry", update(""), []Found{{}}, made("update", none)},
		{"with the revision", update(`,"revision":7`), []Found{mine}, made("update", "7")},
		{"with null", update(`,"revision":null`), []Found{mine}, made("update", "7")},
		{"with another revision", update(`,"revision":8`), []Found{mine}, made("update", none)},
		{"with two revisions", update(`,"revision":7,"revision":8`), []Found{mine}, made("update", none)},
		{"with a text", update(`,"revision":"7"`), []Found{mine}, made("update", none)},
		{"a delete", `{"ops":[{"op":"delete","id":"i"}],"token":"t"}`, []Found{mine},
			`{"ops":[{"id":"i","op":"delete","revision":7}],"token":"t"}`},
		{"a delete of another one's entry", `{"ops":[{"op":"delete","id":"i"}]}`, []Found{other}, NotAllowed},
		{"two", `{"ops":[{"op":"delete","id":"i"},{"op":"delete","id":"j"}]}`, []Found{mine, other},
			NotAllowed},
		{"a create", `{"ops":[{"op":"create","identity":"` + team + `c","selectors":["<"]}]}`, nil,
			`{"ops":[{"identity":"` + team + `c","op":"create","selectors":["\u003c"]}]}`},
	} {
		if got := registered(c.line, c.found...); got != c.want {
			t.Errorf("%s: got %s, want %s", c.name, got, c.want)
		}
	}
	long := `{"ops":[{"op":"delete","id":"` + strings.Repeat("x", MaxLine-60) + `"}]}`
	if got := registered(long, mine); len(long) > MaxLine || got != NoRoom && len(got) < MaxLine-100 {
		t.Errorf("a long line: got %.100s", got)
	}
	full := `{"ops":[{"op":"delete","id":"` + strings.Repeat("x", MaxLine-33) + `"}]}`
	if got := registered(full, mine); got != NoRoom {
		t.Errorf("a line without room: got %.100s", got)
	}
}

// TestRegistrationSpelling checks that what was read is written, and not what the caller wrote.
func TestRegistrationSpelling(t *testing.T) {
	const line = `{"ops":[{"op":"d\u0065lete","id":"\u0069\ud800"}]}`
	want := `{"ops":[{"id":"i\ufffd","op":"delete","revision":7}]}`
	if got := registered(line, Found{true, team + "a", 7}); got != strings.ReplaceAll(want, `\ufffd`, "\ufffd") {
		t.Errorf("got %s, want %s", got, want)
	}
}

// TestRegistrationQuery checks what is asked of regd for the targets, and what is read of its reply.
func TestRegistrationQuery(t *testing.T) {
	r, _ := ReadRegistration([]byte(`{"ops":[{"op":"delete","id":"i"},{"op":"delete","id":"\"j"}]}`), team)
	query, err := r.Query(9)
	const want = `{"ops":[{"op":"show","id":"i"},{"op":"show","id":"\"j"}],"after":9}`
	if string(query) != want || err != nil || MayChange([]byte(`{"ops":[{"op":"show","id":"i"}],"after":9}`)) {
		t.Errorf("got %s, %v", query, err)
	}
	const reply = `{"call":1,"place":9,"replies":[{"entry":null},{"entry":{"identity":"a","revision":3}}],` +
		`"result":"answered"}`
	found, ok := ReadFound([]byte(reply), 2)
	if !ok || len(found) != 2 || found[0].IsThere || found[1] != (Found{true, "a", 3}) {
		t.Errorf("got %v, %v", found, ok)
	}
	for _, bad := range []string{`{"code":"U1","line":1}`, `{"call":1,"code":"W1","place":0,"result":"refused"}`,
		`{"replies":[{"entry":null}],"result":"answered"}`, `{`} {
		if _, ok := ReadFound([]byte(bad), 2); ok {
			t.Errorf("read %s", bad)
		}
	}
}

// TestSameWithoutRevision checks that revisions which a gateway has added make no other batch, and others do.
func TestSameWithoutRevision(t *testing.T) {
	line := func(revision string) []byte {
		return []byte(`{"ops":[{"op":"delete","id":"i","revision":` + revision + `}],` +
			`"token":"00000000-0000-0000-0000-000000000009"}`)
	}
	for _, isAdded := range []bool{true, false} {
		first, _ := ReadTokened(line("1"), isAdded)
		second, ok := ReadTokened(line("2"), isAdded)
		if !ok || (first.Same == second.Same) != isAdded || string(second.Line) == "" ||
			!strings.Contains(string(second.Line), `"revision":2`) {
			t.Errorf("added: %v: got %v and %v", isAdded, first, second)
		}
	}
}
