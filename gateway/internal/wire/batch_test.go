package wire

import (
	"regexp"
	"strings"
	"testing"
)

// the UUIDs of version 4, which the lines of the tests don't have
var generated = regexp.MustCompile(`[0-9a-f]{8}-[0-9a-f]{4}-4[0-9a-f]{3}-[89ab][0-9a-f]{3}-[0-9a-f]{12}`)

func TestForLog(t *testing.T) {
	for _, c := range []struct{ name, line, want string }{
		{"no create", `{"ops":[{"op":"show","id":"x"}]}`, `{"ops":[{"op":"show","id":"x"}]}`},
		{"one", `{"ops":[{"op":"create","parent":"p"}]}`, `{"ops":[{"op":"create","parent":"p","id":"ID"}]}`},
		{"null", `{"ops":[{"op":"create","id":null}]}`, `{"ops":[{"op":"create","id":null,"id":"ID"}]}`},
		{"given", `{"ops":[{"op":"create","id":"x"}]}`, `{"ops":[{"op":"create","id":"x"}]}`},
		{"given, then null", `{"ops":[{"id":"x","op":"create","id":null}]}`,
			`{"ops":[{"id":"x","op":"create","id":null,"id":"ID"}]}`},
		{"two of three", `{"ops":[{"op":"create"},{"op":"prune","before":1},{ "op" : "create" } ]}`,
			`{"ops":[{"op":"create","id":"ID"},{"op":"prune","before":1},{ "op" : "create" ,"id":"ID"} ]}`},
		{"a token", `{"ops":[{"op":"create"}],"token":"t"}`, `{"ops":[{"op":"create"}],"token":"t"}`},
		{"no token", `{"ops":[{"op":"create"}],"token":"t","token":null}`,
			`{"ops":[{"op":"create","id":"ID"}],"token":"t","token":null}`},
		{"the last ops", `{"ops":[{"op":"create"}],"ops":[{"op":"create"}]}`,
			`{"ops":[{"op":"create"}],"ops":[{"op":"create","id":"ID"}]}`},
		{"the last ops are not a list", `{"ops":[{"op":"create"}],"ops":{}}`,
			`{"ops":[{"op":"create"}],"ops":{}}`},
		{"the first ops are not a list", `{"ops":{"x":[]},"ops":[{"op":"create"}]}`,
			`{"ops":{"x":[]},"ops":[{"op":"create","id":"ID"}]}`},
		{"the last op", `{"ops":[{"op":"create","op":"show"}]}`, `{"ops":[{"op":"create","op":"show"}]}`},
		{"not a name at last", `{"ops":[{"op":"create","op":7}]}`, `{"ops":[{"op":"create","op":7}]}`},
		{"escapes", `{"\u006fps":[{"o\u0070":"cr\u0065ate","h":"}\"]"}]}`,
			`{"\u006fps":[{"o\u0070":"cr\u0065ate","h":"}\"]","id":"ID"}]}`},
		{"nested", `{"ops":[{"x":[{"a":[1,2.5e3]},[]],"op":"create"}],"z":{"ops":1}}`,
			`{"ops":[{"x":[{"a":[1,2.5e3]},[]],"op":"create","id":"ID"}],"z":{"ops":1}}`},
		{"a malformed change", `{"ops":[{"op":"create"`, `{"ops":[{"op":"create"`},
		{"nothing", "", ""},
	} {
		made, code := ForLog([]byte(c.line))
		if got := generated.ReplaceAllString(string(made), "ID"); got != c.want || code != "" {
			t.Errorf("%s:\n got %s %s\nwant %s", c.name, got, code, c.want)
		}
	}
	made, _ := ForLog([]byte(`{"ops":[{"op":"create"},{"op":"create"}]}`))
	if ids := generated.FindAllString(string(made), -1); len(ids) != 2 || ids[0] == ids[1] {
		t.Errorf("the same ids in %s", made)
	}
}

func TestReadBatchRefuses(t *testing.T) {
	many := `{"ops":[` + strings.Repeat(`{"op":"create"},`, maxOps) + `{"op":"create"}]}`
	for _, line := range []string{``, `7`, `[]`, `{}`, `{"ops":7}`, `{"ops":[]}`, `{"ops":[7]}`, `{"ops":[null]}`,
		`{"ops":[{"op":"create"}]`,
		`{"ops":[{"op":"create"}]}}`, many} {
		if _, ok := readBatch([]byte(line)); ok {
			t.Errorf("%.40s: read", line)
		}
	}
}

func TestTooMixed(t *testing.T) {
	batch := func(queries, changes int, query string) []byte {
		ops := strings.Repeat(`{"op":"`+query+`"},`, queries) + strings.Repeat(`{"op":"prune"},`, changes)
		return []byte(`{"ops":[` + strings.TrimSuffix(ops, ",") + `]}`)
	}
	for _, c := range []struct {
		queries, changes int
		want             bool
	}{{MaxQueries, 1, false}, {MaxQueries + 1, 1, true}, {MaxQueries, 0, false}, {MaxQueries + 1, 0, true},
		{64, 0, true}, {63, 1, true}, {0, 64, false}} {
		if _, code := ForLog(batch(c.queries, c.changes, "children")); (code == TooManyQueries) != c.want {
			t.Errorf("%d queries, %d changes: got %s", c.queries, c.changes, code)
		}
	}
	for name, isChange := range changes {
		if _, code := ForLog(batch(MaxQueries+1, 1, name)); (code == TooManyQueries) == isChange {
			t.Errorf("%s: got %s", name, code)
		}
	}
}

func TestNoRoom(t *testing.T) {
	for _, c := range []struct {
		name, line string
		size       int
		code       string
	}{
		{"nothing to add", `{"ops":[{"op":"prune"}]}`, MaxLine, ""},
		{"an id fits", `{"ops":[{"op":"create"}]}`, MaxLine - idRoom, ""},
		{"an id doesn't", `{"ops":[{"op":"create"}]}`, MaxLine - idRoom + 1, NoRoom},
		{"two ids don't", `{"ops":[{"op":"create"},{"op":"create"}]}`, MaxLine - 2*idRoom + 1, NoRoom},
		{"a token fits", `{"ops":[{"op":"prune"}],"token":"x"}`, MaxLine - tokenRoom, ""},
		{"a token doesn't", `{"ops":[{"op":"prune"}],"token":"x"}`, MaxLine - tokenRoom + 1, NoRoom},
	} {
		if _, code := ForLog([]byte(c.line + strings.Repeat(" ", c.size-len(c.line)))); code != c.code {
			t.Errorf("%s: got %s", c.name, code)
		}
	}
	line := []byte(`{"ops":[{"op":"create"}]}`)
	if made, _ := ForLog(line); len(made) != len(line)+idRoom {
		t.Errorf("an id adds %d bytes", len(made)-len(line))
	}
	line = []byte(`{"ops":[{"op":"prune"}],"token":"00000000-0000-0000-0000-000000000009"}`)
	if tokened, ok := ReadTokened(line, false); !ok || len(tokened.Probe)-len(line) > tokenRoom {
		t.Errorf("a token adds %d bytes", len(tokened.Probe)-len(line))
	}
}

const uuid9 = "00000000000000000000000000000009"

func TestReadTokened(t *testing.T) {
	const nine = `"00000000-0000-0000-0000-000000000009"`
	for _, c := range []struct {
		name, line  string
		want        bool
		after       uint64
		taken, asks string
	}{
		{"a change", `{"ops":[{"op":"prune","before":0}],"token":` + nine + `} `, true, 0,
			`{"ops":[{"op":"prune","before":0}],"token":` + nine + `,"token":null} `,
			`{"ops":[{"op":"prune","before":0}],"token":` + nine +
				`,"token":null,"after":18446744073709551615} `},
		{"after", `{"after":7,"ops":[{"op":"prune"}],"token":` + nine + `}`, true, 7, "", ""},
		{"after null", `{"after":null,"ops":[{"op":"prune"}],"token":` + nine + `}`, true, 0, "", ""},
		{"after the largest", `{"after":18446744073709551615,"ops":[{"op":"prune"}],"token":` + nine + `}`,
			true, 1<<64 - 1, "", ""},
		{"after too large", `{"after":18446744073709551616,"ops":[{"op":"prune"}],"token":` + nine + `}`,
			false, 0, "", ""},
		{"after with a fraction", `{"after":1.0,"ops":[{"op":"prune"}],"token":` + nine + `}`,
			false, 0, "", ""},
		{"after a string", `{"after":"1","ops":[{"op":"prune"}],"token":` + nine + `}`, false, 0, "", ""},
		{"an escaped key", `{"t\u006fken":` + nine + `,"ops":[{"op":"prune"}]}`, true, 0, "", ""},
		{"the last token", `{"token":7,"token":` + nine + `,"ops":[{"op":"prune"}]}`, true, 0, "", ""},
		{"braces", `{"token":"{00000000-0000-0000-0000-000000000009}","ops":[{"op":"prune"}]}`,
			true, 0, "", ""},
		{"urn", `{"token":"URN:UUID:00000000-0000-0000-0000-000000000009","ops":[{"op":"prune"}]}`,
			true, 0, "", ""},
		{"digits", `{"token":"00000000000000000000000000000009","ops":[{"op":"prune"}]}`, true, 0, "", ""},
		{"no token", `{"ops":[{"op":"prune"}]}`, false, 0, "", ""},
		{"null", `{"token":null,"ops":[{"op":"prune"}]}`, false, 0, "", ""},
		{"a number", `{"token":9,"ops":[{"op":"prune"}]}`, false, 0, "", ""},
		{"a letter that is no ASCII",
			`{"token":"urn:uu\u0130d:00000000-0000-0000-0000-000000000009","ops":[{"op":"prune"}]}`,
			false, 0, "", ""},
		{"not a UUID", `{"token":"9","ops":[{"op":"prune"}]}`, false, 0, "", ""},
		{"a UUID with urn and no hyphens",
			`{"token":"urn:uuid:00000000000000000000000000000009","ops":[{"op":"prune"}]}`,
			false, 0, "", ""},
		{"braces and no hyphens", `{"token":"{00000000000000000000000000000009}","ops":[{"op":"prune"}]}`,
			false, 0, "", ""},
		{"a query", `{"token":` + nine + `,"ops":[{"op":"show"}]}`, false, 0, "", ""},
		{"a create without an id", `{"token":` + nine + `,"ops":[{"op":"create"}]}`, false, 0, "", ""},
	} {
		got, ok := ReadTokened([]byte(c.line), false)
		if ok != c.want {
			t.Errorf("%s: got %v", c.name, ok)
		} else if ok && (got.Token != uuid9 || got.After != c.after) {
			t.Errorf("%s: got %s, %d", c.name, got.Token, got.After)
		} else if c.taken != "" && (string(got.Line) != c.taken || string(got.Probe) != c.asks) {
			t.Errorf("%s: got %s and %s", c.name, got.Line, got.Probe)
		}
	}
}

func TestSame(t *testing.T) {
	read := func(ops string) string {
		b, ok := readBatch([]byte(`{"ops":[` + ops + `]}`))
		if !ok {
			t.Fatal(ops)
		}
		return same(b.ops)
	}
	const id = "76b8e0ad-a0f1-4d90-805d-6ae55386bd28"
	for _, c := range []struct {
		name, first, second string
		want                bool
	}{
		{"order of keys", `{"op":"prune","before":1}`, `{"before":1,"op":"prune"}`, true},
		{"another value", `{"op":"prune","before":1}`, `{"op":"prune","before":2}`, false},
		{"escapes", `{"op":"set_bundle","domain":"b.org","text":"a"}`,
			`{"op":"set_bundle","domain":"b.org","text":"\u0061"}`, true},
		{"sets", `{"op":"set_agent","agent":"a","selectors":["x:1","y:2"]}`,
			`{"op":"set_agent","agent":"a","selectors":["y:2","x:1","x:1"]}`, true},
		{"other sets", `{"op":"set_agent","agent":"a","selectors":["x:1"]}`,
			`{"op":"set_agent","agent":"a","selectors":["x:1","y:2"]}`, false},
		{"spelling of ids", `{"op":"delete","id":"` + id + `"}`,
			`{"op":"delete","id":"{` + strings.ToUpper(id) + `}"}`, true},
		{"revision", `{"op":"delete","id":"` + id + `"}`,
			`{"op":"delete","id":"` + id + `","revision":0}`, false},
		{"null", `{"op":"delete","id":"` + id + `"}`,
			`{"op":"delete","id":"` + id + `","revision":null}`, true},
		{"null at last", `{"op":"delete","id":"` + id + `","revision":4,"revision":null}`,
			`{"op":"delete","id":"` + id + `"}`, true},
		{"the default mode", `{"op":"drop_bundle","domain":"b"}`,
			`{"op":"drop_bundle","domain":"b","mode":"restrict"}`, true},
		{"null for the default mode", `{"op":"drop_bundle","domain":"b"}`,
			`{"op":"drop_bundle","domain":"b","mode":null}`, true},
		{"another mode", `{"op":"drop_bundle","domain":"b"}`,
			`{"op":"drop_bundle","domain":"b","mode":"delete"}`, false},
		{"defaults", `{"op":"update","id":"` + id + `"}`, `{"op":"update","id":"` + id +
			`","hint":"","expiry":0,"x509_svid_ttl":0,"jwt_svid_ttl":0,"domains":[]}`, true},
		{"a hint that looks like an id", `{"op":"update","hint":"` + id + `"}`,
			`{"op":"update","hint":"` + strings.ToUpper(id) + `"}`, false},
		{"order of operations", `{"op":"prune","before":1},{"op":"prune","before":2}`,
			`{"op":"prune","before":2},{"op":"prune","before":1}`, false},
		{"one more", `{"op":"prune","before":1}`, `{"op":"prune","before":1},{"op":"prune","before":1}`, false},
		{"match", `{"op":"page","size":1,"selectors":["a:b"]}`,
			`{"op":"page","size":1,"selectors":["a:b"],"match":"superset"}`, true},
	} {
		if got := read(c.first) == read(c.second); got != c.want {
			t.Errorf("%s: got %v", c.name, got)
		}
	}
}

func TestNewID(t *testing.T) {
	one, other := NewID(), NewID()
	if _, ok := readUUID(one); !ok || len(one) != 36 || one[14] != '4' || !strings.Contains("89ab", one[19:20]) ||
		one == other {
		t.Errorf("got %s and %s", one, other)
	}
}
