package wire

import (
	"bytes"
	"encoding/json"
	"math/rand"
	"os"
	"os/exec"
	"strings"
	"testing"
)

var seeds = []string{
	``, `{}`, `{"ops":[]}`, `{"ops":[{"op":"create"}]}`, `{"ops":[{"op":"show","id":"x"}],"after":7}`,
	`{"ops":[{"op":"prune","before":0}],"token":"00000000-0000-0000-0000-000000000009"}`,
	`{"ops":[{"op":"cr\u0065ate","id":null}],"ops":[{"op":"create","x":[{},[1,"]"]]}]}`,
	`{"call":1,"place":2,"replies":[],"result":"committed"}`, `{"code":"L5","field":"x","line":3,"op":0}`,
}

// FuzzAdditions checks that what the gateway adds keeps a line valid, keeps all its bytes in their order, and gives
// every create an id.
func FuzzAdditions(f *testing.F) {
	for _, seed := range seeds {
		f.Add([]byte(seed))
	}
	f.Fuzz(func(t *testing.T, line []byte) {
		if tokened, ok := ReadTokened(line, false); ok {
			if !MayChange(line) {
				t.Fatalf("%q has a token for a change, and isn't one", line)
			}
			var first, second map[string]any
			if json.Unmarshal(tokened.Line, &first) != nil || first["token"] != nil ||
				json.Unmarshal(tokened.Probe, &second) != nil || second["after"] == nil {
				t.Fatalf("%q became %q and %q", line, tokened.Line, tokened.Probe)
			}
		}
		b, ok := readBatch(line)
		made, code := ForLog(line)
		if !ok || code != "" {
			if code == "" && !bytes.Equal(made, line) {
				t.Fatalf("%q became %q", line, made)
			}
			return
		}
		again, ok := readBatch(made)
		drawn := len(b.missing) - len(again.missing)
		if !ok || len(again.ops) != len(b.ops) || len(made) != len(line)+idRoom*drawn ||
			b.token == nil && len(again.missing) > 0 {
			t.Fatalf("%q became %q", line, made)
		}
		at := 0
		for _, c := range made {
			if at < len(line) && line[at] == c {
				at++
			}
		}
		if at != len(line) {
			t.Fatalf("%q lost bytes: %q", line, made)
		}
		if b.changes > 0 && !MayChange(line) {
			t.Fatalf("%q has a change, and isn't one", line)
		}
	})
}

// FuzzReplies checks that no bytes of a reply make the functions on replies fail, and that renumbering keeps all other
// bytes.
func FuzzReplies(f *testing.F) {
	for _, seed := range seeds {
		f.Add([]byte(seed))
	}
	f.Fuzz(func(t *testing.T, reply []byte) {
		if bytes.HasPrefix(reply, callKey) && bytes.IndexByte(reply, ',') < 0 {
			return
		}
		Place(reply)
		After(reply)
		tail := append([]byte{}, Tail(reply)...)
		made := AppendReply(nil, reply, 3, 4)
		if !bytes.Contains(made, tail) ||
			!bytes.Equal(Tail(made[:len(made)-1]), tail) && bytes.Contains(reply, lineKey) {
			t.Fatalf("%q became %q", reply, made)
		}
	})
}

// TestOracle runs random lines through `regd plain`, which never commits or repeats one that is taken for a query. It
// needs REGD.
func TestOracle(t *testing.T) {
	program := os.Getenv("REGD")
	if program == "" {
		t.Skip("REGD names no program")
	}
	random := rand.New(rand.NewSource(1))
	var lines [][]byte
	for len(lines) < 20000 {
		lines = append(lines, randomLine(random))
	}
	command := exec.Command(program, "plain", "--domain", "ex.org")
	command.Stdin = bytes.NewReader(append(bytes.Join(lines, []byte("\n")), '\n'))
	out, err := command.Output()
	replies := bytes.Split(bytes.TrimSuffix(out, []byte("\n")), []byte("\n"))
	if err != nil || len(replies) != len(lines) {
		t.Fatalf("%d replies to %d lines, %v", len(replies), len(lines), err)
	}
	queries, commits := 0, 0
	for i, line := range lines {
		made := bytes.HasSuffix(replies[i], committed) || bytes.HasSuffix(replies[i], repeated)
		if made {
			commits++
		}
		if !MayChange(line) {
			queries++
			if made {
				t.Errorf("%s was taken for a query: %s", line, replies[i])
			}
		}
	}
	if queries < 2000 || commits < 2000 {
		t.Errorf("only %d queries and %d commits", queries, commits)
	}
}

// randomLine returns a line of one or two operations, in unusual spellings, and often damaged.
func randomLine(random *rand.Rand) []byte {
	pick := func(all ...string) string { return all[random.Intn(len(all))] }
	spelled := func(text string) string {
		if random.Intn(8) == 0 {
			at := random.Intn(len(text))
			const digits = "0123456789abcdef"
			text = text[:at] + `\u00` +
				string([]byte{digits[text[at]>>4], digits[text[at]&15]}) + text[at+1:]
		}
		return `"` + text + `"`
	}
	agent := func() string { return `"spiffe://ex.org/spire/agent/n` + pick("1", "2", "3") + `"` }
	id := func() string { return `"00000000-0000-0000-0000-00000000000` + pick("1", "2", "3") + `"` }
	op := func() string {
		name := pick("create", "update", "delete", "show", "show_agent", "children", "page", "authorised",
			"trust", "prune",
			"set_agent", "drop_agent", "set_bundle", "drop_bundle", "show_bundle")
		keys := map[string]string{
			"create": `"parent":` + agent() + `,"identity":"spiffe://ex.org/w","selectors":["u:` +
				pick("1", "2") + `"]`,
			"update": `"id":` + id() + `,"parent":` + agent() +
				`,"identity":"spiffe://ex.org/w","selectors":["u:1"]`,
			"delete": `"id":` + id(), "show": `"id":` + id(), "show_agent": `"agent":` + agent(),
			"children": `"parent":` + agent(),
			"page":     `"size":5`, "authorised": `"agent":` + agent(), "trust": `"agent":` + agent(),
			"prune":     `"before":0`,
			"set_agent": `"agent":` + agent() + `,"selectors":["x:1"]`, "drop_agent": `"agent":` + agent(),
			"set_bundle":  `"domain":"b.org","text":"` + pick("", "create", "{}") + `"`,
			"drop_bundle": `"domain":"b.org"`, "show_bundle": `"domain":"b.org"`,
		}[name]
		key := spelled("op") + pick(":", " :", ": ") + spelled(name)
		if random.Intn(10) == 0 {
			key = `"op":"show",` + key
		}
		return "{" + pick(key+","+keys, keys+","+key) + "}"
	}
	line := "{" + spelled("ops") + ":[" + op() + pick("", "", ","+op()) + "]" + pick("", "", `,"after":0`,
		`,"token":"00000000-0000-0000-0000-00000000000`+pick("7", "8", "9")+`"`) + "}"
	if random.Intn(10) == 0 {
		line = pick(" ", "\t", "[", "{\"ops\":[],") + line
	}
	bytes := []byte(line)
	for random.Intn(4) == 0 {
		at := random.Intn(len(bytes))
		switch random.Intn(3) {
		case 0:
			bytes[at] = []byte("\\\"{}[],:0 xu\x00\xff")[random.Intn(14)]
		case 1:
			bytes = append(bytes[:at], bytes[at+1:]...)
		case 2:
			bytes = append(bytes[:at], append([]byte(line[:random.Intn(len(line))]), bytes[at:]...)...)
		}
		if len(bytes) == 0 {
			break
		}
	}
	return []byte(strings.ReplaceAll(string(bytes), "\n", " "))
}
