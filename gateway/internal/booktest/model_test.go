package booktest

import (
	"bufio"
	"encoding/json"
	"fmt"
	"math/rand"
	"os"
	"os/exec"
	"reflect"
	"strings"
	"testing"
)

func pick(r *rand.Rand, words ...string) string { return words[r.Intn(len(words))] }

func id(r *rand.Rand) string { return fmt.Sprintf("0000000%d-0000-4000-8000-000000000000", r.Intn(6)) }

// randomOp returns an operation on few rows.
func randomOp(r *rand.Rand) string {
	agent := fmt.Sprintf(`"agent":"spiffe://ex.org/spire/agent/%d"`, r.Intn(3))
	domain := fmt.Sprintf(`"domain":"%s.org"`, pick(r, "a", "b", "c"))
	row := fmt.Sprintf(
		`"id":"%s","parent":"spiffe://ex.org%s","identity":"spiffe://ex.org%s","selectors":["x:%d"]`, id(r),
		pick(r, "/p", "/spire/server", "/spire/agent/1"), pick(r, "/p", "/i"), r.Intn(2)) +
		pick(r, "", `,"hint":"h"`, `,"domains":["a.org"]`, `,"expiry":7`, `,"x509_svid_ttl":60`)
	revision := pick(r, "", `,"revision":0`, `,"revision":1`)
	return pick(r, `{"op":"create",`+row+`}`, `{"op":"create",`+row+`}`, `{"op":"update",`+row+revision+`}`,
		`{"op":"delete","id":"`+id(r)+`"`+revision+`}`, `{"op":"show","id":"`+id(r)+`"}`,
		`{"op":"set_agent",`+agent+`,"selectors":`+pick(r, `[]`, `["x:1","x:0"]`)+`}`,
		`{"op":"drop_agent",`+agent+`}`,
		`{"op":"show_agent",`+agent+`}`, `{"op":"authorised",`+agent+`}`,
		`{"op":"set_bundle",`+domain+`,"text":"`+pick(r, "x", "y")+`"}`,
		`{"op":"drop_bundle",`+domain+`,"mode":"restrict"}`, `{"op":"show_bundle",`+domain+`}`,
		`{"op":"children","parent":"spiffe://ex.org/p"}`, `{"op":"prune","before":8}`,
		fmt.Sprintf(`{"op":"page","size":%d%s}`, 1+r.Intn(4), pick(r, "", `,"from":"`+id(r)+`"`,
			`,"parent":"spiffe://ex.org/p"`, `,"identity":"spiffe://ex.org/i"`, `,"domain":"a.org"`)))
}

func randomLine(r *rand.Rand, place uint64) string {
	if r.Intn(12) == 0 {
		at := uint64(r.Intn(80))
		if at > place {
			at = 0
		}
		return fmt.Sprintf(`{"ops":[{"op":"page","size":9,"at":%d}]}`, place-at)
	}
	var ops []string
	isChange := false
	for i := 0; i < 1+r.Intn(3); i++ {
		op := randomOp(r)
		isChange = isChange || isChanging[strings.Split(op, `"`)[3]]
		ops = append(ops, op)
	}
	more := ""
	if isChange && r.Intn(3) == 0 {
		more = fmt.Sprintf(`,"token":"%08d-0000-4000-8000-000000000000"`, r.Intn(60))
	}
	return `{"ops":[` + strings.Join(ops, ",") + `]` + more + `}`
}

// value returns the value of an answer, without the number of its call.
func value(t *testing.T, line string) map[string]any {
	t.Helper()
	var read map[string]any
	if err := json.Unmarshal([]byte(line), &read); err != nil {
		t.Fatalf("%s: %v", line, err)
	}
	delete(read, "call")
	return read
}

// TestModelByServer compares the answers to random lines with those of `regd plain`.
func TestModelByServer(t *testing.T) {
	regd := os.Getenv("REGD")
	if regd == "" {
		t.Skip("REGD names no program")
	}
	const count = 20000
	r := rand.New(rand.NewSource(1))
	m := New("ex.org")
	m.IsOld = true
	var lines, wanted []string
	for i := 0; i < count; i++ {
		line := randomLine(r, m.Place)
		lines, wanted = append(lines, line), append(wanted, m.Answer(line))
	}
	server := exec.Command(regd, "plain", "--domain", "ex.org")
	server.Stdin = strings.NewReader(strings.Join(lines, "\n") + "\n")
	out, err := server.Output()
	if err != nil {
		t.Fatal(err)
	}
	answers := bufio.NewScanner(strings.NewReader(string(out)))
	answers.Buffer(nil, 1<<24)
	results := map[any]int{}
	for i := range lines {
		if !answers.Scan() {
			t.Fatalf("only %d answers", i)
		}
		got, want := value(t, answers.Text()), value(t, wanted[i])
		if !reflect.DeepEqual(got, want) {
			t.Fatalf("%s\nregd:  %s\nmodel: %s", lines[i], answers.Text(), wanted[i])
		}
		results[got["result"]]++
	}
	t.Logf("%d answers equal: %v", count, results)
}

// TestNewerOperations checks the operations that an older server lacks.
func TestNewerOperations(t *testing.T) {
	m := New("ex.org")
	for _, one := range []struct{ op, want string }{
		{`{"op":"counts"}`, `{"counts":{"agents":0,"bundles":0,"entries":0,"tokens":0}}`},
		{`{"op":"expect_agent","agent":"a"}`, `{"expected":true}`},
		{`{"op":"expect_agent","agent":"a","selectors":[]}`, "O10"},
		{`{"op":"set_agent","agent":"a","selectors":["x:1","x:2"]}`, `committed`},
		{`{"op":"set_agent","agent":"b","selectors":[]}`, `committed`},
		{`{"op":"expect_agent","agent":"a","selectors":["x:2","x:1"]}`, `{"expected":true}`},
		{`{"op":"expect_agent","agent":"a","selectors":["x:2"]}`, `O10`},
		{`{"op":"expect_agent","agent":"a","selectors":null}`, `O10`},
		{`{"op":"expect_agent","agent":"b","selectors":[]}`, `{"expected":true}`},
		{`{"op":"expect_bundle","domain":"b.org"}`, `{"expected":true}`},
		{`{"op":"set_bundle","domain":"b.org","text":"x"}`, `committed`},
		{`{"op":"expect_bundle","domain":"b.org","sequence":0}`, `{"expected":true}`},
		{`{"op":"expect_bundle","domain":"b.org","sequence":1}`, "O10"},
		{`{"op":"expect_bundle","domain":"b.org"}`, "O10"},
		{`{"op":"agents","size":1}`, `{"agents":[{"id":"a","selectors":["x:1","x:2"]}],"next":"a"}`},
		{`{"op":"agents","size":1,"from":"a"}`, `{"agents":[{"id":"b","selectors":[]}],"next":null}`},
		{`{"op":"bundles","size":1}`, `{"bundles":[{"domain":"b.org","sequence":0}],"next":null}`},
	} {
		if got := m.Answer(`{"ops":[` + one.op + `]}`); !strings.Contains(got, one.want) {
			t.Errorf("%s: %s", one.op, got)
		}
	}
	m.IsOld = true
	if got := m.Answer(`{"ops":[{"op":"counts"}]}`); got != `{"code":"L5","field":"op","line":1,"op":0}` {
		t.Error(got)
	}
}
