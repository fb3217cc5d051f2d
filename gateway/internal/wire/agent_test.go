package wire

import (
	"strings"
	"testing"
)

const (
	n1  = "spiffe://ex.org/spire/agent/n1"
	n2  = "spiffe://ex.org/spire/agent/n2"
	web = `{"ops":[{"op":"authorised","agent":"spiffe://ex.org/spire/agent/n1"}]}`
)

func TestForAgent(t *testing.T) {
	about := func(op, agent string) string { return `{"op":"` + op + `","agent":"` + agent + `"}` }
	for _, c := range []struct{ name, line, want string }{ // want is the line, or a code
		{"authorised", web, web},
		{"trust", `{"ops":[` + about("trust", n1) + `]}`, `{"ops":[{"op":"trust","agent":"` + n1 + `"}]}`},
		{"both, and after",
			`{ "ops" : [` + about("trust", n1) + "," + about("authorised", n1) + `], "after" : 7 }`,
			`{"after":7,"ops":[{"op":"trust","agent":"` + n1 + `"},{"op":"authorised","agent":"` +
				n1 + `"}]}`},
		{"escapes", `{"ops":[{"op":"\u0061uthorised","agent":"` + n1 + `"}]}`, web},
		{"four queries", `{"ops":[` + strings.Repeat(about("trust", n1)+",", 3) + about("trust", n1) + `]}`,
			`{"ops":[` + strings.Repeat(`{"op":"trust","agent":"`+n1+`"},`, 3) + `{"op":"trust","agent":"` +
				n1 + `"}]}`},
		{"five queries", `{"ops":[` + strings.Repeat(about("trust", n1)+",", 4) + about("trust", n1) +
			`]}`, "G1"},
		{"about another", `{"ops":[` + about("authorised", n2) + `]}`, "G1"},
		{"one about another", `{"ops":[` + about("authorised", n1) + "," + about("trust", n2) + `]}`, "G1"},
		{"another query", `{"ops":[` + about("show_agent", n1) + `]}`, "G1"},
		{"a change", `{"ops":[` + about("drop_agent", n1) + `]}`, "G1"},
		{"two values of op, the last one a change",
			`{"ops":[{"op":"authorised","op":"drop_agent","agent":"` + n1 + `"}]}`, "G1"},
		{"two lists, the last one a change",
			`{"ops":[` + about("authorised", n1) + `],"ops":[` + about("drop_agent", n1) + `]}`, "G1"},
		{"keys in capitals", `{"ops":[{"op":"authorised","agent":"` + n1 + `","AGENT":"` + n2 + `"}]}`, "G1"},
		{"keys in capitals, the other way",
			`{"ops":[{"op":"authorised","agent":"` + n2 + `","Agent":"` + n1 + `"}]}`, web},
		{"a second object", web + " " + web, "G1"},
		{"a broken second object", web + "}", "G1"},
		{"a token", `{"ops":[` + about("authorised", n1) +
			`],"token":"00000000-0000-0000-0000-000000000009"}`, "G1"},
		{"an unknown key of an operation", `{"ops":[{"op":"trust","agent":"` + n1 + `","id":1}]}`, "G1"},
		{"after with a fraction", `{"ops":[` + about("trust", n1) + `],"after":1.5}`, "G1"},
		{"no operation", `{"ops":[]}`, "G1"},
		{"no list", `{}`, "G1"},
		{"not an object", `7`, "G1"},
		{"not JSON", `{`, "G1"},
		{"nothing", ``, "G1"},
	} {
		line, code := ForAgent(n1, []byte(c.line))
		if got := string(line) + code; got != c.want {
			t.Errorf("%s: got %s, want %s", c.name, got, c.want)
		}
	}
}

func TestForNobody(t *testing.T) {
	for _, line := range []string{web, `{"ops":[{"op":"authorised","agent":""}]}`,
		`{"ops":[{"op":"authorised"}]}`} {
		if query, code := ForAgent("", []byte(line)); query != nil || code != NotAllowed {
			t.Errorf("%s: got %s", line, query)
		}
	}
}

// TestForStrangeAgent checks that a line is refused if the agent's name makes it one for the log.
func TestForStrangeAgent(t *testing.T) {
	const strange = "spiffe://ex.org/spire/agent/a&b"
	if line, code := ForAgent(strange, []byte(strings.ReplaceAll(web, n1, strange))); code != NotAllowed {
		t.Errorf("got %s", line)
	}
}

// FuzzForAgent checks that no line makes the gateway send anything for an agent but queries about itself.
func FuzzForAgent(f *testing.F) {
	for _, seed := range []string{web, `{"ops":[{"op":"authorised","agent":"` + n1 + `","Op":"trust"}],"after":3}`,
		`{"ops":[],"ops":[{"op":"drop_agent"}]}`} {
		f.Add([]byte(seed))
	}
	f.Fuzz(func(t *testing.T, line []byte) {
		query, code := ForAgent(n1, line)
		if code == NotAllowed && query == nil {
			return
		}
		text := string(query)
		for _, op := range []string{"authorised", "trust"} {
			text = strings.ReplaceAll(text, `{"op":"`+op+`","agent":"`+n1+`"}`, "")
		}
		text = strings.TrimLeft(strings.TrimPrefix(text, `{"after":`), "0123456789")
		text = strings.ReplaceAll(strings.TrimLeft(strings.TrimPrefix(text, `{`), ","), ",", "")
		if text != `"ops":[]}` {
			t.Fatalf("%q became %q", line, query)
		}
	})
}
