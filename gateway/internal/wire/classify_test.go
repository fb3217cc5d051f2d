package wire

import "testing"

func TestMayChange(t *testing.T) {
	for _, c := range []struct {
		line string
		want bool
	}{
		{`{"ops":[{"op":"show","id":"00000000-0000-0000-0000-000000000001"}]}`, false},
		{`{"ops":[{"op":"authorised","agent":"spiffe://ex.org/spire/agent/create"}]}`, false},
		{`{"ops":[{"op":"page","size":1,"at":3}],"after":3}`, false},
		{`{"ops":[{"op":"show_agent","agent":"a"},{"op":"show_bundle","domain":"b"},` +
			`{"op":"children","parent":"c"},{"op":"trust","agent":"d"}]}`, false},
		{``, false},
		{`{"ops":[{"op":"create"`, true},
		{`{"ops":[{"op":"update"}]}`, true},
		{`{"ops":[{"op":"delete"}]}`, true},
		{`{"ops":[{"op":"prune","before":1}]}`, true},
		{`{"ops":[{"op":"set_agent"}]}`, true},
		{`{"ops":[{"op":"drop_agent"}]}`, true},
		{`{"ops":[{"op":"set_bundle"}]}`, true},
		{`{"ops":[{"op":"drop_bundle"}]}`, true},
		{`{"ops":[{"op":"pr\u0075ne","before":1}]}`, true},
		{`{"ops":[{"op" : "prune" ,"before":1}]}`, true},
		{`{"ops":[{"op":"show","id":"prune"}]}`, true},
		{`{"ops":[{"op":"show","hint":"\""}]}`, true},
	} {
		if got := MayChange([]byte(c.line)); got != c.want {
			t.Errorf("%s: got %v, want %v", c.line, got, c.want)
		}
	}
}
