package logline

import (
	"errors"
	"testing"
	"time"
)

func TestFormat(t *testing.T) {
	now := time.Date(2001, 2, 3, 4, 5, 6, 7e6, time.UTC)
	for _, c := range []struct {
		event string
		pairs []any
		want  string
	}{
		{"ready", nil, `event="ready"`},
		{"replica ready", []any{"entry", uint64(7), "seconds", 0.5},
			`event="replica ready" entry="7" seconds="0.5"`},
		{"failed", []any{"error", errors.New("a\nb")}, `event="failed" error="a\nb"`},
		{"failed", []any{"text", ""}, `event="failed" text=""`},
	} {
		want := "time=2001-02-03T04:05:06.007Z level=info " + c.want + "\n"
		if got := format(now, "info", c.event, c.pairs); got != want {
			t.Errorf("got %q, want %q", got, want)
		}
	}
}

// TestRare checks that a rare event is logged, and not again within a minute.
func TestRare(t *testing.T) {
	var r Rare
	for _, c := range []struct {
		now  time.Duration
		want bool
	}{{0, true}, {0, false}, {59 * time.Second, false}, {time.Minute, true}, {61 * time.Second, false},
		{time.Hour, true}} {
		if got := r.isDue(c.now); got != c.want {
			t.Errorf("after %v: got %v", c.now, got)
		}
	}
}
