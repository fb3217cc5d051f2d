package replica

import (
	"fmt"
	"math/rand"
	"reflect"
	"strings"
	"testing"
	"time"

	"regd/gateway/internal/wire"
)

// timed returns an entry with a time in milliseconds, in which tokens are retained for a second.
func timed(number uint64, at int64, lines ...string) Entry {
	e := Entry{Number: number, Name: fmt.Sprint(number), Time: at, Keep: 1000}
	for _, line := range lines {
		e.Lines = append(e.Lines, []byte(line))
	}
	return e
}

// execute executes entries, all together, and returns the tails of the replies.
func execute(r *Replica, entries ...Entry) (tails []string) {
	for _, e := range entries {
		r.Apply(e, nil, func(_ int, reply []byte) { tails = append(tails, string(wire.Tail(reply))) })
	}
	r.Settle()
	return tails
}

// TestTokensAreRetainedByTime checks that a token is retained for its time, by the times of entries, and not longer.
func TestTokensAreRetainedByTime(t *testing.T) {
	r, _ := start(t)
	for i, c := range []struct {
		at   int64
		line string
		want string
	}{
		{5000, tokened(1, 0), committed(1)},
		{5400, tokened(2, 0), committed(2)},
		{6000, tokened(1, 0), repeated(1)},
		{6001, tokened(1, 0), committed(3)},
		{6001, tokened(2, 0), repeated(2)},
		{6401, prune, committed(4)},
	} {
		if got := execute(r, timed(uint64(i+1), c.at, c.line))[0]; got != c.want {
			t.Errorf("%d: got %s, want %s", c.at, got, c.want)
		}
	}
	if kept := r.Tokens(); len(kept) != 1 || len(r.tokens) != 1 || kept[0].Time != 6001 {
		t.Errorf("got %v", kept)
	}
	table := Table{Tokens: 1, Bytes: r.Tokens()[0].size(), Age: 400 * time.Millisecond}
	if got := r.Table(); got != table || got.Bytes < tokenBytes+50 {
		t.Errorf("got %v, want %v", got, table)
	}
	usual := Entry{}
	if usual.keep() != 300_000 || usual.room() != 1<<30 {
		t.Errorf("usually tokens are retained for %d ms and up to %d bytes", usual.keep(), usual.room())
	}
}

// TestTokensUnderWay sends entries together of which one is much later than the one before, while that is executed: a
// token is forgotten as if the first one had ended before.
func TestTokensUnderWay(t *testing.T) {
	r, _ := start(t)
	slow := strings.Replace(tokened(1, 0), `"before"`, `"hint":"SLOW","before"`, 1)
	got := execute(r, timed(1, 5000, slow, tokened(2, 0)), timed(2, 9000, prune), timed(3, 9000, slow))
	want := []string{committed(1), committed(2), committed(3), committed(4)}
	if strings.Join(got, "\n") != strings.Join(want, "\n") || len(r.Tokens()) != 1 || len(r.tokens) != 1 {
		t.Errorf("got %q, %v", got, r.Tokens())
	}
}

// TestTokenRoom fills the room for tokens: changes with other tokens are refused, no token is forgotten before its
// time, and when some are forgotten, others are accepted.
func TestTokenRoom(t *testing.T) {
	r, _ := start(t)
	room := int64(2 * (tokenBytes + len(committed(1))))
	number := uint64(countInterval - 3)
	next := func(at int64, line string) string {
		number++
		e := timed(number, at, line)
		e.Room = room
		return execute(r, e)[0]
	}
	const full = `{"code":"G5"`
	for i, c := range []struct {
		at   int64
		line string
		want string
	}{
		{5000, tokened(1, 0), committed(1)},
		{5001, tokened(2, 0), committed(2)}, // it is not yet counted
		{5002, tokened(3, 0), full},
		{5003, tokened(1, 0), repeated(1)},
		{5004, prune, committed(3)},
		{6000, tokened(3, 0), full},
		{6001, tokened(3, 0), committed(4)}, // the first one is forgotten
		{6001, tokened(4, 0), full},
		{6001, tokened(2, 0), repeated(2)},
		{9000, tokened(4, 0), committed(5)},
	} {
		if got := next(c.at, c.line); got != c.want {
			t.Errorf("%d: got %s, want %s", i, got, c.want)
		}
	}
	if r.State().IsFull || !r.HasNewToken([]byte(tokened(1, 0))) || r.HasNewToken([]byte(tokened(4, 0))) ||
		r.HasNewToken([]byte(prune)) {
		t.Errorf("got %v", r.State())
	}
}

// TestRefusalWaits checks that a change without room for its token is refused after the lines before it are answered.
func TestRefusalWaits(t *testing.T) {
	r, _ := start(t)
	narrow := func(number uint64, lines ...string) Entry {
		e := timed(number, 5000, lines...)
		e.Room = 1
		return e
	}
	execute(r, narrow(1, tokened(1, 0)), narrow(countInterval, prune))
	got := execute(r, narrow(countInterval+1, `{"ops":[{"op":"prune","hint":"SLOW"}]}`, tokened(2, 0)))
	if len(got) != 2 || got[0] != committed(3) || got[1] != `{"code":"G5"` || r.State().Entry != countInterval+1 {
		t.Errorf("got %q", got)
	}
}

// randomEntries returns entries with tokens that come again, at times that leap, in which there is little room.
func randomEntries(random *rand.Rand, count int) (entries []Entry) {
	at := int64(5000)
	for number := 1; number <= count; number++ {
		at += []int64{0, 0, 10, 100, 700, 3000}[random.Intn(6)]
		e := timed(uint64(number), at)
		e.Room = int64(4 * tokenBytes)
		for line := 0; line < 1+random.Intn(4); line++ {
			text := tokened(random.Intn(30), 0)
			if random.Intn(100) == 0 {
				text = strings.Replace(text, `"before"`, `"hint":"SLOW","before"`, 1)
			}
			e.Lines = append(e.Lines, []byte(text))
		}
		entries = append(entries, e)
	}
	return entries
}

// TestTokensAreAFunctionOfTheLog executes a log one entry at a time, all entries together, and from snapshots in
// between: the replies, the states and the tokens are the same.
func TestTokensAreAFunctionOfTheLog(t *testing.T) {
	entries := randomEntries(rand.New(rand.NewSource(1)), 200)
	first, _ := start(t)
	var want []string
	states, tokens := []State{{}}, [][]*Kept{{}}
	ends := []int{0} // how many replies there are after each entry
	for _, e := range entries {
		want = append(want, execute(first, e)...)
		states, tokens = append(states, first.State()), append(tokens, first.Tokens())
		ends = append(ends, len(want))
	}
	count := map[string]int{}
	for _, reply := range want {
		for _, word := range []string{`"committed"`, `"repeated"`, `"G5"`} {
			if strings.Contains(reply, word) {
				count[word]++
			}
		}
	}
	if count[`"committed"`] < 50 || count[`"repeated"`] < 20 || count[`"G5"`] < 20 {
		t.Errorf("the log has %v", count)
	}
	for _, from := range []int{0, 1, 17, 40, 63, 64, 65, 130, 199} {
		other, _ := start(t)
		if err := other.Restore(states[from], nil, tokens[from]); err != nil {
			t.Fatal(err)
		}
		got := execute(other, entries[from:]...)
		if strings.Join(got, "\n") != strings.Join(want[ends[from]:], "\n") {
			t.Errorf("from entry %d: other replies", from)
		}
		if other.State() != first.State() || !reflect.DeepEqual(other.Tokens(), first.Tokens()) {
			t.Errorf("from entry %d: got %v, want %v", from, other.State(), first.State())
		}
	}
}
