package client

import (
	"encoding/json"
	"errors"
	"fmt"
	"strings"
	"testing"

	"regd/gateway/book"
)

// A library is a fake server with a book that changes as a test says.
type library struct {
	place   uint64
	isOld   bool // it doesn't know the operations agents, bundles and counts
	entries []book.Entry
	agents  []book.Agent
	bundles []book.Bundle
	// meanwhile is called before each line.
	meanwhile func(l *library, number int)
	gone      int  // how many of the next pages with `at` are too old
	listings  int  // the most pages of a line; 0 for any number
	isReal    bool // pages have as many rows as they are asked for, and not two
	drops     int  // how many of the next lines with `at` end the connection
}

func (l *library) answer(number int, line string) string {
	if l.meanwhile != nil {
		l.meanwhile(l, number)
	}
	var request struct{ Ops []Op }
	if err := json.Unmarshal([]byte(line), &request); err != nil {
		return `{"code":"L2","line":1}`
	}
	if l.listings > 0 && strings.Count(line, `"op":"page"`) > l.listings {
		return `{"code":"G2","line":1}`
	}
	var replies []any
	for i, op := range request.Ops {
		if op["at"] != nil && l.drops > 0 {
			l.drops--
			return drop
		}
		if op["at"] != nil && l.gone > 0 {
			l.gone--
			return fmt.Sprintf(`{"call":1,"code":"O8","op":0,"place":%d,"result":"refused"}`, l.place)
		}
		if l.isOld && (op.Name() == "agents" || op.Name() == "bundles" || op.Name() == "counts") {
			return fmt.Sprintf(`{"code":"L5","field":"op","line":1,"op":%d}`, i)
		}
		replies = append(replies, l.reply(op))
	}
	text, err := json.Marshal(replies)
	if err != nil {
		return drop
	}
	return fmt.Sprintf(`{"call":1,"place":%d,"replies":%s,"result":"answered"}`, l.place, text)
}

// pageOf returns two rows from the one after `from` on, and the key of the last one if there are more.
func pageOf[T any](rows []T, key func(T) string, from any) (page []T, next any) {
	return pageWith(2, rows, key, from)
}

// pageWith does the same for another number of rows.
func pageWith[T any](most int, rows []T, key func(T) string, from any) (page []T, next any) {
	page = []T{}
	for _, row := range rows {
		if after, _ := from.(string); key(row) <= after {
			continue
		}
		if len(page) == most {
			return page, key(page[most-1])
		}
		page = append(page, row)
	}
	return page, nil
}

func (l *library) reply(op Op) any {
	switch op.Name() {
	case "page":
		most := 2
		if size, isNumber := op["size"].(float64); isNumber && l.isReal {
			most = int(size)
		}
		page, next := pageWith(most, l.entries, func(e book.Entry) string { return e.ID }, op["from"])
		return map[string]any{"entries": page, "next": next}
	case "agents":
		page, next := pageOf(l.agents, func(a book.Agent) string { return a.ID }, op["from"])
		return map[string]any{"agents": page, "next": next}
	case "bundles":
		page, next := pageOf(l.bundles, func(b book.Bundle) string { return b.Domain }, op["from"])
		return map[string]any{"bundles": page, "next": next}
	case "counts":
		return map[string]any{"counts": Sizes{Entries: uint64(len(l.entries)), Tokens: 9}}
	case "show_agent":
		for _, a := range l.agents {
			if a.ID == op["agent"] {
				return map[string]any{"agent": a}
			}
		}
		return map[string]any{"agent": nil}
	case "show_bundle":
		for _, b := range l.bundles {
			if b.Domain == op["domain"] {
				return map[string]any{"bundle": book.Bundle{Domain: b.Domain,
					Text: "text of " + b.Domain}}
			}
		}
	}
	return map[string]any{"bundle": nil}
}

// newLibrary has five entries below two agents, a third agent, and a bundle that no entry names.
func newLibrary() *library {
	l := &library{place: 5}
	for i := 1; i <= 5; i++ {
		e := book.Entry{ID: fmt.Sprintf("e%d", i), Identity: "spiffe://ex.org/w", Selectors: []string{"u:1"},
			Parent: fmt.Sprintf("spiffe://ex.org/spire/agent/a%d", i%2)}
		if i == 3 {
			e.Domains = []string{"b.org"}
		}
		l.entries = append(l.entries, e)
	}
	for i := 0; i < 3; i++ {
		l.agents = append(l.agents, book.Agent{ID: fmt.Sprintf("spiffe://ex.org/spire/agent/a%d", i),
			Selectors: []string{"x:1"}})
	}
	l.bundles = []book.Bundle{{Domain: "b.org"}, {Domain: "c.org"}}
	return l
}

func summary(b *book.Book) string {
	var agents, bundles []string
	for _, a := range b.Agents {
		agents = append(agents, a.ID[len("spiffe://ex.org/spire/agent/"):])
	}
	for _, one := range b.Bundles {
		bundles = append(bundles, strings.TrimSpace(one.Domain+" "+one.Text))
	}
	return fmt.Sprintf("%s %d %d: %d entries, agents %v %v, bundles %v %v", b.Domain, b.Place, b.Last,
		len(b.Entries),
		agents,
		b.AllAgents, bundles, b.AllBundles)
}

const wholeCopy = "ex.org 5 5: 5 entries, agents [a0 a1 a2] true, bundles [b.org text of b.org c.org text of c.org] " +
	"true"

// TestReadBook reads copies of books that stay, that move, and whose server restarts.
func TestReadBook(t *testing.T) {
	all := Reading{Domain: "ex.org", Agents: true, Bundles: true, Texts: true}
	moveOnce := func(l *library, number int) {
		if number == 4 {
			l.place = 6
		}
	}
	for _, one := range []struct {
		what   string
		change func(l *library, r *Reading)
		want   string
	}{
		{"all", func(*library, *Reading) {}, wholeCopy},
		{"without a domain", func(_ *library, r *Reading) { r.Domain = "" }, wholeCopy},
		{"bundles by their domains", func(l *library, r *Reading) {
			l.isOld, r.Domains = true, []string{"c.org", "d.org"}
		},
			"ex.org 5 5: 5 entries, agents [a0 a1] false, bundles [b.org text of b.org c.org text of " +
				"c.org] false"},
		{"without texts", func(_ *library, r *Reading) { r.Texts = false },
			"ex.org 5 5: 5 entries, agents [a0 a1 a2] true, bundles [b.org c.org] true"},
		{"entries alone", func(_ *library, r *Reading) {
			*r = Reading{}
		}, "ex.org 5 5: 5 entries, agents [] false, bundles [] false"},
		{"an old server", func(l *library, _ *Reading) { l.isOld = true },
			"ex.org 5 5: 5 entries, agents [a0 a1] false, bundles [b.org text of b.org] false"},
		{"with names", func(l *library, r *Reading) {
			l.isOld, r.Names = true,
				[]string{"spiffe://ex.org/spire/agent/a2"}
		},
			"ex.org 5 5: 5 entries, agents [a0 a1 a2] false, bundles [b.org text of b.org] false"},
		{"a page that is too old", func(l *library, _ *Reading) { l.gone = 2 }, wholeCopy},
		{"a lost connection", func(l *library, _ *Reading) { l.drops = 1 }, wholeCopy},
		{"a commit between", func(l *library, _ *Reading) { l.meanwhile = moveOnce },
			strings.Replace(wholeCopy, "5 5:", "6 6:", 1)},
	} {
		l, reading := newLibrary(), all
		one.change(l, &reading)
		f := serve(t, l.answer)
		c, ctx := calling(t, f.address)
		b, err := c.ReadBook(ctx, reading)
		if err != nil {
			t.Errorf("%s: %v", one.what, err)
		} else if got := summary(b); got != one.want {
			t.Errorf("%s: got  %s\nwant %s", one.what, got, one.want)
		}
	}
}

// TestReadMovingBook checks that a copy says so if others change the book all the time.
func TestReadMovingBook(t *testing.T) {
	l := newLibrary()
	l.meanwhile = func(l *library, _ int) { l.place++ }
	f := serve(t, l.answer)
	c, ctx := calling(t, f.address)
	b, err := c.ReadBook(ctx, Reading{Agents: true})
	if err != nil || b.Last <= b.Place {
		t.Fatalf("got %v, %v", b, err)
	}
	if count := len(f.received()); count > 50 {
		t.Errorf("%d lines", count)
	}
}

// TestReadTogether checks that a book whose pages with `at` are always too old is read by one line, and what makes that
// line incomplete.
func TestReadTogether(t *testing.T) {
	l := newLibrary()
	l.gone = 1000
	l.meanwhile = func(l *library, _ int) { l.place++ }
	f := serve(t, l.answer)
	c, ctx := calling(t, f.address)
	b, err := c.ReadBook(ctx, Reading{})
	if err != nil || len(b.Entries) != 5 || b.Entries[4].ID != "e5" || b.Place != l.place {
		t.Errorf("got %v, %v", b, err)
	}
	lines := f.received()
	if last := lines[len(lines)-1]; strings.Count(last, `"op":"page"`) != 3 || strings.Contains(last, `"at":`) {
		t.Errorf("the last line is %s", last)
	}
	l = newLibrary()
	l.gone = 1000
	l.meanwhile = func(l *library, number int) { // a new entry in the first page
		l.entries = append([]book.Entry{{ID: fmt.Sprintf("d%d", 1000-number), Selectors: []string{"u:1"}}},
			l.entries...)
	}
	f = serve(t, l.answer)
	c, ctx = calling(t, f.address)
	if _, err := c.ReadBook(ctx, Reading{}); err == nil || !strings.Contains(err.Error(), "faster") {
		t.Errorf("got %v", err)
	}
}

// TestPagesAreCounted checks what is said of a reading that takes long.
func TestPagesAreCounted(t *testing.T) {
	f := serve(t, newLibrary().answer)
	c, ctx := calling(t, f.address)
	var counts []int
	c.options.Read = func(entries int) { counts = append(counts, entries) }
	if _, err := c.ReadBook(ctx, Reading{}); err != nil || fmt.Sprint(counts) != "[4 5]" {
		t.Errorf("got %v, %v", counts, err)
	}
}

// TestReadThroughGateway reads a book that changes fast through a gateway, which accepts only few pages in a line: by
// one line if these are enough, and otherwise page by page.
func TestReadThroughGateway(t *testing.T) {
	for _, one := range []struct {
		entries, gone int
		isRead        bool
	}{{6000, 1000, true}, {9000, 2, true}, {9000, 1000, false}} {
		l := &library{place: 5, isReal: true, listings: fewPages, gone: one.gone}
		for i := 0; i < one.entries; i++ {
			l.entries = append(l.entries,
				book.Entry{ID: fmt.Sprintf("e%05d", i), Selectors: []string{"u:1"}})
		}
		f := serve(t, l.answer)
		c, ctx := calling(t, f.address)
		b, err := c.ReadBook(ctx, Reading{})
		if one.isRead && (err != nil || len(b.Entries) != one.entries || b.Entries[one.entries-1].ID !=
			l.entries[one.entries-1].ID) || !one.isRead && !errors.Is(err, errMoved) {
			t.Errorf("%v: %v", one, err)
		}
	}
}

// TestJoined joins pages that overlap, that don't reach the next one, and of which the last one is not the end.
func TestJoined(t *testing.T) {
	reply := func(next string, ids ...string) (r Reply) {
		for _, id := range ids {
			r.Entries = append(r.Entries, book.Entry{ID: id})
		}
		if next != "" {
			r.Next = &next
		}
		return r
	}
	for _, one := range []struct {
		what    string
		pages   []Reply
		isWhole bool
		count   int
	}{
		{"side by side", []Reply{reply("b", "a", "b"), reply("", "c")}, true, 3},
		{"overlapping", []Reply{reply("c", "a", "c"), reply("", "c", "d")}, true, 3},
		{"a gap", []Reply{reply("aa", "a", "aa"), reply("", "c")}, false, 0},
		{"more behind the last one", []Reply{reply("b", "a", "b"), reply("d", "c", "d")}, false, 0},
	} {
		found, isWhole := joined(one.pages, []string{"", "b"})
		if isWhole != one.isWhole || len(found) != one.count {
			t.Errorf("%s: got %d, %v", one.what, len(found), isWhole)
		}
	}
}

// TestLostWhileReading checks that a reading begins again when its connection is lost, since another server may answer
// then.
func TestLostWhileReading(t *testing.T) {
	l := newLibrary()
	l.drops = 1
	f := serve(t, l.answer)
	c, ctx := calling(t, f.address)
	if b, err := c.ReadBook(ctx, Reading{}); err != nil || len(b.Entries) != 5 {
		t.Fatalf("got %v, %v", b, err)
	}
	first := 0
	for _, line := range f.received() {
		if !strings.Contains(line, `"at":`) {
			first++
		}
	}
	if first != 2 {
		t.Errorf("begun %d times: %q", first, f.received())
	}
}

// TestReadPages checks the lines by which a book is read.
func TestReadPages(t *testing.T) {
	l := newLibrary()
	f := serve(t, l.answer)
	c, ctx := calling(t, f.address)
	if _, _, err := c.Entries(ctx, Filter{Identity: "i", Selectors: []string{"u:1"}, Match: "any"}); err != nil {
		t.Fatal(err)
	}
	filter := `"identity":"i","match":"any","op":"page","selectors":["u:1"],"size":500}]`
	want := []string{`{"ops":[{` + filter + `}`, `{"ops":[{"at":5,"from":"e2",` + filter + `,"after":5}`,
		`{"ops":[{"at":5,"from":"e4",` + filter + `,"after":5}`}
	if got := f.received(); strings.Join(got, "\n") != strings.Join(want, "\n") {
		t.Errorf("got  %s\nwant %s", strings.Join(got, "\n"), strings.Join(want, "\n"))
	}
}

// TestCounts checks that the server counts, or an older one's entries are read.
func TestCounts(t *testing.T) {
	for _, isOld := range []bool{false, true} {
		l := newLibrary()
		l.isOld = isOld
		f := serve(t, l.answer)
		c, ctx := calling(t, f.address)
		sizes, isKnown, err := c.Counts(ctx)
		if err != nil || isKnown == isOld || isKnown && sizes.Tokens != 9 {
			t.Errorf("got %v, %v, %v", sizes, isKnown, err)
		}
		count, place, err := c.CountEntries(ctx)
		if err != nil || count != 5 || place != 5 {
			t.Errorf("got %d at %d, %v", count, place, err)
		}
	}
}

// TestExpects checks that O10 shows a server that knows the operation, and L5 one that doesn't.
func TestExpects(t *testing.T) {
	for answer, want := range map[string]bool{refusal("O10"): true,
		answered: true, `{"code":"L5","field":"op","line":1,"op":0}`: false} {
		f := serve(t, answers(answer))
		c, ctx := calling(t, f.address)
		for i := 0; i < 2; i++ {
			if isKnown, err := c.Expects(ctx, ExpectAgent("a", nil)); err != nil || isKnown != want {
				t.Errorf("%s: got %v, %v", answer, isKnown, err)
			}
		}
		if count := len(f.received()); !want && count != 1 {
			t.Errorf("asked %d times", count)
		}
	}
}

// TestManyNames checks that a line has at most 64 operations.
func TestManyNames(t *testing.T) {
	l := newLibrary()
	l.isOld = true
	f := serve(t, l.answer)
	c, ctx := calling(t, f.address)
	var names []string
	for i := 0; i < 200; i++ {
		names = append(names, fmt.Sprintf("spiffe://ex.org/spire/agent/n%03d", i))
	}
	if _, err := c.ReadBook(ctx, Reading{Agents: true, Names: names}); err != nil {
		t.Fatal(err)
	}
	sum := 0
	for _, line := range f.received() {
		count := strings.Count(line, `"op":`)
		if count > 64 {
			t.Errorf("%d operations", count)
		}
		sum += strings.Count(line, `"show_agent"`)
	}
	if sum != 202 {
		t.Errorf("%d agents", sum)
	}
}

// TestEntriesAt reads all pages of a former book, each with its commit number, and names a book that is too old.
func TestEntriesAt(t *testing.T) {
	l := newLibrary()
	server := serve(t, l.answer)
	c, ctx := calling(t, server.address)
	entries, err := c.EntriesAt(ctx, 3, Filter{Identity: "spiffe://ex.org/w"})
	if err != nil || len(entries) != 5 || len(server.received()) != 3 {
		t.Errorf("%d entries, %v", len(entries), err)
	}
	for i, line := range server.received() {
		op := keys(t, line)["ops"].([]any)[0].(map[string]any)
		if op["at"] != 3.0 || op["identity"] != "spiffe://ex.org/w" || (op["from"] == nil) != (i == 0) {
			t.Errorf("%s", line)
		}
	}
	l.gone = 1
	var refused *Refused
	if _, err := c.EntriesAt(ctx, 3, Filter{}); !errors.As(err, &refused) || refused.Answer.Code != "O8" {
		t.Errorf("%v", err)
	}
}
