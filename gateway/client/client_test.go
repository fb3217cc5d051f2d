package client

import (
	"context"
	"errors"
	"fmt"
	"net"
	"strings"
	"testing"
	"time"

	"regd/gateway/book"
	"regd/gateway/internal/wire"
)

var someAgent = book.Agent{ID: "spiffe://ex.org/spire/agent/a"}

// TestChangeLine checks what a change sends: a token, tries, the ids of creates, and the commit number that was seen.
func TestChangeLine(t *testing.T) {
	f := serve(t, answers(committed))
	c, ctx := calling(t, f.address)
	e := book.Entry{Parent: "spiffe://ex.org/p", Identity: "spiffe://ex.org/i", Selectors: []string{"a:<&>"}}
	for i := 0; i < 2; i++ {
		if answer, err := c.Change(ctx, Create(e), SetAgent(someAgent)); err != nil || answer.Place != 7 {
			t.Fatalf("got %v, %v", answer, err)
		}
	}
	lines := f.received()
	first, second := keys(t, lines[0]), keys(t, lines[1])
	if first["tries"] != 16.0 || len(first["token"].(string)) != 36 || first["token"] == second["token"] {
		t.Errorf("tokens: %s", lines)
	}
	create := first["ops"].([]any)[0].(map[string]any)
	if id, _ := create["id"].(string); len(id) != 36 {
		t.Errorf("no id: %s", lines[0])
	}
	if first["after"] != nil || second["after"] != 7.0 || c.Place() != 7 {
		t.Errorf("after: %s", lines)
	}
	if strings.ContainsRune(lines[0], '\\') {
		t.Errorf("an escape in %s", lines[0])
	}
	agent := first["ops"].([]any)[1].(map[string]any)
	if selectors, isList := agent["selectors"].([]any); !isList || len(selectors) != 0 {
		t.Errorf("no empty list: %s", lines[0])
	}
}

// TestAskLine checks that a query has no token, and that its answer is no older than what was seen.
func TestAskLine(t *testing.T) {
	f := serve(t, answers(answered))
	c, ctx := calling(t, f.address)
	c.Follow(3)
	if _, err := c.Ask(ctx, Show("x")); err != nil {
		t.Fatal(err)
	}
	if line := f.received()[0]; line != `{"ops":[{"id":"x","op":"show"}],"after":3}` {
		t.Errorf("got %s", line)
	}
}

// TestLostAnswer checks that the same line is sent again after a lost connection, with the same token.
func TestLostAnswer(t *testing.T) {
	f := serve(t, answers(drop, drop, repeated))
	c, ctx := calling(t, f.address)
	answer, err := c.Change(ctx, SetAgent(someAgent))
	if err != nil || answer.Result != "repeated" {
		t.Fatalf("got %v, %v", answer, err)
	}
	if lines := f.received(); len(lines) != 3 || lines[0] != lines[1] || lines[1] != lines[2] {
		t.Errorf("got %q", lines)
	}
}

// TestTransientAnswers checks which answers are not final.
func TestTransientAnswers(t *testing.T) {
	transient := []string{refusal("W1"), `{"call":1,"place":7,"result":"conflict"}`}
	for _, code := range []string{"L6", "L8", "G5", "G8", "G9"} {
		transient = append(transient, fmt.Sprintf(`{"code":"%s","line":1}`, code))
	}
	for _, first := range transient {
		f := serve(t, answers(first, first, committed))
		c, ctx := calling(t, f.address)
		if _, err := c.Change(ctx, SetAgent(someAgent)); err != nil || len(f.received()) != 3 {
			t.Errorf("%s: got %v after %d lines", first, err, len(f.received()))
		}
	}
}

// TestFinalAnswers checks that other refusals are not sent again.
func TestFinalAnswers(t *testing.T) {
	for _, code := range []string{"O1", "O2", "O9", "W3", "L5", "B3", "G1", "G2", "G7", "L7", "Z9"} {
		f := serve(t, answers(refusal(code)))
		c, ctx := calling(t, f.address)
		_, err := c.Change(ctx, SetAgent(someAgent))
		var refused *Refused
		if !errors.As(err, &refused) || refused.Answer.Code != code || refused.IsCopied ||
			len(f.received()) != 1 {
			t.Errorf("%s: got %v after %d lines", code, err, len(f.received()))
		}
	}
}

// TestRefusedCopy checks that a refusal says whether a copy of the line may still be run.
func TestRefusedCopy(t *testing.T) {
	f := serve(t, answers(drop, refusal("O4")))
	c, ctx := calling(t, f.address)
	_, err := c.Change(ctx, SetAgent(someAgent))
	var refused *Refused
	if !errors.As(err, &refused) || !refused.IsCopied {
		t.Errorf("got %v", err)
	}
}

// TestNoAnswerAtAll checks what is known if no answer comes: nothing about a change that was sent, and that a query had
// no effect.
func TestNoAnswerAtAll(t *testing.T) {
	f := serve(t, answers(drop))
	c, _ := calling(t, f.address)
	short, cancel := context.WithTimeout(context.Background(), time.Second)
	defer cancel()
	_, err := c.Change(short, SetAgent(someAgent))
	var unknown *Unknown
	if !errors.As(err, &unknown) || string(unknown.Line) != f.received()[0] {
		t.Errorf("got %v", err)
	}
	short, cancel = context.WithTimeout(context.Background(), time.Second)
	defer cancel()
	_, err = c.Ask(short, Show("x"))
	var unreachable *Unreachable
	if !errors.As(err, &unreachable) {
		t.Errorf("got %v", err)
	}
}

// afterAnswers makes a context end when a client has read some answers, which is before its next pause.
func afterAnswers(c *Client, count int) context.Context {
	ctx, cancel := context.WithCancel(context.Background())
	c.options.Trace = func(isSent bool, _ []byte) {
		if isSent {
			return
		}
		if count--; count == 0 {
			cancel()
		}
	}
	return ctx
}

// TestEarlyForever checks that a line which was refused all the time, and never lost, is a refusal, and that the pauses
// between its copies grow.
func TestEarlyForever(t *testing.T) {
	f := serve(t, answers(refusal("W1")))
	c, _ := calling(t, f.address)
	begin := time.Now()
	_, err := c.Change(afterAnswers(c, 8), SetAgent(someAgent))
	var refused *Refused
	if !errors.As(err, &refused) || refused.Answer.Code != "W1" || len(f.received()) != 8 {
		t.Errorf("got %v after %d lines", err, len(f.received()))
	}
	if took := time.Since(begin); took < 120*time.Millisecond {
		t.Errorf("8 lines in %s", took)
	}
}

// closedAddress returns an address at which nothing listens.
func closedAddress(t *testing.T) string {
	t.Helper()
	on, err := net.Listen("tcp", "127.0.0.1:0")
	if err != nil {
		t.Fatal(err)
	}
	defer on.Close()
	return on.Addr().String()
}

// TestNothingListens checks that a change which was never sent is known not to be made.
func TestNothingListens(t *testing.T) {
	c, _ := calling(t, closedAddress(t))
	short, cancel := context.WithTimeout(context.Background(), 600*time.Millisecond)
	defer cancel()
	_, err := c.Change(short, SetAgent(someAgent))
	var unreachable *Unreachable
	if !errors.As(err, &unreachable) {
		t.Errorf("got %v", err)
	}
}

// TestNextAddress checks that the next address is called if one doesn't answer, and that it is kept.
func TestNextAddress(t *testing.T) {
	f := serve(t, answers(committed, committed, drop, repeated))
	c, ctx := calling(t, closedAddress(t), f.address)
	for i := 0; i < 3; i++ {
		if _, err := c.Change(ctx, SetAgent(someAgent)); err != nil || c.Address() != f.address {
			t.Fatalf("got %v at %s", err, c.Address())
		}
	}
}

// TestBehind checks that a line goes to the next gateway if one is behind, or reads a damaged log.
func TestBehind(t *testing.T) {
	for _, code := range []string{"W1", "G8", "G9"} {
		behind, current := serve(t, answers(refusal(code))), serve(t, answers(answered))
		c, ctx := calling(t, behind.address, current.address)
		if _, err := c.Ask(ctx, Show("x")); err != nil || c.Address() != current.address ||
			len(behind.received()) != 1 {
			t.Errorf("%s: got %v at %s", code, err, c.Address())
		}
	}
}

// TestQueued checks that a connection without a first answer is given up, and that there is more time for the next one.
func TestQueued(t *testing.T) {
	f := serve(t, answers(silent, silent, committed))
	c, ctx := calling(t, f.address)
	c.options.First = 40 * time.Millisecond
	begin := time.Now()
	if _, err := c.Change(ctx, SetAgent(someAgent)); err != nil {
		t.Fatal(err)
	}
	if took := time.Since(begin); took < 120*time.Millisecond || took > 4*time.Second {
		t.Errorf("it took %s", took)
	}
	if c.late != 0 {
		t.Errorf("the time stays longer: %d", c.late)
	}
	for late, times := range map[int]time.Duration{0: 1, 1: 2, 2: 4, 6: 64, 7: 64} {
		if c.late = late; c.first() != times*c.options.First {
			t.Errorf("after %d connections without an answer: %v", late, c.first())
		}
	}
}

// TestSlowAnswer checks that a connection which has answered once may take longer than for a first answer.
func TestSlowAnswer(t *testing.T) {
	f := serve(t, func(number int, _ string) string {
		if number == 1 {
			time.Sleep(1200 * time.Millisecond)
		}
		return answered
	})
	c, ctx := calling(t, f.address)
	c.options.First = time.Second
	for i := 0; i < 2; i++ {
		if _, err := c.Ask(ctx, Show("x")); err != nil {
			t.Fatal(err)
		}
	}
	if len(f.received()) != 2 {
		t.Errorf("sent %d times", len(f.received()))
	}
}

// TestCallOnce checks that a line of the caller's own is sent as it is, and once.
func TestCallOnce(t *testing.T) {
	const line = `{"ops": [{"op":"set_agent","zz":1}] }`
	f := serve(t, answers(refusal("L6"), drop))
	c, ctx := calling(t, f.address)
	answer, err := c.Call(ctx, []byte(line))
	if err == nil || string(answer.Line) != refusal("L6") || f.received()[0] != line {
		t.Errorf("got %s, %v", answer.Line, err)
	}
	var unknown *Unknown
	if _, err = c.Call(ctx, []byte(line)); !errors.As(err, &unknown) || len(f.received()) != 2 {
		t.Errorf("got %v after %d lines", err, len(f.received()))
	}
	f = serve(t, answers(drop))
	c, ctx = calling(t, f.address)
	var unreachable *Unreachable
	if _, err = c.Call(ctx, []byte(`{"ops":[{"op":"show","id":"x"}]}`)); !errors.As(err, &unreachable) {
		t.Errorf("a query: got %v", err)
	}
}

// TestNoServer checks that what is no answer of a server is an error with its text, also if the time is over when no
// other answer has come.
func TestNoServer(t *testing.T) {
	for _, text := range []string{"HTTP/1.1 400 Bad Request", `{"a":1}`, `[]`} {
		c, _ := calling(t, serve(t, answers(text)).address)
		_, err := c.Ask(afterAnswers(c, 3), Show("x"))
		if err == nil || !strings.Contains(err.Error(), text) {
			t.Errorf("%s: got %v", text, err)
		}
		c, _ = calling(t, serve(t, answers(text, silent)).address)
		short, cancel := context.WithTimeout(context.Background(), time.Second)
		_, err = c.Ask(short, Show("x"))
		cancel()
		if err == nil || !strings.Contains(err.Error(), text) {
			t.Errorf("%s, then nothing: got %v", text, err)
		}
	}
}

// TestInterrupted checks that the end of the context ends a wait.
func TestInterrupted(t *testing.T) {
	f := serve(t, answers(answered, silent))
	c, ctx := calling(t, f.address)
	if _, err := c.Ask(ctx, Show("x")); err != nil {
		t.Fatal(err)
	}
	c.Close()
	cancelled, cancel := context.WithCancel(context.Background())
	c.options.First = time.Minute
	time.AfterFunc(100*time.Millisecond, cancel)
	begin := time.Now()
	if _, err := c.Ask(cancelled, Show("x")); err == nil || time.Since(begin) > 4*time.Second {
		t.Errorf("got %v after %s", err, time.Since(begin))
	}
}

// TestEndedBetween checks that the end of a context after an exchange doesn't end the connection, also if it comes
// before the goroutine that waits for it has begun.
func TestEndedBetween(t *testing.T) {
	near, far := net.Pipe()
	defer far.Close()
	c := &connection{stream: near}
	for i := 0; i < 100; i++ {
		ctx, cancel := context.WithCancel(context.Background())
		end := c.interruptible(ctx)
		end()
		cancel()
	}
	time.Sleep(50 * time.Millisecond)
	if err := near.SetDeadline(time.Now().Add(time.Second)); err != nil {
		t.Errorf("the connection has ended: %v", err)
	}
}

// TestHooks checks what a caller of the client sees of the lines.
func TestHooks(t *testing.T) {
	f := serve(t, answers(refusal("L6"), committed))
	var seen []string
	c := New(Options{Addresses: []string{f.address}, Trace: func(isSent bool, line []byte) {
		seen = append(seen, fmt.Sprint(isSent))
	}, Replied: func(line []byte) { seen = append(seen, string(line)) }})
	defer c.Close()
	ctx, cancel := context.WithTimeout(context.Background(), 5*time.Second)
	defer cancel()
	if _, err := c.Change(ctx, SetAgent(someAgent)); err != nil {
		t.Fatal(err)
	}
	if got := strings.Join(seen, " "); got != "true false true false "+committed {
		t.Errorf("got %s", got)
	}
}

// TestQueriesAreNoChanges checks that a gateway takes no query for a change, and that no change has over four queries
// with it, whatever characters are in their values.
func TestQueriesAreNoChanges(t *testing.T) {
	id, place := "spiffe://ex.org/a", uint64(7)
	filter := Filter{id, id, "b.org", []string{"k8s:label:a<b>&c"}, "any"}
	queries := []Op{Show(NewID()), ShowAgent(id), ShowBundle("b.org"), Children(id), Authorised(id), Trust(id),
		page(PageSize, NewID(), &place, filter), listing("agents", id, PageSize), Counts(),
		ExpectAgent(id, []string{"x:<1>"}), ExpectBundle("b.org", &place)}
	for _, op := range queries {
		line, err := Print(request{Ops: []Op{op}, After: 7})
		if err != nil || wire.MayChange(line) || wire.Listings(line) > 1 {
			t.Errorf("%s, %v", line, err)
		}
	}
	e := book.Entry{ID: NewID(), Parent: id, Identity: id, Selectors: []string{"u:1"}}
	for _, op := range []Op{Create(e), Update(e, &place), Delete(e.ID, &place), Prune(1), DropAgent(id),
		SetAgent(book.Agent{ID: id}), SetBundle("b.org", ""), DropBundle("b.org", "restrict")} {
		if line, err := Print(request{Ops: []Op{op}}); err != nil || !wire.MayChange(line) {
			t.Errorf("%s, %v", line, err)
		}
	}
}
