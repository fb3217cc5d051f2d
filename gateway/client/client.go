// Package client speaks to `regd serve` or to gateways: it sends request lines, sends them again where that is safe,
// and reads a copy of the book. docs/CTL.md says what it may promise.
//
// A change has a token and the ids of all its creates. So its line can be sent again after a lost answer, to any
// gateway of the same log, and is made at most once.
package client

import (
	"bufio"
	"bytes"
	"context"
	"encoding/json"
	"errors"
	"math/rand"
	"time"

	"regd/gateway/internal/wire"
)

// Options say which servers a client calls, and how.
type Options struct {
	// Addresses are servers or gateways of one book, at least one. A client calls the first one that answers.
	Addresses []string
	// Files are for TLS; without any the client speaks plain TCP.
	Files Files
	// First is the time for the first answer on a connection, which may wait for a worker that another connection
	// has. It doubles with each such connection.
	First time.Duration
	// Notice gets what a caller who waits wants to know. It may be nil.
	Notice func(text string)
	// Trace gets each line that is sent and each that is received. It may be nil.
	Trace func(isSent bool, line []byte)
	// Replied gets each answer that is final. It may be nil.
	Replied func(line []byte)
	// Committed gets each line that made changes, with its answer. It may be nil.
	Committed func(line []byte, answer Answer)
	// Read gets the number of entries that were read so far, after each page but the first one. It may be nil.
	Read func(entries int)
}

// Client calls servers. It opens a connection when it needs one. Use it from one goroutine.
type Client struct {
	options    Options
	caller     caller
	address    int // of options.Addresses
	connection *connection
	opened     int // how many connections were opened
	late       int // how many of them in a row had no answer in time
	place      uint64
	lacking    map[string]bool // names of operations that the server doesn't know
	isFew      bool            // a gateway has refused a line with many pages
}

// New returns a client. It doesn't connect yet.
func New(options Options) *Client {
	if options.First == 0 {
		options.First = 2 * time.Second
	}
	return &Client{options: options, caller: caller{files: options.Files}, lacking: map[string]bool{}}
}

// Place returns the highest commit number that the client has seen. No answer that it gets is from an older book.
func (c *Client) Place() uint64 { return c.place }

// Follow makes all later answers at least as new as this commit number.
func (c *Client) Follow(place uint64) {
	if place > c.place {
		c.place = place
	}
}

// Address returns the address that is called.
func (c *Client) Address() string { return c.options.Addresses[c.address] }

// Close ends the connection, which frees its worker for other callers.
func (c *Client) Close() {
	if c.connection != nil {
		c.connection.close()
		c.connection = nil
	}
}

// NewID returns a random UUID for an entry or a token.
func NewID() string { return wire.NewID() }

// Print returns a request as a line. No character is escaped that need not be: a gateway takes a line with a backslash
// for a change.
func Print(request any) ([]byte, error) {
	var out bytes.Buffer
	encoder := json.NewEncoder(&out)
	encoder.SetEscapeHTML(false)
	if err := encoder.Encode(request); err != nil {
		return nil, err
	}
	return bytes.TrimSuffix(out.Bytes(), []byte("\n")), nil
}

type request struct {
	Ops   []Op   `json:"ops"`
	After uint64 `json:"after,omitempty"`
	Token string `json:"token,omitempty"`
	Tries int    `json:"tries,omitempty"`
}

// Ask sends queries, and returns their answer. They have no effect, so they are sent again until they are answered.
func (c *Client) Ask(ctx context.Context, ops ...Op) (Answer, error) {
	line, err := Print(request{Ops: ops, After: c.place})
	if err != nil {
		return Answer{}, err
	}
	return c.settle(ctx, line, ops, false)
}

// Change makes changes, all or none of them, exactly once. Each create gets an id if it has none.
func (c *Client) Change(ctx context.Context, ops ...Op) (Answer, error) {
	return c.ChangeAs(ctx, NewID(), ops...)
}

// ChangeAs does the same under a given token.
func (c *Client) ChangeAs(ctx context.Context, token string, ops ...Op) (Answer, error) {
	for _, op := range ops {
		if op.Name() == "create" && (op["id"] == nil || op["id"] == "") {
			op["id"] = NewID()
		}
	}
	line, err := Print(request{Ops: ops, After: c.place, Token: token, Tries: 16})
	if err != nil {
		return Answer{}, err
	}
	return c.settle(ctx, line, ops, true)
}

// Try sends changes that the server has to refuse, without a token.
func (c *Client) Try(ctx context.Context, ops ...Op) (Answer, error) {
	line, err := Print(request{Ops: ops, After: c.place})
	if err != nil {
		return Answer{}, err
	}
	return c.settle(ctx, line, ops, false)
}

// Call sends a line once, as it is.
func (c *Client) Call(ctx context.Context, line []byte) (Answer, error) {
	text, isSent, err := c.exchange(ctx, line)
	switch {
	case err != nil && isSent && wire.MayChange(line):
		return Answer{}, &Unknown{line, err}
	case err != nil:
		return Answer{}, &Unreachable{err}
	}
	answer, err := readAnswer(text)
	if err != nil {
		return answer, err
	}
	if answer.Result == "conflict" {
		return answer, &Refused{Answer: answer}
	}
	return c.final(line, answer, nil, false)
}

// Repeat sends a line, as it is, until its answer is final. A line that changes something needs a token.
func (c *Client) Repeat(ctx context.Context, line []byte) (Answer, error) {
	return c.settle(ctx, line, nil, wire.MayChange(line))
}

// settle sends a line until its answer is final or the context ends.
func (c *Client) settle(ctx context.Context, line []byte, ops []Op, isChange bool) (Answer, error) {
	var t tries
	for begin := time.Now(); ; {
		text, isSent, err := c.exchange(ctx, line)
		var answer Answer
		if err == nil {
			answer, err = readAnswer(text)
		}
		if err == nil && !answer.isTransient() {
			return c.final(line, answer, ops, t.copies > 0)
		}
		if err != nil && t.err != nil && isOver(ctx) {
			err = t.err // an attempt that was cut short says less than the one before
		}
		t.note(answer, ops, isSent, err)
		if answer.Code == "W1" || answer.Code == "G8" || answer.Code == "G9" {
			c.next() // another gateway may have a newer book, or a log that verifies
		}
		if pause(ctx, t.count) != nil || t.permanent >= len(c.options.Addresses) {
			return c.given(&t, line, isChange)
		}
		if c.options.Notice != nil && time.Since(begin) > time.Second && t.count%4 == 0 {
			c.options.Notice("waiting for an answer: " + t.last())
		}
	}
}

// tries are what the attempts to send a line have shown.
type tries struct {
	count     int
	copies    int      // those of which the answer was lost
	permanent int      // the last ones in a row with an error that stays
	refused   *Refused // the last answer, if there was one
	err       error    // the last error, unless an answer came after it
}

func (t *tries) note(answer Answer, ops []Op, isSent bool, err error) {
	t.count++
	t.err = err
	switch {
	case err == nil:
		t.refused, t.permanent = &Refused{answer, ops, t.copies > 0}, 0
	case isSent:
		t.copies, t.permanent = t.copies+1, 0
	case isPermanent(err):
		t.permanent++
	}
}

// outcome returns the error of a line that got no final answer.
func (t *tries) outcome(line []byte, isChange bool) error {
	switch {
	case t.refused != nil && (t.copies == 0 || !isChange):
		return t.refused
	case t.copies > 0 && isChange:
		return &Unknown{line, errors.New(t.last())}
	}
	return &Unreachable{errors.New(t.last())}
}

// given returns what a line has that got no final answer.
func (c *Client) given(t *tries, line []byte, isChange bool) (Answer, error) {
	err := t.outcome(line, isChange)
	if refused, isRefused := err.(*Refused); isRefused {
		c.replied(refused.Answer)
		return refused.Answer, err
	}
	return Answer{}, err
}

// last returns what the last attempt has shown.
func (t *tries) last() string {
	if t.err != nil {
		return t.err.Error()
	}
	return string(t.refused.Answer.Line)
}

// final records what an answer shows.
func (c *Client) final(line []byte, answer Answer, ops []Op, isCopied bool) (Answer, error) {
	c.replied(answer)
	if answer.IsRefused() {
		return answer, &Refused{answer, ops, isCopied}
	}
	c.Follow(answer.Place)
	if c.options.Committed != nil && (answer.Result == "committed" || answer.Result == "repeated") {
		c.options.Committed(line, answer)
	}
	return answer, nil
}

func (c *Client) replied(answer Answer) {
	if c.options.Replied != nil {
		c.options.Replied(answer.Line)
	}
}

// isOver returns whether the context has ended, or is about to since its time is over.
func isOver(ctx context.Context) bool {
	end, hasEnd := ctx.Deadline()
	return ctx.Err() != nil || hasEnd && !time.Now().Before(end)
}

// pause waits before the next attempt, or returns the error of the context.
func pause(ctx context.Context, attempt int) error {
	longest := time.Second
	if attempt < 9 {
		longest = time.Millisecond << attempt
	}
	timer := time.NewTimer(longest/2 + time.Duration(rand.Int63n(int64(longest))))
	defer timer.Stop()
	select {
	case <-ctx.Done():
		return ctx.Err()
	case <-timer.C:
		return nil
	}
}

// exchange sends a line and returns its answer. After an error the next line goes to another connection, and to the
// next address.
func (c *Client) exchange(ctx context.Context, line []byte) (answer []byte, isSent bool, err error) {
	if err = c.connect(ctx); err != nil {
		c.next()
		return nil, false, err
	}
	c.trace(true, line)
	isNew := !c.connection.answered
	answer, isSent, err = c.connection.exchange(ctx, line, c.deadline(ctx))
	if err != nil {
		err = explained(c.Address(), err)
		if isNew {
			c.late++
		}
		c.next()
		return nil, isSent, err
	}
	c.late = 0
	c.trace(false, answer)
	return answer, isSent, nil
}

func (c *Client) trace(isSent bool, line []byte) {
	if c.options.Trace != nil {
		c.options.Trace(isSent, line)
	}
}

// connect opens a connection if there is none.
func (c *Client) connect(ctx context.Context) error {
	if c.connection != nil {
		return nil
	}
	config, err := c.caller.config()
	if err != nil {
		return &unusable{err}
	}
	limited, cancel := context.WithTimeout(ctx, c.first())
	defer cancel()
	stream, err := dial(limited, c.Address(), config)
	if err != nil {
		return explained(c.Address(), err)
	}
	c.connection = &connection{stream: stream, in: bufio.NewReaderSize(stream, 1<<16)}
	c.opened++
	return nil
}

// first returns the time for the first answer on a connection.
func (c *Client) first() time.Duration {
	doubled := c.late
	if doubled > 6 {
		doubled = 6
	}
	return c.options.First << doubled
}

// deadline returns when the connection is given up.
func (c *Client) deadline(ctx context.Context) time.Time {
	end, hasEnd := ctx.Deadline()
	if !hasEnd {
		end = time.Now().Add(24 * time.Hour)
	}
	if first := time.Now().Add(c.first()); !c.connection.answered && first.Before(end) {
		return first
	}
	return end
}

// next ends the connection, and chooses the next address.
func (c *Client) next() {
	c.Close()
	c.address = (c.address + 1) % len(c.options.Addresses)
}
