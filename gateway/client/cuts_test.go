package client

import (
	"bufio"
	"context"
	"encoding/json"
	"fmt"
	"io"
	"net"
	"os"
	"os/exec"
	"strings"
	"sync"
	"testing"
	"time"

	"regd/gateway/book"
)

// A cutter is a proxy that ends some connections after a number of bytes, of the request or of the reply.
type cutter struct {
	address string
	targets []string
	mu      sync.Mutex
	opened  int
	cut     func(isReply bool) (bytes int64, isCut bool) // for the next connection
}

func newCutter(t *testing.T, targets []string) *cutter {
	t.Helper()
	on, err := net.Listen("tcp", "127.0.0.1:0")
	if err != nil {
		t.Fatal(err)
	}
	t.Cleanup(func() { on.Close() })
	p := &cutter{address: on.Addr().String(), targets: targets}
	go func() {
		for {
			near, err := on.Accept()
			if err != nil {
				return
			}
			p.mu.Lock()
			target, cut := p.targets[p.opened%len(p.targets)], p.cut
			p.opened, p.cut = p.opened+1, nil
			p.mu.Unlock()
			go pass(near, target, cut)
		}
	}()
	return p
}

// pass copies both ways, until an end or the cut.
func pass(near net.Conn, target string, cut func(bool) (int64, bool)) {
	far, err := net.Dial("tcp", target)
	if err != nil {
		near.Close()
		return
	}
	var end sync.Once
	closeBoth := func() { near.Close(); far.Close() }
	copyOne := func(to, from net.Conn, isReply bool) {
		defer end.Do(closeBoth)
		if cut != nil {
			if bytes, isCut := cut(isReply); isCut {
				io.CopyN(to, from, bytes) // its error is an end, as a cut is
				return
			}
		}
		io.Copy(to, from) // the same
	}
	go copyOne(far, near, false)
	copyOne(near, far, true)
}

// next cuts the next connection after some bytes.
func (p *cutter) next(isReply bool, bytes int64) {
	p.mu.Lock()
	defer p.mu.Unlock()
	p.cut = func(of bool) (int64, bool) { return bytes, of == isReply }
}

// servers returns the addresses of REGDCTL_SERVERS, or starts the program that REGD names. Otherwise it skips the test.
func servers(t *testing.T) []string {
	t.Helper()
	if given := os.Getenv("REGDCTL_SERVERS"); given != "" {
		return strings.Split(given, ",")
	}
	program := os.Getenv("REGD")
	if program == "" {
		t.Skip("neither REGDCTL_SERVERS nor REGD names a server")
	}
	words := []string{"serve", "--domain", "ex.org", "--listen", "127.0.0.1:0", "--workers", "8",
		"--connections", "65535"}
	command := exec.Command(program, words...)
	out, err := command.StdoutPipe()
	if err != nil {
		t.Fatal(err)
	}
	if err := command.Start(); err != nil {
		t.Fatal(err)
	}
	t.Cleanup(func() {
		if err := command.Process.Kill(); err != nil {
			t.Error(err)
		}
		if err := command.Wait(); err == nil {
			t.Error("regd ended by itself")
		}
	})
	var first struct{ Listening string }
	line, err := bufio.NewReader(out).ReadBytes('\n')
	if err == nil {
		err = json.Unmarshal(line, &first)
	}
	if err != nil {
		t.Fatal(err)
	}
	return []string{first.Listening}
}

// TestCuts makes a change while its first connection is cut after a number of bytes, for many of them. Each change has
// to be made exactly once: it expects the revision that the one before it has made.
func TestCuts(t *testing.T) {
	p := newCutter(t, servers(t))
	c, ctx := patient(t, p.address)
	row := book.Entry{ID: NewID(), Parent: "spiffe://ex.org/n", Identity: "spiffe://ex.org/cut/" + NewID(),
		Selectors: []string{"u:1"}}
	if _, err := c.Change(ctx, Create(row)); err != nil {
		t.Fatal(err)
	}
	made, repeated := uint64(0), 0
	for bytes := int64(0); bytes < 420; bytes += 7 {
		for _, isReply := range []bool{false, true} {
			c.Close()
			p.next(isReply, bytes)
			row.Hint = fmt.Sprint(made)
			revision := made
			answer, err := c.Change(ctx, Update(row, &revision))
			if err != nil {
				t.Fatalf("cut after %d bytes, of the reply %v: %v", bytes, isReply, err)
			}
			if made++; answer.Result == "repeated" {
				repeated++
			}
		}
	}
	answer, err := c.Ask(ctx, Show(row.ID))
	if err != nil {
		t.Fatal(err)
	}
	if shown := answer.Replies[0].Entry; shown.Revision != made || shown.Hint != fmt.Sprint(made-1) {
		t.Errorf("after %d changes: %s", made, answer.Line)
	}
	if repeated == 0 || repeated == int(made) {
		t.Errorf("%d of %d changes were repeated", repeated, made)
	}
	t.Logf("%d changes, each made once; %d were repeated", made, repeated)
}

// patient returns a client for a slow server, and a context for some minutes.
func patient(t *testing.T, addresses ...string) (*Client, context.Context) {
	t.Helper()
	c := New(Options{Addresses: addresses})
	t.Cleanup(c.Close)
	ctx, cancel := context.WithTimeout(context.Background(), 5*time.Minute)
	t.Cleanup(cancel)
	return c, ctx
}

// TestLinesAreAccepted sends each operation of this package to a server. None has a fault that a line can have.
func TestLinesAreAccepted(t *testing.T) {
	c, ctx := patient(t, servers(t)...)
	none, agent := uint64(0), book.Agent{ID: "spiffe://ex.org/spire/agent/x", Selectors: []string{"x:1"}}
	e := book.Entry{ID: NewID(), Parent: "spiffe://ex.org/n", Identity: "spiffe://ex.org/" + NewID(),
		Selectors: []string{"u:1"},
		Hint:      "<&>", Domains: []string{"lines.org"}, Expiry: 7, X509TTL: 8, JWTTTL: 9}
	changes := []Op{SetBundle("lines.org", "{}"), SetAgent(agent), Create(e), Update(e, &none), Delete(e.ID, nil),
		SetAgent(book.Agent{ID: agent.ID}), DropAgent(agent.ID),
		DropBundle("lines.org", "dissociate"), Prune(1)}
	if _, err := c.Change(ctx, changes...); err != nil {
		t.Error(err)
	}
	if _, err := c.Change(ctx, SetAgent(agent)); err != nil {
		t.Error(err)
	}
	at := c.Place()
	whole := Filter{"spiffe://ex.org/n", "spiffe://ex.org/i", "lines.org", []string{"u:1"}, "any"}
	queries := []Op{Show(e.ID), ShowAgent(agent.ID), ShowBundle("lines.org"), Children(e.Parent),
		Authorised(agent.ID), Trust(agent.ID),
		page(PageSize, e.ID, nil, whole)}
	if _, err := c.Ask(ctx, queries...); err != nil {
		t.Error(err)
	}
	if _, err := c.Ask(ctx, page(1, "", &at, Filter{})); err != nil {
		t.Error(err)
	}
	if b, err := c.ReadBook(ctx, Reading{Domain: "ex.org", Agents: true, Bundles: true, Texts: true}); err != nil ||
		b.Place < at {
		t.Errorf("%v, %v", b, err)
	}
	_, err := c.ReadBook(ctx, Reading{Domain: "other.org"})
	if refused, isRefused := err.(*Refused); !isRefused || refused.Answer.Code != "B3" {
		t.Errorf("another domain: %v", err)
	}
}
