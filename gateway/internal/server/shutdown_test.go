package server

import (
	"context"
	"errors"
	"fmt"
	"io"
	"net"
	"os"
	"strings"
	"testing"
	"time"
)

// TestShutdown shuts a gateway down while etcd refuses everything. The connections of callers that wait for nothing end
// immediately. What was read is answered when etcd accepts it. What was not read has no effect.
func TestShutdown(t *testing.T) {
	t.Parallel()
	s := newSite(t)
	g, address, _ := s.gateway("a")
	_, idle := s.dial(address)
	slow, half := s.dial(address)
	fmt.Fprint(slow, show[:9])
	busy, answers := s.dial(address)
	s.store.Refuse(1 << 30)
	fmt.Fprint(busy, show+"\n"+prune+"\n")
	if got, err := answers.ReadString('\n'); got != answered(1, 0)+"\n" {
		t.Fatalf("got %s, %v", got, err)
	}
	within(t, "no connections", func() bool { return g.sessions.Load() == 3 })
	done := make(chan struct{})
	go func() {
		g.Shutdown(s.ctx)
		close(done)
	}()
	if got := ends(t, idle); got != "" {
		t.Errorf("a silent caller got %s", got)
	}
	if got := ends(t, half); got != "" {
		t.Errorf("a caller with half a line got %s", got)
	}
	within(t, "it still accepts callers", func() bool {
		conn, err := net.Dial("tcp", address)
		if err == nil {
			conn.Close()
		}
		return err != nil
	})
	if code, values := status(t, g); code != 503 || values["stopping"] != true || values["ready"] != false ||
		get(g, "/ready").Code != 503 {
		t.Errorf("the status is %d, %v", code, values)
	}
	fmt.Fprint(busy, strings.Repeat(prune+"\n", 10))
	select {
	case <-done:
		t.Error("a change is under way")
	case <-time.After(100 * time.Millisecond):
	}
	s.store.Refuse(0)
	if got := ends(t, answers); got != committed(2, 1)+"\n" {
		t.Errorf("a caller with a change got %s", got)
	}
	select {
	case <-done:
	case <-time.After(10 * time.Second):
		t.Error("it doesn't end")
	}
	if head, _ := s.log.Head(s.ctx); head != 1 {
		t.Errorf("the log has %d entries", head)
	}
	if got := endedFor(t, g, "idle") + endedFor(t, g, "line"); got != 0 {
		t.Errorf("%v connections were counted as late", got)
	}
}

// TestShutdownRow checks that lines which were read together are all answered, and that later ones are not read,
// although they have arrived.
func TestShutdownRow(t *testing.T) {
	t.Parallel()
	s := newSite(t)
	s.limits.Lines = 4
	g, address, _ := s.gateway("a")
	conn, in := s.dial(address)
	fmt.Fprint(conn, strings.Repeat(`{"ops":[{"op":"show","hint":"SLOW"}]}`+"\n", 50))
	if got, err := in.ReadString('\n'); got != answered(1, 0)+"\n" {
		t.Fatalf("got %s, %v", got, err)
	}
	g.Shutdown(s.ctx)
	count := 1 + strings.Count(ends(t, in), "answered")
	if count > 20 {
		t.Errorf("%d answers", count)
	}
	r, _ := g.board.read()
	asked := make(chan string, 1)
	// the second one of its worker, after those of the connection
	r.Query(1, []byte(show), func(reply []byte) { asked <- string(reply) })
	if got, want := <-asked, answered(count+2, 0); got != want {
		t.Errorf("after %d answers: got %s, want %s", count, got, want)
	}
}

// TestShutdownLimit checks that a line without an answer doesn't hold up the end for ever.
func TestShutdownLimit(t *testing.T) {
	s := newSite(t)
	g, address, _ := s.gateway("a")
	s.store.Refuse(1 << 30)
	conn, _ := s.dial(address)
	fmt.Fprintln(conn, prune)
	within(t, "no append", func() (isUnderWay bool) {
		g.flights.Range(func(any, any) bool { isUnderWay = true; return false })
		return isUnderWay
	})
	late, cancel := context.WithTimeout(s.ctx, 200*time.Millisecond)
	defer cancel()
	begin := time.Now()
	if g.Shutdown(late); time.Since(begin) > 5*time.Second {
		t.Error("it takes too long")
	}
	s.store.Refuse(0)
}

// TestShutdownRead shuts a gateway down while it reads: lines that come at any time are answered or have no effect, and
// each connection ends.
func TestShutdownRead(t *testing.T) {
	s := newSite(t)
	g, address, _ := s.gateway("a")
	conn, in := s.dial(address)
	go func() {
		for {
			if _, err := fmt.Fprintln(conn, show); err != nil {
				return
			}
		}
	}()
	if _, err := in.ReadString('\n'); err != nil {
		t.Fatal(err)
	}
	made := &session{Gateway: g, conn: conn}
	if !made.readUntil(time.Now().Add(time.Hour)) {
		t.Error("nothing is to be read")
	}
	go io.Copy(io.Discard, in)
	begin := time.Now()
	if g.Shutdown(s.ctx); time.Since(begin) > 10*time.Second {
		t.Error("it takes too long")
	}
	made.conn, _ = net.Pipe()
	if made.readUntil(time.Now().Add(time.Hour)) {
		t.Error("more is to be read")
	}
	if _, err := made.conn.Read(make([]byte, 1)); !errors.Is(err, os.ErrDeadlineExceeded) {
		t.Errorf("reading: got %v", err)
	}
}
