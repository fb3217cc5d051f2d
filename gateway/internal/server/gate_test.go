package server

import (
	"context"
	"fmt"
	"io"
	"net"
	"testing"
	"time"
)

// TestGate checks how many connections may enter, that others wait for a place, and that too many are not counted.
func TestGate(t *testing.T) {
	g := newGate(3, 2)
	ctx, end := context.WithCancel(context.Background())
	enter := func(from string) func() {
		t.Helper()
		leave := g.enter(ctx, from, 10*time.Millisecond)
		if leave == nil {
			t.Fatalf("%s does not enter", from)
		}
		return leave
	}
	first, second := enter("a"), enter("a")
	if g.enter(ctx, "a", 10*time.Millisecond) != nil {
		t.Error("an address has all its places, and one more")
	}
	third := enter("b")
	for _, from := range []string{"b", "c"} {
		if g.enter(ctx, from, 10*time.Millisecond) != nil {
			t.Error("all places are taken, and one more")
		}
	}
	waits := make(chan func())
	go func() { waits <- g.enter(ctx, "a", time.Minute) }()
	for g.count() < 4 {
		time.Sleep(time.Millisecond)
	}
	select {
	case <-waits:
		t.Error("it does not wait")
	default:
	}
	first()
	first = <-waits
	if first == nil {
		t.Fatal("it waits although there is a place")
	}
	go func() { waits <- g.enter(ctx, "a", time.Minute) }()
	for g.count() < 4 {
		time.Sleep(time.Millisecond)
	}
	end()
	if <-waits != nil {
		t.Error("it entered after the end")
	}
	first()
	second()
	fourth := g.enter(context.Background(), "b", 10*time.Millisecond)
	if fourth == nil {
		t.Fatal("b has lost a place")
	}
	fourth()
	third()
	if g.count() != 0 || len(g.addresses) != 0 || len(g.places) != 0 {
		t.Errorf("%d connections of %d addresses are left", g.count(), len(g.addresses))
	}
}

// count returns how many connections there are.
func (g *gate) count() int {
	g.mu.Lock()
	defer g.mu.Unlock()
	return g.open
}

// TestGateIsFull checks how many connections may wait, of one address and of all.
func TestGateIsFull(t *testing.T) {
	g := newGate(4, 2)
	join := func(from string) (count int) {
		for g.join(from) != nil {
			count++
		}
		return count
	}
	if a, b, c := join("a"), join("b"), join("c"); a != 32 || b != 32 || c != 0 {
		t.Errorf("%d, %d and %d connections", a, b, c)
	}
	g.part("a")
	if count := join("c"); count != 1 {
		t.Errorf("%d connections more", count)
	}
}

// from is a connection with an address.
type from struct {
	net.Conn
	address string
}

func (f from) Network() string      { return "tcp" }
func (f from) String() string       { return f.address }
func (f from) RemoteAddr() net.Addr { return f }

func TestOriginOf(t *testing.T) {
	for address, want := range map[string]string{
		"10.0.0.1:7": "10.0.0.1", "[::ffff:10.0.0.1]:7": "10.0.0.1",
		"[2001:db8:1:2:3::4]:7": "2001:db8:1:2::/64",
		"[fe80::1%eth0]:7":      "fe80::/64", "pipe": "",
	} {
		if got := originOf(from{address: address}); got != want {
			t.Errorf("%s: got %s, want %s", address, got, want)
		}
	}
}

// TestHandshakePlaces lets strangers take all places for handshakes of their address. A caller waits until the time of
// one is over, connections of callers are not counted, and one that finds no place to wait is closed.
func TestHandshakePlaces(t *testing.T) {
	t.Parallel()
	s := newSite(t)
	s.limits.Handshakes, s.limits.AddressHandshakes, s.limits.Handshake, s.limits.Connections = 3, 1, time.Second, 1
	g, dial := s.secured(n2)
	begin := time.Now()
	s.dial(s.address) // which sends nothing
	within(t, "no handshake", func() bool { return g.gate.count() == 1 })
	if g.sessions.Load() != 0 {
		t.Error("a stranger is a session")
	}
	conn, in := dial(n2)
	fmt.Fprintln(conn, show)
	if got, err := in.ReadString('\n'); got != answered(1, 0)+"\n" {
		t.Errorf("got %s, %v", got, err)
	}
	if took := time.Since(begin); took < s.limits.Handshake*9/10 || took > 10*s.limits.Handshake {
		t.Errorf("a caller waited for %v", took)
	}
	for i := 0; i < 1+waitFactor; i++ {
		s.dial(s.address)
	}
	within(t, "too few wait", func() bool { return g.gate.count() == 1+waitFactor })
	_, last := s.dial(s.address)
	if text, _ := io.ReadAll(last); len(text) > 0 || endedFor(t, g, "handshakes") != 1 {
		t.Errorf("got %s, %v", text, endedFor(t, g, "handshakes"))
	}
}
