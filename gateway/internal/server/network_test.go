package server

import (
	"fmt"
	"io"
	"net"
	"sync"
	"testing"
	"time"

	"regd/gateway/internal/etcd"
)

// A network is a way to a store over which bytes may be held, in one direction or both, or arrive late. Nothing of it
// is an error: a side that waits can't distinguish it from a slow store.
type network struct {
	mu       sync.Mutex
	changed  chan struct{} // closed and replaced when the network changes
	requests bool          // they are held
	answers  bool          // they are held
	delay    time.Duration // of all bytes, in each direction
}

// set changes a network.
func (n *network) set(requests, answers bool, delay time.Duration) {
	n.mu.Lock()
	defer n.mu.Unlock()
	n.requests, n.answers, n.delay = requests, answers, delay
	close(n.changed)
	n.changed = make(chan struct{})
}

// pass waits until bytes may pass.
func (n *network) pass(isAnswer bool) {
	for {
		n.mu.Lock()
		isHeld, changed, delay := n.requests, n.changed, n.delay
		if isAnswer {
			isHeld = n.answers
		}
		n.mu.Unlock()
		if !isHeld {
			time.Sleep(delay)
			return
		}
		<-changed
	}
}

// copy passes the bytes of one direction on.
func (n *network) copy(to, from net.Conn, isAnswer bool) {
	defer to.Close()
	for buffer := make([]byte, 1<<16); ; {
		count, err := from.Read(buffer)
		if count > 0 {
			n.pass(isAnswer)
			if _, err := to.Write(buffer[:count]); err != nil {
				return
			}
		}
		if err != nil {
			return
		}
	}
}

// newNetwork returns a network to an address, and the address of its other end.
func newNetwork(t *testing.T, address string) (*network, string) {
	on, err := net.Listen("tcp", "127.0.0.1:0")
	if err != nil {
		t.Fatal(err)
	}
	n := &network{changed: make(chan struct{})}
	t.Cleanup(func() { on.Close(); n.set(false, false, 0) })
	go func() {
		for {
			outer, err := on.Accept()
			if err != nil {
				return
			}
			inner, err := net.Dial("tcp", address)
			if err != nil {
				outer.Close()
				continue
			}
			go n.copy(inner, outer, false)
			go n.copy(outer, inner, true)
		}
	}()
	return n, on.Addr().String()
}

// TestNetwork cuts a gateway off from etcd, in one direction or both, and then delays all bytes. Queries of the usual
// port are answered meanwhile, and a change is made once: when the network is there again, or late.
func TestNetwork(t *testing.T) {
	t.Parallel()
	for _, c := range []struct {
		name              string
		requests, answers bool
		delay             time.Duration
	}{
		{"cut off", true, true, 0}, {"requests are lost", true, false, 0}, {"answers are lost", false, true, 0},
		{"a round trip of two seconds", false, false, time.Second},
	} {
		c := c
		t.Run(c.name, func(t *testing.T) {
			t.Parallel()
			s := newSite(t)
			n, address := newNetwork(t, s.store.Listener.Addr().String())
			direct := s.log
			s.log = etcd.New([]string{"http://" + address}, "r/", nil)
			g, usual, _ := s.gateway("a")
			s.expect("before", s.call(usual, prune), committed(1, 1))
			within(t, "no watch", func() bool { return s.store.Counts().Watches == 1 })
			n.set(c.requests, c.answers, c.delay)
			conn, in := s.dial(usual)
			fmt.Fprintln(conn, prune)
			within(t, "no change is under way", func() bool { return g.active.Load() == 1 })
			s.expect("a query meanwhile", s.call(usual, show), answered(1, 1))
			isCut := c.requests || c.answers
			if isCut {
				within(t, "it is ready for changes", func() bool {
					return get(g, "/ready/changes").Code == 503
				})
				n.set(false, false, 0)
			}
			if got, err := in.ReadString('\n'); got != committed(1, 2)+"\n" || err != nil && err != io.EOF {
				t.Errorf("got %s, %v", got, err)
			}
			if !isCut && get(g, "/ready/changes").Code != 200 {
				t.Error("it is not ready for changes, although etcd answers")
			}
			s.expect("afterwards", s.call(usual, prune), committed(1, 3))
			if head, err := direct.Head(s.ctx); head != 3 || err != nil {
				t.Errorf("the log has %d entries, %v", head, err)
			}
		})
	}
}
