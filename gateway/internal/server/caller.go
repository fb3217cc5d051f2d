package server

import (
	"context"
	"crypto/tls"
	"io"
	"net"
	"os"
	"sync"
	"syscall"
	"time"
)

// A crowd counts the connections of each caller.
type crowd struct {
	mu     sync.Mutex
	counts map[string]int
}

// enter adds a connection of a caller. It returns false if the caller then has more than the given number.
func (c *crowd) enter(id string, most int) bool {
	c.mu.Lock()
	defer c.mu.Unlock()
	c.counts[id]++
	return c.counts[id] <= most
}

// leave takes a connection of a caller away.
func (c *crowd) leave(id string) {
	c.mu.Lock()
	defer c.mu.Unlock()
	c.counts[id]--
	if c.counts[id] == 0 {
		delete(c.counts, id)
	}
}

// A paced connection has a turn while its handshake is computed, but not while it waits for the caller. So those of
// many callers don't hold up the lines of others.
type paced struct {
	net.Conn
	turns   chan struct{} // nil after the handshake
	end     time.Time     // of the time for the handshake
	hasTurn bool
}

func (p *paced) Read(to []byte) (int, error) {
	p.free()
	count, err := p.Conn.Read(to)
	if p.turns == nil {
		return count, err
	}
	late := time.NewTimer(time.Until(p.end))
	defer late.Stop()
	if !takePlace(context.Background(), p.turns, late) {
		return 0, os.ErrDeadlineExceeded
	}
	p.hasTurn = true
	return count, err
}

func (p *paced) free() {
	if p.hasTurn {
		<-p.turns
		p.hasTurn = false
	}
}

// done ends the handshake.
func (p *paced) done() {
	p.free()
	p.turns = nil
}

// what a caller may still send after the gateway has ended its side of a connection
const partTime, partBytes = time.Second, 1 << 20

// part ends the gateway's side of a connection, and then reads for a short time what the caller still sends. A
// connection that is closed while it has unread bytes is reset, and the caller may lose the last answers.
func part(conn net.Conn) {
	half, ok := conn.(interface{ CloseWrite() error })
	if !ok {
		return
	}
	if err := half.CloseWrite(); err != nil {
		return
	}
	if err := conn.SetReadDeadline(time.Now().Add(partTime)); err != nil {
		return
	}
	_, _ = io.CopyN(io.Discard, conn, partBytes) // to its end or to that of the time
}

// isReset returns true if the other side of a connection has ended it in both directions. To end one direction is no
// sign that a caller has left: it may wait for its answers.
func isReset(conn net.Conn) bool {
	if secure, ok := conn.(*tls.Conn); ok {
		conn = secure.NetConn()
	}
	if turned, ok := conn.(*paced); ok {
		conn = turned.Conn
	}
	tcp, ok := conn.(*net.TCPConn)
	if !ok {
		return false
	}
	raw, err := tcp.SyscallConn()
	if err != nil {
		return true
	}
	isClosed := false
	err = raw.Control(func(descriptor uintptr) {
		// of which the first byte is the state; 7 is TCP_CLOSE of the kernel
		info, err := syscall.GetsockoptInet4Addr(int(descriptor), syscall.IPPROTO_TCP, syscall.TCP_INFO)
		isClosed = err == nil && info[0] == 7
	})
	return isClosed || err != nil
}
