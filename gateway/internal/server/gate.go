package server

import (
	"context"
	"net"
	"net/netip"
	"sync"
	"time"
)

// waitFactor is how many connections may wait for their handshake, for each that may be under way.
const waitFactor = 15

// A gate lets few connections begin their handshakes at a time, and fewer of one address. So strangers who connect take
// little memory, no connections of callers, and not all handshakes. A connection that waits is not read.
type gate struct {
	places        chan struct{} // one for each handshake that is under way
	mostOfAddress int

	mu        sync.Mutex
	open      int                 // connections, also those that wait
	addresses map[string]*address // from which there are some
}

// An address is where connections come from.
type address struct {
	places chan struct{} // one for each handshake that is under way
	open   int           // connections, also those that wait
}

func newGate(most, mostOfAddress int) *gate {
	return &gate{places: make(chan struct{}, most), mostOfAddress: mostOfAddress, addresses: map[string]*address{}}
}

// enter waits for the turn of a connection. It returns what ends the handshake, or nil if too many wait, if there is no
// place in time, or if the context ends.
func (g *gate) enter(ctx context.Context, from string, long time.Duration) (leave func()) {
	own := g.join(from)
	if own == nil {
		return nil
	}
	late := time.NewTimer(long)
	defer late.Stop()
	if !takePlace(ctx, own.places, late) {
		g.part(from)
		return nil
	}
	if !takePlace(ctx, g.places, late) {
		<-own.places
		g.part(from)
		return nil
	}
	return func() {
		<-g.places
		<-own.places
		g.part(from)
	}
}

// takePlace waits for a place until a timer has fired or the context ends.
func takePlace(ctx context.Context, places chan struct{}, late *time.Timer) bool {
	select {
	case places <- struct{}{}:
		return true
	default:
	}
	select {
	case places <- struct{}{}:
		return true
	case <-late.C:
	case <-ctx.Done():
	}
	return false
}

// join counts a connection. It returns nil if there are too many.
func (g *gate) join(from string) *address {
	g.mu.Lock()
	defer g.mu.Unlock()
	own := g.addresses[from]
	if own == nil {
		own = &address{places: make(chan struct{}, g.mostOfAddress)}
	}
	if g.open >= (1+waitFactor)*cap(g.places) || own.open >= (1+waitFactor)*g.mostOfAddress {
		return nil
	}
	g.open++
	own.open++
	g.addresses[from] = own
	return own
}

// part takes a connection out of the counts.
func (g *gate) part(from string) {
	g.mu.Lock()
	defer g.mu.Unlock()
	g.open--
	own := g.addresses[from]
	own.open--
	if own.open == 0 {
		delete(g.addresses, from)
	}
}

// originOf returns the address that a connection comes from, without its port. Of IPv6 it is the network of 64 bits, of
// which a machine may have all addresses.
func originOf(conn net.Conn) string {
	full, err := netip.ParseAddrPort(conn.RemoteAddr().String())
	if err != nil {
		return ""
	}
	from := full.Addr().Unmap()
	if from.Is4() {
		return from.String()
	}
	network, err := from.WithZone("").Prefix(64)
	if err != nil {
		return from.String()
	}
	return network.String()
}
