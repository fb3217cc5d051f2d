package server

import (
	"context"
	"sync/atomic"
)

// fresh is what fresh queries know of the end of the log. Those that wait for etcd together share one request.
type fresh struct {
	begun atomic.Uint64 // how many requests have begun

	asks     chan struct{} // has the goroutine that queries etcd, which alone reads and writes the others
	answered uint64        // the number of the last request that was answered
	head     uint64        // its answer
}

// freshHead returns the number of the last entry of the log, so that every change that was answered before the call is
// counted. It fails if the context ends, also while another goroutine queries etcd, or if the log has no head.
func (g *Gateway) freshHead(ctx context.Context) (uint64, error) {
	begun := g.fresh.begun.Load()
	select {
	case g.fresh.asks <- struct{}{}:
		defer func() { <-g.fresh.asks }()
	case <-ctx.Done():
		return 0, ctx.Err()
	}
	if g.fresh.answered > begun { // that request has begun after this call
		return g.fresh.head, nil
	}
	number := g.fresh.begun.Add(1)
	head, err := g.log.Head(ctx)
	if err == nil {
		g.fresh.head, g.fresh.answered = head, number
	}
	return head, err
}
