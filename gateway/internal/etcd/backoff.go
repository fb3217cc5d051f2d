package etcd

import (
	"context"
	"math/rand"
	"sync"
	"time"
)

// A Backoff makes the pauses between the tries of a request. They double from the first one up to the most, and chance
// takes up to half of each, so that gateways whose requests failed together don't send the next ones together.
type Backoff struct {
	First, Most time.Duration
	next        time.Duration // before chance shortens it; 0 for the first one
}

var (
	chanceMu sync.Mutex
	// gateways have to differ, and nothing depends on a value
	chance = rand.New(rand.NewSource(time.Now().UnixNano()))
)

// shortened returns a random duration between half of the given one and all of it.
func shortened(long time.Duration) time.Duration {
	chanceMu.Lock()
	defer chanceMu.Unlock()
	return long/2 + time.Duration(chance.Int63n(int64(long/2)+1))
}

// Pause waits for the next pause, or until the context ends.
func (b *Backoff) Pause(ctx context.Context) { Pause(ctx, b.take()) }

// take returns the next pause.
func (b *Backoff) take() time.Duration {
	if b.next == 0 {
		b.next = b.First
	}
	pause := shortened(b.next)
	b.next *= 2
	if b.next > b.Most {
		b.next = b.Most
	}
	return pause
}

// Reset makes the next pause the first one again.
func (b *Backoff) Reset() { b.next = 0 }
