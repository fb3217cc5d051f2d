package server

import (
	"context"
	"time"
)

// leftTime is the time after which a session that waits looks whether its caller has left, and again.
const leftTime = time.Second

// A wait is that of a session for a reply or for the replica. It ends when its time is over or its caller has left. It
// has one timer and no context: with a context for each line all connections would wait for one lock.
type wait struct {
	session *session
	end     time.Time
	timer   *time.Timer // for the end, or for the next look at the caller
	reason  string      // why it has ended: isOver, hasLeft, or "" for another reason
}

// reasons why a wait has ended, as the metric of ended connections has them
const isOver, hasLeft = "answer", "left"

// waits begins a wait. Its timer has to be stopped.
func (s *session) waits(long time.Duration) wait {
	w := wait{session: s, end: time.Now().Add(long)}
	w.timer = time.NewTimer(w.next())
	return w
}

// next returns the time until the timer has to fire.
func (w *wait) next() time.Duration {
	left := time.Until(w.end)
	if left > leftTime {
		return leftTime
	}
	return left
}

// goesOn is called when the timer has fired. It returns false if the wait ends.
func (w *wait) goesOn() bool {
	if time.Until(w.end) <= 0 {
		w.reason = isOver
		return false
	}
	if isReset(w.session.conn) {
		w.reason = hasLeft
		return false
	}
	w.timer.Reset(w.next())
	return true
}

// noteEnd counts a connection that ends with a wait.
func (w *wait) noteEnd() {
	if w.reason != "" {
		w.session.ended.Inc(w.reason)
	}
}

// waitForBoard waits until the replica is ready and has executed an entry and a commit. It returns false if the wait or
// the context ends first. Meanwhile the caller has no turn.
func (s *session) waitForBoard(ctx context.Context, w *wait, entry, place uint64) bool {
	for {
		isThere, changed := s.board.look(entry, place)
		if isThere {
			return true
		}
		s.freeTurn()
		select {
		case <-changed:
		case <-w.timer.C:
			if !w.goesOn() {
				return false
			}
		case <-ctx.Done():
			return false
		}
	}
}
