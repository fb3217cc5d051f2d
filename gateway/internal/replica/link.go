package replica

import (
	"bufio"
	"errors"
	"io"
	"net"
	"os"
	"sync"
	"time"

	"regd/gateway/internal/wire"
)

// A link is a connection to regd: lines out, replies in, in the same order.
//
// If a reply is late, a link for changes ends. A link for queries goes on: it refuses the query, gives the others back,
// and drops the replies that still come to them. So a slow query costs one worker for a time, and not the replica.
type link struct {
	conn   net.Conn
	hang   time.Duration // for the next reply
	most   int           // bytes of a reply; a larger one is refused
	onLate func()        // called when a reply to a query is late; nil for changes
	order  order         // only read uses it

	mu        sync.Mutex
	pending   []byte               // lines that are not yet written
	isWriting bool                 // a caller of submit writes
	waiting   []func(reply []byte) // one for each line whose reply hasn't come
	late      int                  // how many of them, the first ones, have no caller that waits
	isDown    bool
}

// submit sends a line. Later it calls done with the reply, or with nil if the connection ended first; done must not
// wait. A query that regd was about to answer when the connection ended, or for too long, is refused. One caller at a
// time writes, also the lines of those that come meanwhile, so that no other goroutine has to be woken.
func (l *link) submit(line []byte, done func(reply []byte)) {
	l.mu.Lock()
	if l.isDown {
		l.mu.Unlock()
		done(nil)
		return
	}
	l.pending = append(append(l.pending, line...), '\n')
	l.waiting = append(l.waiting, done)
	if len(l.waiting) == 1 {
		l.expect()
	}
	for !l.isWriting && len(l.pending) > 0 {
		lines := l.pending
		l.pending, l.isWriting = nil, true
		l.mu.Unlock()
		_, err := l.conn.Write(lines)
		if err != nil {
			l.conn.Close() // which ends read, and that tells those that wait
		}
		l.mu.Lock()
		l.isWriting = false
	}
	l.mu.Unlock()
}

// expect sets the time of the next reply, if regd owes one.
func (l *link) expect() {
	var late time.Time // never
	if len(l.waiting) > 0 {
		late = time.Now().Add(l.hang)
	}
	err := l.conn.SetReadDeadline(late)
	if err != nil {
		l.conn.Close()
	}
}

// isLate returns true if regd owes a late reply. Then a further query would wait behind it.
func (l *link) isLate() bool {
	l.mu.Lock()
	defer l.mu.Unlock()
	return l.late > 0
}

// call sends a line and waits for its reply. It returns nil if the connection ended.
func (l *link) call(line []byte) []byte {
	got := make(chan []byte, 1)
	l.submit(line, func(reply []byte) { got <- reply })
	return <-got
}

// read passes the replies on until the connection ends. It returns the reason.
func (l *link) read() error {
	defer l.close()
	for in := bufio.NewReaderSize(l, 1<<16); ; {
		reply, code, err := wire.ReadLine(in, l.most, func() bool { return true })
		switch {
		case err != nil:
			return err
		case code == "L3":
			return io.ErrUnexpectedEOF
		case code != "":
			l.order.skip()
			reply = wire.Refusal(wire.Busy)
		default:
			err = l.order.check(reply)
		}
		if err != nil {
			return err
		}
		done := l.next()
		if done == nil { // closed meanwhile, or a reply to no line
			return net.ErrClosed
		}
		done(reply)
	}
}

// Read reads replies for read. It is called again if a reply is late and the link goes on.
func (l *link) Read(to []byte) (int, error) {
	for {
		count, err := l.conn.Read(to)
		if l.onLate == nil || !errors.Is(err, os.ErrDeadlineExceeded) {
			return count, err
		}
		l.giveUp()
	}
}

// next takes out the line that the next reply is for, or returns nil if there is none.
func (l *link) next() func(reply []byte) {
	l.mu.Lock()
	defer l.mu.Unlock()
	if len(l.waiting) == 0 {
		return nil
	}
	done := l.waiting[0]
	l.waiting[0], l.waiting = nil, l.waiting[1:] // what was taken out can be freed
	if l.late > 0 {
		l.late--
	}
	l.expect()
	return done
}

// giveUp ends the waiting for the replies to all queries, of which the first one is late.
func (l *link) giveUp() {
	l.mu.Lock()
	lost := append([]func([]byte){}, l.waiting...)
	for i := range l.waiting {
		l.waiting[i] = func([]byte) {}
	}
	l.late = len(l.waiting)
	l.expect()
	l.mu.Unlock()
	l.tell(lost)
	l.onLate()
}

// close ends the connection and tells every caller that waits.
func (l *link) close() {
	l.conn.Close()
	l.mu.Lock()
	lost := l.waiting
	l.waiting, l.pending, l.isDown = nil, nil, true
	l.mu.Unlock()
	l.tell(lost)
}

// tell tells callers that no reply comes. The query in front may be the reason, so it is refused and not asked again.
func (l *link) tell(lost []func(reply []byte)) {
	for i, done := range lost {
		if i == 0 && l.onLate != nil {
			done(wire.Refusal(wire.Busy))
		} else {
			done(nil)
		}
	}
}
