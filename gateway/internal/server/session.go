package server

import (
	"bufio"
	"bytes"
	"context"
	"errors"
	"net"
	"os"
	"runtime"
	"sync/atomic"
	"time"

	"regd/gateway/internal/etcd"
	"regd/gateway/internal/wire"
)

const (
	retryTime  = 2 * time.Millisecond
	flushSize  = 1 << 15
	pieceSize  = 1 << 18 // that a caller reads within the time for it
	readBuffer = 1 << 13
	// for replies to the lines of a connection that are under way, if these are as long as the last ones were
	replyRoom = 1 << 18
	// lines that are under way of all connections together, if each has more than one
	queryRoom, changeRoom = 256, 1024
	fewLines              = 4                    // queries that a caller may send together without a turn
	mostTurns             = 4                    // for each worker of regd
	manyFlood             = 128                  // callers that send more together, before they have to pause
	floodPause            = 4 * time.Millisecond // for each of them beyond that
)

// A session is a connection of a caller. One goroutine reads lines, forwards each, and writes the answers in the order
// of the lines.
//
// Queries that follow one another are under way together, and so are changes, but never a query with a change. So each
// line is answered by a book that has what the lines before it made, and nothing of those after it.
type session struct {
	*Gateway
	conn    net.Conn
	in      *bufio.Reader
	out     []byte
	unsent  int64  // bytes of the replies in out
	agent   string // the SPIFFE ID of the caller, or ""
	role    Role
	lapse   lapse
	isOver  atomic.Bool // the caller would not be let in any more
	isFresh bool
	number  int // of the connection, which chooses a worker of regd

	lineEnd      time.Time  // when the line that is read has to have ended
	row          []*request // those whose answer is not yet written
	largest      int        // about the size of a large reply
	isChanging   bool       // they are changes
	isLong       bool       // one of them has a slot for a long line
	hasTurn      bool       // they are queries that may be asked together
	streak       int        // how many have arrived together
	isBroken     bool       // nothing more can be written
	lines, calls int        // how many were answered
	place        uint64     // the newest commit number that the caller has seen
	progress     time.Time  // when the last answer came, or the last query was sent
}

// serve serves a connection to its end.
func (s *session) serve(ctx context.Context) {
	defer s.leave()
	s.open.Store(s.conn, s)
	defer s.open.Delete(s.conn)
	for !s.mustEnd() {
		if !s.makeRoom(ctx) {
			return
		}
		line, code, err := wire.ReadLine(s.in, s.options.Limits.LineBytes, func() bool {
			return s.role.mayChange() && s.takeSlot(ctx)
		})
		if err != nil {
			s.noteLate(err, "line")
			return
		}
		line, isChange, code := s.sort(line, code)
		if code != "" {
			s.refuse(ctx, code)
			continue
		}
		if !s.forward(ctx, line, isChange) {
			return
		}
	}
	s.writeAnswers(ctx, 0)
}

// makeRoom writes answers while the row is full, and all of them if no other line has come. Then it waits for one. It
// returns false if the session ends.
func (s *session) makeRoom(ctx context.Context) bool {
	if s.isFull() {
		if !s.writeAnswers(ctx, len(s.row)/2) {
			return false
		}
	}
	if s.hasLine() {
		return true
	}
	if !s.writeAnswers(ctx, 0) {
		return false
	}
	return s.waitForLine()
}

// forward sends a line to the log or to the replica. It returns false if the session ends.
func (s *session) forward(ctx context.Context, line []byte, isChange bool) bool {
	if isChange != s.isChanging || s.isFresh {
		if !s.writeAnswers(ctx, 0) {
			return false
		}
	}
	s.isChanging = isChange
	if isChange && s.role.Kind == Registrar {
		return s.register(ctx, line)
	}
	switch {
	case isChange && s.lacksRoom(line):
		s.refuse(ctx, wire.Busy)
		return true
	case isChange:
		return s.change(ctx, line)
	}
	return s.query(ctx, line)
}

// lacksRoom returns true if there is no room for the token of a line. In the log, each replica would refuse the line.
func (s *session) lacksRoom(line []byte) bool {
	r, state := s.board.read()
	return state.IsFull && r != nil && r.HasNewToken(line)
}

// refuse answers a line with a code, and pauses: a refused line needs no regd, so there is no turn for it.
func (s *session) refuse(ctx context.Context, code string) {
	s.add(s.request(nil)).answer(wire.Refusal(code))
	s.freeTurn()
	etcd.Pause(ctx, floodPause)
}

// sort returns what regd gets for a line, and whether it goes through the log, or the code with which it is refused. A
// line that was not kept has a code already.
func (s *session) sort(line []byte, code string) (sent []byte, isChange bool, refusal string) {
	switch {
	case code == wire.Busy && !s.role.mayChange(): // a query has no need of a long line
		return nil, false, wire.NotAllowed
	case code != "":
		return nil, false, code
	case s.unverified.Load() != nil:
		return nil, false, wire.Unverified
	case s.role.Kind == NoRole:
		return nil, false, wire.NotAllowed
	case s.role.Kind == Agent:
		sent, refusal = wire.ForAgent(s.agent, line)
		return sent, false, refusal
	case wire.MayChange(line):
		return s.sortChange(line)
	case wire.Listings(line) > s.options.Limits.Listings:
		return nil, false, wire.TooManyQueries
	}
	return line, false, ""
}

// sortChange is sort for a line that may be a change, of a caller that is no agent. That of a registrar is completed
// when its turn has come.
func (s *session) sortChange(line []byte) (sent []byte, isChange bool, refusal string) {
	switch s.role.Kind {
	case Operator:
		sent, refusal = wire.ForLog(line)
		return sent, true, refusal
	case Registrar:
		return line, true, ""
	}
	return nil, false, wire.NotAllowed
}

// isFull returns true if no further line may be under way before some are answered. Connections with lines under way
// have equal shares, so that one with many lines doesn't hold up another with one.
func (s *session) isFull() bool {
	room := int64(queryRoom)
	if s.isChanging {
		room = changeRoom
	}
	count := len(s.row)
	return count >= s.options.Limits.Lines || count*s.largest > replyRoom ||
		count > 0 && int64(count)*s.active.Load() >= room
}

// hasLine returns true if the next line has arrived. It is false for a line that is longer than the buffer, so such a
// line is read when the lines before it are answered, and a connection holds few bytes.
func (s *session) hasLine() bool {
	arrived, _ := s.in.Peek(s.in.Buffered())
	return bytes.IndexByte(arrived, '\n') >= 0
}

// waitForLine waits until a line begins to arrive, and limits the time for the rest of it.
func (s *session) waitForLine() bool {
	if !s.readUntil(time.Now().Add(s.options.Limits.Idle)) {
		return false
	}
	if _, err := s.in.Peek(1); err != nil {
		s.noteLate(err, "idle")
		return false
	}
	s.endStreak()
	runtime.Gosched() // a caller that always has lines doesn't keep a processor
	s.lineEnd = time.Now().Add(s.options.Limits.Line)
	return s.readUntil(s.lineEnd)
}

// readUntil limits the time for reading. It returns false if nothing is to be read, because the gateway shuts down.
func (s *session) readUntil(end time.Time) bool {
	if err := s.conn.SetReadDeadline(end); err != nil {
		return false
	}
	if !s.mustEnd() { // asked last, since Shutdown ends the time of those that were not stopping before
		return true
	}
	s.conn.SetReadDeadline(time.Now())
	return false
}

// noteLate counts a connection that ends because a time limit is over.
func (s *session) noteLate(err error, reason string) {
	if errors.Is(err, os.ErrDeadlineExceeded) && !s.mustEnd() {
		s.ended.Inc(reason)
	}
}

// takeSlot waits for one of the slots for lines that are longer than the buffer. It returns false if there is none for
// too long. The time in which it waits is not the caller's.
func (s *session) takeSlot(ctx context.Context) bool {
	began := time.Now()
	select {
	case s.long <- struct{}{}:
		s.isLong = true
		s.lineEnd = s.lineEnd.Add(time.Since(began))
		return s.readUntil(s.lineEnd)
	case <-time.After(s.options.Limits.Answer):
		s.longWait.Error("too many long lines wait", "limit", cap(s.long))
	case <-ctx.Done():
	}
	return false
}

func (s *session) freeSlot() {
	if s.isLong {
		<-s.long
		s.isLong = false
	}
}

// leave takes back what is not yet answered, and gives up the room that it has.
func (s *session) leave() {
	for _, q := range s.row {
		q.leave()
	}
	if len(s.row) > 0 {
		s.active.Add(-1)
	}
	s.held.Add(-s.unsent)
	s.freeSlot()
	s.freeTurn()
	s.endStreak()
}

// request returns a request with a line.
func (s *session) request(line []byte) *request {
	return &request{session: s, began: time.Now(), line: line, reply: make(chan []byte, 1)}
}

// add adds a request to the row.
func (s *session) add(q *request) *request {
	if len(s.row) == 0 {
		s.active.Add(1)
	}
	s.row = append(s.row, q)
	return q
}

// change queues a line to be appended to the log, and refuses it if too many wait for too long. It returns false if the
// session ends.
func (s *session) change(ctx context.Context, line []byte) bool {
	return s.enqueue(ctx, s.request(line))
}

// enqueue is change for a request.
func (s *session) enqueue(ctx context.Context, q *request) bool {
	select {
	case s.changes <- q:
		s.add(q)
		return true
	default:
	}
	if !s.writeAnswers(ctx, 0) { // they don't wait with it
		return false
	}
	select {
	case s.changes <- q:
	case <-time.After(s.options.Limits.Answer):
		s.changesWait.Error("too many changes wait", "limit", cap(s.changes))
		q.answer(wire.Refusal(wire.Busy))
	case <-ctx.Done():
		return false
	}
	s.add(q)
	return true
}

// takeTurn waits until it is the turn of a caller that sends many queries together, and longer if there are many such
// callers. So there are few of their lines in front of those of other callers, which wait for each answer and need no
// turn. It returns false if the session ends.
func (s *session) takeTurn(ctx context.Context) bool {
	s.streak++
	if s.hasTurn || s.streak <= fewLines {
		return true
	}
	if s.streak == fewLines+1 {
		s.flooding.Add(1)
	}
	over, turns := s.flooding.Load()-manyFlood, s.turns[s.number%len(s.turns)]
	if over <= 0 {
		select {
		case turns <- struct{}{}:
			s.hasTurn = true
			return true
		default:
		}
	}
	if !s.writeAnswers(ctx, 0) {
		return false
	}
	if over > 0 {
		etcd.Pause(ctx, time.Duration(over)*floodPause)
	}
	select {
	case turns <- struct{}{}:
		s.hasTurn = true
	case <-ctx.Done():
	}
	return s.hasTurn
}

// endStreak notes that no further line has arrived together with the last one.
func (s *session) endStreak() {
	if s.streak > fewLines {
		s.flooding.Add(-1)
	}
	s.streak = 0
}

// freeTurn ends the turn, before something is waited for that may take long.
func (s *session) freeTurn() {
	if s.hasTurn {
		<-s.turns[s.number%len(s.turns)]
		s.hasTurn = false
	}
}

// query sends a line to the replica. It returns false if the session ends.
func (s *session) query(ctx context.Context, line []byte) bool {
	q := s.request(line)
	q.isQuery = true
	if s.isFresh { // these are asked one at a time, and need no turn
		if !s.waitForHead(ctx) {
			return false
		}
	} else if !s.takeTurn(ctx) {
		return false
	}
	r, state := s.board.read()
	hasReplica := r != nil
	if hasReplica && !s.isFresh && s.isOutdated(state.Entry) {
		s.refuse(ctx, wire.Outdated)
		return true
	}
	if after := wire.After(line); after > state.Place {
		if !s.writeAnswers(ctx, 0) {
			return false
		}
		w := s.waits(s.options.Limits.After)
		defer w.timer.Stop()
		isThere := s.waitForBoard(ctx, &w, 0, after)
		if !isThere && w.reason != isOver { // if it is still too early, regd says W1
			w.noteEnd()
			return false
		}
	}
	s.progress = time.Now() // the time for the answer doesn't begin before
	s.ask(s.add(q))
	return true
}

// waitForHead waits until the replica has executed what was in the log when it was called. It returns false if the
// session ends.
func (s *session) waitForHead(ctx context.Context) bool {
	late, cancel := context.WithTimeout(ctx, s.options.Limits.Answer)
	defer cancel()
	w := s.waits(s.options.Limits.Answer)
	defer w.timer.Stop()
	defer w.noteEnd()
	_, before := s.board.read()
	head, err := s.freshHead(late)
	if errors.Is(err, context.DeadlineExceeded) {
		w.reason = isOver
	}
	isSameLog := err == nil && head >= before.Entry && !s.isLogLost.Load() // less after a restore
	return isSameLog && s.waitForBoard(ctx, &w, head, 0)
}

// ask sends a query to the replica. The reply is nil if there is no replica.
func (s *session) ask(q *request) {
	r, state := s.board.read()
	if r == nil {
		q.answer(nil)
		return
	}
	if s.isFresh {
		q.place = state.Place
	}
	r.Query(s.number, q.line, q.answer)
}

// writeAnswers writes answers, in order, until at most the given number of lines waits, and flushes them. It returns
// false if the connection is of no more use. Where an answer doesn't come, whether the change was made is open: a line
// with a token may be sent again.
func (s *session) writeAnswers(ctx context.Context, most int) bool {
	for len(s.row) > most {
		q := s.row[0]
		reply := s.await(ctx, q)
		if reply == nil {
			s.flush()
			return false
		}
		s.row[0], s.row, s.progress = nil, s.row[1:], time.Now()
		q.leave() // such as a reply of another replica, which executes all of an entry
		if len(s.row) == 0 {
			s.freeSlot()
			s.active.Add(-1)
		}
		s.note(q, reply)
		if place := wire.Place(reply); place > s.place {
			s.place = place
		}
		s.lines++
		if !wire.IsRefusal(reply) {
			s.calls++
		}
		s.out = wire.AppendReply(s.out, reply, s.calls, s.lines)
		if len(s.out) > flushSize {
			if !s.flush() {
				return false
			}
		}
	}
	return s.flush()
}

// note takes an answer into the counts.
func (s *session) note(q *request, reply []byte) {
	kind := &s.queries
	if s.isChanging {
		kind = &s.changed
	}
	kind.Observe(s.progress.Sub(q.began))
	if code := wire.Code(reply); code != "" {
		s.refusals.Inc(code)
	}
	s.unsent += int64(len(reply))
	s.largest -= s.largest / 8
	if s.largest < len(reply) {
		s.largest = len(reply)
	}
}

// await returns the answer to a line, or nil. A query is asked again if regd ended before it ran it, and if the reply
// is too old.
func (s *session) await(ctx context.Context, q *request) []byte {
	if len(q.reply) == 0 { // it is waited for, and what is there is not
		if !s.flush() {
			return nil
		}
	}
	begin := q.began
	if s.progress.After(begin) {
		begin = s.progress
	}
	w := s.waits(time.Until(begin.Add(s.options.Limits.Answer)))
	defer w.timer.Stop()
	defer w.noteEnd()
	for {
		reply, isThere := s.receive(ctx, q, &w)
		if !isThere || s.isChanging || reply != nil && !s.isOld(q, reply) {
			return reply
		}
		s.held.Add(-int64(len(reply)))
		if !s.waitForBoard(ctx, &w, 0, 0) {
			return nil
		}
		etcd.Pause(ctx, retryTime) // also if there is a replica, which may just be ending
		if ctx.Err() != nil {
			return nil
		}
		s.ask(q)
	}
}

// receive waits for the reply to a line. It returns false if the wait ends first.
func (s *session) receive(ctx context.Context, q *request, w *wait) (reply []byte, isThere bool) {
	select {
	case reply = <-q.reply: // also if it is late
		return reply, true
	default:
	}
	for {
		select {
		case reply = <-q.reply:
			return reply, true
		case <-w.timer.C:
			if !w.goesOn() {
				return nil, false
			}
		case <-ctx.Done():
			return nil, false
		}
	}
}

// isOld returns true if the worker that answered a query had not yet seen a commit that the caller had seen, or the
// replica had executed before a fresh query was asked. With W1 it is any commit that the replica has executed.
func (s *session) isOld(q *request, reply []byte) bool {
	_, state := s.board.read()
	place := wire.Place(reply)
	return !wire.IsRefusal(reply) &&
		(place < s.place || place < q.place || wire.Code(reply) == "W1" && place < state.Place)
}

// flush writes what is in out.
func (s *session) flush() bool {
	if len(s.out) == 0 {
		return !s.isBroken
	}
	s.freeTurn()
	if err := s.write(s.out); err != nil {
		s.isBroken = true
		s.noteLate(err, "write")
	}
	s.held.Add(-s.unsent)
	s.unsent = 0
	s.out = s.out[:0]
	if cap(s.out) > 4*flushSize {
		s.out = nil
	}
	return !s.isBroken
}

// write writes a text in pieces, each of which has the time limit. So a caller that reads is not cut off in the middle
// of a large reply. It has less time while the replies to all callers take much room.
func (s *session) write(text []byte) error {
	for len(text) > 0 {
		piece := text
		if len(piece) > pieceSize {
			piece = piece[:pieceSize]
		}
		long := s.options.Limits.Write
		if s.held.Load() > s.options.Limits.ReplyBytes/2 {
			long /= 10
		}
		if err := s.conn.SetWriteDeadline(time.Now().Add(long)); err != nil {
			return err
		}
		count, err := s.conn.Write(piece)
		if err != nil {
			return err
		}
		text = text[count:]
	}
	return nil
}

// A request is a line of a caller.
type request struct {
	began   time.Time // when the line was read
	line    []byte
	isQuery bool        // its reply may be refused
	isAdded bool        // the gateway has added revisions
	place   uint64      // of the oldest book that may answer a query
	reply   chan []byte // with room for one reply; nil if the answer can't be known
	isTaken atomic.Bool // a change is to be appended, or its caller has left
	hasLeft atomic.Bool // the caller has left
	session *session
}

// take returns true if a change is to be appended, and false if its caller has left.
func (q *request) take() bool {
	if isReset(q.session.conn) {
		return false
	}
	return q.isTaken.CompareAndSwap(false, true)
}

// leave ends what a session does for a request. A change that is not yet taken will not be appended, and its line takes
// no more memory. A reply that still comes takes no room.
func (q *request) leave() {
	if !q.isQuery {
		if q.isTaken.CompareAndSwap(false, true) {
			q.line = nil
		}
	}
	q.hasLeft.Store(true)
	q.forget()
}

// forget gives up the room of a reply that no session waits for.
func (q *request) forget() {
	select {
	case reply := <-q.reply:
		q.session.held.Add(-int64(len(reply)))
	default:
	}
}

// answer stores the reply. Only the first one counts. A query whose reply finds no room is refused.
func (q *request) answer(reply []byte) {
	held := &q.session.held
	bytes := held.Add(int64(len(reply)))
	if bytes > q.session.options.Limits.ReplyBytes && q.isQuery {
		held.Add(-int64(len(reply)))
		q.session.noRoom.Error("replies take too much room", "limit", q.session.options.Limits.ReplyBytes)
		reply = wire.Refusal(wire.Busy)
		held.Add(int64(len(reply)))
	}
	select {
	case q.reply <- reply:
		if q.hasLeft.Load() {
			q.forget()
		}
	default:
		held.Add(-int64(len(reply)))
	}
}
