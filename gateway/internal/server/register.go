package server

import (
	"context"

	"regd/gateway/internal/etcd"
	"regd/gateway/internal/wire"
)

// register appends a change of a registrar, when those before it are answered. It reads the entries first that the line
// updates or deletes, from a book that has what the lines before it made. It returns false if the session ends.
func (s *session) register(ctx context.Context, line []byte) bool {
	if !s.writeAnswers(ctx, 0) {
		return false
	}
	prefix := s.role.Prefix
	r, isAllowed := wire.ReadRegistration(line, prefix)
	if !isAllowed {
		s.refuse(ctx, wire.NotAllowed)
		return true
	}
	found, code, isThere := s.findTargets(ctx, r)
	if !isThere {
		return false
	}
	if code == "" {
		line, code = r.Line(found, prefix)
	}
	if code == "" {
		line, code = wire.ForLog(line)
	}
	if code == "" && s.lacksRoom(line) {
		code = wire.Busy
	}
	if code != "" {
		s.refuse(ctx, code)
		return true
	}
	q := s.request(line)
	q.isAdded = len(found) > 0
	return s.enqueue(ctx, q)
}

// findTargets reads the entries that a registrar wants to change. If regd refuses to show them, because of what is
// wrong with an ID, there are none, and regd refuses the line too. It returns false if the session ends.
func (s *session) findTargets(
	ctx context.Context, r wire.Registration,
) (found []wire.Found, code string, isThere bool) {
	if len(r.Targets) == 0 {
		return nil, "", true
	}
	query, err := r.Query(s.place)
	if err != nil {
		return nil, wire.NotAllowed, true
	}
	w := s.waits(s.options.Limits.Answer)
	defer w.timer.Stop()
	defer w.noteEnd()
	for {
		q := s.request(query)
		q.isQuery = true
		s.ask(q)
		reply, isThere := s.receive(ctx, q, &w)
		if !isThere {
			q.leave() // a reply that still comes takes no room
			return nil, "", false
		}
		s.held.Add(-int64(len(reply)))
		isEarly := reply == nil || wire.Code(reply) == "W1" // the worker has not yet seen the last change
		if !isEarly {
			return targetsIn(reply, len(r.Targets))
		}
		if !s.waitForBoard(ctx, &w, 0, s.place) {
			return nil, "", false
		}
		etcd.Pause(ctx, retryTime)
	}
}

// targetsIn returns the entries in a reply to a query for them, or the code with which the line is refused.
func targetsIn(reply []byte, count int) (found []wire.Found, code string, isThere bool) {
	code = wire.Code(reply)
	if code == wire.Busy || wire.IsShortage(code) {
		return nil, wire.Busy, true
	}
	found, isRead := wire.ReadFound(reply, count)
	if !isRead {
		found = make([]wire.Found, count)
	}
	return found, "", true
}
