package replica

import (
	"time"

	"regd/gateway/internal/wire"
)

// Tokens are retained for a time and up to a number of bytes, which are both in the entries of the log, and so is what
// they are compared with: the time of an entry, and the replies to those before it. So the retained tokens are a
// function of the log, whatever a clock says and however many lines are under way.

// UsualKeep and UsualRoom are those of an entry that has none of its own.
const (
	UsualKeep = 5 * time.Minute
	UsualRoom = 1 << 30
)

// tokenBytes is about what a retained token takes in addition to its reply.
const tokenBytes = 256

// countInterval is how many entries are between two counts of the retained bytes. While these are over half of the
// room, they are counted at each entry. A count waits for all replies, so it is not made at each one.
const countInterval = 16

// A Kept is a token under which a batch was committed, or is about to be.
type Kept struct {
	Token string
	Same  string // equal for the same operations
	Time  int64  // of the entry
	Reply []byte `json:",omitempty"` // without the call number; nil while the batch is under way
}

// A Table says how many tokens are retained.
type Table struct {
	Tokens, Bytes int64
	Age           time.Duration // of the oldest one, by the times of the log
}

// keep returns for how many milliseconds an entry lets tokens be retained.
func (e Entry) keep() int64 {
	if e.Keep > 0 {
		return e.Keep
	}
	return UsualKeep.Milliseconds()
}

// room returns how many bytes an entry lets tokens take.
func (e Entry) room() int64 {
	if e.Room > 0 {
		return e.Room
	}
	return UsualRoom
}

// beginEntry forgets the tokens that are too old for an entry, and counts the others if it is time for that.
func (r *Replica) beginEntry(e Entry) {
	r.mu.Lock()
	isDue := r.state.IsFilling || e.Number%countInterval == 0
	r.mu.Unlock()
	if isDue {
		r.Settle()
	}
	r.mu.Lock()
	defer r.mu.Unlock()
	r.forget(e.Time - e.keep())
	if isDue {
		r.state.IsFilling = 2*r.bytes >= e.room()
		r.state.IsFull = r.bytes >= e.room()
	}
}

// forget forgets the tokens of entries before a time. r.mu is locked.
func (r *Replica) forget(before int64) {
	if before > r.oldest {
		r.oldest = before
	}
	for len(r.retained) > 0 && r.retained[0].Time < r.oldest {
		first := r.retained[0]
		r.bytes -= first.size()
		delete(r.tokens, first.Token)
		r.retained[0], r.retained = nil, r.retained[1:]
	}
}

// retain retains the token of a committed batch, unless an entry behind it has let it be forgotten. r.mu is locked.
func (r *Replica) retain(kept *Kept, reply []byte) {
	if kept.Time < r.oldest {
		delete(r.tokens, kept.Token)
		return
	}
	kept.Reply = reply
	r.tokens[kept.Token] = kept
	r.retained = append(r.retained, kept)
	r.bytes += kept.size()
}

// size returns about how many bytes a token takes.
func (k *Kept) size() int64 { return int64(len(k.Reply)) + tokenBytes }

// find returns a token that is retained, or under which a batch is under way, or nil.
func (r *Replica) find(token string) *Kept {
	r.mu.Lock()
	defer r.mu.Unlock()
	return r.tokens[token]
}

// isFull returns true if no further token is retained.
func (r *Replica) isFull() bool {
	r.mu.Lock()
	defer r.mu.Unlock()
	return r.state.IsFull
}

// HasNewToken returns true if a line has a token that is not retained, and under which no batch is under way.
func (r *Replica) HasNewToken(line []byte) bool {
	tokened, ok := wire.ReadTokened(line, false)
	return ok && r.find(tokened.Token) == nil
}

// Tokens returns the retained tokens, the oldest first. No change may be under way.
func (r *Replica) Tokens() []*Kept {
	r.mu.Lock()
	defer r.mu.Unlock()
	return append([]*Kept{}, r.retained...)
}

// Table returns how many tokens are retained.
func (r *Replica) Table() Table {
	r.mu.Lock()
	defer r.mu.Unlock()
	t := Table{Tokens: int64(len(r.retained)), Bytes: r.bytes}
	if len(r.retained) > 0 {
		t.Age = time.Duration(r.state.Time-r.retained[0].Time) * time.Millisecond
	}
	return t
}
