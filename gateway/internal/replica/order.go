package replica

import (
	"fmt"

	"regd/gateway/internal/wire"
)

// An order checks that each reply on a connection belongs to its line. regd numbers the calls and the lines of each
// connection, so a reply that is missing, comes twice or is in another's place is noticed immediately.
type order struct {
	lines  uint64 // how many replies have come
	calls  uint64 // the number of the last call
	unsure uint64 // replies since then of which it isn't known whether they took a number
}

// check takes the next reply. It returns an error unless that has the number of the next call, or is a refusal with the
// number of its line. A line that is refused with L6, L7 or L8 may have taken the number of a call.
func (o *order) check(reply []byte) error {
	o.lines++
	if wire.IsRefusal(reply) {
		if line := wire.Line(reply); line != o.lines {
			return fmt.Errorf("a refusal of line %d where line %d is due: %.100s", line, o.lines, reply)
		}
		if wire.IsShortage(wire.Code(reply)) {
			o.unsure++
		}
		return nil
	}
	call := wire.Call(reply)
	if call <= o.calls || call > o.calls+1+o.unsure {
		return fmt.Errorf("a reply to call %d where call %d is due: %.100s", call, o.calls+1, reply)
	}
	o.calls, o.unsure = call, 0
	return nil
}

// skip takes the next reply without a look at it, because it was too long to be kept. No refusal of a line is.
func (o *order) skip() {
	o.lines++
	o.calls++
}
