package wire

import (
	"bytes"
	"encoding/json"
	"math"
	"strings"
)

// A Registration is a line of a registrar: it creates, updates and deletes entries, and nothing else. It is composed
// from what was read, so that what was checked is what regd runs.
type Registration struct {
	// IDs of the entries that it updates or deletes, which have to be read first
	Targets []string

	top     map[string]json.RawMessage
	ops     []map[string]json.RawMessage
	targets []int // the operations that have the targets
}

// A Found is an entry that a registrar wants to change, as a replica has it.
type Found struct {
	IsThere  bool
	Identity string
	Revision uint64
}

// registrarKeys has the keys that a line of a registrar may have.
var registrarKeys = map[string]bool{"ops": true, "token": true, "after": true, "tries": true}

// ReadRegistration reads a line of a registrar. It returns false unless all operations are creates, updates and
// deletes, and the identities of what they make begin with the prefix.
func ReadRegistration(line []byte, prefix string) (r Registration, ok bool) {
	if !json.Valid(line) || json.Unmarshal(line, &r.top) != nil {
		return r, false
	}
	for key := range r.top {
		if !registrarKeys[key] {
			return r, false
		}
	}
	if json.Unmarshal(r.top["ops"], &r.ops) != nil || len(r.ops) == 0 || len(r.ops) > maxOps {
		return r, false
	}
	for i, op := range r.ops {
		if !r.take(i, op, prefix) {
			return r, false
		}
	}
	return r, true
}

// take takes an operation.
func (r *Registration) take(number int, op map[string]json.RawMessage, prefix string) bool {
	name, isName := text(op, "op")
	if !isName || name != "create" && name != "update" && name != "delete" {
		return false
	}
	if name != "delete" {
		identity, isText := text(op, "identity")
		if !isText || !isBelow(identity, prefix) {
			return false
		}
	}
	if name == "create" {
		return true
	}
	id, isText := text(op, "id")
	if !isText {
		return false
	}
	r.Targets = append(r.Targets, id)
	r.targets = append(r.targets, number)
	return true
}

// isBelow returns true if an identity begins with a prefix and goes on behind it.
func isBelow(identity, prefix string) bool {
	return prefix != "" && strings.HasPrefix(identity, prefix) && len(identity) > len(prefix)
}

// text returns the text under a key, and stores it there as it was read.
func text(op map[string]json.RawMessage, key string) (value string, ok bool) {
	raw := op[key]
	if len(raw) == 0 || raw[0] != '"' || json.Unmarshal(raw, &value) != nil {
		return "", false
	}
	made, err := json.Marshal(value)
	if err != nil {
		return "", false
	}
	op[key] = made
	return value, true
}

// Query returns a line that shows the targets in the book of a commit number or a later one.
func (r Registration) Query(after uint64) ([]byte, error) {
	type show struct {
		Op string `json:"op"`
		ID string `json:"id"`
	}
	request := struct {
		Ops   []show `json:"ops"`
		After uint64 `json:"after"`
	}{After: after}
	for _, id := range r.Targets {
		request.Ops = append(request.Ops, show{"show", id})
	}
	return json.Marshal(request)
}

// ReadFound returns the entries in the reply to a Query, or false if it has another form.
func ReadFound(reply []byte, count int) (all []Found, ok bool) {
	var answer struct {
		Result  string
		Replies []struct {
			Entry *struct {
				Identity string
				Revision uint64
			}
		}
	}
	if json.Unmarshal(reply, &answer) != nil || answer.Result != "answered" || len(answer.Replies) != count {
		return nil, false
	}
	for _, one := range answer.Replies {
		if one.Entry == nil {
			all = append(all, Found{})
		} else {
			all = append(all, Found{true, one.Entry.Identity, one.Entry.Revision})
		}
	}
	return all, true
}

// noRevision is one that no entry has.
const noRevision = math.MaxUint64

// Line returns the line for the log, or a code. Each update and delete gets the revision of its target, so that it is
// refused with O4 if the target was changed since it was read. It is also refused with O4 if the caller expects another
// revision, and with O3 if there is no such entry.
func (r Registration) Line(found []Found, prefix string) (line []byte, code string) {
	for i, one := range found {
		if one.IsThere && !isBelow(one.Identity, prefix) {
			return nil, NotAllowed
		}
		op, revision := r.ops[r.targets[i]], one.Revision
		if !one.IsThere || !expects(op["revision"], revision) {
			revision = noRevision
		}
		made, err := json.Marshal(revision)
		if err != nil {
			return nil, NotAllowed
		}
		op["revision"] = made
	}
	made, err := json.Marshal(r.ops)
	if err == nil {
		r.top["ops"] = made
		line, err = json.Marshal(r.top)
	}
	switch {
	case err != nil || !MayChange(line):
		return nil, NotAllowed
	case len(line) > MaxLine:
		return nil, NoRoom
	}
	return line, ""
}

// expects returns true if a caller expects a revision of an entry, or any.
func expects(given json.RawMessage, revision uint64) bool {
	if len(given) == 0 || bytes.Equal(given, []byte("null")) {
		return true
	}
	var number uint64
	return json.Unmarshal(given, &number) == nil && number == revision
}
