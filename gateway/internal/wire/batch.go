package wire

import (
	"bytes"
	"encoding/json"
)

// MaxQueries is the most queries of a line for the log, or of an agent's. regd keeps the replies of a batch that also
// changes something, and the gateway those of a batch with a token.
const MaxQueries = 4

const (
	maxOps            = 64     // regd refuses a batch with more, so nothing is added to it
	idRoom, tokenRoom = 44, 64 // bytes that the gateway may add to a line: for each id, and for a token
)

// The codes of the gateway's own. A refused line has no effect and reaches neither the log nor regd.
const (
	NotAllowed     = "G1" // the caller may not send this line
	TooManyQueries = "G2" // a line for the log with more than MaxQueries queries, or a query with too many listings
	NoRoom         = "G3" // the line is too long for what the gateway adds to it
	TooMany        = "G4" // the caller has too many connections
	Busy           = "G5" // too many lines wait, replies take too much room, or a query takes too long
	TooLong        = "G6" // the line is longer than this gateway accepts
	Skipped        = "G7" // an operator has skipped the line
	Outdated       = "G8" // the gateway's book may be too old for a query
	Unverified     = "G9" // the log doesn't verify
)

// changes has the names of regd's operations, and whether they change the book.
var changes = map[string]bool{
	"create": true, "update": true, "delete": true, "prune": true,
	"set_agent": true, "drop_agent": true, "set_bundle": true, "drop_bundle": true,
	"show": false, "show_agent": false, "show_bundle": false, "children": false, "page": false, "authorised": false,
	"trust": false,
}

// A batch is what the gateway has to know of a line with a list of operations. Whether regd accepts the line is not
// known. Of equal keys the last one counts.
type batch struct {
	ops              []map[string]any
	changes, queries int
	missing          []int // where in the line an id can be added to a create that has none
	token, after     any   // nil if absent or null
}

// readBatch returns false if the line is not an object with a list of 1 to 64 objects under ops; regd refuses such a
// line. What it accepts, regd may still refuse.
func readBatch(line []byte) (b batch, ok bool) {
	in := decoder(line)
	if open, err := in.Token(); err != nil || open != json.Delim('{') || !json.Valid(line) {
		return b, false
	}
	var list, other json.RawMessage
	listEnd := 0
	for in.More() {
		key, err := in.Token()
		if err != nil {
			return b, false
		}
		var value any = &other
		switch key {
		case "ops":
			value = &list
		case "token":
			value = &b.token
		case "after":
			value = &b.after
		}
		if err := in.Decode(value); err != nil {
			return b, false
		}
		if key == "ops" {
			listEnd = int(in.InputOffset())
		}
	}
	in = decoder(list)
	if open, err := in.Token(); err != nil || open != json.Delim('[') {
		return b, false
	}
	for in.More() {
		var op map[string]any
		if err := in.Decode(&op); err != nil || op == nil || len(b.ops) == maxOps {
			return b, false
		}
		b.ops = append(b.ops, op)
		name, _ := op["op"].(string)
		if isChange, isKnown := changes[name]; isChange {
			b.changes++
		} else if isKnown {
			b.queries++
		}
		if name == "create" && op["id"] == nil {
			b.missing = append(b.missing, listEnd-len(list)+int(in.InputOffset())-1)
		}
	}
	return b, len(b.ops) > 0
}

func decoder(text []byte) *json.Decoder {
	in := json.NewDecoder(bytes.NewReader(text))
	in.UseNumber()
	return in
}

// ForLog returns what the log gets for an operator's line, or the code with which the gateway refuses it. Each create
// without an id gets one, so that every replica makes the same entries. A line with a token stays as it is: there regd
// requires the ids.
func ForLog(line []byte) (made []byte, code string) {
	b, ok := readBatch(line)
	room := idRoom * len(b.missing)
	if b.token != nil {
		b.missing, room = nil, tokenRoom
	}
	switch {
	case !ok:
		return line, ""
	case b.queries > MaxQueries:
		return nil, TooManyQueries
	case room > 0 && len(line)+room > MaxLine:
		return nil, NoRoom
	}
	for i := len(b.missing) - 1; i >= 0; i-- { // backwards, since an insertion moves what follows
		line = insert(line, b.missing[i], `,"id":"`+NewID()+`"`)
	}
	return line, ""
}
