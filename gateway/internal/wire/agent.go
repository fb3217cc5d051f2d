package wire

import (
	"bytes"
	"encoding/json"
)

// ForAgent returns the query that regd gets for an agent's line, or the code G1 unless the line holds only the queries
// authorised and trust of the agent about itself. The query is written from what was read, so that what was checked is
// what regd runs.
func ForAgent(agent string, line []byte) (query []byte, code string) {
	var request struct {
		After *uint64 `json:"after,omitempty"`
		Ops   []struct {
			Op    string `json:"op"`
			Agent string `json:"agent"`
		} `json:"ops"`
	}
	in := json.NewDecoder(bytes.NewReader(line))
	in.DisallowUnknownFields()
	if agent == "" || !json.Valid(line) {
		return nil, NotAllowed
	}
	if err := in.Decode(&request); err != nil || len(request.Ops) == 0 || len(request.Ops) > MaxQueries {
		return nil, NotAllowed
	}
	for _, op := range request.Ops {
		if op.Agent != agent || op.Op != "authorised" && op.Op != "trust" {
			return nil, NotAllowed
		}
	}
	query, err := json.Marshal(request)
	if err != nil || MayChange(query) { // no line of an agent reaches the log
		return nil, NotAllowed
	}
	return query, ""
}
