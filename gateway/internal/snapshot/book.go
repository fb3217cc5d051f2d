package snapshot

import (
	"bytes"
	"encoding/json"
	"errors"
	"fmt"
	"sort"
	"strconv"
	"strings"

	"regd/gateway/internal/replica"
	"regd/gateway/internal/wire"
)

// limits of a line of a snapshot
const mostOps, mostBytes = 64, 1 << 18

type fields = map[string]any

// text returns an operation as JSON.
func text(op fields) string {
	made, err := json.Marshal(op)
	if err != nil {
		panic(err) // it was read from JSON
	}
	return string(made)
}

// names has a query for each agent and each bundle that a line of the log has set, since regd lists entries alone.
type names map[string]bool

// note adds the names that a line sets. Lines that regd refused may add names that don't exist.
func (n names) note(line []byte) {
	var batch struct {
		Ops []struct{ Op, Agent, Domain string }
	}
	// also after an error: of equal keys regd takes the last one, whatever the others are
	_ = json.Unmarshal(line, &batch)
	for _, op := range batch.Ops {
		switch op.Op {
		case "set_agent":
			n[text(fields{"op": "show_agent", "agent": op.Agent})] = true
		case "set_bundle":
			n[text(fields{"op": "show_bundle", "domain": op.Domain})] = true
		}
	}
}

// told adds the names that regd shows in its reply to a change that it committed. It is regd's reading of the line, and
// note is the gateway's. A reply that is repeated may show what an older snapshot no longer has.
func (n names) told(shown []byte) error {
	hasName := bytes.Contains(shown, []byte(`{"agent":`)) || bytes.Contains(shown, []byte(`{"bundle":`))
	if !hasName || !wire.IsCommitted(shown) {
		return nil
	}
	var answer struct{ Replies []reply }
	if err := json.Unmarshal(shown, &answer); err != nil {
		return fmt.Errorf("a reply of regd: %w", err)
	}
	for _, one := range answer.Replies {
		if one.Agent != nil {
			n[text(fields{"op": "show_agent", "agent": one.Agent.ID})] = true
		}
		if one.Bundle != nil {
			n[text(fields{"op": "show_bundle", "domain": one.Bundle.Domain})] = true
		}
	}
	return nil
}

// without returns a name that other names don't have, or "".
func (n names) without(other names) string {
	for name := range n {
		if !other[name] {
			return name
		}
	}
	return ""
}

// A reply is that to a query for an agent, a bundle or a page.
type reply struct {
	Agent *struct {
		ID        string
		Selectors []string
	}
	Bundle *struct {
		Domain, Text string
		Sequence     uint64
	}
	Entries []fields
	Next    *string
}

// show sends one query to a replica. The reply to a refused one is empty: its name is not one of the book.
func show(r *replica.Replica, query string) (shown reply, err error) {
	var answer struct {
		Code    string
		Replies []reply
	}
	line := fmt.Sprintf(`{"ops":[%s],"after":%d}`, query, r.State().Place)
	in := json.NewDecoder(bytes.NewReader(r.Ask([]byte(line))))
	in.UseNumber()
	err = in.Decode(&answer)
	if err == nil && (strings.HasPrefix(answer.Code, "L") || answer.Code == "W1" || answer.Code == wire.Busy) {
		err = errors.New(answer.Code) // such as L6: out of memory; or G5: late
	}
	if err != nil {
		return shown, fmt.Errorf("answer to %s: %w", query, err)
	}
	if len(answer.Replies) > 0 {
		shown = answer.Replies[0]
	}
	return shown, nil
}

// batches returns lines with all operations.
func batches(ops []string) (lines []string) {
	for len(ops) > 0 {
		count, size := 1, len(ops[0])
		for count < len(ops) && count < mostOps && size+len(ops[count]) <= mostBytes {
			size += len(ops[count])
			count++
		}
		lines = append(lines, `{"ops":[`+strings.Join(ops[:count], ",")+`]}`)
		ops = ops[count:]
	}
	return lines
}

// bookLines returns lines that make the book of a replica, to which no change is sent meanwhile. A bundle is set as
// often as its sequence says, and an entry is created and then updated as often as its revision says.
func bookLines(r *replica.Replica, names names) ([]string, error) {
	var queries, ops []string
	put := func(count uint64, op fields) {
		for text := text(op); count > 0; count-- {
			ops = append(ops, text)
		}
	}
	for query := range names {
		queries = append(queries, query)
	}
	sort.Strings(queries)
	for _, query := range queries {
		shown, err := show(r, query)
		if err != nil {
			return nil, err
		}
		if agent := shown.Agent; agent != nil {
			put(1, fields{"op": "set_agent", "agent": agent.ID, "selectors": agent.Selectors})
		}
		if bundle := shown.Bundle; bundle != nil {
			put(bundle.Sequence, fields{"op": "set_bundle", "domain": bundle.Domain, "text": ""})
			put(1, fields{"op": "set_bundle", "domain": bundle.Domain, "text": bundle.Text})
		}
	}
	for page := (fields{"op": "page", "size": 500}); ; {
		shown, err := show(r, text(page))
		if err != nil {
			return nil, err
		}
		for _, entry := range shown.Entries {
			revision, err := strconv.ParseUint(fmt.Sprint(entry["revision"]), 10, 64)
			if err != nil {
				return nil, err
			}
			delete(entry, "revision")
			entry["op"] = "create"
			put(1, entry)
			entry["op"] = "update"
			put(revision, entry)
		}
		if shown.Next == nil {
			return batches(ops), nil
		}
		page["from"] = *shown.Next
	}
}
