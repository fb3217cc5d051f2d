package main

import (
	"errors"
	"fmt"

	"regd/gateway/client"
)

const (
	mostOps   = 64            // of a line
	mostBytes = 256<<10 - 256 // of the operations of a line, which has a token and more next to them
)

// A made is a batch that was committed.
type made struct {
	Place      uint64 `json:"place"`
	IsRepeated bool   `json:"repeated,omitempty"`
	Operations int    `json:"operations"`
}

// text says when something was made: "created at commit 7".
func (m made) text(verb string) string {
	if m.IsRepeated {
		return fmt.Sprintf("%s at commit %d, made before\n", verb, m.Place)
	}
	return fmt.Sprintf("%s at commit %d\n", verb, m.Place)
}

// change makes changes in one batch.
func (s *session) change(ops ...client.Op) ([]client.Reply, made, error) {
	answer, err := s.client.Change(s.ctx, ops...)
	if err != nil {
		return nil, made{}, err
	}
	if len(answer.Replies) != len(ops) {
		return nil, made{},
			fmt.Errorf("%d operations have %d replies: %s", len(ops), len(answer.Replies), answer.Line)
	}
	return answer.Replies, made{answer.Place, answer.Result == "repeated", len(ops)}, nil
}

// changeMany makes changes in one batch, or in several if that is allowed. Each batch holds alone.
func (s *session) changeMany(ops []client.Op, isSeveral bool) ([]client.Reply, []made, error) {
	batches, err := divided(ops)
	if err != nil {
		return nil, nil, err
	}
	if len(batches) > 1 && !isSeveral {
		return nil, nil,
			invalidf("%d operations don't fit into one line of %d operations and %d bytes, so they "+
				"can't be one atomic "+
				"change\n  cure:   add -several for %d changes, each of which holds alone", len(ops),
				mostOps, mostBytes,
				len(batches))
	}
	var replies []client.Reply
	var all []made
	for i, batch := range batches {
		found, m, err := s.change(batch...)
		if err != nil {
			if i > 0 {
				s.warn("regdctl: batches 1 to %d of %d are made, with %d operations; nothing of "+
					"batch %d is",
					i, len(batches), len(replies), i+1)
			}
			return replies, all, err
		}
		replies, all = append(replies, found...), append(all, m)
		s.progress.tell(len(replies), len(ops), i+1, len(batches))
	}
	s.progress.clear()
	return replies, all, nil
}

// divided divides operations into lines.
func divided(ops []client.Op) ([][]client.Op, error) {
	var batches [][]client.Op
	size := 0
	for _, op := range ops {
		text, err := client.Print(op)
		if err != nil {
			return nil, err
		}
		last := len(batches) - 1
		if last < 0 || len(batches[last]) == mostOps || size+len(text) > mostBytes {
			batches, size, last = append(batches, nil), 0, last+1
		}
		batches[last] = append(batches[last], op)
		size += len(text) + 1
	}
	return batches, nil
}

// tryOut sends changes together with an operation that has to be refused, and prints whether they would be accepted.
func (s *session) tryOut(ops []client.Op) error {
	batches, err := divided(ops)
	if err != nil {
		return err
	}
	if len(batches) > 1 || len(ops) == mostOps {
		return invalidf("-dry-run takes up to %d operations and %d bytes, and these are %d operations",
			mostOps-1,
			mostBytes, len(ops))
	}
	for _, op := range ops {
		if op.Name() == "create" && (op["id"] == nil || op["id"] == "") {
			op["id"] = client.NewID() // a gateway would otherwise draw it
		}
	}
	none := ^uint64(0) // a revision that no entry has
	answer, err := s.client.Try(s.ctx,
		append(append([]client.Op{}, ops...), client.Delete(client.NewID(), &none))...)
	var refused *client.Refused
	if !errors.As(err, &refused) {
		if err == nil {
			err = fmt.Errorf("the server has not refused what it has to refuse: %s", answer.Line)
		}
		return err
	}
	isLast := answer.Op != nil && *answer.Op == len(ops)
	if !isLast || answer.Code != "O3" && answer.Code != "O4" {
		return refused
	}
	value := map[string]any{"accepted": true, "place": answer.Place}
	return s.show(value, func() string {
		return fmt.Sprintf("would be accepted on commit %d; nothing was changed\n", answer.Place)
	})
}

// apply makes changes or tries them out, and prints what they were.
func (s *session) apply(isDry bool, verb string, ops ...client.Op) error {
	if isDry {
		return s.tryOut(ops)
	}
	replies, m, err := s.change(ops...)
	if err != nil {
		return err
	}
	value := map[string]any{"place": m.Place, "result": resultText(m)}
	return s.showChange(value, verb, m, replies[len(replies)-1])
}

func resultText(m made) string {
	if m.IsRepeated {
		return "repeated"
	}
	return "committed"
}

// showChange prints the row in the reply to a change.
func (s *session) showChange(value map[string]any, verb string, m made, r client.Reply) error {
	text := ""
	switch {
	case r.Entry != nil:
		value["entry"], text = r.Entry, s.entryTable(oneEntry(r.Entry))
	case r.Agent != nil:
		value["agent"], text = r.Agent, s.agentTable(oneAgent(r.Agent))
	case r.Bundle != nil:
		value["bundle"], text = r.Bundle, bundleTable(oneBundle(r.Bundle))
	}
	return s.show(value, func() string { return text + m.text(verb) })
}
