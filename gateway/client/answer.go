package client

import (
	"encoding/json"
	"fmt"

	"regd/gateway/book"
)

// Answer is the answer to a request line. docs/LINES.md says which keys it has.
type Answer struct {
	Place   uint64  `json:"place"`
	Result  string  `json:"result"`
	Code    string  `json:"code"`
	Field   string  `json:"field"`
	Detail  string  `json:"detail"`
	Op      *int    `json:"op"`
	Replies []Reply `json:"replies"`

	// Line is the answer as it came, without its line feed.
	Line []byte `json:"-"`
}

// Reply is the reply to an operation. Each operation sets its own keys.
type Reply struct {
	Entry       *book.Entry   `json:"entry"`
	Entries     []book.Entry  `json:"entries"`
	Next        *string       `json:"next"`
	Agent       *book.Agent   `json:"agent"`
	Agents      []book.Agent  `json:"agents"`
	Bundle      *book.Bundle  `json:"bundle"`
	Bundles     []book.Bundle `json:"bundles"`
	Counts      *Sizes        `json:"counts"`
	Pruned      []string      `json:"pruned"`
	Deleted     []string      `json:"deleted"`
	Dissociated []string      `json:"dissociated"`
}

// Sizes are the numbers of rows of a book.
type Sizes struct {
	Entries uint64 `json:"entries"`
	Agents  uint64 `json:"agents"`
	Bundles uint64 `json:"bundles"`
	Tokens  uint64 `json:"tokens"`
}

// readAnswer reads an answer, and returns an error if it is not one.
func readAnswer(line []byte) (Answer, error) {
	a := Answer{Line: line}
	if err := json.Unmarshal(line, &a); err != nil {
		return a, fmt.Errorf("the answer is not a server's: %w: %.200s", err, line)
	}
	if a.Result == "" && a.Code == "" {
		return a, fmt.Errorf("the answer is not a server's: %.200s", line)
	}
	return a, nil
}

// IsRefused returns true if the line had no effect.
func (a *Answer) IsRefused() bool { return a.Code != "" }

// lacks returns true if the server doesn't know the name of an operation.
func (a *Answer) lacks() bool { return a.Code == "L5" && a.Field == "op" }

// isTransient returns true if the same line, sent again, may be accepted.
func (a *Answer) isTransient() bool {
	switch a.Code {
	case "L6", "L8", "G5", "G8", "G9", "W1":
		return true
	}
	return a.Result == "conflict"
}

// Refused says that the server refused a line, or met only conflicts.
type Refused struct {
	Answer Answer
	Ops    []Op
	// IsCopied is true if a copy of the line was sent earlier on a connection that was lost. It may still be run.
	IsCopied bool
}

func (r *Refused) Error() string { return "refused: " + string(r.Answer.Line) }

// Unknown says that it is unknown whether a change was made. The line, sent again, makes it at most once.
type Unknown struct {
	Line []byte
	Err  error
}

func (u *Unknown) Error() string {
	return "it is unknown whether the change was made: " + u.Err.Error()
}
func (u *Unknown) Unwrap() error { return u.Err }

// Unreachable says that no server answered.
type Unreachable struct{ Err error }

func (u *Unreachable) Error() string { return u.Err.Error() }
func (u *Unreachable) Unwrap() error { return u.Err }
