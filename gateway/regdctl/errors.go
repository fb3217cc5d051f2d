package main

import (
	"errors"
	"fmt"
	"strings"

	"regd/gateway/client"
)

// A code is a row of docs/CODES.md or docs/GATEWAY.md.
type code struct{ meaning, cause, cure string }

// report prints what went wrong, and returns the exit status.
func (s *session) report(err error) int {
	s.progress.clear()
	var refused *client.Refused
	var unknown *client.Unknown
	var mistake *invalid
	switch {
	case err == nil && s.failure != nil:
		return statusFailed
	case err == nil:
		return statusDone
	case errors.Is(err, errNo):
		return statusNo
	case errors.Is(err, errLineRefused):
		return statusRefused
	case errors.Is(err, errMoved):
		s.warn("regdctl: %v", err)
		return statusRefused
	case errors.As(err, &refused):
		s.reportRefused(refused)
		return statusRefused
	case errors.As(err, &unknown):
		s.reportUnknown(unknown)
		return statusUnknown
	case errors.As(err, &mistake):
		s.warn("regdctl: %s", mistake.text)
		return statusInvalid
	}
	var unreachable *client.Unreachable
	s.warn("regdctl: %v", err)
	if errors.As(err, &unreachable) {
		s.warn("  cure:   check -address and -keys (`regdctl env` prints them), and that the server runs")
	}
	return statusFailed
}

// reportUnknown prints a change whose answer was lost, and how to know whether it was made.
func (s *session) reportUnknown(u *client.Unknown) {
	s.warn("regdctl: it is unknown whether the change was made: %v", u.Err)
	s.warn("  cause:  the line was sent, and its answer was lost or didn't come within -timeout")
	line := quoted(string(u.Line))
	if mayRepeat(string(u.Line)) != nil {
		s.warn("  cure:   look whether it was made before you send it again: it has no token, so it could be "+
			"made "+
			"twice: %s", line)
		return
	}
	s.warn("  cure:   send the same line again; its token makes it at most once: regdctl call -retry %s", line)
}

// quoted returns a word for a shell.
func quoted(word string) string { return "'" + strings.ReplaceAll(word, "'", `'\''`) + "'" }

// A refusal is what is printed of a refused line.
type refusal struct {
	Code      string  `json:"code"`
	Meaning   string  `json:"meaning"`
	Op        *int    `json:"op,omitempty"`
	Operation string  `json:"operation,omitempty"`
	Field     string  `json:"field,omitempty"`
	Place     *uint64 `json:"place,omitempty"`
	Detail    string  `json:"detail,omitempty"`
	Cause     string  `json:"cause,omitempty"`
	Cure      string  `json:"cure,omitempty"`
	Command   string  `json:"command,omitempty"`
	Note      string  `json:"note,omitempty"`
}

// refusalOf explains a refused line.
func (s *session) refusalOf(r *client.Refused) refusal {
	a := r.Answer
	known, isKnown := codes[a.Code]
	f := refusal{Code: a.Code, Meaning: known.meaning, Op: a.Op, Field: a.Field, Detail: a.Detail,
		Cause: known.cause,
		Cure:  known.cure}
	if !isKnown {
		f.Meaning = "this regdctl doesn't know the code; the server is newer"
		f.Cure = "see the page CODES of the server's version"
	}
	if a.Result == "conflict" {
		f.Code, f.Meaning = "conflict", "other clients changed what the line had read, again and again"
		f.Cure = "send it again"
	}
	var op client.Op
	if a.Op != nil && *a.Op < len(r.Ops) {
		op = r.Ops[*a.Op]
		f.Operation = op.Name()
	}
	if a.Result != "" {
		f.Place = &a.Place
	}
	f.Command = s.cure(a, op)
	if r.IsCopied {
		f.Note = "a copy of this line was sent before, on a connection that was lost, and may still be run"
	}
	return f
}

// reportRefused prints a refused line with its cause and cure.
func (s *session) reportRefused(r *client.Refused) {
	f := s.refusalOf(r)
	if s.settings.output == "json" {
		s.note(s.show(f, nil))
	}
	where := ""
	if f.Op != nil {
		where = fmt.Sprintf(" in operation %d", *f.Op)
	}
	if f.Operation != "" {
		where += ", " + f.Operation
	}
	if f.Field != "" {
		where += ", at `" + f.Field + "`"
	}
	if f.Place != nil {
		where += fmt.Sprintf(", at commit %d", *f.Place)
	}
	s.warn("regdctl: refused: %s%s: %s", f.Code, where, f.Meaning)
	command := f.Command
	if f.Cure != "" && command != "" {
		command = ": " + command
	}
	for _, row := range [][2]string{{"detail:", f.Detail}, {"cause: ", f.Cause}, {"cure:  ", f.Cure + command},
		{"note:  ", f.Note}} {
		if row[1] != "" {
			s.warn("  %s %s", row[0], row[1])
		}
	}
}

// cure returns the command to type after a refusal, or "".
func (s *session) cure(a client.Answer, op client.Op) string {
	text := func(key string) string {
		value, _ := op[key].(string)
		return value
	}
	show := "regdctl entry show -entryID " + text("id")
	switch a.Code {
	case "O1", "O4":
		return show
	case "O2":
		return "regdctl entry show -entryID " + a.Detail
	case "O3":
		return "regdctl entry show"
	case "O5":
		if op.Name() == "drop_bundle" {
			return "regdctl bundle list"
		}
		return "regdctl bundle set -id spiffe://" + a.Detail + " -path FILE"
	case "O6":
		return "regdctl entry show -federatesWith spiffe://" + text("domain")
	case "O7":
		return "regdctl agent set -spiffeID " + s.short(text("agent")) + " -selector TYPE:VALUE"
	case "W1":
		return "regdctl status"
	case "W3":
		return "regdctl prune; regdctl check"
	case "W4":
		return "regdctl agent evict -spiffeID ID"
	case "W5":
		return "regdctl check; regdctl bundle delete -id spiffe://DOMAIN"
	case "B3":
		return "regdctl env"
	case "G1":
		return "regdctl -keys FOLDER_OF_AN_OPERATOR .."
	}
	return ""
}
