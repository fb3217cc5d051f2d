package main

import (
	"bufio"
	"encoding/json"
	"errors"
	"flag"
	"fmt"
	"io"
	"os"
	"strings"

	"regd/gateway/book"
	"regd/gateway/client"
	"regd/gateway/desired"
)

// errMoved says that others have changed the book in a way that changes the plan. What differs was printed.
var errMoved = errors.New("the changes are others by now; nothing was sent")

func applyState(flags *flag.FlagSet) runner {
	p := definePlanning(flags)
	isYes := flags.Bool("yes", false, "apply the plan without asking")
	isDry := defineDry(flags)
	return func(s *session) error {
		if len(s.arguments) == 0 {
			return s.argumentCount(1, 1)
		}
		if plan, isPlan := s.storedPlan(); isPlan {
			s.settings.domain = plan.Domain
			*p.isAdopting = plan.IsAdopting
			return s.applyStored(plan, p, *isDry)
		}
		state, err := s.readState(s.arguments)
		if err != nil {
			return err
		}
		plan, err := s.plan(state, p)
		if err != nil {
			return err
		}
		if s.settings.output == "table" {
			if err := s.print(s.planText(plan)); err != nil {
				return err
			}
		}
		if err := verdict(plan); !errors.Is(err, errNo) {
			return s.ended(plan, err)
		}
		if *isDry {
			return s.tryPlan(plan)
		}
		if err := s.confirm(plan, *isYes); err != nil {
			return err
		}
		return s.applyAsPlanned(plan, p)
	}
}

// ended prints a plan that has nothing to send, in the formats for programs.
func (s *session) ended(p *desired.Plan, err error) error {
	if s.settings.output == "table" {
		return err
	}
	if shown := s.show(application{Plan: p.ID, Place: p.Place, Batches: []made{}, Others: []uint64{},
		Overwritten: []overwritten{}}, nil); shown != nil {
		return shown
	}
	return err
}

// storedPlan reads the plan of a file that `plan -out` wrote, and returns false if the argument is another file.
func (s *session) storedPlan() (*desired.Plan, bool) {
	if len(s.arguments) != 1 || s.arguments[0] == "-" {
		return nil, false
	}
	text, err := os.ReadFile(s.arguments[0])
	if err != nil {
		return nil, false // reading it as a state says what is wrong
	}
	return desired.ReadPlan(text)
}

// tryPlan asks whether the first batch would be accepted.
func (s *session) tryPlan(p *desired.Plan) error {
	ops := p.Batches[0].Ops
	if len(ops) == mostOps {
		ops = ops[:mostOps-1] // the last one makes room for what has to be refused
	}
	if len(p.Batches) > 1 || len(ops) < len(p.Batches[0].Ops) {
		s.warn("regdctl: only the first %d operations are tried", len(ops))
	}
	return s.tryOut(ops)
}

// confirm asks whether to apply a plan.
func (s *session) confirm(p *desired.Plan, isYes bool) error {
	if isYes {
		return nil
	}
	if file, isFile := s.in.(*os.File); !isFile || !isTerminal(file) {
		return invalidf("there is no terminal to ask whether to apply this\n  cure:   add -yes")
	}
	s.client.Close() // the answer may take long, and the connection would hold a worker
	s.progress.clear()
	if _, err := fmt.Fprintf(s.errs, "apply %s? [y/N] ", counted(p.Changes(), "change", "changes")); err != nil {
		return err
	}
	word, err := bufio.NewReader(s.in).ReadString('\n')
	if err != nil && !errors.Is(err, io.EOF) {
		return err
	}
	s.limit() // what the caller took doesn't count; the end of the program ends this time, too
	if !isOneOf(strings.ToLower(strings.TrimSpace(word)), "y", "yes") {
		s.warn("regdctl: nothing was sent")
		return errNo
	}
	return nil
}

// isTerminal returns true if a file is a terminal.
func isTerminal(file *os.File) bool {
	info, err := file.Stat()
	return err == nil && info.Mode()&os.ModeCharDevice != 0
}

// markerOf reads the marker of a plan, and the commit number.
func (s *session) markerOf(p *desired.Plan) (*book.Entry, uint64, error) {
	answer, err := s.client.Ask(s.ctx, client.Show(p.MarkerID()))
	if err != nil {
		return nil, 0, err
	}
	return answer.Replies[0].Entry, answer.Place, nil
}

// applyStored applies a plan of a file. If it was applied in part, the rest is applied: batches that are made already
// are answered `repeated`.
func (s *session) applyStored(p *desired.Plan, flags planning, isDry bool) error {
	if err := verdict(p); !errors.Is(err, errNo) {
		return s.ended(p, err)
	}
	if isDry {
		return s.tryPlan(p)
	}
	marker, _, err := s.markerOf(p)
	if err != nil {
		return err
	}
	if count, isThis := p.Made(marker); isThis {
		return s.send(p, count)
	}
	return s.applyAsPlanned(p, flags)
}

// applyAsPlanned applies a plan if its changes are still the same.
func (s *session) applyAsPlanned(p *desired.Plan, flags planning) error {
	_, place, err := s.markerOf(p)
	if err != nil {
		return err
	}
	if place == p.Place {
		return s.send(p, 0)
	}
	again, err := s.plan(p.State, flags)
	if err != nil {
		return err
	}
	if len(again.Batches) == 0 && !again.IsBlocked && len(again.Broken) == 0 {
		s.warn("regdctl: the book has all of this already, at commit %d", again.Place)
		return s.ended(again, nil)
	}
	if same, err := sameRows(p, again); err != nil {
		return err
	} else if !same {
		s.warn("regdctl: others have changed the book since commit %d, and the plan is another one "+
			"now:\n%s", p.Place,
			s.planText(again))
		return errMoved
	}
	return s.send(again, 0)
}

// sameRows returns true if two plans change the same.
func sameRows(one, other *desired.Plan) (bool, error) {
	first, err := json.Marshal(one.Rows)
	if err != nil {
		return false, err
	}
	second, err := json.Marshal(other.Rows)
	isSame := string(first) == string(second) && one.IsBlocked == other.IsBlocked
	return isSame && strings.Join(one.Broken, "\n") == strings.Join(other.Broken, "\n"), err
}

// An application is what is printed of a plan that was applied.
type application struct {
	Plan  string `json:"plan"`
	Place uint64 `json:"planned"`
	// Batches are the batches that were made.
	Batches []made `json:"batches"`
	// Others are the commits of others that came between, Overwritten their changes that are gone.
	Others      []uint64      `json:"others"`
	Overwritten []overwritten `json:"overwritten"`
}

// overwritten is a change of another client that a batch has replaced.
type overwritten struct {
	Name   string `json:"name"`
	Had    string `json:"had"`
	Wanted string `json:"wanted"`
	Undo   string `json:"undo,omitempty"`
}

// send sends the batches of a plan. A marker shows that some of them are made already: if the server doesn't know their
// tokens any more, those are left out.
func (s *session) send(p *desired.Plan, done int) error {
	result := application{Plan: p.ID, Place: p.Place, Batches: []made{}, Others: []uint64{},
		Overwritten: []overwritten{}}
	operations := 0
	for i := 0; i < len(p.Batches); i++ {
		batch := p.Batches[i]
		answer, err := s.client.ChangeAs(s.ctx, batch.Token, batch.Ops...)
		if i == 0 && done > 0 && isForgotten(err) {
			s.warn("regdctl: %s made before, as the marker of the set shows", batchesText(done))
			i = done - 1
			continue
		}
		if err != nil {
			return s.stoppedAt(i, len(p.Batches), err)
		}
		if len(answer.Replies) != len(batch.Ops) {
			return fmt.Errorf("%d operations have %d replies: %s", len(batch.Ops), len(answer.Replies),
				answer.Line)
		}
		m := made{answer.Place, answer.Result == "repeated", len(batch.Ops)}
		result.Batches = append(result.Batches, m)
		result.Overwritten = append(result.Overwritten, s.overwritten(p, batch, answer)...)
		operations += len(batch.Ops)
		if s.settings.output == "table" {
			if err := s.print(batchText(i, len(p.Batches), m)); err != nil {
				return err
			}
		}
		s.progress.tell(operations, p.Operations(), i+1, len(p.Batches))
	}
	s.progress.clear()
	return s.showApplication(result)
}

func batchesText(count int) string {
	if count == 1 {
		return "batch 1 was"
	}
	return fmt.Sprintf("batches 1 to %d were", count)
}

func batchText(i, count int, m made) string {
	before := ""
	if m.IsRepeated {
		before = ", made before"
	}
	return fmt.Sprintf("batch %d of %d: committed at %d%s (%s)\n", i+1, count, m.Place, before,
		counted(m.Operations, "operation", "operations"))
}

// isForgotten returns true if a batch was refused because its marker is behind.
func isForgotten(err error) bool {
	var refused *client.Refused
	if !errors.As(err, &refused) || refused.Answer.Op == nil || *refused.Answer.Op != 0 {
		return false
	}
	return refused.Answer.Code == "O4" || refused.Answer.Code == "O1"
}

// stoppedAt says which batches are made if one is not.
func (s *session) stoppedAt(i, count int, err error) error {
	if i > 0 {
		s.warn("regdctl: %s made. Apply the same again, or plan again, for the rest", strings.Replace(
			batchesText(i), " w", " of "+fmt.Sprint(count)+" w", 1))
	}
	var refused *client.Refused
	if errors.As(err, &refused) {
		why := ""
		if isOneOf(refused.Answer.Code, "O1", "O2", "O3", "O4", "O7", "O10") {
			why = ", since others have changed what the plan has read: plan again"
		}
		s.warn("regdctl: nothing of batch %d of %d was made%s", i+1, count, why)
	}
	return err
}

// overwritten finds changes of others that a batch has replaced, since the server knows no conditions on agents and
// bundles: the replies have former selectors, and the number of changes of a bundle.
func (s *session) overwritten(p *desired.Plan, batch desired.Batch, answer client.Answer) []overwritten {
	rows := map[string]desired.Row{}
	for _, r := range p.Rows {
		rows[r.Kind+" "+r.Name] = r
	}
	var found []overwritten
	for i, op := range batch.Ops {
		reply := answer.Replies[i]
		switch {
		case op.Name() == "drop_agent" && reply.Agent != nil:
			r := rows["agent "+reply.Agent.ID]
			had := strings.Join(book.Ordered(reply.Agent.Selectors), " ")
			if len(r.Columns) > 0 && r.Columns[0].Before != had {
				found = append(found, overwritten{reply.Agent.ID, had, r.Columns[0].Before,
					s.agentCommand(*reply.Agent)})
			}
		case op.Name() == "set_bundle" && reply.Bundle != nil:
			r := rows["bundle "+reply.Bundle.Domain]
			before, wanted := "none", fmt.Sprint(reply.Bundle.Sequence)
			if r.Revision != nil {
				before = fmt.Sprint(*r.Revision + 1)
			} else if reply.Bundle.Sequence == 0 {
				before = "0"
			}
			if before != wanted {
				found = append(found, overwritten{Name: reply.Bundle.Domain, Had: "sequence " + wanted,
					Wanted: "sequence " + before})
			}
		}
	}
	return found
}

// agentCommand returns the command that registers an agent with its selectors.
func (s *session) agentCommand(a book.Agent) string {
	text := "regdctl agent set -spiffeID " + s.short(a.ID)
	for _, selector := range a.Selectors {
		text += " -selector " + shellWord(selector)
	}
	if len(a.Selectors) == 0 {
		text += " -selector ''"
	}
	return text
}

// showApplication prints whether the book was the one of the plan, and what was overwritten.
func (s *session) showApplication(a application) error {
	isMade := map[uint64]bool{}
	last := a.Place
	for _, m := range a.Batches {
		isMade[m.Place] = true
		if m.Place > last {
			last = m.Place
		}
	}
	a.Others = []uint64{}
	for place := a.Place + 1; place < last; place++ {
		if !isMade[place] && len(a.Others) < 100 {
			a.Others = append(a.Others, place)
		}
	}
	if a.Overwritten == nil {
		a.Overwritten = []overwritten{}
	}
	return s.show(a, func() string {
		text := ""
		for _, o := range a.Overwritten {
			text += fmt.Sprintf("  ! %s had %s and not %s: the change of another client is replaced\n",
				s.short(o.Name),
				orDash(o.Had), orDash(o.Wanted))
			if o.Undo != "" {
				text += "    undo: " + o.Undo + "\n"
			}
		}
		if len(a.Batches) == 0 {
			return text + "nothing was left to apply\n"
		}
		if len(a.Others) == 0 {
			return text + fmt.Sprintf("applied on exactly the book that was planned, %d; the book is now "+
				"%d\n", a.Place,
				last)
		}
		return text + "applied; commits of others came between: " + strings.Trim(fmt.Sprint(a.Others),
			"[]") + "\n"
	})
}
