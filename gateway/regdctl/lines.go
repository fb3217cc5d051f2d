package main

import (
	"fmt"

	"regd/gateway/client"
	"regd/gateway/desired"
)

// printLines prints operations as request lines.
func (s *session) printLines(ops []client.Op) error {
	batches, err := divided(ops)
	if err != nil {
		return err
	}
	for _, batch := range batches {
		line, err := client.Print(map[string]any{"ops": batch})
		if err != nil {
			return err
		}
		if err := s.print(string(line) + "\n"); err != nil {
			return err
		}
	}
	return nil
}

// sendAll sends operations in as many lines as they take. Each has a token that is made of it, so the same call again
// makes only what is missing.
func (s *session) sendAll(ops []client.Op, verb string) error {
	batches, err := divided(ops)
	if err != nil {
		return err
	}
	return s.sendBatches(batches, verb)
}

func (s *session) sendBatches(batches [][]client.Op, verb string) error {
	var all []made
	done, operations := 0, 0
	for _, batch := range batches {
		operations += len(batch)
	}
	for i, batch := range batches {
		text, err := client.Print(batch)
		if err != nil {
			return err
		}
		answer, err := s.client.ChangeAs(s.ctx, desired.Token("regdctl line", string(text)), batch...)
		if err != nil {
			if i > 0 {
				s.warn("regdctl: batches 1 to %d of %d are made; the same call again sends the "+
					"rest", i, len(batches))
			}
			return err
		}
		all = append(all, made{answer.Place, answer.Result == "repeated", len(batch)})
		done += len(batch)
		s.progress.tell(done, operations, i+1, len(batches))
	}
	s.progress.clear()
	return s.show(map[string]any{"batches": all}, func() string {
		repeated := 0
		for _, m := range all {
			if m.IsRepeated {
				repeated++
			}
		}
		text := fmt.Sprintf("%s %s by %s", counted(done, "operation", "operations"), verb,
			counted(len(all), "batch", "batches"))
		if repeated > 0 {
			text += fmt.Sprintf(", of which %d made before", repeated)
		}
		if len(all) > 0 {
			text += fmt.Sprintf("; at commit %d", all[len(all)-1].Place)
		}
		return text + "\n"
	})
}
