package main

import (
	"bufio"
	"bytes"
	"encoding/json"
	"flag"
	"fmt"

	"regd/gateway/book"
	"regd/gateway/client"
)

// otherAgents is printed where the server can't list agents.
const otherAgents = "other agents may exist: this server can't list agents (L5 at `op` for `agents`), so these are " +
	"the parents of entries and those of -names"

const otherBundles = "other bundles may exist: this server can't list bundles (L5 at `op` for `bundles`), so these " +
	"are the ones that entries or -names name"

func defineAgent(flags *flag.FlagSet) func(*session) (string, error) {
	id := flags.String("spiffeID", "", "the SPIFFE `ID` of the agent, such as /spire/agent/a")
	return func(s *session) (string, error) {
		word := *id
		if word == "" && len(s.arguments) == 1 {
			word = s.arguments[0]
		} else if err := s.noArguments(); err != nil {
			return "", err
		}
		if word == "" {
			return "", invalidf("-spiffeID is missing")
		}
		return s.id(word)
	}
}

func setAgent(flags *flag.FlagSet) runner {
	agent := defineAgent(flags)
	var selectors, before words
	flags.Var(&selectors, "selector", "a `selector`, type:value; may be repeated. '' alone: none")
	flags.Var(&before, "ifSelector", "only if the agent has exactly these `selectors`; may be repeated")
	ifAbsent := flags.Bool("ifAbsent", false, "only if the agent is not registered")
	isDry := defineDry(flags)
	return func(s *session) error {
		id, err := agent(s)
		if err != nil {
			return err
		}
		if *ifAbsent && len(before) > 0 {
			return invalidf("-ifAbsent and -ifSelector exclude each other")
		}
		if len(selectors) == 0 {
			return invalidf(
				"-selector is missing\n  cure:   for an agent without selectors write -selector ''")
		}
		ops := []client.Op{client.SetAgent(book.Agent{ID: id, Selectors: given(selectors)})}
		if *ifAbsent || len(before) > 0 {
			expected := client.ExpectAgent(id, before)
			if ops, err = s.expecting(ops, expected, func() (bool, error) {
				return s.hasSelectors(id,
					before)
			}); err != nil {
				return err
			}
		}
		return s.apply(*isDry, "registered", ops...)
	}
}

// hasSelectors returns true if an agent has exactly these selectors, or, if there are none, is not registered.
func (s *session) hasSelectors(id string, selectors []string) (bool, error) {
	answer, err := s.client.Ask(s.ctx, client.ShowAgent(id))
	if err != nil {
		return false, err
	}
	a := answer.Replies[0].Agent
	if a == nil || len(selectors) == 0 {
		return a == nil && len(selectors) == 0, nil
	}
	return book.SameSet(a.Selectors, selectors), nil
}

// expecting puts a condition before changes. If the server is too old for it, the condition is checked before the
// change, and not with it.
func (s *session) expecting(ops []client.Op, condition client.Op, holds func() (bool, error)) ([]client.Op, error) {
	isKnown, err := s.client.Expects(s.ctx, condition)
	if err != nil {
		return nil, err
	}
	if isKnown {
		return append([]client.Op{condition}, ops...), nil
	}
	s.warn("regdctl: this server doesn't know %s, so the condition is checked before the change and not together "+
		"with it", condition.Name())
	isSo, err := holds()
	if err != nil {
		return nil, err
	}
	if !isSo {
		s.warn("regdctl: the condition doesn't hold; nothing was changed")
		return nil, errNo
	}
	return ops, nil
}

func showAgent(flags *flag.FlagSet) runner {
	agent := defineAgent(flags)
	return func(s *session) error {
		id, err := agent(s)
		if err != nil {
			return err
		}
		answer, err := s.client.Ask(s.ctx, client.ShowAgent(id))
		if err != nil {
			return err
		}
		a := answer.Replies[0].Agent
		err = s.show(map[string]any{"place": answer.Place, "agent": a}, func() string {
			if a == nil {
				return fmt.Sprintf("%s is not registered at commit %d\n", s.short(id), answer.Place)
			}
			return s.agentTable(oneAgent(a)) + fmt.Sprintf("at commit %d\n", answer.Place)
		})
		if err == nil && a == nil {
			err = errNo
		}
		return err
	}
}

// names are rows that request lines set, by their keys.
type names struct{ agents, domains []string }

func defineNames(flags *flag.FlagSet) func(*session) (names, error) {
	file := flags.String("names", "",
		"a `file` with request lines: for a server that can't list agents and bundles, "+
			"those that they set are asked for too")
	return func(s *session) (names, error) {
		if *file == "" {
			return names{}, nil
		}
		text, err := s.readFile(*file)
		if err != nil {
			return names{}, err
		}
		return namesIn(text), nil
	}
}

// namesIn returns the agents and the domains of the bundles that request lines set.
func namesIn(text []byte) (found names) {
	lines := bufio.NewScanner(bytes.NewReader(text))
	lines.Buffer(nil, 1<<21)
	for lines.Scan() {
		var request struct {
			Ops []struct {
				Op     string `json:"op"`
				Agent  string `json:"agent"`
				Domain string `json:"domain"`
			} `json:"ops"`
		}
		if json.Unmarshal(lines.Bytes(), &request) != nil {
			continue // a log may have refused lines
		}
		for _, op := range request.Ops {
			switch op.Op {
			case "set_agent":
				found.agents = append(found.agents, op.Agent)
			case "set_bundle":
				found.domains = append(found.domains, op.Domain)
			}
		}
	}
	return found
}

// readAgents returns a copy of the book with its agents.
func (s *session) readAgents(known names) (*book.Book, error) {
	return s.client.ReadBook(s.ctx, client.Reading{Domain: s.settings.domain, Agents: true, Names: known.agents})
}

func listAgents(flags *flag.FlagSet) runner {
	names := defineNames(flags)
	var selectors words
	flags.Var(&selectors, "selector", "agents that have these `selectors`; may be repeated")
	return func(s *session) error {
		b, agents, err := s.chosenAgents(names, selectors)
		if err != nil {
			return err
		}
		value := map[string]any{"place": b.Last, "agents": agents, "complete": b.AllAgents}
		return s.show(value, func() string {
			text := s.agentTable(agents) +
				fmt.Sprintf("%s at commit %d\n", counted(len(agents), "agent", "agents"),
					b.Last)
			if !b.AllAgents {
				text += otherAgents + "\n"
			}
			return text
		})
	}
}

// chosenAgents reads the agents, and returns those with all of the selectors.
func (s *session) chosenAgents(names func(*session) (names, error), selectors []string) (*book.Book, []book.Agent,
	error) {
	if err := s.noArguments(); err != nil {
		return nil, nil, err
	}
	known, err := names(s)
	if err != nil {
		return nil, nil, err
	}
	b, err := s.readAgents(known)
	if err != nil {
		return nil, nil, err
	}
	chosen := []book.Agent{}
	for _, a := range b.Agents {
		if len(book.Lacking(selectors, a.Selectors)) == 0 {
			chosen = append(chosen, a)
		}
	}
	return b, chosen, nil
}

func countAgents(flags *flag.FlagSet) runner {
	names := defineNames(flags)
	return func(s *session) error {
		b, agents, err := s.chosenAgents(names, nil)
		if err != nil {
			return err
		}
		note := ""
		if !b.AllAgents {
			note = otherAgents
		}
		return s.showCount("agents", len(agents), b.Last, note)
	}
}

func evictAgent(flags *flag.FlagSet) runner {
	agent := defineAgent(flags)
	isCascade := flags.Bool("cascade", false, "also delete the entries that no agent can reach any more without it")
	isSeveral := flags.Bool("several", false, "several changes, each of which holds alone, if one can't have all")
	isDry := defineDry(flags)
	return func(s *session) error {
		id, err := agent(s)
		if err != nil {
			return err
		}
		ops := []client.Op{client.DropAgent(id)}
		if *isCascade {
			deletes, err := s.cascade(nil, id)
			if err != nil {
				return err
			}
			ops = append(deletes, ops...)
		}
		if *isDry {
			return s.tryOut(ops)
		}
		replies, batches, err := s.changeMany(ops, *isSeveral)
		if err != nil {
			return err
		}
		return s.showEvicted(id, replies, batches[len(batches)-1], *isCascade)
	}
}

func (s *session) showEvicted(id string, replies []client.Reply, m made, isCascade bool) error {
	deleted, left := []book.Entry{}, []book.Entry{}
	for _, r := range replies {
		if r.Entry != nil {
			deleted = append(deleted, *r.Entry)
		}
	}
	if !isCascade {
		answer, err := s.client.Ask(s.ctx, client.Children(id))
		if err != nil {
			return err
		}
		left = append(left, answer.Replies[0].Entries...)
	}
	a := replies[len(replies)-1].Agent
	value := map[string]any{"place": m.Place, "result": resultText(m), "agent": a, "entries": deleted,
		"below": left}
	return s.show(value, func() string {
		text := ""
		if a != nil {
			text = s.agentTable(oneAgent(a))
		}
		if len(deleted) > 0 {
			text += s.entryTable(deleted)
		}
		return text + m.text("removed") + s.warningOf(left)
	})
}

func agentEntries(flags *flag.FlagSet) runner {
	agent := defineAgent(flags)
	return func(s *session) error {
		id, err := agent(s)
		if err != nil {
			return err
		}
		answer, err := s.client.Ask(s.ctx, client.Authorised(id))
		if err != nil {
			return err
		}
		entries := answer.Replies[0].Entries
		return s.show(map[string]any{"place": answer.Place, "entries": entries}, func() string {
			return s.entryTable(entries) +
				fmt.Sprintf("%s at commit %d\n", counted(len(entries), "entry", "entries"),
					answer.Place)
		})
	}
}

func agentBundles(flags *flag.FlagSet) runner {
	agent := defineAgent(flags)
	return func(s *session) error {
		id, err := agent(s)
		if err != nil {
			return err
		}
		answer, err := s.client.Ask(s.ctx, client.Trust(id))
		if err != nil {
			return err
		}
		bundles := answer.Replies[0].Bundles
		return s.show(map[string]any{"place": answer.Place, "bundles": bundles}, func() string {
			return bundleTable(bundles) +
				fmt.Sprintf("%s at commit %d\n", counted(len(bundles), "bundle", "bundles"),
					answer.Place)
		})
	}
}
