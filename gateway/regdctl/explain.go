package main

import (
	"flag"
	"fmt"
	"regexp"
	"sort"
	"strings"

	"regd/gateway/book"
	"regd/gateway/client"
)

// readCopy reads a copy of the book, by the port of -fresh if there is one. Afterwards IDs of its domain are printed as
// paths.
func (s *session) readCopy(what client.Reading) (*book.Book, error) {
	what.Domain = s.settings.domain
	b, err := s.fresh().ReadBook(s.ctx, what)
	if err != nil {
		return nil, err
	}
	if s.settings.domain == "" {
		s.settings.domain = b.Domain
	}
	return b, nil
}

// heading says which book was read.
func heading(b *book.Book) string {
	text := fmt.Sprintf("commit %d", b.Place)
	if b.Last != b.Place {
		text += fmt.Sprintf(", agents and bundles as of %d to %d", b.Place, b.Last)
	}
	return text
}

// An explained entry is one that an agent may serve, with a chain, or may not, with the links that are missing.
type explained struct {
	ID       string        `json:"id"`
	Identity string        `json:"identity"`
	IsServed bool          `json:"served"`
	Chain    []string      `json:"chain,omitempty"`
	Missing  []missingLink `json:"missing,omitempty"`
}

type missingLink struct {
	Kind      string   `json:"kind"`
	Path      []string `json:"path"`
	Selectors []string `json:"selectors,omitempty"`
	Near      string   `json:"near,omitempty"`
	Cure      string   `json:"cure"`
}

func explain(flags *flag.FlagSet) runner {
	workload := flags.String("workload", "",
		"the `selectors` of a workload, separated by commas: which entries it "+
			"gets")
	return func(s *session) error {
		most := 2
		if *workload != "" {
			most = 1
		}
		if err := s.argumentCount(1, most); err != nil {
			return err
		}
		id, err := s.id(s.arguments[0])
		if err != nil {
			return err
		}
		b, err := s.readCopy(client.Reading{Agents: true, Names: []string{id}})
		if err != nil {
			return err
		}
		a := b.Agent(id)
		if a == nil {
			return s.noAgent(b, id)
		}
		switch {
		case *workload != "":
			return s.explainWorkload(b, a, strings.Split(*workload, ","))
		case len(s.arguments) == 1:
			return s.explainAgent(b, a)
		}
		return s.explainEntry(b, a, s.arguments[1])
	}
}

// showNo prints a result that is an answer no.
func (s *session) showNo(value any, text string) error {
	if err := s.show(value, func() string { return text }); err != nil {
		return err
	}
	return errNo
}

func (s *session) noAgent(b *book.Book, id string) error {
	value := map[string]any{"place": b.Place, "agent": id, "registered": false}
	cure := fmt.Sprintf("regdctl agent set -spiffeID %s -selector TYPE:VALUE", s.short(id))
	return s.showNo(value, fmt.Sprintf("NO   the agent %s is not registered  (%s)\n     cure: %s\n", s.short(id),
		heading(b), cure))
}

// entriesOf returns the entries that a word names: an id, its first eight digits, or a SPIFFE ID.
func (s *session) entriesOf(b *book.Book, word string) ([]*book.Entry, error) {
	if e := b.Entry(strings.ToLower(word)); e != nil {
		return []*book.Entry{e}, nil
	}
	if firstDigits.MatchString(word) {
		id, err := idWithDigits(b.Entries, word)
		return []*book.Entry{b.Entry(id)}, err
	}
	id, err := s.id(word)
	if err != nil {
		return nil, err
	}
	return b.WithIdentity(id), nil
}

// explainEntry says why an agent may serve the entries that a word names, or not.
func (s *session) explainEntry(b *book.Book, a *book.Agent, word string) error {
	entries, err := s.entriesOf(b, word)
	if err != nil {
		return err
	}
	reach := b.Reach(a)
	isServed, text := false, ""
	found := []explained{}
	for _, e := range entries {
		x := explained{ID: e.ID, Identity: e.Identity}
		if chain := reach.Chain(e); chain != nil {
			isServed, x.IsServed, x.Chain = true, true, idsOf(chain)
			text += s.chainText(b, a, chain)
		} else {
			missing := b.Missing(a, e)
			x.Missing = s.linksOf(a, missing)
			text += s.missingText(b, e, missing, x.Missing)
		}
		found = append(found, x)
	}
	if len(entries) == 0 {
		text = s.noIdentityText(b, word)
	}
	compared, err := s.compared(b, a, reach)
	if err != nil {
		return err
	}
	value := map[string]any{"place": b.Place, "agent": a.ID, "entries": found, "server": compared}
	if err := s.show(value, func() string { return text + compared + "\n" }); err != nil {
		return err
	}
	if !isServed {
		return errNo
	}
	return nil
}

func (s *session) noIdentityText(b *book.Book, word string) string {
	text := fmt.Sprintf("NO   no entry has the SPIFFE ID %s  (%s)\n", word, heading(b))
	if id, err := s.id(word); err == nil {
		if near := b.Near(id); near != "" {
			text += fmt.Sprintf("     did you mean %s?\n", s.short(near))
		}
	}
	return text
}

func idsOf(entries []*book.Entry) []string {
	var ids []string
	for _, e := range entries {
		ids = append(ids, e.ID)
	}
	return ids
}

// named returns an entry's SPIFFE ID with its id.
func (s *session) named(e *book.Entry) string { return s.short(e.Identity) + "  " + e.ID }

// chainText prints why an agent may serve the last entry of a chain.
func (s *session) chainText(b *book.Book, a *book.Agent, chain []*book.Entry) string {
	last := chain[len(chain)-1]
	text := fmt.Sprintf("YES  %s  (%s)\n     %s\n", s.named(last), heading(b), s.short(a.ID))
	for i, e := range chain {
		switch {
		case i == 0 && e.IsAlias():
			text += fmt.Sprintf("     holds alias %s: has %s\n", s.named(e), strings.Join(e.Selectors, " "))
		default:
			text += fmt.Sprintf("     which is the parent of %s\n", s.named(e))
		}
	}
	return text
}

// linksOf returns the missing links with their cures.
func (s *session) linksOf(a *book.Agent, missing []book.Missing) []missingLink {
	var links []missingLink
	for _, m := range missing {
		links = append(links, missingLink{m.Kind, idsOf(m.Path), m.Selectors, m.Near, s.cureOf(a, m)})
	}
	return links
}

// cureOf returns the command that makes a missing link.
func (s *session) cureOf(a *book.Agent, m book.Missing) string {
	if m.Kind == book.LacksSelectors {
		text := "regdctl agent set -spiffeID " + s.short(a.ID)
		for _, selector := range append(append([]string{}, a.Selectors...), m.Selectors...) {
			text += " -selector " + shellWord(selector)
		}
		return text
	}
	parent := m.Near
	if parent == "" {
		parent = a.ID
	}
	return fmt.Sprintf("regdctl entry set -entryID %s -parentID %s", m.Entry().ID, s.short(parent))
}

// plainWord are words that no shell changes.
var plainWord = regexp.MustCompile(`^[\w./:-]+$`)

// shellWord quotes a word if a shell would change it.
func shellWord(word string) string {
	if plainWord.MatchString(word) {
		return word
	}
	return quoted(word)
}

// missingText prints the links that are missing between an agent and an entry.
func (s *session) missingText(b *book.Book, e *book.Entry, missing []book.Missing, links []missingLink) string {
	text := fmt.Sprintf("NO   %s  (%s)\n", s.named(e), heading(b))
	for i, m := range missing {
		for _, x := range m.Path[1:] {
			text += fmt.Sprintf("     its parent is the SPIFFE ID of %s, which this agent may not serve:\n",
				s.named(x))
		}
		text += "     MISSING LINK: " + s.linkText(b, m) + "\n"
		if m.Near != "" {
			text += fmt.Sprintf("     did you mean %s?\n", s.short(m.Near))
		}
		text += "     cure: " + links[i].Cure + "\n"
	}
	return text
}

func (s *session) linkText(b *book.Book, m book.Missing) string {
	x := m.Entry()
	parent := s.short(x.Parent)
	switch m.Kind {
	case book.LacksSelectors:
		return fmt.Sprintf("the alias %s needs %s, which the agent lacks", s.short(x.Identity),
			strings.Join(m.Selectors, " "))
	case book.OtherAgent:
		if b.Agent(x.Parent) == nil {
			return fmt.Sprintf("the parent of %s is the agent %s, which is not registered",
				s.short(x.Identity), parent)
		}
		return fmt.Sprintf("the parent of %s is another agent, %s", s.short(x.Identity), parent)
	case book.Cycle:
		return fmt.Sprintf("the parents lead back: the parent of %s is %s, a cycle",
			s.short(x.Identity), parent)
	}
	return fmt.Sprintf("no entry has the SPIFFE ID %s, and it is no agent", parent)
}

// compared asks the server what the agent may serve, and compares that with what was found in the copy.
func (s *session) compared(b *book.Book, a *book.Agent, reach book.Reach) (string, error) {
	answer, err := s.client.Ask(s.ctx, client.Authorised(a.ID))
	if err != nil && answer.Code != "O7" {
		return "", err
	}
	if answer.Place != b.Place || b.Last != b.Place {
		return fmt.Sprintf(
			"not compared with the server's own answer: others have changed the book, which is at "+
				"commit %d", answer.Place), nil
	}
	var theirs []string
	for _, r := range answer.Replies {
		for _, e := range r.Entries {
			theirs = append(theirs, e.ID)
		}
	}
	own := idsOf(reach.Entries())
	if strings.Join(own, " ") != strings.Join(theirs, " ") {
		return "",
			fmt.Errorf("a fault: the server's own answer at commit %d has other entries than this program "+
				"finds:\n  server:  %s\n  regdctl: %s",
				answer.Place, strings.Join(theirs, " "), strings.Join(own, " "))
	}
	return "the server's own answer: the same entries", nil
}

// explainAgent prints all entries that an agent may serve, with their chains.
func (s *session) explainAgent(b *book.Book, a *book.Agent) error {
	reach := b.Reach(a)
	compared, err := s.compared(b, a, reach)
	if err != nil {
		return err
	}
	found := []explained{}
	rows := [][]string{}
	for _, e := range reach.Entries() {
		chain := reach.Chain(e)
		found = append(found, explained{ID: e.ID, Identity: e.Identity, IsServed: true, Chain: idsOf(chain)})
		way := ""
		for _, x := range chain[:len(chain)-1] {
			way += s.short(x.Identity) + " > "
		}
		kind := "by its ID"
		if chain[0].IsAlias() {
			kind = "alias"
		}
		rows = append(rows, []string{"  " + s.short(e.Identity), e.ID, kind, way + s.short(e.Identity)})
	}
	value := map[string]any{"place": b.Place, "agent": a.ID, "entries": found, "server": compared}
	return s.show(value, func() string {
		text := fmt.Sprintf("%s  [%s]  may serve %s  (%s)\n", s.short(a.ID), strings.Join(a.Selectors, " "),
			counted(len(found), "entry", "entries"), heading(b))
		if len(rows) > 0 {
			text += table(rows)
		}
		return text + compared + "\n"
	})
}

const mostNearest = 5 // entries that a workload doesn't get

// explainWorkload prints which entries a workload with these selectors gets from the agent, and the nearest other ones.
func (s *session) explainWorkload(b *book.Book, a *book.Agent, selectors []string) error {
	reach := b.Reach(a)
	compared, err := s.compared(b, a, reach)
	if err != nil {
		return err
	}
	type near struct {
		entry   *book.Entry
		lacking []string
	}
	gets, others := []book.Entry{}, []near{}
	for _, e := range reach.Entries() {
		if lacking := book.Lacking(e.Selectors, selectors); len(lacking) == 0 {
			gets = append(gets, *e)
		} else {
			others = append(others, near{e, lacking})
		}
	}
	sort.SliceStable(others, func(i, j int) bool { return len(others[i].lacking) < len(others[j].lacking) })
	if len(others) > mostNearest {
		others = others[:mostNearest]
	}
	nearest := []map[string]any{}
	rows := [][]string{}
	for i := range gets {
		rows = append(rows, []string{"gets", s.short(gets[i].Identity), gets[i].ID, hintText(gets[i].Hint)})
	}
	for _, n := range others {
		nearest = append(nearest,
			map[string]any{"id": n.entry.ID, "identity": n.entry.Identity, "lacks": n.lacking})
		rows = append(rows,
			[]string{fmt.Sprintf("lacks %d", len(n.lacking)), s.short(n.entry.Identity), n.entry.ID,
				strings.Join(n.lacking, " ")})
	}
	value := map[string]any{"place": b.Place, "agent": a.ID, "gets": gets, "nearest": nearest, "server": compared}
	err = s.show(value, func() string {
		text := ""
		if len(rows) > 0 {
			text = table(rows)
		}
		if len(gets) == 0 {
			text = fmt.Sprintf("gets nothing  (%s)\n", heading(b)) + text
		}
		return text + compared + "\n"
	})
	if err == nil && len(gets) == 0 {
		err = errNo
	}
	return err
}

func hintText(hint string) string {
	if hint == "" {
		return ""
	}
	return "hint " + printable(hint)
}

// whoCan prints which agents may serve a SPIFFE ID, as conditions, so that it is right even if not all agents are
// known.
func whoCan(flags *flag.FlagSet) runner {
	names := defineNames(flags)
	return func(s *session) error {
		if err := s.argumentCount(1, 1); err != nil {
			return err
		}
		known, err := names(s)
		if err != nil {
			return err
		}
		b, err := s.readCopy(client.Reading{Agents: true, Names: known.agents})
		if err != nil {
			return err
		}
		entries, err := s.entriesOf(b, s.arguments[0])
		if err != nil {
			return err
		}
		if len(entries) == 0 {
			return s.showNo(map[string]any{"place": b.Place, "conditions": []condition{}},
				s.noIdentityText(b,
					s.arguments[0]))
		}
		return s.showConditions(b, entries)
	}
}

// A condition is what is printed of book.Condition.
type condition struct {
	Entry     string   `json:"entry"`
	Agent     string   `json:"agent,omitempty"`
	Alias     string   `json:"alias,omitempty"`
	Selectors []string `json:"selectors,omitempty"`
	Agents    []string `json:"agents"`
}

func (s *session) showConditions(b *book.Book, entries []*book.Entry) error {
	found := []condition{}
	text := ""
	count := 0
	for _, e := range entries {
		conditions := b.WhoCan(e)
		if len(entries) > 1 || len(conditions) == 0 {
			text += s.named(e) + "\n"
		}
		if len(conditions) == 0 {
			text += "no agent: no alias and no agent is above it\n"
		}
		for _, c := range conditions {
			one := condition{Entry: e.ID, Agent: c.Agent, Agents: []string{}}
			if c.Alias != nil {
				one.Alias, one.Selectors = c.Alias.Identity, c.Alias.Selectors
				text += fmt.Sprintf("each agent with %s  (alias %s)\n",
					strings.Join(c.Alias.Selectors, " "),
					s.short(c.Alias.Identity))
			} else {
				text += fmt.Sprintf("the agent %s\n", s.short(c.Agent))
			}
			for _, a := range c.Agents {
				one.Agents = append(one.Agents, a.ID)
				text += "    " + s.short(a.ID) + "\n"
			}
			if len(c.Agents) == 0 {
				text += "    none that is known\n"
			}
			count += len(c.Agents)
			found = append(found, one)
		}
	}
	value := map[string]any{"place": b.Place, "conditions": found, "complete": b.AllAgents}
	err := s.show(value, func() string { return text + s.knownNote(b) })
	if err == nil && count == 0 && (b.AllAgents || len(found) == 0) {
		err = errNo
	}
	return err
}

// knownNote says whether all agents are known.
func (s *session) knownNote(b *book.Book) string {
	if b.AllAgents {
		return fmt.Sprintf("(%s)\n", heading(b))
	}
	return fmt.Sprintf("(%s; %s)\n", heading(b), otherAgents)
}
