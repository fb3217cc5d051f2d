package main

import (
	"flag"
	"fmt"
	"strings"
	"time"

	"regd/gateway/book"
	"regd/gateway/client"
)

// A branch is a part of a tree as JSON.
type branch struct {
	Agent    string   `json:"agent,omitempty"`
	ID       string   `json:"id,omitempty"`
	Identity string   `json:"identity,omitempty"`
	IsAlias  bool     `json:"alias,omitempty"`
	Needs    []string `json:"selectors"`
	Holds    []string `json:"holds,omitempty"`
	IsAbove  bool     `json:"elsewhere,omitempty"`
	Children []branch `json:"children,omitempty"`
}

func showTree(flags *flag.FlagSet) runner {
	agent := flags.String("agent", "", "the view of one agent, by its SPIFFE `ID`")
	names := defineNames(flags)
	return func(s *session) error {
		if err := s.noArguments(); err != nil {
			return err
		}
		known, err := names(s)
		if err != nil {
			return err
		}
		id, err := s.id(*agent)
		if err != nil {
			return err
		}
		if id != "" {
			known.agents = append(known.agents, id)
		}
		b, err := s.readCopy(client.Reading{Agents: true, Names: known.agents})
		if err != nil {
			return err
		}
		if id == "" {
			return s.printTree(b, b.Tree())
		}
		a := b.Agent(id)
		if a == nil {
			return s.noAgent(b, id)
		}
		return s.printTree(b, book.Tree{Agents: []book.View{b.View(a)}})
	}
}

func (s *session) printTree(b *book.Book, t book.Tree) error {
	value := map[string]any{"place": b.Place, "complete": b.AllAgents, "agents": agentBranches(t.Agents)}
	value["aliases"], value["below nothing"] = branches(t.Aliases), branches(t.Loose)
	return s.show(value, func() string {
		var out strings.Builder
		for _, v := range t.Agents {
			s.writeView(&out, v)
		}
		for _, n := range t.Aliases {
			fmt.Fprintf(&out, "%s  alias of agents with %s  %.8s%s\n", s.short(n.Entry.Identity),
				strings.Join(n.Entry.Selectors, " "),
				n.Entry.ID, elsewhere(n))
			s.writeNodes(&out, n.Children, "")
		}
		if len(t.Loose) > 0 {
			out.WriteString("below nothing\n")
			s.writeNodes(&out, t.Loose, "")
		}
		for _, e := range t.Markers {
			fmt.Fprintf(&out, "marker of the set %s  %.8s\n",
				strings.TrimPrefix(e.Selectors[0], book.MarkerSelector), e.ID)
		}
		return out.String() + s.knownNote(b)
	})
}

func elsewhere(n *book.Node) string {
	if n.Above {
		return "  (see above)"
	}
	return ""
}

// writeView prints an agent with the aliases that it holds, and the entries below it.
func (s *session) writeView(out *strings.Builder, v book.View) {
	fmt.Fprintf(out, "%s  [%s]\n", s.short(v.Agent.ID), strings.Join(v.Agent.Selectors, " "))
	for _, n := range v.Held {
		fmt.Fprintf(out, "   as %s\n", s.short(n.Entry.Identity))
		s.writeNodes(out, n.Children, "   ")
	}
	s.writeNodes(out, v.Children, "")
}

func (s *session) writeNodes(out *strings.Builder, nodes []*book.Node, indent string) {
	for i, n := range nodes {
		corner, side := "├─ ", "│  "
		if i == len(nodes)-1 {
			corner, side = "└─ ", "   "
		}
		fmt.Fprintf(out, "%s%s%s  %s  %.8s%s\n", indent, corner, s.short(n.Entry.Identity),
			strings.Join(n.Entry.Selectors, " "),
			n.Entry.ID, elsewhere(n))
		s.writeNodes(out, n.Children, indent+side)
	}
}

func branches(nodes []*book.Node) []branch {
	found := []branch{}
	for _, n := range nodes {
		e := n.Entry
		found = append(found, branch{ID: e.ID, Identity: e.Identity, IsAlias: e.IsAlias(), Needs: e.Selectors,
			IsAbove:  n.Above,
			Children: branches(n.Children)})
	}
	return found
}

func agentBranches(views []book.View) []branch {
	found := []branch{}
	for _, v := range views {
		one := branch{Agent: v.Agent.ID, Needs: v.Agent.Selectors, Children: branches(v.Children)}
		for _, n := range v.Held {
			one.Holds = append(one.Holds, n.Entry.ID)
			if !n.Above {
				one.Children = append(one.Children, branches([]*book.Node{n})...)
			}
		}
		found = append(found, one)
	}
	return found
}

// unservedNote is printed where the server can't list agents.
const unservedNote = "entries that no agent serves are looked for only with -names FILE, and as far as agents are known"

func check(flags *flag.FlagSet) runner {
	soon := flags.String("soon", "7d", "the `time` before their expiry from which entries are reported")
	names := defineNames(flags)
	return func(s *session) error {
		if err := s.noArguments(); err != nil {
			return err
		}
		within, err := seconds(*soon)
		if err != nil {
			return err
		}
		known, err := names(s)
		if err != nil {
			return err
		}
		b, err := s.readCopy(client.Reading{Agents: true, Names: known.agents, Bundles: true, Texts: true,
			Domains: known.domains})
		if err != nil {
			return err
		}
		found := b.Check(time.Now(), time.Duration(within)*time.Second)
		if len(known.agents) == 0 {
			found = certain(found)
		}
		return s.showFindings(b, found)
	}
}

// certain returns the findings that don't depend on agents which are not known. Where no agent can be listed and none
// is named, nearly every entry would have another one.
func certain(found []book.Finding) []book.Finding {
	var left []book.Finding
	for _, f := range found {
		if f.IsCertain {
			left = append(left, f)
		}
	}
	return left
}

func (s *session) showFindings(b *book.Book, found []book.Finding) error {
	if found == nil {
		found = []book.Finding{}
	}
	value := map[string]any{"place": b.Place, "findings": found, "complete": b.AllAgents && b.AllBundles}
	value["entries"], value["agents"], value["bundles"] = len(b.Entries), len(b.Agents), len(b.Bundles)
	err := s.show(value, func() string {
		rows := [][]string{}
		for _, f := range found {
			name := s.short(f.Identity)
			if f.Domain != "" {
				name = f.Domain
			}
			rows = append(rows, []string{f.Kind, name, orDash(f.ID), s.findingText(f)})
		}
		text := ""
		if len(rows) > 0 {
			text = table(rows)
		}
		text += fmt.Sprintf("%s, %s, %s at %s: %s\n", counted(len(b.Entries), "entry", "entries"),
			counted(len(b.Agents), "agent", "agents"),
			counted(len(b.Bundles), "bundle", "bundles"), heading(b),
			counted(len(found), "finding", "findings"))
		if !b.AllAgents {
			text += otherAgents + "\n" + unservedNote + "\n"
		}
		return text
	})
	for _, f := range found {
		if err == nil && f.IsCertain {
			err = errNo
		}
	}
	return err
}

func (s *session) findingText(f book.Finding) string {
	text := f.Text
	if f.Near != "" {
		text += "; near: " + s.short(f.Near)
	}
	if !f.IsCertain {
		text += " (as far as agents are known)"
	}
	return text
}
