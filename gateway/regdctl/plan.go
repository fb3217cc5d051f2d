package main

import (
	"encoding/json"
	"errors"
	"flag"
	"fmt"
	"os"
	"path/filepath"
	"sort"
	"strings"
	"time"

	"regd/gateway/book"
	"regd/gateway/client"
	"regd/gateway/desired"
)

// errBlocked says that a plan needs a decision, which was printed.
var errBlocked = errors.New("entries that the plan wants are there with other ids; nothing was sent")

const mostBy = 128 // bytes of -by, since the marker's hint has up to 1,024

// planning are the flags of commands that plan.
type planning struct {
	isAdopting *bool
	by         *string
	names      func(*session) (names, error)
}

func definePlanning(flags *flag.FlagSet) planning {
	return planning{
		isAdopting: flags.Bool("adopt", false,
			"replace entries that were made by hand by those of the set, in one batch"),
		by:    flags.String("by", os.Getenv("USER"), "who plans: a `name` for the marker of the set"),
		names: defineNames(flags),
	}
}

// filesOf returns the files of words that may be folders. A folder has its files in YAML.
func filesOf(words []string) ([]string, error) {
	var files []string
	for _, word := range words {
		info, err := os.Stat(word)
		if word == "-" || err != nil || !info.IsDir() {
			files = append(files, word) // reading it says what is wrong
			continue
		}
		var found []string
		for _, pattern := range []string{"*.yaml", "*.yml"} {
			some, err := filepath.Glob(filepath.Join(word, pattern))
			if err != nil {
				return nil, err
			}
			found = append(found, some...)
		}
		if len(found) == 0 {
			return nil, invalidf("%s: the folder has no file *.yaml or *.yml", word)
		}
		sort.Strings(found)
		files = append(files, found...)
	}
	return files, nil
}

// readState reads the files of a desired state. Afterwards its domain is that of the command.
func (s *session) readState(words []string) (*desired.State, error) {
	files, err := filesOf(words)
	if err != nil {
		return nil, err
	}
	state, err := desired.Read(s.readFile, s.settings.domain, files...)
	var fault *desired.Invalid
	if errors.As(err, &fault) {
		return nil, invalidf("%v", fault)
	}
	if err == nil {
		s.settings.domain = state.Domain
	}
	return state, err
}

// plan reads the book and plans the changes that make a state.
func (s *session) plan(state *desired.State, p planning) (*desired.Plan, error) {
	known, err := p.names(s)
	if err != nil {
		return nil, err
	}
	if len(*p.by) > mostBy {
		return nil, invalidf("-by has up to %d bytes", mostBy)
	}
	b, err := s.readCopy(client.Reading{Agents: true, Names: append(state.AgentNames(), known.agents...),
		Bundles: true,
		Texts:   true, Domains: append(state.Domains(), known.domains...)})
	if err != nil {
		return nil, err
	}
	o := desired.Options{IsAdopting: *p.isAdopting, By: *p.by, Now: time.Now(),
		IsCertain: !b.AllAgents && len(known.agents) == 0}
	if len(state.Agents)+len(state.Bundles)+len(state.AbsentAgents)+len(state.AbsentBundles) > 0 {
		some := client.ExpectAgent("spiffe://"+state.Domain+book.AgentPath+"regdctl", nil)
		if o.Expects, err = s.client.Expects(s.ctx, some); err != nil {
			return nil, err
		}
	}
	plan, err := desired.Make(b, state, o)
	var fault *desired.Invalid
	if errors.As(err, &fault) {
		err = invalidf("%v", fault)
	}
	return plan, err
}

func planState(flags *flag.FlagSet) runner {
	p := definePlanning(flags)
	out := flags.String("out", "", "a `file` for the plan, which `regdctl apply` takes")
	return func(s *session) error {
		if len(s.arguments) == 0 {
			return s.argumentCount(1, 1)
		}
		state, err := s.readState(s.arguments)
		if err != nil {
			return err
		}
		plan, err := s.plan(state, p)
		if err != nil {
			return err
		}
		if err := s.show(plan, func() string { return s.planText(plan) }); err != nil {
			return err
		}
		err = verdict(plan)
		if *out != "" && (err == nil || errors.Is(err, errNo)) {
			if stored := store(*out, plan); stored != nil {
				return stored
			}
		}
		return err
	}
}

// store writes a plan into a file.
func store(name string, plan *desired.Plan) error {
	text, err := json.Marshal(plan)
	if err != nil {
		return err
	}
	return os.WriteFile(name, append(text, '\n'), 0o600) // bundles and hints may be confidential
}

// verdict returns the error that a plan ends with: whether it has changes, and whether it can be applied.
func verdict(p *desired.Plan) error {
	switch {
	case len(p.Broken) > 0:
		return invalidf("the plan can't be applied: %s", strings.Join(p.Broken, "\n  "))
	case p.IsBlocked:
		return errBlocked
	case len(p.Batches) > 0:
		return errNo
	}
	return nil
}

// planText prints a plan.
func (s *session) planText(p *desired.Plan) string {
	var out strings.Builder
	fmt.Fprintf(&out, "book of %s at %s, set %s: %s\n", p.Domain,
		heading(&book.Book{Place: p.Place, Last: p.Last}), p.Name, counted(p.Own, "entry", "entries"))
	for _, r := range p.Rows {
		out.WriteString(s.rowText(r))
	}
	if len(p.Access) > 0 {
		out.WriteString("access:\n" + s.accessText(p.Access))
	}
	if len(p.Findings) > 0 {
		rows := [][]string{}
		for _, f := range p.Findings {
			rows = append(rows, []string{"  " + f.Kind, s.short(f.Identity) + f.Domain, orDash(f.ID),
				s.findingText(f)})
		}
		out.WriteString("new findings:\n" + table(rows))
	}
	if len(p.Batches) == 0 {
		fmt.Fprintf(&out, "no changes: %s as the files have them\n", counted(p.Unchanged, "entry", "entries"))
	} else {
		fmt.Fprintf(&out, "plan %s: %s, %s unchanged, %s of %s\n", p.ID,
			counted(p.Changes(), "change", "changes"),
			counted(p.Unchanged, "entry", "entries"), counted(len(p.Batches), "batch", "batches"),
			counted(p.Operations(), "operation", "operations"))
	}
	if len(p.Batches) > 1 {
		fmt.Fprintf(&out, "%d batches: each is atomic, and they are not as a whole\n", len(p.Batches))
	}
	if p.DeletesFirst {
		out.WriteString("deletes come first, since the book would be too full between two batches\n")
	}
	return out.String() + s.planNotes(p)
}

// planNotes says what a plan doesn't know.
func (s *session) planNotes(p *desired.Plan) string {
	text := ""
	if !p.IsKnown {
		text += otherAgents + "\n"
	}
	for _, r := range p.Rows {
		if (r.Kind == "agent" || r.Kind == "bundle") && !p.Expects {
			return text + "this server doesn't know expect_agent and expect_bundle: an agent or a bundle " +
				"that another " +
				"client changes before `apply` is overwritten, and `apply` says so\n"
		}
	}
	return text
}

// rowText prints the change of a row.
func (s *session) rowText(r desired.Row) string {
	text := fmt.Sprintf("  %s %-6s  %s", r.Sign, r.Kind, s.short(r.Name))
	switch {
	case r.Kind == "agent":
		c := r.Columns[0]
		text += "  " + strings.TrimSpace(map[string]string{desired.Change: orDash(c.Before) +
			" -> "}[r.Sign]+orDash(c.After))
	case r.Kind == "bundle" && r.Sign == desired.Change:
		text += "  " + r.Columns[0].Before + " -> " + r.Columns[0].After
	case r.Kind == "entry" && r.Sign == desired.Add:
		text += "  below " + s.short(r.Parent)
	case r.Kind == "entry" && r.Sign != desired.Blocked:
		text += fmt.Sprintf("  %s  revision %d", r.ID, *r.Revision)
	}
	if r.Note != "" {
		text += "  (" + r.Note + ")"
	}
	text += "\n"
	if r.Kind == "entry" {
		for _, d := range r.Columns {
			text += fmt.Sprintf("        %-14s %q -> %q\n", d.Name, s.short(d.Before), s.short(d.After))
		}
	}
	return text
}

// mostNamed is how many agents are named that gain and lose the same.
const mostNamed = 3

// accessText prints what agents gain and lose. Those with the same difference are in one line.
func (s *session) accessText(all []desired.Access) string {
	var order []string
	agents := map[string][]string{}
	for _, a := range all {
		text := ""
		for _, id := range a.Gains {
			text += "  +" + s.short(id)
		}
		for _, id := range a.Loses {
			text += "  -" + s.short(id)
		}
		if agents[text] == nil {
			order = append(order, text)
		}
		agents[text] = append(agents[text], s.short(a.Agent))
	}
	var out strings.Builder
	for _, text := range order {
		names, others := agents[text], ""
		if len(names) > mostNamed {
			others = fmt.Sprintf(" and %s", counted(len(names)-mostNamed, "other", "others"))
			names = names[:mostNamed]
		}
		out.WriteString("  " + strings.Join(names, ", ") + others + text + "\n")
	}
	return out.String()
}
