package main

import (
	"bufio"
	"bytes"
	"encoding/json"
	"flag"
	"fmt"

	"regd/gateway/book"
	"regd/gateway/client"
)

// backup prints the request lines that make the book.
func backup(flags *flag.FlagSet) runner {
	names := defineNames(flags)
	isPartial := flags.Bool("partial", false, "also if the server can't list agents and bundles: without those "+
		"of which no "+
		"entry and no -names tells")
	hasRevisions := flags.Bool("revisions", false, "update entries and set bundles as often as they were")
	return func(s *session) error {
		if err := s.noArguments(); err != nil {
			return err
		}
		known, err := names(s)
		if err != nil {
			return err
		}
		b, err := s.readCopy(client.Reading{Agents: true, Names: known.agents, Bundles: true, Texts: true,
			Domains: known.domains})
		if err != nil {
			return err
		}
		if !(b.AllAgents && b.AllBundles) && len(known.agents) == 0 && !*isPartial {
			s.warn("regdctl: %s\n  cure:   name a request log by -names, or add -partial", otherAgents)
			return errNo
		}
		s.warn("book of %s at %s: %s, %s, %s", b.Domain, heading(b),
			counted(len(b.Entries), "entry", "entries"),
			counted(len(b.Agents), "agent", "agents"), counted(len(b.Bundles), "bundle", "bundles"))
		return s.printLines(opsOf(b, *hasRevisions))
	}
}

// opsOf returns the operations that make a book: bundles, agents, entries.
func opsOf(b *book.Book, hasRevisions bool) (ops []client.Op) {
	for _, one := range b.Bundles {
		for n := uint64(0); n == 0 || hasRevisions && n <= one.Sequence; n++ {
			ops = append(ops, client.SetBundle(one.Domain, one.Text))
		}
	}
	for _, a := range b.Agents {
		ops = append(ops, client.SetAgent(a))
	}
	for _, e := range b.Entries {
		ops = append(ops, client.Create(e))
		for n := uint64(0); hasRevisions && n < e.Revision; n++ {
			ops = append(ops, client.Update(e, nil))
		}
	}
	return ops
}

// readLines reads the operations of request lines, line by line.
func readLines(text []byte) ([][]client.Op, error) {
	var batches [][]client.Op
	lines := bufio.NewScanner(bytes.NewReader(text))
	lines.Buffer(nil, 1<<21)
	for number := 1; lines.Scan(); number++ {
		var request struct {
			Ops []client.Op `json:"ops"`
		}
		decoder := json.NewDecoder(bytes.NewReader(lines.Bytes()))
		decoder.UseNumber()
		if err := decoder.Decode(&request); err != nil || len(request.Ops) == 0 {
			return nil, fmt.Errorf("line %d is not a request line", number)
		}
		batches = append(batches, request.Ops)
	}
	return batches, lines.Err()
}

// restore sends the lines of a backup.
func restore(flags *flag.FlagSet) runner {
	isInto := flags.Bool("into", false, "also into a book that has other entries")
	return func(s *session) error {
		if err := s.argumentCount(1, 1); err != nil {
			return err
		}
		text, err := s.readFile(s.arguments[0])
		if err != nil {
			return err
		}
		batches, err := readLines(text)
		if err != nil {
			return invalidf("%s: %v", s.arguments[0], err)
		}
		if !*isInto {
			if err := s.onlyOf(batches); err != nil {
				return err
			}
		}
		return s.sendBatches(batches, "restored")
	}
}

// onlyOf refuses a book that has other entries than those of some lines. Its own may be there already, if these lines
// were sent before and the command ended.
func (s *session) onlyOf(batches [][]client.Op) error {
	isOwn := map[any]bool{}
	for _, batch := range batches {
		for _, op := range batch {
			isOwn[op["id"]] = op.Name() == "create" || isOwn[op["id"]]
		}
	}
	entries, place, err := s.client.Entries(s.ctx, client.Filter{})
	if err != nil {
		return err
	}
	for _, e := range entries {
		if !isOwn[e.ID] {
			s.warn("regdctl: the book has other entries at commit %d, such as %s; nothing was sent\n"+
				"  cure:   restore into an empty server, or add -into", place, e.ID)
			return errNo
		}
	}
	return nil
}

// replay returns the book that request lines make in an empty server. It knows the operations of a backup, and those of
// a request log but `prune` and the modes of `drop_bundle`.
func replay(batches [][]client.Op) (*book.Book, error) {
	b := &book.Book{AllAgents: true, AllBundles: true}
	entries, agents, bundles := map[string]book.Entry{}, map[string]book.Agent{}, map[string]book.Bundle{}
	for _, batch := range batches {
		for _, op := range batch {
			text, err := client.Print(op)
			if err != nil {
				return nil, err
			}
			var row struct {
				book.Entry
				Agent  string
				Domain string
				Text   string
			}
			if err := json.Unmarshal(text, &row); err != nil {
				return nil, err
			}
			switch op.Name() {
			case "create", "update":
				row.Entry.Revision = 0
				entries[row.ID] = row.Entry
			case "delete":
				delete(entries, row.ID)
			case "set_agent":
				agents[row.Agent] = book.Agent{ID: row.Agent, Selectors: row.Selectors}
			case "drop_agent":
				delete(agents, row.Agent)
			case "set_bundle":
				bundles[row.Domain] = book.Bundle{Domain: row.Domain, Text: row.Text}
			case "drop_bundle":
				delete(bundles, row.Domain)
			default:
				return nil, fmt.Errorf("a line with %q is not one of a backup", op.Name())
			}
		}
	}
	for _, e := range entries {
		b.Entries = append(b.Entries, e)
	}
	for _, a := range agents {
		b.Agents = append(b.Agents, a)
	}
	for _, one := range bundles {
		b.Bundles = append(b.Bundles, one)
	}
	b.Sort()
	return b, nil
}
