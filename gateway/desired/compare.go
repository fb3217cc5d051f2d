package desired

import "regd/gateway/book"

// Compare returns what differs between two books: bundles, agents, and entries by their ids. Revisions and sequences
// are not compared.
func Compare(before, after *book.Book) []Row {
	rows := CompareEntries(before.Entries, after.Entries)
	agents := map[string]*book.Agent{}
	for i := range before.Agents {
		agents[before.Agents[i].ID] = &before.Agents[i]
	}
	for i := range after.Agents {
		a := &after.Agents[i]
		was := agents[a.ID]
		delete(agents, a.ID)
		switch {
		case was == nil:
			rows = append(rows, agentRow(Add, a.ID, nil, a.Selectors))
		case !book.SameSet(was.Selectors, a.Selectors):
			rows = append(rows, agentRow(Change, a.ID, was.Selectors, a.Selectors))
		}
	}
	for id, was := range agents {
		rows = append(rows, agentRow(Remove, id, was.Selectors, nil))
	}
	bundles := map[string]*book.Bundle{}
	for i := range before.Bundles {
		bundles[before.Bundles[i].Domain] = &before.Bundles[i]
	}
	for _, b := range after.Bundles {
		was := bundles[b.Domain]
		delete(bundles, b.Domain)
		switch {
		case was == nil:
			rows = append(rows, Row{Sign: Add, Kind: "bundle", Name: b.Domain})
		case was.Text != b.Text:
			rows = append(rows, Row{Sign: Change, Kind: "bundle", Name: b.Domain,
				Columns: []book.Difference{{Name: "text", Before: size(was.Text),
					After: size(b.Text)}}})
		}
	}
	for domain := range bundles {
		rows = append(rows, Row{Sign: Remove, Kind: "bundle", Name: domain})
	}
	sortRows(rows)
	return rows
}

func agentRow(sign, id string, before, after []string) Row {
	return Row{Sign: sign, Kind: "agent", Name: id, Columns: []book.Difference{{Name: "selectors",
		Before: selectorText(before), After: selectorText(after)}}}
}

// CompareEntries returns what differs between the entries of two books. Revisions are not compared.
func CompareEntries(before, after []book.Entry) []Row {
	rows := []Row{}
	were := map[string]*book.Entry{}
	for i := range before {
		were[before[i].ID] = &before[i]
	}
	for i := range after {
		e := &after[i]
		m := move{were[e.ID], e}
		delete(were, e.ID)
		if m.before != nil && len(book.Differences(*m.before, *e)) == 0 {
			continue
		}
		row := m.row()
		row.Revision = &e.Revision
		rows = append(rows, row)
	}
	for _, e := range were {
		rows = append(rows, (&move{before: e}).row())
	}
	sortRows(rows)
	return rows
}
