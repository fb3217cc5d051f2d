package main

import (
	"errors"
	"flag"
	"fmt"
	"strings"

	"regd/gateway/book"
	"regd/gateway/client"
)

func oneEntry(e *book.Entry) []book.Entry    { return []book.Entry{*e} }
func oneAgent(a *book.Agent) []book.Agent    { return []book.Agent{*a} }
func oneBundle(b *book.Bundle) []book.Bundle { return []book.Bundle{*b} }

func defineDry(flags *flag.FlagSet) *bool {
	return flags.Bool("dry-run", false, "ask the server whether it would accept this, and change nothing")
}

// columns are the flags for the columns of an entry, with SPIRE's names.
type columns struct {
	id, parent, identity, hint string
	expiry, x509, jwt          string
	selectors, federates       words
	isNode                     bool
	flags                      *flag.FlagSet
}

func defineColumns(flags *flag.FlagSet) *columns {
	c := defineValues(flags)
	flags.StringVar(&c.id, "entryID", "",
		"the `id` of the entry, a UUID, or its first 8 digits where the entry is "+
			"there")
	return c
}

// defineValues adds the flags for the columns that an update can change.
func defineValues(flags *flag.FlagSet) *columns {
	c := &columns{flags: flags}
	flags.StringVar(&c.parent, "parentID", "", "the SPIFFE `ID` of its parent: an agent, an alias or another entry")
	flags.BoolVar(&c.isNode, "node", false, "the entry is an alias of all agents with its selectors")
	flags.StringVar(&c.identity, "spiffeID", "", "the SPIFFE `ID` that workloads get")
	flags.Var(&c.selectors, "selector", "a `selector`, type:value; may be repeated")
	flags.Var(&c.federates, "federatesWith", "a trust `domain` whose bundle workloads get too; may be repeated")
	flags.StringVar(&c.hint, "hint", "", "a `text` for workloads")
	flags.StringVar(&c.expiry, "entryExpiry", "",
		"the `time` when the entry expires: seconds since 1970, or RFC 3339")
	flags.StringVar(&c.x509, "x509SVIDTTL", "", "the `lifetime` of X.509-SVIDs: seconds, or such as 30m")
	flags.StringVar(&c.jwt, "jwtSVIDTTL", "", "the `lifetime` of JWT-SVIDs")
	return c
}

// isGiven returns true if a flag was given.
func isGiven(flags *flag.FlagSet, name string) (isIn bool) {
	flags.Visit(func(f *flag.Flag) { isIn = isIn || f.Name == name })
	return isIn
}

// put puts the flags that were given into an entry.
func (c *columns) put(s *session, e *book.Entry) (err error) {
	fail := func(found error) {
		if err == nil {
			err = found
		}
	}
	c.flags.Visit(func(f *flag.Flag) {
		var found error
		switch f.Name {
		case "parentID":
			e.Parent, found = s.id(c.parent)
		case "node":
			e.Parent, found = s.id(book.ServerPath)
		case "spiffeID":
			e.Identity, found = s.id(c.identity)
		case "selector":
			e.Selectors = given(c.selectors)
		case "federatesWith":
			e.Domains = domains(given(c.federates))
		case "hint":
			e.Hint = c.hint
		case "entryExpiry":
			e.Expiry, found = moment(c.expiry)
		case "x509SVIDTTL":
			e.X509TTL, found = seconds(c.x509)
		case "jwtSVIDTTL":
			e.JWTTTL, found = seconds(c.jwt)
		}
		fail(found)
	})
	if c.isNode && c.parent != "" {
		fail(invalidf("-node and -parentID exclude each other"))
	}
	return err
}

// given returns the values of a repeated flag. A single empty one is the empty list.
func given(list words) []string {
	if len(list) == 1 && list[0] == "" {
		return nil
	}
	return list
}

// whole returns an entry of the flags alone.
func (c *columns) whole(s *session) (book.Entry, error) {
	e := book.Entry{ID: c.id}
	if err := c.put(s, &e); err != nil {
		return e, err
	}
	for _, one := range [][2]string{{e.Parent, "-parentID or -node"}, {e.Identity, "-spiffeID"}} {
		if one[0] == "" {
			return e, invalidf("%s is missing", one[1])
		}
	}
	if len(e.Selectors) == 0 {
		return e, invalidf("-selector is missing")
	}
	return e, nil
}

func createEntries(flags *flag.FlagSet) runner {
	c := defineColumns(flags)
	data := flags.String("data", "",
		"a `file` of entries in JSON: SPIRE's, or a list with the keys of LINES; - is "+
			"standard input")
	isSeveral := flags.Bool("several", false, "with -data: several changes, each of which holds alone, if one "+
		"can't have all")
	ifAbsent := flags.Bool("ifAbsent", false, "an entry that is there with the same values is no error")
	isDry := defineDry(flags)
	return func(s *session) error {
		if err := s.noArguments(); err != nil {
			return err
		}
		entries, err := s.entriesToCreate(c, *data)
		if err != nil {
			return err
		}
		ops := make([]client.Op, len(entries))
		for i, e := range entries {
			ops[i] = client.Create(e)
		}
		if *isDry {
			return s.tryOut(ops)
		}
		replies, batches, err := s.changeMany(ops, *isSeveral)
		if err != nil && *ifAbsent && len(entries) == 1 {
			return s.createdBefore(entries[0], err)
		}
		if err != nil {
			return err
		}
		return s.showMade("created", replies, batches)
	}
}

// entriesToCreate reads the entries of the flags or of a file.
func (s *session) entriesToCreate(c *columns, file string) ([]book.Entry, error) {
	if file == "" {
		e, err := c.whole(s)
		return []book.Entry{e}, err
	}
	for _, name := range []string{"parentID", "node", "spiffeID", "selector", "entryID"} {
		if isGiven(c.flags, name) {
			return nil, invalidf("-data and -%s exclude each other", name)
		}
	}
	return s.readData(file)
}

// showMade prints the entries in the replies to changes.
func (s *session) showMade(verb string, replies []client.Reply, batches []made) error {
	entries := make([]book.Entry, 0, len(replies))
	for _, r := range replies {
		if r.Entry == nil {
			return errors.New("a reply has no entry")
		}
		entries = append(entries, *r.Entry)
	}
	value := map[string]any{"batches": batches, "entries": entries}
	return s.show(value, func() string {
		text := s.entryTable(entries)
		if len(batches) == 1 {
			return text + batches[0].text(verb)
		}
		for i, m := range batches {
			text += fmt.Sprintf("batch %d of %d: %s", i+1, len(batches),
				m.text(counted(m.Operations, "entry", "entries")+" "+verb))
		}
		return text
	})
}

// createdBefore looks whether a refused entry is there with the same values.
func (s *session) createdBefore(e book.Entry, err error) error {
	var refused *client.Refused
	if !errors.As(err, &refused) || refused.Answer.Code != "O2" {
		return err
	}
	there, place, shown := s.shownEntry(refused.Answer.Detail)
	if shown != nil {
		return shown
	}
	if there == nil || book.Differences(*there, e) != nil {
		return err
	}
	value := map[string]any{"place": place, "result": "there", "entry": there}
	return s.show(value, func() string { return s.entryTable(oneEntry(there)) + "it was there before\n" })
}

// shownEntry returns an entry, or nil if there is none, and the commit number of the book.
func (s *session) shownEntry(id string) (*book.Entry, uint64, error) {
	answer, err := s.client.Ask(s.ctx, client.Show(id))
	if err != nil {
		return nil, 0, err
	}
	return answer.Replies[0].Entry, answer.Place, nil
}

// filters are the flags that choose entries.
type filters struct {
	columns *columns
	match   string
}

func defineFilters(flags *flag.FlagSet) *filters {
	f := &filters{columns: &columns{flags: flags}}
	c := f.columns
	flags.StringVar(&c.id, "entryID", "", "the `id` of the entry, or its first 8 digits")
	flags.StringVar(&c.parent, "parentID", "", "entries with this parent `ID`")
	flags.BoolVar(&c.isNode, "node", false, "aliases")
	flags.StringVar(&c.identity, "spiffeID", "", "entries with this SPIFFE `ID`")
	flags.Var(&c.selectors, "selector", "entries that match these `selectors`; may be repeated")
	flags.StringVar(&f.match, "matchSelectorsOn", "superset", "how they match: exact, any, superset or subset")
	flags.Var(&c.federates, "federatesWith", "entries that federate with this trust `domain`; may be repeated")
	flags.StringVar(&c.hint, "hint", "", "entries with this `hint`")
	return f
}

// read returns the entries that pass the filters, and the commit number of their book.
func (f *filters) read(s *session) ([]book.Entry, uint64, error) {
	if !isOneOf(f.match, "exact", "any", "superset", "subset") {
		return nil, 0, invalidf("-matchSelectorsOn is exact, any, superset or subset, and not %s", f.match)
	}
	var wanted book.Entry
	if err := f.columns.put(s, &wanted); err != nil {
		return nil, 0, err
	}
	found, place, err := f.sent(s, wanted)
	if err != nil {
		return nil, 0, err
	}
	passing := found[:0]
	for _, e := range found {
		hasHint := !isGiven(f.columns.flags, "hint") || e.Hint == wanted.Hint
		if hasHint && len(book.Lacking(wanted.Domains, e.Domains)) == 0 {
			passing = append(passing, e)
		}
	}
	return passing, place, nil
}

// sent asks the server: `show`, `children`, or pages with what it can filter.
func (f *filters) sent(s *session, wanted book.Entry) ([]book.Entry, uint64, error) {
	if f.columns.id != "" {
		id, err := s.entryID(f.columns.id)
		if err != nil {
			return nil, 0, err
		}
		e, place, err := s.shownEntry(id)
		if e == nil {
			return nil, place, err
		}
		return oneEntry(e), place, err
	}
	isParentAlone := wanted.Parent != "" && wanted.Identity == "" && len(wanted.Selectors)+len(wanted.Domains) == 0
	if isParentAlone {
		answer, err := s.client.Ask(s.ctx, client.Children(wanted.Parent))
		if err != nil {
			return nil, 0, err
		}
		return answer.Replies[0].Entries, answer.Place, nil
	}
	filter := client.Filter{Parent: wanted.Parent, Identity: wanted.Identity, Selectors: wanted.Selectors,
		Match: f.match}
	if len(wanted.Domains) > 0 {
		filter.Domain = wanted.Domains[0]
	}
	return s.client.Entries(s.ctx, filter)
}

func showEntries(flags *flag.FlagSet) runner {
	f := defineFilters(flags)
	return func(s *session) error {
		if err := s.noArguments(); err != nil {
			return err
		}
		found, place, err := f.read(s)
		if err != nil {
			return err
		}
		if found == nil {
			found = []book.Entry{}
		}
		value := map[string]any{"place": place, "entries": found}
		text := func() string {
			if len(found) == 0 {
				return fmt.Sprintf("no entries at commit %d\n", place)
			}
			return s.entryTable(found) +
				fmt.Sprintf("%s at commit %d\n", counted(len(found), "entry", "entries"),
					place)
		}
		if err := s.show(value, text); err != nil {
			return err
		}
		if len(found) == 0 && f.columns.id != "" {
			return errNo
		}
		return nil
	}
}

func countEntries(flags *flag.FlagSet) runner {
	f := defineFilters(flags)
	return func(s *session) error {
		if err := s.noArguments(); err != nil {
			return err
		}
		if isAnyGiven(flags, "entryID", "parentID", "node", "spiffeID", "selector", "federatesWith", "hint") {
			found, place, err := f.read(s)
			if err != nil {
				return err
			}
			return s.showCount("entries", len(found), place, "")
		}
		count, place, err := s.client.CountEntries(s.ctx)
		if err != nil {
			return err
		}
		return s.showCount("entries", int(count), place, "")
	}
}

func isAnyGiven(flags *flag.FlagSet, names ...string) bool {
	for _, name := range names {
		if isGiven(flags, name) {
			return true
		}
	}
	return false
}

// singular has the names of single rows.
var singular = map[string]string{"entries": "entry", "agents": "agent", "bundles": "bundle"}

// showCount prints a number of rows. A note says where it may be too small.
func (s *session) showCount(kind string, count int, place uint64, note string) error {
	value := map[string]any{"count": count, "place": place}
	if note != "" {
		value["note"] = note
	}
	return s.show(value, func() string {
		text := fmt.Sprintf("%s at commit %d\n", counted(count, singular[kind], kind), place)
		if note != "" {
			text += note + "\n"
		}
		return text
	})
}

func defineRevision(flags *flag.FlagSet) func() (*uint64, error) {
	text := flags.String("revision", "", "refuse the change unless the entry has this `revision`")
	return func() (*uint64, error) {
		if *text == "" {
			return nil, nil
		}
		var n uint64
		if _, err := fmt.Sscanf(*text+" ", "%d ", &n); err != nil || number(n) != *text {
			return nil, invalidf("-revision is not a number: %s", *text)
		}
		return &n, nil
	}
}

func updateEntry(flags *flag.FlagSet) runner {
	c := defineColumns(flags)
	revision := defineRevision(flags)
	isDry := defineDry(flags)
	return func(s *session) error {
		if err := s.noArguments(); err != nil {
			return err
		}
		if c.id == "" {
			return invalidf("-entryID is missing")
		}
		e, err := c.whole(s)
		if err != nil {
			return err
		}
		expected, err := revision()
		if err != nil {
			return err
		}
		if e.ID, err = s.entryID(e.ID); err != nil {
			return err
		}
		return s.apply(*isDry, "updated", client.Update(e, expected))
	}
}

const mostEdits = 5 // after O4: others change the same entry

func setEntry(flags *flag.FlagSet) runner {
	c := defineValues(flags)
	ids := defineIDs(flags)
	isSeveral := flags.Bool("several", false, severalText)
	isDry := defineDry(flags)
	return func(s *session) error {
		all, err := ids(s)
		if err != nil {
			return err
		}
		for round := 1; ; round++ {
			ops, err := s.updatesOf(all, c)
			if err != nil {
				return err
			}
			isMade, err := s.sendUpdates(ops, *isDry, *isSeveral)
			if isMade || !isStale(err) || round == mostEdits {
				return err
			}
		}
	}
}

// updatesOf reads entries, and returns the updates that change some of their values. Each expects the revision that was
// read.
func (s *session) updatesOf(ids []string, c *columns) ([]client.Op, error) {
	var ops []client.Op
	for begin := 0; begin < len(ids); begin += mostOps {
		var shows []client.Op
		for _, id := range ids[begin:smaller(begin+mostOps, len(ids))] {
			shows = append(shows, client.Show(id))
		}
		answer, err := s.client.Ask(s.ctx, shows...)
		if err != nil {
			return nil, err
		}
		for i, r := range answer.Replies {
			e := r.Entry
			if e == nil {
				return nil, s.noEntry(ids[begin+i], answer.Place)
			}
			if err := c.put(s, e); err != nil {
				return nil, err
			}
			ops = append(ops, client.Update(*e, &e.Revision))
		}
	}
	return ops, nil
}

func smaller(a, b int) int {
	if a < b {
		return a
	}
	return b
}

// sendUpdates sends updates. It returns true if some were made.
func (s *session) sendUpdates(ops []client.Op, isDry, isSeveral bool) (bool, error) {
	if isDry {
		return false, s.tryOut(ops)
	}
	replies, batches, err := s.changeMany(ops, isSeveral)
	if err == nil {
		err = s.showMade("updated", replies, batches)
	}
	return len(batches) > 0, err
}

// isStale returns true if another client has changed the entry meanwhile.
func isStale(err error) bool {
	var refused *client.Refused
	return errors.As(err, &refused) && refused.Answer.Code == "O4"
}

// noEntry prints that an entry is missing.
func (s *session) noEntry(id string, place uint64) error {
	s.warn("regdctl: there is no entry %s at commit %d", id, place)
	return errNo
}

// severalText is the help of -several.
const severalText = "several changes, each of which holds alone, if one can't have all"

// defineIDs adds the flags for the ids of entries, and returns what reads them.
func defineIDs(flags *flag.FlagSet) func(*session) ([]string, error) {
	var ids words
	flags.Var(&ids, "entryID", "the `id` of an entry, or its first 8 digits; may be repeated")
	file := flags.String("file", "",
		"a `file` of ids in JSON: a list, or SPIRE's {\"ids\": [..]}; - is standard input")
	return func(s *session) ([]string, error) { return s.givenIDs(ids, *file) }
}

func deleteEntries(flags *flag.FlagSet) runner {
	ids := defineIDs(flags)
	isCascade := flags.Bool("cascade", false, "also delete what no agent can reach any more without them")
	isSeveral := flags.Bool("several", false, severalText)
	revision := defineRevision(flags)
	isDry := defineDry(flags)
	return func(s *session) error {
		all, err := ids(s)
		if err != nil {
			return err
		}
		expected, err := revision()
		if err != nil {
			return err
		}
		if expected != nil && (len(all) > 1 || *isCascade) {
			return invalidf("-revision takes a single entry, without -cascade")
		}
		var ops []client.Op
		for _, id := range all {
			ops = append(ops, client.Delete(id, expected))
		}
		if *isCascade {
			if ops, err = s.cascade(all, ""); err != nil {
				return err
			}
		}
		if *isDry {
			return s.tryOut(ops)
		}
		return s.deleteAndWarn(ops, *isSeveral)
	}
}

// givenIDs returns the ids of the flags, of the arguments and of the file, each once.
func (s *session) givenIDs(given words, file string) ([]string, error) {
	all := append([]string{}, given...)
	all = append(all, s.arguments...)
	if file != "" {
		read, err := s.readIDs(file)
		if err != nil {
			return nil, err
		}
		all = append(all, read...)
	}
	if len(all) == 0 {
		return nil, invalidf("-entryID or -file is missing")
	}
	seen, ids := map[string]bool{}, []string{}
	for _, word := range all {
		id, err := s.entryID(word)
		if err != nil {
			return nil, err
		}
		if !seen[id] {
			seen[id] = true
			ids = append(ids, id)
		}
	}
	return ids, nil
}

// deleteAndWarn deletes entries, and warns of those whose parent is gone.
func (s *session) deleteAndWarn(ops []client.Op, isSeveral bool) error {
	replies, batches, err := s.changeMany(ops, isSeveral)
	if err != nil {
		return err
	}
	var entries []book.Entry
	for _, r := range replies {
		if r.Entry != nil {
			entries = append(entries, *r.Entry)
		}
	}
	left, err := s.leftBelow(entries)
	if err != nil {
		return err
	}
	value := map[string]any{"batches": batches, "entries": entries, "below": left}
	return s.show(value, func() string {
		text := s.entryTable(entries)
		for _, m := range batches {
			text += m.text("deleted")
		}
		return text + s.warningOf(left)
	})
}

// warningOf says which entries are left below what is gone.
func (s *session) warningOf(left []book.Entry) string {
	if len(left) == 0 {
		return ""
	}
	var names []string
	for _, e := range left {
		names = append(names, fmt.Sprintf("%s  %s", e.ID, s.short(e.Identity)))
	}
	return "warning: nothing has the SPIFFE ID of these entries' parent any more:\n  " +
		strings.Join(names, "\n  ") + "\n"
}

// leftBelow returns the entries whose parent was the SPIFFE ID of one that was deleted, and is no other entry's.
func (s *session) leftBelow(deleted []book.Entry) ([]book.Entry, error) {
	left := []book.Entry{}
	seen := map[string]bool{}
	for _, e := range deleted {
		if seen[e.Identity] {
			continue
		}
		seen[e.Identity] = true
		same, _, err := s.client.Entries(s.ctx, client.Filter{Identity: e.Identity})
		if err != nil {
			return nil, err
		}
		if len(same) > 0 {
			continue
		}
		answer, err := s.client.Ask(s.ctx, client.Children(e.Identity))
		if err != nil {
			return nil, err
		}
		left = append(left, answer.Replies[0].Entries...)
	}
	return left, nil
}

// cascade returns the deletes of entries, and of those that no agent could reach any more. Each has its revision, so
// that nothing is deleted that another client has changed meanwhile. An agent that goes, too, may be named.
func (s *session) cascade(ids []string, agent string) ([]client.Op, error) {
	b, err := s.client.ReadBook(s.ctx, client.Reading{Domain: s.settings.domain})
	if err != nil {
		return nil, err
	}
	gone := map[string]bool{}
	for _, id := range ids {
		if b.Entry(id) == nil {
			return nil, invalidf("there is no entry %s at commit %d", id, b.Place)
		}
		gone[id] = true
	}
	var ops []client.Op
	for _, e := range b.Stranded(gone, agent) {
		revision := e.Revision
		ops = append(ops, client.Delete(e.ID, &revision))
	}
	return ops, nil
}
