package client

import (
	"context"
	"errors"
	"fmt"
	"sort"

	"regd/gateway/book"
)

// Reading says what a copy of a book has next to its entries.
type Reading struct {
	// Domain is the trust domain, if it is known. Another one than the server's is refused with B3.
	Domain string
	// Agents is true for a copy with agents.
	Agents bool
	// Bundles is true for a copy with bundles, Texts for one with their texts too.
	Bundles, Texts bool
	// Names are agents that a server without the operation `agents` is asked for, next to the parents of entries.
	// Domains are those whose bundles a server without the operation `bundles` is asked for, next to those of
	// entries.
	Names, Domains []string
}

const (
	mostOps    = 64  // of a line
	mostRounds = 5   // in which a book that others change is read
	boundSize  = 300 // entries between the pages of one line, of which a full book takes 55
	wideSize   = 450 // the same where a gateway accepts only few pages in a line
	fewPages   = 16  // the most that a gateway accepts by default
)

// errMoved says that the pages of a book can't be completed, because the book is too old or the connection was lost.
var errMoved = errors.New("other clients change the book faster than it can be read")

// errWide says that a book has more entries than one line can read.
var errWide = errors.New("the book has too many entries for one line")

// ReadBook returns a copy of the book of one commit number. If agents or bundles are asked for, and others change the
// book all the time, the rows of these may be later: then Last is above Place.
func (c *Client) ReadBook(ctx context.Context, what Reading) (*book.Book, error) {
	for round := 1; ; round++ {
		b, err := c.readOnce(ctx, what, round)
		isLast := round == mostRounds
		if err == nil && (b.Last == b.Place || isLast) {
			return b, nil
		}
		if err != nil && (!errors.Is(err, errMoved) || isLast) {
			return nil, err
		}
	}
}

func (c *Client) readOnce(ctx context.Context, what Reading, round int) (*book.Book, error) {
	b := &book.Book{Domain: what.Domain}
	var probe []Op
	if what.Domain != "" {
		probe = []Op{ShowAgent("spiffe://" + what.Domain + book.AgentPath + "regdctl")}
	}
	entries, place, err := c.readEntries(ctx, Filter{}, probe, round)
	if err != nil {
		return nil, err
	}
	opened := c.opened
	b.Entries, b.Place, b.Last = entries, place, place
	if b.Domain == "" && len(entries) > 0 {
		b.Domain, _ = book.SplitID(entries[0].Parent)
	}
	if what.Agents {
		if err := c.readAgents(ctx, b, what.Names); err != nil {
			return nil, err
		}
	}
	if what.Bundles {
		if err := c.readBundles(ctx, b, what); err != nil {
			return nil, err
		}
	}
	if c.opened != opened {
		return nil, errMoved
	}
	return b, nil
}

// Entries returns the entries of one book that pass a filter, and the commit number of that book.
func (c *Client) Entries(ctx context.Context, f Filter) ([]book.Entry, uint64, error) {
	for round := 1; ; round++ {
		found, place, err := c.readEntries(ctx, f, nil, round)
		if !errors.Is(err, errMoved) || round == mostRounds {
			return found, place, err
		}
	}
}

// EntriesAt returns the entries of a former book that pass a filter. The server refuses a place that is too old (O8).
func (c *Client) EntriesAt(ctx context.Context, place uint64, f Filter) ([]book.Entry, error) {
	var found []book.Entry
	for from := ""; ; {
		answer, err := c.Ask(ctx, page(PageSize, from, &place, f))
		if err != nil {
			return nil, err
		}
		reply := answer.Replies[0]
		found = append(found, reply.Entries...)
		if reply.Next == nil {
			return found, nil
		}
		from = *reply.Next
	}
}

// readEntries reads the entries of one book: page by page, and from the third attempt on by one line if that can have
// them all.
func (c *Client) readEntries(ctx context.Context, f Filter, probe []Op, round int) ([]book.Entry, uint64, error) {
	if round > 2 {
		found, place, err := c.together(ctx, f, probe)
		if !errors.Is(err, errWide) {
			return found, place, err
		}
	}
	return c.pages(ctx, f, probe)
}

// together reads the entries by one line with many pages, which is of one book however fast others change it. The pages
// begin where shorter ones of several books have begun, so that there is room for new entries.
func (c *Client) together(ctx context.Context, f Filter, probe []Op) ([]book.Entry, uint64, error) {
	begins, err := c.bounds(ctx, f)
	if err != nil {
		return nil, 0, err
	}
	ops := append([]Op{}, probe...)
	for _, from := range begins {
		ops = append(ops, page(PageSize, from, nil, f))
	}
	if len(ops) > mostOps || c.isFew && len(begins) > fewPages {
		return nil, 0, errWide
	}
	answer, err := c.Ask(ctx, ops...)
	if answer.Code == "G2" {
		c.isFew = true
		return nil, 0, errMoved
	}
	if err != nil {
		return nil, 0, err
	}
	found, isWhole := joined(answer.Replies[len(probe):], begins)
	if !isWhole {
		return nil, 0, errMoved
	}
	return found, answer.Place, nil
}

// bounds returns the ids after which pages begin, the first one "".
func (c *Client) bounds(ctx context.Context, f Filter) ([]string, error) {
	begins, size := []string{""}, boundSize
	if c.isFew {
		size = wideSize
	}
	for {
		answer, err := c.Ask(ctx, page(size, begins[len(begins)-1], nil, f))
		if err != nil {
			return nil, err
		}
		if answer.Replies[0].Next == nil {
			return begins, nil
		}
		begins = append(begins, *answer.Replies[0].Next)
	}
}

// joined returns the entries of pages that begin after these ids, each up to where the next one begins. It returns
// false if a page ends before that.
func joined(pages []Reply, begins []string) (found []book.Entry, isWhole bool) {
	for i, one := range pages {
		isLast := i+1 == len(begins)
		if one.Next != nil && (isLast || *one.Next < begins[i+1]) {
			return nil, false
		}
		for _, e := range one.Entries {
			if isLast || e.ID <= begins[i+1] {
				found = append(found, e)
			}
		}
	}
	return found, true
}

// pages reads the pages of one book. The first line begins with the operations of a probe.
func (c *Client) pages(ctx context.Context, f Filter, probe []Op) ([]book.Entry, uint64, error) {
	answer, err := c.Ask(ctx, append(probe, page(PageSize, "", nil, f))...)
	if err != nil {
		return nil, 0, err
	}
	place, opened := answer.Place, c.opened
	reply := answer.Replies[len(answer.Replies)-1]
	found := reply.Entries
	for reply.Next != nil {
		answer, err = c.Ask(ctx, page(PageSize, *reply.Next, &place, f))
		if answer.Code == "O8" || err == nil && c.opened != opened {
			return nil, 0, errMoved
		}
		if err != nil {
			return nil, 0, err
		}
		reply = answer.Replies[0]
		found = append(found, reply.Entries...)
		if c.options.Read != nil {
			c.options.Read(len(found))
		}
	}
	return found, place, nil
}

// try sends an operation that an older server lacks, and returns false if this server lacks it.
func (c *Client) try(ctx context.Context, op Op) (Answer, bool, error) {
	if c.lacking[op.Name()] {
		return Answer{}, false, nil
	}
	answer, err := c.Ask(ctx, op)
	if answer.lacks() {
		c.lacking[op.Name()] = true
		return answer, false, nil
	}
	return answer, err == nil, err
}

// list reads the pages of agents or bundles. It returns false if the server can't list them.
func (c *Client) list(ctx context.Context, b *book.Book, name string, take func(Reply)) (bool, error) {
	for from := ""; ; {
		answer, isKnown, err := c.try(ctx, listing(name, from, PageSize))
		if err != nil || !isKnown {
			return false, err
		}
		b.Saw(answer.Place)
		take(answer.Replies[0])
		if answer.Replies[0].Next == nil {
			return true, nil
		}
		from = *answer.Replies[0].Next
	}
}

// show sends queries, many in a line, and passes their replies on.
func (c *Client) show(ctx context.Context, b *book.Book, ops []Op, take func(Reply)) error {
	for len(ops) > 0 {
		count := len(ops)
		if count > mostOps {
			count = mostOps
		}
		answer, err := c.Ask(ctx, ops[:count]...)
		if err != nil {
			return err
		}
		b.Saw(answer.Place)
		for _, reply := range answer.Replies {
			take(reply)
		}
		ops = ops[count:]
	}
	return nil
}

// readAgents reads all agents, or those that are known by name if the server can't list them.
func (c *Client) readAgents(ctx context.Context, b *book.Book, names []string) (err error) {
	take := func(r Reply) { b.Agents = append(b.Agents, r.Agents...) }
	if b.AllAgents, err = c.list(ctx, b, "agents", take); err != nil || b.AllAgents {
		return err
	}
	known := map[string]bool{}
	for _, e := range b.Entries {
		known[e.Parent] = known[e.Parent] || book.IsAgentID(e.Parent)
	}
	for _, name := range names {
		known[name] = true
	}
	var ops []Op
	for _, name := range sorted(known) {
		ops = append(ops, ShowAgent(name))
	}
	return c.show(ctx, b, ops, func(r Reply) {
		if r.Agent != nil {
			b.Agents = append(b.Agents, *r.Agent)
		}
	})
}

// readBundles reads all bundles, or those that are known by their domains if the server can't list them. A listing has
// no texts.
func (c *Client) readBundles(ctx context.Context, b *book.Book, what Reading) (err error) {
	take := func(r Reply) { b.Bundles = append(b.Bundles, r.Bundles...) }
	if b.AllBundles, err = c.list(ctx, b, "bundles", take); err != nil || b.AllBundles && !what.Texts {
		return err
	}
	domains := map[string]bool{}
	for _, bundle := range b.Bundles {
		domains[bundle.Domain] = true
	}
	if !b.AllBundles {
		for _, domain := range what.Domains {
			domains[domain] = true
		}
		for _, e := range b.Entries {
			for _, domain := range e.Domains {
				domains[domain] = true
			}
		}
	}
	b.Bundles = nil
	var ops []Op
	for _, domain := range sorted(domains) {
		ops = append(ops, ShowBundle(domain))
	}
	return c.show(ctx, b, ops, func(r Reply) {
		if r.Bundle != nil {
			b.Bundles = append(b.Bundles, *r.Bundle)
		}
	})
}

// sorted returns the keys with the value true, in order.
func sorted(set map[string]bool) []string {
	var keys []string
	for key, isIn := range set {
		if isIn {
			keys = append(keys, key)
		}
	}
	sort.Strings(keys)
	return keys
}

// Counts returns the numbers of rows, and false if the server is too old for that.
func (c *Client) Counts(ctx context.Context) (Sizes, bool, error) {
	answer, isKnown, err := c.try(ctx, Counts())
	if err != nil || !isKnown {
		return Sizes{}, false, err
	}
	if answer.Replies[0].Counts == nil {
		return Sizes{}, false, fmt.Errorf("the answer has no counts: %s", answer.Line)
	}
	return *answer.Replies[0].Counts, true, nil
}

// CountEntries returns the number of entries, which are all read from a server that is too old to count.
func (c *Client) CountEntries(ctx context.Context) (count, place uint64, err error) {
	sizes, isKnown, err := c.Counts(ctx)
	if err != nil || isKnown {
		return sizes.Entries, c.place, err
	}
	entries, place, err := c.Entries(ctx, Filter{})
	return uint64(len(entries)), place, err
}

// Expects returns true if the server knows an operation `expect_agent` or `expect_bundle`. The operation is sent alone.
func (c *Client) Expects(ctx context.Context, op Op) (bool, error) {
	_, isKnown, err := c.try(ctx, op)
	var refused *Refused
	if errors.As(err, &refused) && refused.Answer.Code == "O10" {
		return true, nil
	}
	return isKnown, err
}
