package main

import (
	"flag"
	"fmt"
	"strings"
	"time"

	"regd/gateway/book"
	"regd/gateway/client"
)

func defineDomain(flags *flag.FlagSet) func(*session) (string, error) {
	id := flags.String("id", "", "the trust `domain` of a partner, also as spiffe://domain")
	return func(s *session) (string, error) {
		word := *id
		if word == "" && len(s.arguments) == 1 {
			word = s.arguments[0]
		} else if err := s.noArguments(); err != nil {
			return "", err
		}
		if word == "" {
			return "", invalidf("-id is missing")
		}
		return strings.TrimPrefix(word, "spiffe://"), nil
	}
}

func setBundle(flags *flag.FlagSet) runner {
	domain := defineDomain(flags)
	path := flags.String("path", "", "the `file` with the bundle; - is standard input")
	isRaw := flags.Bool("raw", false, "accept any text, and not only JSON with `keys`")
	ifAbsent := flags.Bool("ifAbsent", false, "only if the domain has no bundle")
	sequence := flags.String("ifSequence", "", "only if the bundle has this `sequence`")
	isDry := defineDry(flags)
	return func(s *session) error {
		name, err := domain(s)
		if err != nil {
			return err
		}
		if *path == "" {
			return invalidf("-path is missing")
		}
		text, err := s.readFile(*path)
		if err != nil {
			return err
		}
		if fault := book.FaultOfBundle(string(text)); fault != "" && !*isRaw {
			return invalidf(
				"%s: %s\n  cure:   use the file of `spire-server bundle show -format spiffe`, or add "+
					"-raw", *path, fault)
		}
		ops := []client.Op{client.SetBundle(name, string(text))}
		if *ifAbsent || *sequence != "" {
			if ops, err = s.expectingBundle(ops, name, *ifAbsent, *sequence); err != nil {
				return err
			}
		}
		return s.apply(*isDry, "set", ops...)
	}
}

// expectingBundle puts a condition before the change of a bundle.
func (s *session) expectingBundle(ops []client.Op, domain string, isAbsent bool, sequence string) ([]client.Op, error) {
	var wanted *uint64
	if sequence != "" {
		n, err := numberOf(sequence)
		if err != nil || isAbsent {
			return nil, invalidf("-ifSequence takes a number, and no -ifAbsent")
		}
		wanted = &n
	}
	return s.expecting(ops, client.ExpectBundle(domain, wanted), func() (bool, error) {
		answer, err := s.client.Ask(s.ctx, client.ShowBundle(domain))
		if err != nil {
			return false, err
		}
		b := answer.Replies[0].Bundle
		if b == nil || wanted == nil {
			return b == nil && wanted == nil, nil
		}
		return b.Sequence == *wanted, nil
	})
}

func showBundle(flags *flag.FlagSet) runner {
	domain := defineDomain(flags)
	return func(s *session) error {
		name, err := domain(s)
		if err != nil {
			return err
		}
		answer, err := s.client.Ask(s.ctx, client.ShowBundle(name))
		if err != nil {
			return err
		}
		b := answer.Replies[0].Bundle
		if b == nil {
			s.warn("regdctl: %s has no bundle at commit %d", name, answer.Place)
			return errNo
		}
		return s.show(map[string]any{"place": answer.Place, "bundle": b}, func() string { return b.Text })
	}
}

// readBundles returns a copy of the book with its bundles.
func (s *session) readBundles(names func(*session) (names, error)) (*book.Book, error) {
	if err := s.noArguments(); err != nil {
		return nil, err
	}
	known, err := names(s)
	if err != nil {
		return nil, err
	}
	what := client.Reading{Domain: s.settings.domain, Bundles: true, Domains: known.domains}
	return s.client.ReadBook(s.ctx, what)
}

func listBundles(flags *flag.FlagSet) runner {
	id := flags.String("id", "", "only this trust `domain`")
	names := defineNames(flags)
	return func(s *session) error {
		if *id != "" {
			return s.listBundle(strings.TrimPrefix(*id, "spiffe://"))
		}
		b, err := s.readBundles(names)
		if err != nil {
			return err
		}
		value := map[string]any{"place": b.Last, "bundles": b.Bundles, "complete": b.AllBundles}
		return s.show(value, func() string {
			text := bundleTable(b.Bundles) + fmt.Sprintf("%s at commit %d\n",
				counted(len(b.Bundles), "bundle", "bundles"), b.Last)
			if !b.AllBundles {
				text += otherBundles + "\n"
			}
			return text
		})
	}
}

func (s *session) listBundle(domain string) error {
	answer, err := s.client.Ask(s.ctx, client.ShowBundle(domain))
	if err != nil {
		return err
	}
	found := []book.Bundle{}
	if b := answer.Replies[0].Bundle; b != nil {
		found = oneBundle(b)
	}
	value := map[string]any{"place": answer.Place, "bundles": found}
	err = s.show(value, func() string {
		return bundleTable(found) + fmt.Sprintf("%s at commit %d\n", counted(len(found), "bundle", "bundles"),
			answer.Place)
	})
	if err == nil && len(found) == 0 {
		err = errNo
	}
	return err
}

func countBundles(flags *flag.FlagSet) runner {
	names := defineNames(flags)
	return func(s *session) error {
		b, err := s.readBundles(names)
		if err != nil {
			return err
		}
		note := ""
		if !b.AllBundles {
			note = otherBundles
		}
		return s.showCount("bundles", len(b.Bundles), b.Last, note)
	}
}

func deleteBundle(flags *flag.FlagSet) runner {
	domain := defineDomain(flags)
	mode := flags.String("mode", "restrict", "what happens to entries that name the domain: restrict (refuse), "+
		"dissociate or delete")
	isDry := defineDry(flags)
	return func(s *session) error {
		name, err := domain(s)
		if err != nil {
			return err
		}
		if !isOneOf(*mode, "restrict", "dissociate", "delete") {
			return invalidf("-mode is restrict, dissociate or delete, and not %s", *mode)
		}
		if *isDry {
			return s.tryOut([]client.Op{client.DropBundle(name, *mode)})
		}
		replies, m, err := s.change(client.DropBundle(name, *mode))
		if err != nil {
			return err
		}
		r := replies[0]
		value := map[string]any{"place": m.Place, "result": resultText(m)}
		value["deleted"], value["dissociated"] = r.Deleted, r.Dissociated
		return s.show(value, func() string {
			text := ""
			for _, id := range r.Deleted {
				text += "deleted      " + id + "\n"
			}
			for _, id := range r.Dissociated {
				text += "dissociated  " + id + "\n"
			}
			return text + m.text("removed")
		})
	}
}

func prune(flags *flag.FlagSet) runner {
	before := flags.String("before", "",
		"the `time` before which entries have expired: seconds since 1970, or RFC "+
			"3339 (default: now)")
	isDry := defineDry(flags)
	return func(s *session) error {
		if err := s.noArguments(); err != nil {
			return err
		}
		at, err := moment(*before)
		if err != nil {
			return err
		}
		if *before == "" {
			at = uint64(time.Now().Unix())
		}
		if *isDry {
			return s.tryOut([]client.Op{client.Prune(at)})
		}
		replies, m, err := s.change(client.Prune(at))
		if err != nil {
			return err
		}
		pruned := replies[0].Pruned
		value := map[string]any{"place": m.Place, "result": resultText(m), "pruned": pruned}
		return s.show(value, func() string {
			text := ""
			for _, id := range pruned {
				text += id + "\n"
			}
			return text + m.text(counted(len(pruned), "entry", "entries")+" removed")
		})
	}
}
