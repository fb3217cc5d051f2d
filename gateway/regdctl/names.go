package main

import (
	"regexp"
	"strings"

	"regd/gateway/book"
	"regd/gateway/client"
)

// id returns a whole SPIFFE ID. A path is one of the domain of -domain.
func (s *session) id(word string) (string, error) {
	if !strings.HasPrefix(word, "/") {
		return word, nil
	}
	if s.settings.domain == "" {
		return "", invalidf("%s needs a trust domain\n  cure:   add -domain D, set REGDCTL_DOMAIN, or write "+
			"spiffe://D%s", word, word)
	}
	return "spiffe://" + s.settings.domain + word, nil
}

// short returns the path of an ID of the domain, and other IDs as they are.
func (s *session) short(id string) string {
	domain, path := book.SplitID(id)
	if domain == s.settings.domain && path != "" {
		return path
	}
	return id
}

// words are the values of a flag that may be repeated.
type words []string

func (w *words) String() string { return strings.Join(*w, " ") }

func (w *words) Set(text string) error {
	*w = append(*w, text)
	return nil
}

// domains returns trust domains, which may be given as SPIFFE IDs.
func domains(given []string) []string {
	var found []string
	for _, word := range given {
		found = append(found, strings.TrimPrefix(word, "spiffe://"))
	}
	return found
}

// seconds reads a lifetime of the command line. An empty one is 0.
func seconds(text string) (uint64, error) { return unit(text, book.Seconds) }

// moment reads a time of the command line. An empty one is 0.
func moment(text string) (uint64, error) { return unit(text, book.Moment) }

func unit(text string, read func(string) (uint64, error)) (uint64, error) {
	if text == "" {
		return 0, nil
	}
	n, err := read(text)
	if err != nil {
		return 0, invalidf("%v", err)
	}
	return n, nil
}

var firstDigits = regexp.MustCompile(`^[0-9a-fA-F]{8}$`)

// entryID returns the id of an entry, which may be given by its first eight digits.
func (s *session) entryID(word string) (string, error) {
	if !firstDigits.MatchString(word) {
		return word, nil
	}
	entries, _, err := s.client.Entries(s.ctx, client.Filter{})
	if err != nil {
		return "", err
	}
	return idWithDigits(entries, word)
}

func idWithDigits(entries []book.Entry, digits string) (string, error) {
	var found []string
	for _, e := range entries {
		if strings.HasPrefix(e.ID, strings.ToLower(digits)) {
			found = append(found, e.ID)
		}
	}
	switch len(found) {
	case 0:
		return "", invalidf("no entry has an id that begins with %s", digits)
	case 1:
		return found[0], nil
	}
	return "", invalidf("%d entries have ids that begin with %s: %s", len(found), digits, strings.Join(found, " "))
}
