package book

import (
	"sort"
	"strconv"
	"strings"
)

// Ordered returns a set in the order of its texts, each once.
func Ordered(texts []string) []string {
	var found []string
	sorted := append([]string{}, texts...)
	sort.Strings(sorted)
	for i, text := range sorted {
		if i == 0 || text != sorted[i-1] {
			found = append(found, text)
		}
	}
	return found
}

// joined returns a set as one text.
func joined(texts []string) string { return strings.Join(Ordered(texts), " ") }

// SameSet returns true if two lists are the same set.
func SameSet(one, other []string) bool { return joined(one) == joined(other) }

// A Difference is a column of an entry that has another value.
type Difference struct {
	Name   string `json:"column"`
	Before string `json:"before"`
	After  string `json:"after"`
}

// Differences compares the columns of two entries that an update can change.
func Differences(before, after Entry) []Difference {
	var found []Difference
	add := func(name, before, after string) {
		if before != after {
			found = append(found, Difference{name, before, after})
		}
	}
	number := func(n uint64) string { return strconv.FormatUint(n, 10) }
	add("parent", before.Parent, after.Parent)
	add("identity", before.Identity, after.Identity)
	add("selectors", joined(before.Selectors), joined(after.Selectors))
	add("hint", before.Hint, after.Hint)
	add("domains", joined(before.Domains), joined(after.Domains))
	add("expiry", number(before.Expiry), number(after.Expiry))
	add("x509_svid_ttl", number(before.X509TTL), number(after.X509TTL))
	add("jwt_svid_ttl", number(before.JWTTTL), number(after.JWTTTL))
	return found
}

// Key returns what no two entries of a book have in common: parent, identity and selectors.
func (e *Entry) Key() string { return e.Parent + " " + e.Identity + " " + joined(e.Selectors) }
