package desired

import (
	"crypto/sha256"
	"encoding/json"
	"fmt"
	"regexp"
	"strings"

	"regd/gateway/book"
)

// A Set is the owner of entries. Their ids are of one range: UUIDs of version 8 (RFC 9562, section 5.8) that begin with
// 48 bits of a hash of the domain and the name. Servers draw ids of version 4, so none of these is ever in the range.
type Set struct {
	Domain string `json:"domain"`
	Name   string `json:"set"`
}

// setName is what a set may be called: its name is part of a selector.
var setName = regexp.MustCompile(`^[A-Za-z0-9][A-Za-z0-9._-]{0,63}$`)

// hash returns the SHA-256 of texts. None of them can have the byte that divides them.
func hash(texts ...string) [sha256.Size]byte {
	return sha256.Sum256([]byte(strings.Join(texts, "\x00")))
}

// uuid returns a UUID of version 8 with the first bits of these bytes.
func uuid(b [16]byte) string {
	b[6], b[8] = b[6]&0x0f|0x80, b[8]&0x3f|0x80
	return fmt.Sprintf("%x-%x-%x-%x-%x", b[:4], b[4:6], b[6:8], b[8:10], b[10:])
}

// Token returns the token that is made of texts: the same line, sent again, has the same one.
func Token(texts ...string) string {
	var b [16]byte
	sum := hash(texts...)
	copy(b[:], sum[:])
	return uuid(b)
}

// of returns the id of the range with these 74 bits.
func (s Set) of(rest [10]byte) string {
	var b [16]byte
	prefix := hash("regdctl set", s.Domain, s.Name)
	copy(b[:], prefix[:6])
	copy(b[6:], rest[:])
	return uuid(b)
}

// ID returns the id of an entry by its name.
func (s Set) ID(name string) string {
	var rest [10]byte
	of := hash("regdctl entry", name)
	copy(rest[:], of[:10])
	return s.of(rest)
}

// MarkerID returns the first id of the range, which is that of the marker.
func (s Set) MarkerID() string { return s.of([10]byte{}) }

// Has returns true if an id is in the range.
func (s Set) Has(id string) bool {
	marker := s.MarkerID()
	return len(id) == len(marker) && id[:15] == marker[:15] && strings.IndexByte("89ab", id[19]) >= 0
}

// marker returns the marker that says what was applied.
func (s Set) marker(a book.Applied) (book.Entry, error) {
	hint, err := json.Marshal(a)
	begin := "spiffe://" + s.Domain
	return book.Entry{ID: s.MarkerID(), Parent: begin + book.MarkerParent, Identity: begin + book.MarkerIdentity,
		Selectors: []string{book.MarkerSelector + s.Name}, Hint: string(hint)}, err
}
