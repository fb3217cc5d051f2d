package wire

import (
	"crypto/rand"
	"fmt"
	"regexp"
	"strings"
)

// NewID returns a random UUID of version 4.
func NewID() string {
	var b [16]byte
	if _, err := rand.Read(b[:]); err != nil {
		panic(err) // the system has no random numbers, so nothing here is safe
	}
	b[6], b[8] = b[6]&0x0f|0x40, b[8]&0x3f|0x80
	return fmt.Sprintf("%x-%x-%x-%x-%x", b[:4], b[4:6], b[6:8], b[8:10], b[10:])
}

const hyphened = `[0-9a-f]{8}-[0-9a-f]{4}-[0-9a-f]{4}-[0-9a-f]{4}-[0-9a-f]{12}`

var (
	uuidForms = regexp.MustCompile(`(?i)^([0-9a-f]{32}|` + hyphened + `|\{` + hyphened + `\}|urn:uuid:` +
		hyphened + `)$`)
	digits = strings.NewReplacer("urn:uuid:", "", "-", "", "{", "", "}", "")
)

// readUUID returns the 32 digits of a UUID in lower case, for each of the four forms that regd accepts.
func readUUID(text string) (string, bool) {
	return digits.Replace(strings.ToLower(text)), uuidForms.MatchString(text)
}
