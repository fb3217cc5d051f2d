package main

import (
	"bytes"
	"encoding/json"
	"fmt"
	"io"
	"os"
	"sort"
	"strconv"
	"strings"

	"regd/gateway/book"
)

// readFile reads a file, or standard input for -.
func (s *session) readFile(name string) ([]byte, error) {
	if name == "-" {
		return io.ReadAll(s.in)
	}
	return os.ReadFile(name)
}

// readData reads entries in JSON: SPIRE's {"entries": [..]}, or a list with the keys of LINES.
func (s *session) readData(name string) ([]book.Entry, error) {
	text, err := s.readFile(name)
	if err != nil {
		return nil, err
	}
	rows, err := rowsOf(text)
	if err != nil {
		return nil, invalidf("%s: %v", name, err)
	}
	var entries []book.Entry
	for i, row := range rows {
		e, err := s.entryOf(row)
		if err != nil {
			return nil, invalidf("%s: entry %d: %v", name, i+1, err)
		}
		entries = append(entries, e)
	}
	if len(entries) == 0 {
		return nil, invalidf("%s: it has no entries", name)
	}
	return entries, nil
}

func rowsOf(text []byte) ([]map[string]any, error) {
	decoder := json.NewDecoder(bytes.NewReader(text))
	decoder.UseNumber()
	var value any
	if err := decoder.Decode(&value); err != nil {
		return nil, err
	}
	if decoder.More() {
		return nil, fmt.Errorf("there is more behind its JSON value")
	}
	if object, isObject := value.(map[string]any); isObject {
		if !isEmpty(object["next_page_token"]) {
			return nil, fmt.Errorf("next_page_token: it is one page of several")
		}
		delete(object, "next_page_token")
		if _, hasEntries := object["entries"]; !hasEntries || len(object) > 1 {
			return nil, fmt.Errorf("it is neither a list of entries nor {\"entries\": [..]}")
		}
		value = object["entries"]
	}
	list, isList := value.([]any)
	if !isList {
		return nil, fmt.Errorf("it is neither a list of entries nor {\"entries\": [..]}")
	}
	var rows []map[string]any
	for i, item := range list {
		row, isRow := item.(map[string]any)
		if !isRow {
			return nil, fmt.Errorf("entry %d is not an object", i+1)
		}
		rows = append(rows, row)
	}
	return rows, nil
}

// spireKeys are the keys of SPIRE's files by those of the book.
var spireKeys = map[string]string{
	"spiffe_id": "identity", "parent_id": "parent", "entry_id": "id", "federates_with": "domains",
	"expires_at": "expiry", "entryExpiry": "expiry", "ttl": "x509_svid_ttl", "x509_svid_ttl": "x509_svid_ttl",
}

// isUnused are keys that say nothing about who gets what: the server counts them itself.
var isUnused = map[string]bool{"revision": true, "revision_number": true, "created_at": true, "name": true}

// hasNoColumn are keys of SPIRE for which the book has no column.
var hasNoColumn = map[string]bool{"admin": true, "downstream": true, "dns_names": true, "store_svid": true}

// entryOf reads an entry with the keys of LINES or of SPIRE. What the book can't keep is an error.
func (s *session) entryOf(row map[string]any) (book.Entry, error) {
	e, faults := s.readEntry(row)
	if len(faults) == 0 && (e.Parent == "" || e.Identity == "" || len(e.Selectors) == 0) {
		faults = []error{fmt.Errorf("it takes a parent, an identity and selectors")}
	}
	if len(faults) > 0 {
		return e, faults[0]
	}
	return e, nil
}

// readEntry reads the keys of an entry, and returns what is wrong with each.
func (s *session) readEntry(row map[string]any) (e book.Entry, faults []error) {
	keys := make([]string, 0, len(row))
	for key := range row {
		keys = append(keys, key)
	}
	sort.Strings(keys)
	for _, given := range keys {
		value, key := row[given], given
		if own, isSpire := spireKeys[given]; isSpire {
			key = own
		}
		if value == nil || isUnused[key] {
			continue
		}
		if err := s.putKey(&e, key, value); err != nil {
			faults = append(faults, fmt.Errorf("%s: %w", given, err))
		}
	}
	return e, faults
}

func (s *session) putKey(e *book.Entry, key string, value any) (err error) {
	texts := map[string]*string{"id": &e.ID, "identity": &e.Identity, "parent": &e.Parent, "hint": &e.Hint}
	numbers := map[string]*uint64{"expiry": &e.Expiry, "x509_svid_ttl": &e.X509TTL, "jwt_svid_ttl": &e.JWTTTL}
	switch {
	case texts[key] != nil:
		*texts[key], err = s.textOf(value)
	case numbers[key] != nil:
		*numbers[key], err = numberOf(value)
	case key == "selectors":
		e.Selectors, err = listOf(value, selectorOf)
	case key == "domains":
		e.Domains, err = listOf(value, plainOf)
		e.Domains = domains(e.Domains)
	case hasNoColumn[key]:
		if !isEmpty(value) {
			err = fmt.Errorf("the book has no column for it, so it can't be kept")
		}
	default:
		err = fmt.Errorf("an unknown key")
	}
	return err
}

// textOf returns a text, or the SPIFFE ID that SPIRE writes as an object. A path gets the domain.
func (s *session) textOf(value any) (string, error) {
	if object, isObject := value.(map[string]any); isObject && len(object) == 2 {
		domain, hasDomain := object["trust_domain"].(string)
		path, hasPath := object["path"].(string)
		if hasDomain && hasPath {
			return "spiffe://" + domain + path, nil
		}
	}
	text, err := plainOf(value)
	if err != nil {
		return "", err
	}
	return s.id(text)
}

func plainOf(value any) (string, error) {
	text, isText := value.(string)
	if !isText {
		return "", fmt.Errorf("not a text")
	}
	return text, nil
}

// selectorOf returns a selector, which SPIRE writes as an object.
func selectorOf(value any) (string, error) {
	if object, isObject := value.(map[string]any); isObject && len(object) == 2 {
		kind, hasKind := object["type"].(string)
		rest, hasValue := object["value"].(string)
		if hasKind && hasValue {
			return kind + ":" + rest, nil
		}
	}
	return plainOf(value)
}

func listOf(value any, item func(any) (string, error)) ([]string, error) {
	list, isList := value.([]any)
	if !isList {
		return nil, fmt.Errorf("not a list")
	}
	var found []string
	for _, one := range list {
		text, err := item(one)
		if err != nil {
			return nil, err
		}
		found = append(found, text)
	}
	return found, nil
}

// numberOf returns a number, which SPIRE writes as a text if it has 64 bits.
func numberOf(value any) (uint64, error) {
	text := fmt.Sprint(value)
	n, err := strconv.ParseUint(text, 10, 64)
	if err != nil {
		return 0, fmt.Errorf("not a number from 0: %s", text)
	}
	return n, nil
}

// isEmpty returns true for false, "", [] and null.
func isEmpty(value any) bool {
	switch value := value.(type) {
	case nil:
		return true
	case bool:
		return !value
	case string:
		return value == ""
	case []any:
		return len(value) == 0
	}
	return false
}

// readIDs reads ids in JSON: a list, or SPIRE's {"ids": [..]}.
func (s *session) readIDs(name string) ([]string, error) {
	text, err := s.readFile(name)
	if err != nil {
		return nil, err
	}
	var object struct {
		IDs []string `json:"ids"`
	}
	list := &object.IDs
	if bytes.HasPrefix(bytes.TrimSpace(text), []byte("[")) {
		err = json.Unmarshal(text, list)
	} else {
		err = json.Unmarshal(text, &object)
	}
	if err != nil {
		return nil, invalidf("%s: %v", name, err)
	}
	if len(*list) == 0 {
		return nil, invalidf("%s: it has no ids", name)
	}
	return *list, nil
}

// differenceText prints differences, one in a line.
func differenceText(found []book.Difference) string {
	var out strings.Builder
	for _, d := range found {
		fmt.Fprintf(&out, "  %-14s %q -> %q\n", d.Name, d.Before, d.After)
	}
	return out.String()
}
