package main

import (
	"bytes"
	"encoding/json"
	"flag"
	"fmt"
	"os"
	"os/exec"

	"regd/gateway/book"
	"regd/gateway/client"
)

// editEntry lets an editor change an entry. If another client changes it meanwhile, both changes are made if they
// concern different values, after the other one was shown; otherwise the file is left, and the command ends.
func editEntry(flags *flag.FlagSet) runner {
	id := flags.String("entryID", "", "the `id` of the entry, or its first 8 digits")
	editor := flags.String("editor", "", "the `program` that changes a file (default: $EDITOR, or vi)")
	isDry := defineDry(flags)
	return func(s *session) error {
		if *id == "" {
			return invalidf("-entryID is missing")
		}
		whole, err := s.entryID(*id)
		if err != nil {
			return err
		}
		before, place, err := s.shownEntry(whole)
		if err != nil {
			return err
		}
		if before == nil {
			return s.noEntry(whole, place)
		}
		return s.edit(editorOf(*editor), *before, *isDry)
	}
}

func editorOf(given string) string {
	for _, word := range []string{given, os.Getenv("EDITOR")} {
		if word != "" {
			return word
		}
	}
	return "vi"
}

// edit changes an entry by an editor, and sends the change.
func (s *session) edit(editor string, before book.Entry, isDry bool) error {
	file, err := os.CreateTemp("", "regdctl-*.json")
	if err != nil {
		return err
	}
	name := file.Name()
	text, err := json.MarshalIndent(before, "", "  ")
	if err == nil {
		_, err = file.Write(append(text, '\n'))
	}
	if closed := file.Close(); err == nil {
		err = closed
	}
	if err != nil {
		return err
	}
	after, err := s.edited(editor, name, before.ID)
	if err != nil {
		return fmt.Errorf("%w\n  the text is in %s", err, name)
	}
	if err := s.sendEdit(before, after, isDry); err != nil {
		s.warn("  your text is in %s", name)
		return err
	}
	return os.Remove(name)
}

// edited runs the editor, and reads the file afterwards.
func (s *session) edited(editor, name, id string) (book.Entry, error) {
	s.client.Close() // an editor may be open for long, and the connection would hold a worker
	command := exec.Command("sh", "-c", editor+` "$1"`, "sh", name)
	command.Stdin, command.Stdout, command.Stderr = os.Stdin, os.Stdout, os.Stderr
	if err := command.Run(); err != nil {
		return book.Entry{}, fmt.Errorf("the editor %s: %w", editor, err)
	}
	s.limit() // what the editor took doesn't count; the end of the program ends this time, too
	text, err := os.ReadFile(name)
	if err != nil {
		return book.Entry{}, err
	}
	var row map[string]any
	decoder := json.NewDecoder(bytes.NewReader(text))
	decoder.UseNumber()
	if err := decoder.Decode(&row); err != nil {
		return book.Entry{}, invalidf("%s: %v", name, err)
	}
	e, err := s.entryOf(row)
	if err != nil {
		return e, invalidf("%s: %v", name, err)
	}
	if e.ID != id {
		return e, invalidf("%s: the id can't be changed", name)
	}
	return e, nil
}

// sendEdit sends an update, and again with the changes of others, if they concern other values.
func (s *session) sendEdit(before, after book.Entry, isDry bool) error {
	if book.Differences(before, after) == nil {
		return s.print("nothing was changed\n")
	}
	for round := 1; ; round++ {
		err := s.apply(isDry, "updated", client.Update(after, &before.Revision))
		if !isStale(err) || round == mostEdits {
			return err
		}
		now, place, shown := s.shownEntry(before.ID)
		if shown != nil {
			return shown
		}
		if now == nil {
			return s.noEntry(before.ID, place)
		}
		s.warn("another client has changed the entry:\n%s", differenceText(book.Differences(before, *now)))
		merged, isMerged := merge(before, after, *now)
		if !isMerged {
			s.warn("both changes concern the same value")
			return err
		}
		before, after = *now, merged
	}
}

// merge applies a change to an entry that another one has changed. It returns false if both concern the same column.
func merge(before, after, now book.Entry) (book.Entry, bool) {
	others := map[string]bool{}
	for _, d := range book.Differences(before, now) {
		others[d.Name] = true
	}
	merged := now
	for _, d := range book.Differences(before, after) {
		if others[d.Name] {
			return merged, false
		}
		switch d.Name {
		case "parent":
			merged.Parent = after.Parent
		case "identity":
			merged.Identity = after.Identity
		case "selectors":
			merged.Selectors = after.Selectors
		case "hint":
			merged.Hint = after.Hint
		case "domains":
			merged.Domains = after.Domains
		case "expiry":
			merged.Expiry = after.Expiry
		case "x509_svid_ttl":
			merged.X509TTL = after.X509TTL
		case "jwt_svid_ttl":
			merged.JWTTTL = after.JWTTTL
		}
	}
	return merged, true
}
