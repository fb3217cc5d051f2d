package main

import (
	"bytes"
	"encoding/json"
	"fmt"
	"os"

	"regd/gateway/client"
)

// record appends the line of a change that was made to the file of -record.
func (s *session) record(line []byte, answer client.Answer) {
	text, err := recorded(line, answer)
	if err == nil {
		err = appendTo(s.settings.record, append(text, '\n'))
	}
	if err != nil {
		s.warn("regdctl: the change was made, but its line is not in the file of -record: %v\n  line: %s", err,
			line)
		s.note(err)
	}
}

// recorded returns the line as it can be sent to another server: with the ids of all its creates, and without `after`,
// since the commit numbers there may be smaller.
func recorded(line []byte, answer client.Answer) ([]byte, error) {
	decoder := json.NewDecoder(bytes.NewReader(line))
	decoder.UseNumber()
	var request map[string]any
	if err := decoder.Decode(&request); err != nil {
		return nil, err
	}
	delete(request, "after")
	ops, _ := request["ops"].([]any)
	for i, one := range ops {
		op, _ := one.(map[string]any)
		if op["op"] != "create" || op["id"] != nil {
			continue
		}
		if i >= len(answer.Replies) || answer.Replies[i].Entry == nil {
			return nil, fmt.Errorf("the answer has no id for operation %d", i)
		}
		op["id"] = answer.Replies[i].Entry.ID
	}
	return client.Print(request)
}

// appendTo appends a text to a file, and waits until it is stored.
func appendTo(name string, text []byte) error {
	file, err := os.OpenFile(name, os.O_APPEND|os.O_CREATE|os.O_WRONLY, 0o600)
	if err != nil {
		return err
	}
	_, err = file.Write(text)
	if synced := file.Sync(); err == nil {
		err = synced
	}
	if closed := file.Close(); err == nil {
		err = closed
	}
	return err
}
