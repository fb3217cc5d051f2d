package main

import (
	"bufio"
	"encoding/json"
	"errors"
	"flag"
	"fmt"
	"io"
	"net/http"
	"strings"
	"time"

	"regd/gateway/client"
)

// call sends lines as they are, and prints the answers. The status is that of a refusal if the server has refused one.
func call(flags *flag.FlagSet) runner {
	isRepeated := flags.Bool("retry", false, "send a line again until its answer is final; a line that changes "+
		"something needs a token")
	return func(s *session) error {
		isRefused := false
		send := func(line string) error {
			defer s.limit()()
			err := s.callLine(line, *isRepeated)
			isRefused = isRefused || errors.Is(err, errLineRefused)
			if errors.Is(err, errLineRefused) {
				return nil // the lines behind it are sent, too
			}
			return err
		}
		if err := s.eachLine(send); err != nil {
			return err
		}
		if isRefused {
			return errLineRefused
		}
		return nil
	}
}

// eachLine passes the arguments on, or without any the lines of standard input.
func (s *session) eachLine(send func(line string) error) error {
	for _, line := range s.arguments {
		if err := send(line); err != nil {
			return err
		}
	}
	if len(s.arguments) > 0 {
		return nil
	}
	lines := bufio.NewReader(s.in)
	for {
		line, err := lines.ReadString('\n')
		if line != "" {
			if err := send(strings.TrimSuffix(line, "\n")); err != nil {
				return err
			}
		}
		if errors.Is(err, io.EOF) {
			return nil
		}
		if err != nil {
			return err
		}
	}
}

// callLine sends a line, and prints its answer as it came.
func (s *session) callLine(line string, isRepeated bool) error {
	if strings.ContainsRune(line, '\n') {
		return invalidf("a line has no line feed inside")
	}
	send := s.client.Call
	if isRepeated {
		if err := mayRepeat(line); err != nil {
			return err
		}
		send = s.client.Repeat
	}
	answer, err := send(s.ctx, []byte(line))
	var refused *client.Refused
	if err != nil && !errors.As(err, &refused) {
		return err
	}
	if s.settings.output != "lines" { // otherwise it is printed already
		if err := s.print(string(answer.Line) + "\n"); err != nil {
			return err
		}
	}
	if refused != nil {
		return errLineRefused
	}
	return nil
}

// mayRepeat refuses a line that could be made twice.
func mayRepeat(line string) error {
	var request struct {
		Token *string `json:"token"`
		Ops   []struct {
			Op string `json:"op"`
		} `json:"ops"`
	}
	if err := json.Unmarshal([]byte(line), &request); err != nil {
		return nil // the server says what is wrong with it, and makes nothing
	}
	for _, op := range request.Ops {
		isChange := isOneOf(op.Op, "create", "update", "delete", "prune", "set_agent", "drop_agent",
			"set_bundle",
			"drop_bundle")
		if isChange && (request.Token == nil || *request.Token == "") {
			return invalidf("-retry takes a line with a \"token\", since this one could be made twice")
		}
	}
	return nil
}

// showStatus prints whether the server answers, and from which book.
func showStatus(flags *flag.FlagSet) runner {
	address := flags.String("status", "", "also the /status of a gateway, at this `address` of its option -status")
	return func(s *session) error {
		if err := s.noArguments(); err != nil {
			return err
		}
		begin := time.Now()
		answer, err := s.client.Ask(s.ctx, client.Op{"op": "page", "size": 1})
		if err != nil {
			return err
		}
		took := time.Since(begin)
		value := map[string]any{"address": s.client.Address(), "place": answer.Place, "seconds": took.Seconds()}
		text := fmt.Sprintf("%s answers at commit %d, in %s\n", s.client.Address(), answer.Place,
			took.Round(100*time.Microsecond))
		sizes, isWhole, err := s.client.Counts(s.ctx)
		if err != nil {
			return err
		}
		if isWhole {
			value["sizes"] = sizes
			text += fmt.Sprintf("%d entries, %d agents, %d bundles, %d tokens\n", sizes.Entries,
				sizes.Agents,
				sizes.Bundles, sizes.Tokens)
		}
		if *address != "" {
			status, err := s.gatewayStatus(*address)
			if err != nil {
				return err
			}
			value["gateway"] = json.RawMessage(status)
			text += status + "\n"
		}
		return s.show(value, func() string { return text })
	}
}

// gatewayStatus returns /status of a gateway.
func (s *session) gatewayStatus(address string) (string, error) {
	request, err := http.NewRequestWithContext(s.ctx, http.MethodGet, "http://"+address+"/status", nil)
	if err != nil {
		return "", invalidf("-status is not an address: %v", err)
	}
	answer, err := http.DefaultClient.Do(request)
	if err != nil {
		return "", err
	}
	text, err := io.ReadAll(io.LimitReader(answer.Body, 1<<20))
	if closed := answer.Body.Close(); err == nil {
		err = closed
	}
	if err == nil && !json.Valid(text) {
		err = fmt.Errorf("%s: not the status of a gateway", address)
	}
	return strings.TrimSpace(string(text)), err
}

// waitFor waits until the server has a commit.
func waitFor(flags *flag.FlagSet) runner {
	after := flags.String("after", "", "the `number` of the commit")
	return func(s *session) error {
		if err := s.noArguments(); err != nil {
			return err
		}
		place, err := numberOf(*after)
		if err != nil {
			return invalidf("-after takes the number of a commit")
		}
		s.client.Follow(place)
		answer, err := s.client.Ask(s.ctx, client.Op{"op": "page", "size": 1})
		if err != nil {
			return err
		}
		value := map[string]any{"place": answer.Place}
		return s.show(value, func() string { return fmt.Sprintf("at commit %d\n", answer.Place) })
	}
}
