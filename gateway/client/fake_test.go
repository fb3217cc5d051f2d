package client

import (
	"bufio"
	"context"
	"encoding/json"
	"fmt"
	"net"
	"strings"
	"sync"
	"testing"
	"time"
)

// What a fake server does in place of an answer.
const (
	drop   = "drop"   // it ends the connection
	silent = "silent" // it never answers on this connection
)

// A fake is a server that answers by a function, and records the lines.
type fake struct {
	address string
	mu      sync.Mutex
	lines   []string
	answer  func(number int, line string) string
}

// serve starts a fake. The function gets the number of the line, from 0, on all connections.
func serve(t *testing.T, answer func(number int, line string) string) *fake {
	t.Helper()
	on, err := net.Listen("tcp", "127.0.0.1:0")
	if err != nil {
		t.Fatal(err)
	}
	f := &fake{address: on.Addr().String(), answer: answer}
	f.serveOn(t, on)
	return f
}

func (f *fake) serveOn(t *testing.T, on net.Listener) {
	t.Cleanup(func() { on.Close() })
	go func() {
		for {
			stream, err := on.Accept()
			if err != nil {
				return
			}
			go f.converse(stream)
		}
	}()
}

func (f *fake) converse(stream net.Conn) {
	defer stream.Close()
	in := bufio.NewReader(stream)
	for {
		line, err := in.ReadString('\n')
		if err != nil {
			return
		}
		f.mu.Lock()
		f.lines = append(f.lines, strings.TrimSuffix(line, "\n"))
		answer := f.answer(len(f.lines)-1, line)
		f.mu.Unlock()
		if answer == drop {
			return
		}
		if answer == silent {
			continue
		}
		if _, err := fmt.Fprintln(stream, answer); err != nil {
			return
		}
	}
}

func (f *fake) received() []string {
	f.mu.Lock()
	defer f.mu.Unlock()
	return append([]string{}, f.lines...)
}

// answers returns a function that gives these answers, and the last one from then on.
func answers(texts ...string) func(int, string) string {
	return func(number int, _ string) string {
		if number >= len(texts) {
			number = len(texts) - 1
		}
		return texts[number]
	}
}

// calling returns a client of these addresses, and a context for a few seconds.
func calling(t *testing.T, addresses ...string) (*Client, context.Context) {
	t.Helper()
	c := New(Options{Addresses: addresses, First: 3 * time.Second})
	t.Cleanup(c.Close)
	ctx, cancel := context.WithTimeout(context.Background(), 20*time.Second)
	t.Cleanup(cancel)
	return c, ctx
}

const (
	changed   = `{"call":1,"place":7,"replies":[{"agent":{"id":"spiffe://ex.org/a","selectors":[]}}],"result":`
	committed = changed + `"committed"}`
	repeated  = changed + `"repeated"}`
	answered  = `{"call":1,"place":7,"replies":[{"entry":null}],"result":"answered"}`
)

func refusal(code string) string {
	return fmt.Sprintf(`{"call":1,"code":"%s","op":0,"place":7,"result":"refused"}`, code)
}

// keys returns a line's value of a key.
func keys(t *testing.T, line string) map[string]any {
	t.Helper()
	var read map[string]any
	if err := json.Unmarshal([]byte(line), &read); err != nil {
		t.Fatalf("%s: %v", line, err)
	}
	return read
}
