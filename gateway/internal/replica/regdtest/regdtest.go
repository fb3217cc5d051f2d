// Package regdtest has a regd in miniature for unit tests. A test binary calls Main first in TestMain, and names itself
// as the program.
//
// It knows prune, which commits and reports its number, show, which shows two entries, after, and token, which it
// ignores. Some hints in a line make it misbehave: L5, L6, L7, L8 and O8 are replied as codes, KILL ends the process,
// HANG makes it answer nothing more on this connection, and SLOW makes it take a tenth of a second. With WAIT a line
// takes a second, and with HALT four seconds, in which the other connections are answered. LARGE makes a reply of 100
// kB. With LATE a change is seen by the other connections after two seconds. With AGENT a prune shows an agent. With
// DROP there is no reply, with TWICE it comes twice, and with SWAP after that to the next line, as if regd were wrong.
// For the domain shared.org the connections number their calls together, and for hung.org it never listens.
package regdtest

import (
	"bufio"
	"bytes"
	"encoding/json"
	"fmt"
	"net"
	"os"
	"strconv"
	"strings"
	"sync"
	"time"
)

// Main serves as regd and never returns if the arguments say so. Otherwise it returns immediately.
func Main() {
	if len(os.Args) < 2 || os.Args[1] != "serve" {
		return
	}
	if os.Args[3] == "hung.org" {
		time.Sleep(time.Hour)
	}
	connections, _ := strconv.Atoi(os.Args[len(os.Args)-1])
	on, err := net.Listen("tcp", "127.0.0.1:0")
	if err != nil {
		os.Exit(1)
	}
	fmt.Printf("{\"listening\":\"%s\"}\n", on.Addr())
	var group sync.WaitGroup
	var b book
	for i := 0; i < connections; i++ {
		conn, err := on.Accept()
		if err != nil {
			os.Exit(1)
		}
		group.Add(1)
		go func(isWriter bool) {
			defer group.Done()
			b.serve(conn, isWriter)
		}(i == 0)
	}
	group.Wait()
	os.Exit(0)
}

type book struct {
	mu        sync.Mutex
	calls     int // of all connections
	place     uint64
	seen      uint64 // the place for the other connections until that time
	seenUntil time.Time
}

func (b *book) serve(conn net.Conn, isWriter bool) {
	in := bufio.NewReader(conn)
	kept := ""
	for call, line := 0, 1; ; line++ {
		text, err := in.ReadBytes('\n')
		if err != nil {
			return
		}
		reply, isCall := b.reply(text, isWriter)
		if isCall {
			if call++; os.Args[3] == "shared.org" {
				call = b.nextCall()
			}
			reply = fmt.Sprintf("{\"call\":%d,%s}\n", call, reply)
		} else {
			reply = fmt.Sprintf("{\"code\":\"%s\",\"line\":%d}\n", reply, line)
		}
		kept = send(conn, text, reply, kept)
	}
}

// wait takes the time that a line asks for, in which the other connections are answered.
func wait(text []byte) {
	for word, long := range map[string]time.Duration{"WAIT": time.Second, "HALT": 4 * time.Second} {
		if bytes.Contains(text, []byte(word)) {
			time.Sleep(long)
		}
	}
}

// entryIDs is what the IDs of the entries that there are begin with.
const entryIDs = "00000000-0000-4000-8000-"

// entryOf returns the reply to a show: two entries are there.
func entryOf(id string) string {
	const form = `{"entry":{"id":"%s","identity":"spiffe://ex.org/%s","revision":%d}}`
	switch strings.TrimPrefix(id, entryIDs) {
	case "000000000001":
		return fmt.Sprintf(form, id, "team/web", 3)
	case "000000000002":
		return fmt.Sprintf(form, id, "other/web", 4)
	}
	return `{"entry":null}`
}

// send sends a reply, and the one that was kept back, unless the line says otherwise. It returns a reply that is to be
// sent after the next one.
func send(conn net.Conn, text []byte, reply, kept string) string {
	switch {
	case bytes.Contains(text, []byte("DROP")):
		reply = ""
	case bytes.Contains(text, []byte("TWICE")):
		reply += reply
	case bytes.Contains(text, []byte("SWAP")):
		return reply
	}
	conn.Write([]byte(reply + kept)) // if it fails, so does the next read
	return ""
}

func (b *book) nextCall() int {
	b.mu.Lock()
	defer b.mu.Unlock()
	b.calls++
	return b.calls
}

func (b *book) reply(text []byte, isWriter bool) (reply string, isCall bool) {
	var request struct {
		Ops   []struct{ Op, Hint, ID string }
		After uint64
	}
	if json.Unmarshal(text, &request) != nil {
		return "L2", false
	}
	if bytes.Contains(text, []byte("HANG")) {
		select {}
	}
	wait(text)
	b.mu.Lock()
	defer b.mu.Unlock()
	for _, code := range []string{"L5", "L6", "L7", "L8", "O8"} {
		if bytes.Contains(text, []byte(code)) {
			return code, false
		}
	}
	switch {
	case bytes.Contains(text, []byte("KILL")):
		os.Exit(7)
	case bytes.Contains(text, []byte("SLOW")):
		time.Sleep(100 * time.Millisecond)
	case bytes.Contains(text, []byte("LATE")):
		b.seen, b.seenUntil = b.place, time.Now().Add(2*time.Second)
	}
	place := b.place
	if !isWriter && time.Now().Before(b.seenUntil) {
		place = b.seen
	}
	if request.After > place {
		return fmt.Sprintf(`"code":"W1","place":%d,"result":"refused"`, place), true
	}
	for _, op := range request.Ops {
		if op.Op == "delete" {
			return fmt.Sprintf(`"code":"O3","op":0,"place":%d,"result":"refused"`, b.place), true
		}
		if op.Op == "prune" {
			b.place++
			if bytes.Contains(text, []byte("AGENT")) {
				const shown = `"replies":[{"agent":{"id":"a","selectors":[]}}]`
				return fmt.Sprintf(`"place":%d,%s,"result":"committed"`, b.place, shown), true
			}
			return fmt.Sprintf(`"place":%d,"replies":[{"pruned":["%d"]}],"result":"committed"`,
				b.place, b.place), true
		}
	}
	shown := ""
	switch {
	case bytes.Contains(text, []byte(entryIDs)):
		for _, op := range request.Ops {
			shown += "," + entryOf(op.ID)
		}
		shown = shown[1:]
	case bytes.Contains(text, []byte("LARGE")):
		shown = `"` + strings.Repeat("x", 100_000) + `"`
	}
	return fmt.Sprintf(`"place":%d,"replies":[%s],"result":"answered"`, place, shown), true
}
