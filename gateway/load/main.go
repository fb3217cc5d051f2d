// Command load plays many callers of gateways, or of regd, for tests and measurements.
//
// Each caller sends one line at a time, or -depth lines together, and waits for the answers. When its connection is
// lost it connects to the next address, and sends a line with a token again. At the end load prints the rates, the
// waiting times and what the callers saw as one JSON object.
//
// With -kind the callers are of another kind, and nothing is measured: silent ones; slow ones, which send and read a
// byte at a time; flood, which send lines as fast as they can and read all answers; never, which do and read none;
// half, which end their side and then read; and malformed, which send lines that are no requests.
package main

import (
	"bufio"
	"bytes"
	"crypto/tls"
	"crypto/x509"
	"encoding/json"
	"errors"
	"flag"
	"fmt"
	"io"
	"math/rand"
	"net"
	"os"
	"sort"
	"strings"
	"sync"
	"sync/atomic"
	"time"
)

var (
	addresses   = flag.String("addresses", "", "where callers connect, separated by commas")
	connections = flag.Int("connections", 1, "how many callers")
	seconds     = flag.Float64("seconds", 2, "how long they send")
	changes     = flag.Float64("changes", 0, "how many of 100 lines are changes")
	entries     = flag.Int("entries", 100, "how many entries the lines are about")
	populate    = flag.Bool("populate", false, "first create the entries")
	tokens      = flag.Bool("tokens", false, "give each change a token")
	hint        = flag.Int("hint", 0, "how many bytes the hint of a change has at least")
	depth       = flag.Int("depth", 1, "how many queries are sent together")
	think       = flag.Duration("think", 0, "the pause before each line")
	record      = flag.String("record", "", "a file for answered changes, with -history for all lines")
	history     = flag.Bool("history", false, "also record queries")
	kind        = flag.String("kind", "", "another kind of callers: silent, slow, flood, never, half or malformed")
	resend      = flag.String("resend", "", "in place of random lines, send each change of this record again")
	certificate = flag.String("certificate", "", "TLS: the certificate")
	key         = flag.String("key", "", "TLS: its key")
	authorities = flag.String("authorities", "", "TLS: the authorities of the servers")
)

// patience is how long callers try to connect again after the end.
const patience = 5 * time.Minute

// An event is a line of the record.
type event struct {
	Line  string `json:"line,omitempty"` // of a change
	Reply string `json:"reply,omitempty"`
	From  int64  `json:"from"` // nanoseconds
	To    int64  `json:"to"`
	Place uint64 `json:"place"`
	Read  bool   `json:"read,omitempty"`

	Query  string `json:"query,omitempty"` // in place of Line and Reply
	Answer string `json:"answer,omitempty"`
}

// What the callers saw.
type seen struct {
	reads, writes []float64 // seconds
	lost          int       // connections
	unconnected   int       // tries to connect
	reason        string    // of the last one
	resent        int       // lines
	repeated      int       // answers
	refused       int       // changes
	busy          int       // queries that were refused
	back          int       // places that went back on a connection
	longest       float64
}

func main() {
	flag.Parse()
	list := strings.Split(*addresses, ",")
	if *populate {
		create(list)
	}
	var out *bufio.Writer
	if *record != "" {
		file, err := os.Create(*record)
		check(err)
		out = bufio.NewWriter(file)
		defer func() { check(out.Flush()) }()
	}
	var mu sync.Mutex
	note := func(e event) {
		if out != nil && (!e.Read || *history) {
			text, err := json.Marshal(e)
			check(err)
			mu.Lock()
			_, err = out.Write(append(text, '\n'))
			mu.Unlock()
			check(err)
		}
	}
	var next func() (string, bool)
	if *resend != "" {
		next = recorded(*resend)
	}
	all := make([]seen, *connections)
	var group sync.WaitGroup
	start := time.Now()
	for j := range all {
		group.Add(1)
		go func(j int) {
			defer group.Done()
			stop := start.Add(time.Duration(*seconds * 1e9))
			random := rand.New(rand.NewSource(start.UnixNano() + int64(j)))
			c := caller{addresses: list, at: j, number: j, random: random, note: note, seen: &all[j],
				giveUp: stop.Add(patience)}
			if *kind != "" {
				c.misbehave(*kind, stop)
			} else {
				c.run(stop, next)
			}
		}(j)
	}
	group.Wait()
	report(all, time.Since(start).Seconds())
}

func check(err error) {
	if err != nil {
		fmt.Fprintln(os.Stderr, "load:", err)
		os.Exit(1)
	}
}

// recorded returns a function that returns the recorded changes with a token, one after another.
func recorded(name string) func() (string, bool) {
	text, err := os.ReadFile(name)
	check(err)
	lines := bytes.Split(bytes.TrimSpace(text), []byte("\n"))
	var at atomic.Int64
	return func() (string, bool) {
		for {
			i := int(at.Add(1)) - 1
			if i >= len(lines) {
				return "", false
			}
			var e event
			check(json.Unmarshal(lines[i], &e))
			if strings.Contains(e.Line, `"token"`) {
				return e.Line, true
			}
		}
	}
}

func entryID(k int) string { return fmt.Sprintf("11111111-0000-4000-8000-%012x", k) }

func operation(name string, k int, hint string) string {
	return fmt.Sprintf(`{"op":"%s","id":"%s","parent":"spiffe://ex.org/spire/agent/n%d",`+
		`"identity":"spiffe://ex.org/w%d","selectors":["unix:uid:1000"],"hint":"%s"}`,
		name, entryID(k), k/10, k, hint)
}

// create creates the agents and the entries.
func create(list []string) {
	c := caller{addresses: list, random: rand.New(rand.NewSource(1)), seen: &seen{},
		giveUp: time.Now().Add(patience)}
	for k := 0; k < *entries; k += 50 {
		var ops []string
		for a := k / 10; a < k/10+5; a++ {
			const set = `{"op":"set_agent","agent":"spiffe://ex.org/spire/agent/n%d","selectors":["x:%d"]}`
			ops = append(ops, fmt.Sprintf(set, a, a))
		}
		for j := k; j < k+50 && j < *entries; j++ {
			ops = append(ops, operation("create", j, ""))
		}
		reply := c.exchange(`{"ops":[`+strings.Join(ops, ",")+"]}", 1, false)
		if !bytes.Contains(reply, []byte(`"committed"`)) {
			check(fmt.Errorf("not created: %s", reply))
		}
	}
	c.conn.Close()
}

type caller struct {
	addresses  []string
	at, number int
	random     *rand.Rand
	note       func(event)
	seen       *seen
	giveUp     time.Time
	conn       net.Conn
	in         *bufio.Reader
	place      uint64
}

func (c *caller) connect() {
	for c.conn == nil {
		if time.Now().After(c.giveUp) {
			check(errors.New("no address accepts connections"))
		}
		conn, err := net.DialTimeout("tcp", c.addresses[c.at%len(c.addresses)], 5*time.Second)
		if err == nil && *certificate != "" {
			secure := tls.Client(conn, secured())
			secure.SetDeadline(time.Now().Add(20 * time.Second))
			if err = secure.Handshake(); err != nil {
				conn.Close()
			}
			conn = secure
		}
		if err == nil {
			c.conn, c.in, c.place = conn, bufio.NewReaderSize(conn, 1<<14), 0
			return
		}
		c.at++
		c.seen.unconnected, c.seen.reason = c.seen.unconnected+1, err.Error()
		time.Sleep(20 * time.Millisecond)
	}
}

var config *tls.Config
var configOnce sync.Once

func secured() *tls.Config {
	configOnce.Do(func() {
		pair, err := tls.LoadX509KeyPair(*certificate, *key)
		check(err)
		text, err := os.ReadFile(*authorities)
		check(err)
		pool := x509.NewCertPool()
		pool.AppendCertsFromPEM(text)
		config = &tls.Config{Certificates: []tls.Certificate{pair}, RootCAs: pool, ServerName: "gateway.ex.org"}
	})
	return config
}

// exchange sends copies of a line and returns the last reply. If the connection is lost it sends them again, or returns
// nil.
func (c *caller) exchange(line string, copies int, isAgain bool) []byte {
	text := []byte(strings.Repeat(line+"\n", copies))
	for {
		c.connect()
		c.conn.SetDeadline(time.Now().Add(30 * time.Second))
		_, err := c.conn.Write(text)
		var reply []byte
		for i := 0; i < copies && err == nil; i++ {
			reply, err = c.in.ReadBytes('\n')
		}
		if err == nil {
			return bytes.TrimSuffix(reply, []byte("\n"))
		}
		c.conn.Close()
		c.conn = nil
		c.at++
		c.seen.lost++
		time.Sleep(time.Duration(c.random.Intn(50)) * time.Millisecond)
		if !isAgain {
			return nil
		}
		c.seen.resent++
	}
}

func (c *caller) run(stop time.Time, next func() (string, bool)) {
	defer func() {
		if c.conn != nil {
			c.conn.Close()
		}
	}()
	for count := 0; next != nil || time.Now().Before(stop); count++ {
		time.Sleep(*think)
		line, isRead, isAgain := c.line(count)
		if next != nil {
			planned, ok := next()
			if !ok {
				return
			}
			line, isRead, isAgain = planned, false, true
		}
		copies := 1
		if isRead {
			copies = *depth
		}
		from := time.Now()
		reply := c.exchange(line, copies, isAgain)
		to := time.Now()
		if took := to.Sub(from).Seconds(); took > c.seen.longest {
			c.seen.longest = took
		}
		if reply != nil {
			c.take(line, reply, isRead, copies, from, to)
		}
	}
}

// misbehave plays a caller of another kind.
func (c *caller) misbehave(kind string, stop time.Time) {
	many := strings.Repeat(`{"ops":[{"op":"show","id":"`+entryID(c.number%*entries)+`"}]}`+"\n", 100)
	for time.Now().Before(stop) {
		c.connect()
		c.conn.SetDeadline(stop)
		switch kind {
		case "silent":
			c.in.ReadByte()
		case "slow":
			for at := 0; ; at = (at + 1) % len(many) {
				time.Sleep(50 * time.Millisecond)
				if _, err := c.conn.Write([]byte{many[at]}); err != nil {
					break
				}
				if many[at] == '\n' {
					if _, err := c.in.ReadByte(); err != nil {
						break
					}
				}
			}
		case "flood":
			go io.Copy(io.Discard, c.conn)
			c.fill(many)
		case "never":
			c.fill(many)
			c.in.ReadByte()
		case "half":
			fmt.Fprint(c.conn, many[:len(many)/10])
			c.conn.(interface{ CloseWrite() error }).CloseWrite()
			io.Copy(io.Discard, c.in)
		case "malformed":
			text := make([]byte, 1000)
			c.random.Read(text)
			if _, err := c.conn.Write(append(text, "\n{\n{\"ops\":[{}]}\n"...)); err == nil {
				c.in.ReadBytes('\n')
			}
		default:
			check(fmt.Errorf("no such kind: %s", kind))
		}
		c.conn.Close()
		c.conn = nil
		time.Sleep(500 * time.Millisecond)
	}
}

// fill sends lines until the connection ends.
func (c *caller) fill(many string) {
	for {
		if _, err := c.conn.Write([]byte(many)); err != nil {
			return
		}
	}
}

// line returns a random line, whether it is a query, and whether it may be sent again.
func (c *caller) line(count int) (line string, isRead, isAgain bool) {
	k := c.random.Intn(*entries)
	if c.random.Float64()*100 >= *changes {
		return `{"ops":[{"op":"show","id":"` + entryID(k) + `"}]}`, true, true
	}
	token := ""
	if *tokens {
		token = fmt.Sprintf(`,"token":"%08x-%04x-4000-8000-%04x%08x"`,
			c.random.Uint32(), c.random.Intn(1<<16), c.number&0xffff, count)
	}
	text := fmt.Sprintf("%d.%d", c.number, count)
	if len(text) < *hint {
		text += strings.Repeat(".", *hint-len(text))
	}
	return `{"ops":[` + operation("update", k, text) + "]" + token + "}", false, *tokens
}

func (c *caller) take(line string, reply []byte, isRead bool, copies int, from, to time.Time) {
	var answer struct {
		Place  uint64
		Result string
	}
	json.Unmarshal(reply, &answer)
	if isRead && answer.Result != "answered" { // a busy gateway: it is no answer from a book
		c.seen.busy++
		return
	}
	isRepeated := answer.Result == "repeated"
	if !isRepeated && answer.Place < c.place {
		c.seen.back++
	}
	if !isRepeated {
		c.place = answer.Place
	}
	e := event{From: from.UnixNano(), To: to.UnixNano(), Place: answer.Place, Read: isRead}
	if isRead {
		e.Query, e.Answer = line, string(reply)
		for i := 0; i < copies; i++ {
			c.seen.reads = append(c.seen.reads, to.Sub(from).Seconds())
		}
	} else {
		c.seen.writes = append(c.seen.writes, to.Sub(from).Seconds())
		e.Line, e.Reply = line, string(reply)
		if isRepeated {
			c.seen.repeated++
		} else if answer.Result != "committed" {
			c.seen.refused++
		}
	}
	c.note(e)
}

// report prints what all callers saw.
func report(all []seen, took float64) {
	var t seen
	for _, s := range all {
		t.reads, t.writes = append(t.reads, s.reads...), append(t.writes, s.writes...)
		t.lost += s.lost
		t.resent += s.resent
		t.repeated += s.repeated
		t.refused += s.refused
		t.back += s.back
		t.busy += s.busy
		t.unconnected += s.unconnected
		if s.reason != "" {
			t.reason = s.reason
		}
		if s.longest > t.longest {
			t.longest = s.longest
		}
	}
	out := map[string]any{
		"seconds": took, "unconnected": t.unconnected, "reason": t.reason, "lost": t.lost, "resent": t.resent,
		"repeated": t.repeated, "refused": t.refused, "back": t.back, "longest_s": t.longest, "busy": t.busy,
	}
	for name, times := range map[string][]float64{"reads": t.reads, "changes": t.writes} {
		out[name], out[name+"_per_s"] = len(times), float64(len(times))/took
		sort.Float64s(times)
		if len(times) > 0 {
			out[name+"_p50_ms"], out[name+"_p99_ms"] = 1e3*times[len(times)/2], 1e3*times[len(times)*99/100]
		}
	}
	text, err := json.Marshal(out)
	check(err)
	fmt.Println(string(text))
}
