package replica

import (
	"bytes"
	"context"
	"encoding/json"
	"fmt"
	"io"
	"net"
	"os"
	"os/exec"
	"strconv"
	"time"

	"regd/gateway/internal/logline"
)

// Options say which regd a replica runs.
type Options struct {
	Program string
	Domain  string
	Workers int // one executes the changes, the others answer queries
	// for regd to listen and for the next reply that it owes, after which the replica ends or the query is refused;
	// 0 for 10 seconds
	Hang time.Duration
	// the most bytes of the reply to a query; 0 for any number
	ReplyBytes int
	OnLate     func() // called when a reply to a query is late, and each time Hang later; nil for no call
}

// firstLine makes regd's first reply on a connection, which shows that the connection is alone on its worker.
const firstLine = `{"ops":[{"op":"show","id":"00000000-0000-0000-0000-000000000000"}]}`

// Start starts a regd with an empty book. It calls onEntry after each entry, in their order; onEntry must not wait.
//
// regd accepts as many connections as it has workers, and the replica opens all of them. So connection 0 is the only
// writer, each connection has a worker of its own, no other process can connect, and regd ends when this gateway ends.
func Start(ctx context.Context, options Options, onEntry func(State)) (*Replica, error) {
	if options.Hang == 0 {
		options.Hang = 10 * time.Second
	}
	workers := strconv.Itoa(options.Workers)
	// the seed stays the default: ids are drawn before a change is appended to the log
	ctx, cancel := context.WithCancel(ctx)
	command := exec.CommandContext(ctx, options.Program, "serve", "--domain", options.Domain,
		"--listen", "127.0.0.1:0", "--workers", workers, "--connections", workers)
	command.Args[0] = "regd" // for ps: Program may be the path of an open file
	command.Stderr = os.Stderr
	out, err := command.StdoutPipe()
	if err == nil {
		err = command.Start()
	}
	if err != nil {
		cancel()
		return nil, err
	}
	defer time.AfterFunc(options.Hang, cancel).Stop()
	r := &Replica{
		options: options, command: command, onEntry: onEntry, ctx: ctx, cancel: cancel,
		slots: make(chan struct{}, mostOpen), tokens: map[string]*Kept{},
	}
	if err := r.connect(out); err != nil {
		r.Close()
		return nil, err
	}
	return r, nil
}

// connect opens all connections to the address that regd prints.
func (r *Replica) connect(out io.Reader) error {
	var first struct{ Listening string }
	if err := json.NewDecoder(out).Decode(&first); err != nil {
		return fmt.Errorf("regd didn't listen: %w", err)
	}
	for i := 0; i < r.options.Workers; i++ {
		conn, err := net.Dial("tcp", first.Listening)
		if err != nil {
			return err
		}
		l := &link{conn: conn, hang: r.options.Hang, most: 1 << 62}
		if i > 0 { // what a change has brought about can't be refused
			l.onLate = r.probe
			if r.options.ReplyBytes > 0 {
				l.most = r.options.ReplyBytes
			}
		}
		r.links = append(r.links, l)
	}
	r.reading.Add(len(r.links))
	for i, l := range r.links {
		go func(i int, l *link) {
			err := l.read()
			r.reading.Done()
			if r.ctx.Err() == nil {
				logline.Error("connection to regd ended", "number", i, "error", err)
			}
			r.Close()
		}(i, l)
	}
	for i, l := range r.links {
		if reply := l.call([]byte(firstLine)); !bytes.HasPrefix(reply, []byte(`{"call":1,`)) {
			return fmt.Errorf("connection %d to regd isn't alone on its worker: %s", i, reply)
		}
	}
	return nil
}

// Close ends regd, and returns when the last reply is passed on. So what comes after an ended replica, such as the next
// one, is not mixed with late replies of it. It may be called again, but not by a function that takes a reply.
func (r *Replica) Close() {
	r.end.Do(func() {
		r.cancel() // which also kills regd
		for _, l := range r.links {
			l.close()
		}
		r.command.Wait()
		r.reading.Wait()
	})
}
