package main

import (
	"bufio"
	"context"
	"errors"
	"flag"
	"fmt"
	"net"
	"net/http"
	"strings"
	"sync"
	"time"

	"regd/gateway/client"
)

// mostBody is the most that a caller of the proxy may send, in bytes.
const mostBody = 16 << 20

// browse serves the page of graph from live data.
func browse(flags *flag.FlagSet) runner {
	read := defineGraph(flags)
	address := flags.String("listen", "127.0.0.1:0", "the loopback `address` to serve")
	return func(s *session) error {
		if err := s.noArguments(); err != nil {
			return err
		}
		var mu sync.Mutex // a session is used by one request at a time
		path := "/" + client.NewID() + "/"
		handle := func(w http.ResponseWriter, r *http.Request) {
			if r.Method != http.MethodGet && r.Method != http.MethodHead {
				http.Error(w, "only GET", http.StatusMethodNotAllowed)
				return
			}
			mu.Lock()
			defer mu.Unlock()
			defer s.limit()()
			g, err := read(s)
			s.client.Close() // the connection would hold a worker
			var page string
			if err == nil {
				page, err = g.page()
			}
			if err != nil {
				http.Error(w, err.Error(), http.StatusBadGateway)
				return
			}
			w.Header().Set("Content-Type", "text/html; charset=utf-8")
			w.Header().Set("Cache-Control", "no-store")
			s.answer(w, page)
		}
		return s.serve(*address, path, handle, "browse")
	}
}

// proxy serves POST of request lines, which it sends as they are.
func proxy(flags *flag.FlagSet) runner {
	address := flags.String("listen", "127.0.0.1:8480", "the loopback `address` to serve")
	return func(s *session) error {
		if err := s.noArguments(); err != nil {
			return err
		}
		var mu sync.Mutex
		handle := func(w http.ResponseWriter, r *http.Request) {
			if r.Method != http.MethodPost {
				http.Error(w, "only POST", http.StatusMethodNotAllowed)
				return
			}
			mu.Lock()
			defer mu.Unlock()
			answers, err := s.forward(http.MaxBytesReader(w, r.Body, mostBody))
			s.client.Close()
			if err != nil {
				w.Header().Set("Content-Type", "text/plain; charset=utf-8")
				w.WriteHeader(http.StatusBadGateway)
				answers += "regdctl: " + err.Error() + "\n"
			} else {
				w.Header().Set("Content-Type", "application/x-ndjson")
			}
			s.answer(w, answers)
		}
		return s.serve(*address, "/lines", handle, "proxy")
	}
}

// forward sends the lines of a body, and returns their answers.
func (s *session) forward(body interface{ Read([]byte) (int, error) }) (string, error) {
	var answers strings.Builder
	lines := bufio.NewScanner(body)
	lines.Buffer(nil, 1<<20+1)
	for lines.Scan() {
		end := s.limit()
		answer, err := s.client.Call(s.ctx, []byte(lines.Text()))
		end()
		var refused *client.Refused
		if err != nil && !errors.As(err, &refused) {
			return answers.String(), err
		}
		answers.Write(append(answer.Line, '\n'))
	}
	return answers.String(), lines.Err()
}

// answer writes an answer to a caller, who may have left.
func (s *session) answer(w http.ResponseWriter, text string) {
	if _, err := w.Write([]byte(text)); err != nil {
		s.warn("regdctl: an answer could not be sent: %v", err)
	}
}

// isLoopback returns true for a host that is this machine's loopback, with or without a port.
func isLoopback(host string) bool {
	if name, _, err := net.SplitHostPort(host); err == nil {
		host = name
	}
	ip := net.ParseIP(strings.Trim(host, "[]"))
	return host == "localhost" || ip != nil && ip.IsLoopback()
}

// guarded refuses what a page of another site could make a browser send: another name for this machine, and requests
// of pages, which browsers mark.
func guarded(handle http.HandlerFunc) http.HandlerFunc {
	return func(w http.ResponseWriter, r *http.Request) {
		site := r.Header.Get("Sec-Fetch-Site")
		if !isLoopback(r.Host) || r.Header.Get("Origin") != "" || site != "" && site != "none" {
			http.Error(w, "only for programs of this machine", http.StatusForbidden)
			return
		}
		handle(w, r)
	}
}

// serve answers requests to a path on a loopback address, until the program is ended.
func (s *session) serve(address, path string, handle http.HandlerFunc, name string) error {
	if !isLoopback(address) {
		return invalidf("regdctl %s listens on a loopback address alone, since whoever can connect has your "+
			"rights: %s", name,
			address)
	}
	on, err := net.Listen("tcp", address)
	if err != nil {
		return err
	}
	mux := http.NewServeMux()
	mux.HandleFunc(path, guarded(handle))
	server := &http.Server{Handler: mux, ReadHeaderTimeout: 10 * time.Second}
	if err := s.print(fmt.Sprintf("http://%s%s\n", on.Addr(), path)); err != nil {
		return err
	}
	ended := make(chan error, 1)
	go func() { ended <- server.Serve(on) }()
	select {
	case err := <-ended:
		return err
	case <-s.base.Done():
		limited, cancel := context.WithTimeout(context.Background(), time.Second)
		defer cancel()
		return server.Shutdown(limited)
	}
}
