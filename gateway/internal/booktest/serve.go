package booktest

import (
	"bufio"
	"fmt"
	"net"
	"sync"
	"testing"
)

// Server answers lines by a model, one at a time.
type Server struct {
	Address string
	mu      sync.Mutex
	model   *Model
	hook    func(number int, line string) (isCut bool)
	lines   []string
}

// Serve starts a server, which ends with the test.
func Serve(t *testing.T, m *Model) *Server {
	t.Helper()
	on, err := net.Listen("tcp", "127.0.0.1:0")
	if err != nil {
		t.Fatal(err)
	}
	t.Cleanup(func() { on.Close() })
	s := &Server{Address: on.Addr().String(), model: m}
	go func() {
		for {
			stream, err := on.Accept()
			if err != nil {
				return
			}
			go s.converse(stream)
		}
	}()
	return s
}

func (s *Server) converse(stream net.Conn) {
	defer stream.Close()
	lines := bufio.NewScanner(stream)
	lines.Buffer(nil, 1<<21)
	for lines.Scan() {
		answer, isCut := s.answer(lines.Text())
		if isCut {
			return
		}
		if _, err := fmt.Fprintln(stream, answer); err != nil {
			return
		}
	}
}

func (s *Server) answer(line string) (answer string, isCut bool) {
	s.mu.Lock()
	hook, number := s.hook, len(s.lines)
	s.mu.Unlock()
	if hook != nil {
		isCut = hook(number, line)
	}
	s.mu.Lock()
	defer s.mu.Unlock()
	s.lines = append(s.lines, line)
	return s.model.Answer(line), isCut
}

// Before sets what is called before each line with its number. If it returns true, the line is made and its answer is
// lost.
func (s *Server) Before(hook func(number int, line string) (isCut bool)) {
	s.mu.Lock()
	defer s.mu.Unlock()
	s.hook = hook
}

// Do changes the model between two lines.
func (s *Server) Do(change func(*Model)) {
	s.mu.Lock()
	defer s.mu.Unlock()
	change(s.model)
}

// Lines returns the lines so far.
func (s *Server) Lines() []string {
	s.mu.Lock()
	defer s.mu.Unlock()
	return append([]string{}, s.lines...)
}
