package main

import (
	"bufio"
	"bytes"
	"context"
	"encoding/json"
	"fmt"
	"net"
	"regexp"
	"strings"
	"syscall"
	"testing"

	"regd/gateway/internal/server"
	"regd/gateway/internal/server/chaintest"
)

// TestStrangersAtTheProgram runs the program with certificates, and lets strangers send it chains that no honest caller
// has and parts of handshakes. It refuses each, serves a caller that it knows, and logs the first failures with address
// and reason.
func TestStrangersAtTheProgram(t *testing.T) {
	s, folder, m := newSite(t), t.TempDir(), chaintest.New(6)
	if err := m.Write(folder); err != nil {
		t.Fatal(err)
	}
	known, err := server.FilesIn(folder).Load()
	if err != nil {
		t.Fatal(err)
	}
	var logged bytes.Buffer
	state := s.freeAddress()
	gateway := s.command("-status", state, "-operators", "spiffe://ex.org/operator", "-limit-handshake", "1s",
		"-certificate", folder+"/cert.pem", "-key", folder+"/key.pem", "-authorities", folder+"/ca.pem")
	gateway.Stderr = &logged
	out, err := gateway.StdoutPipe()
	if err == nil {
		err = gateway.Start()
	}
	if err != nil {
		t.Fatal(err)
	}
	t.Cleanup(func() { gateway.Process.Kill() })
	var first struct{ Listening string }
	if err := json.NewDecoder(bufio.NewReader(out)).Decode(&first); err != nil {
		t.Fatal(err)
	}
	const count = 100
	for number := 0; number < count; number++ {
		kind, chain := m.Chain(number)
		if err := m.Shake(first.Listening, chain); err == nil {
			t.Errorf("%s was accepted", kind)
		}
		conn, err := net.Dial("tcp", first.Listening)
		if err != nil {
			t.Fatalf("after %s: %v", kind, err)
		}
		defer conn.Close()
		conn.Write(m.Hello(number)) // some are refused before their end
		if number%2 == 0 {
			conn.Close()
		}
	}
	conn, err := known.Dial(context.Background(), "tcp", first.Listening)
	if err != nil {
		t.Fatal(err)
	}
	defer conn.Close()
	s.expect("a caller", s.ask(conn, show), `{"call":1,"place":0,"replies":[],"result":"answered"}`+"\n")
	want := fmt.Sprintf("\nregd_gateway_connections_ended_total{reason=\"handshake\"} %d\n", 2*count)
	page := "http://" + state + "/metrics"
	s.waits("not all handshakes have failed", func() bool { return strings.Contains(s.get(page), want) })
	if text := s.get(page); !strings.Contains(text, "{reason=\"panic\"} 0\n") {
		t.Errorf("got %s", text)
	}
	gateway.Process.Signal(syscall.SIGTERM)
	s.expect("the status after a signal", fmt.Sprint(s.status(gateway)), "0")
	reason := regexp.MustCompile(
		`event="handshake failed" address="127[.0-9]+:\d+" error="certificate 2 of the chain: `)
	text := logged.String()
	lines := strings.Count(text, `event="handshake failed"`)
	if !reason.MatchString(text) || lines < 10 || lines > 20 {
		t.Errorf("%d lines, logged %s", lines, text)
	}
}
