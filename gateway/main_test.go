package main

import (
	"bufio"
	"bytes"
	"context"
	"crypto/ecdsa"
	"crypto/elliptic"
	"crypto/rand"
	"crypto/sha256"
	"crypto/tls"
	"crypto/x509"
	"encoding/json"
	"encoding/pem"
	"errors"
	"fmt"
	"io"
	"math/big"
	"net"
	"net/http"
	"net/http/httptest"
	"net/url"
	"os"
	"os/exec"
	"path/filepath"
	"regexp"
	"strings"
	"syscall"
	"testing"
	"time"

	"regd/gateway/internal/etcd"
	"regd/gateway/internal/etcd/etcdtest"
	"regd/gateway/internal/replica/regdtest"
	"regd/gateway/internal/server"
)

// TestMain makes this program a regd in miniature, or the gateway, if the arguments say so.
func TestMain(m *testing.M) {
	regdtest.Main()
	if len(os.Args) > 1 && os.Args[1] == "gateway" {
		os.Args = append(os.Args[:1], os.Args[2:]...)
		main()
		os.Exit(0)
	}
	os.Exit(m.Run())
}

// TestVersion checks that the gateway prints the version of the file VERSION, and ends without a domain.
func TestVersion(t *testing.T) {
	want, err := os.ReadFile("../VERSION")
	if err != nil {
		t.Fatal(err)
	}
	got, err := exec.Command(os.Args[0], "gateway", "-version").Output()
	if err != nil || string(got) != "regd-gateway "+string(want) {
		t.Errorf("%q, %v; want the version %q", got, err, want)
	}
}

func TestParse(t *testing.T) {
	const tls = " -certificate c -key k -authorities a"
	for _, c := range []struct {
		words string
		want  string // a part of the error, or ""
	}{
		{"-domain ex.org", ""},
		{"-domain ex.org -listen localhost:1 -fresh 127.0.0.9:2 -workers 32", ""},
		{"-domain ex.org -listen [::1]:1", ""},
		{"-domain ex.org -listen 0.0.0.0:1 -operators spiffe://ex.org/o" + tls, ""},
		{"-version", ""},
		{"-version x", "unknown"},
		{"", "-domain"},
		{"-domain ex.org x", "unknown"},
		{"-domain ex.org -workers 1", "-workers"},
		{"-domain ex.org -workers 33", "-workers"},
		{"-domain ex.org -keep -1", "-keep"},
		{"-domain ex.org -nothing", "-nothing"},
		{"-domain ex.org -listen 0.0.0.0:1", "loopback"},
		{"-domain ex.org -listen :1", "loopback"},
		{"-domain ex.org -listen=", "loopback"},
		{"-domain ex.org -fresh 10.0.0.1:1", "loopback"},
		{"-domain ex.org -operators spiffe://ex.org/o", "need TLS"},
		{"-domain ex.org -roles f", "need TLS"},
		{"-domain ex.org -roles f" + tls, ""},
		{"-domain ex.org -roles f -operators spiffe://ex.org/o" + tls, "-roles"},
		{"-domain ex.org -certificate c -key k", "-authorities"},
		{"-domain ex.org -operators spiffe://ex.org/o,spiffe://ex.org/p" + tls, ""},
		{"-domain ex.org -operators spiffe://ex.org/o," + tls, "-operators"},
		{"-domain ex.org -operators spiffe://other.org/o" + tls, "-operators"},
		{"-domain ex.org -operators operator" + tls, "-operators"},
		{"-domain ex.org -etcd http://127.0.0.1:1,http://[::1]:2,http://localhost:3", ""},
		{"-domain ex.org -etcd https://10.0.0.1:2379,https://a.example:2379 -etcd-files f", ""},
		{"-domain ex.org -etcd https://10.0.0.1:2379", ""},
		{"-domain ex.org -etcd http://10.0.0.1:2379", "loopback"},
		{"-domain ex.org -etcd http://127.0.0.1:2379 -etcd-files f", "-etcd-files"},
		{"-domain ex.org -etcd https://10.0.0.1:2379,http://127.0.0.1:2379 -etcd-files f", "-etcd-files"},
		{"-domain ex.org -etcd https://10.0.0.1:2379/", "-etcd"},
		{"-domain ex.org -etcd https://10.0.0.1", "-etcd"},
		{"-domain ex.org -etcd 10.0.0.1:2379", "-etcd"},
		{"-domain ex.org -etcd ftp://10.0.0.1:2379", "-etcd"},
		{"-domain ex.org -etcd http://127.0.0.1:1,", "-etcd"},
		{"-domain ex.org -etcd=", "-etcd"},
		{"-domain ex.org -prefix regd", "-prefix"},
		{"-domain ex.org -prefix=", "-prefix"},
		{"-domain ex.org -skip 17.1", ""},
		{"-domain ex.org -snapshot -keep 1 -listen 0.0.0.0:1 -status 0.0.0.0:2 " +
			"-operators spiffe://ex.org/o -limit-lines 9" + tls, ""},
		{"-domain ex.org -skip 17", "-skip"},
		{"-domain ex.org -audit a -audit-bytes 1 -audit-files 0", ""},
		{"-domain ex.org -token-time 20s -token-bytes 1", ""},
		{"-domain ex.org -token-time 19s", "-token-time"},
		{"-domain ex.org -limit-answer 2s -token-time 2s", ""},
		{"-domain ex.org -token-bytes 0", "-token-bytes"},
		{"-domain ex.org -audit a -audit-bytes 0", "-audit-bytes"},
		{"-domain ex.org -audit a -audit-files -1", "-audit-files"},
		{"-domain ex.org -limit-silent 0 -limit-lag 0", ""},
		{"-domain ex.org -limit-silent -1s", "limit"},
		{"-domain ex.org -limit-lag -1", "limit"},
		{"-domain ex.org -limit-lines 0", "limit"},
		{"-domain ex.org -limit-reply-bytes -1", "limit"},
		{"-domain ex.org -limit-idle 0s", "limit"},
		{"-domain ex.org -limit-line-bytes 1048577", "limit"},
	} {
		_, err := parse(strings.Fields(c.words))
		if (err == nil) != (c.want == "") || err != nil && !strings.Contains(err.Error(), c.want) {
			t.Errorf("%s: got %v", c.words, err)
		}
	}
	blank := append(strings.Fields("-domain ex.org"+tls), "-operators", "spiffe://ex.org/o, spiffe://ex.org/p")
	if _, err := parse(blank); err == nil || !strings.Contains(err.Error(), "-operators") {
		t.Errorf("a blank after a comma: got %v", err)
	}
	s, _ := parse([]string{"-domain", "ex.org", "-listen", "127.0.0.1:7"})
	if !strings.HasSuffix(s.Name, "/127.0.0.1:7") || len(s.Name) < 14 {
		t.Errorf("the name is %s", s.Name)
	}
}

// TestTokenTime checks for how long tokens are retained: for several answers, or as the option says.
func TestTokenTime(t *testing.T) {
	for words, want := range map[string]time.Duration{"": 5 * time.Minute, " -limit-answer 2s": 30 * time.Second,
		" -token-time 1m": time.Minute} {
		s, err := parse(strings.Fields("-domain ex.org" + words))
		if err != nil || s.TokenTime != want {
			t.Errorf("%s: tokens are retained for %v, %v", words, s.TokenTime, err)
		}
	}
}

// TestLimits checks that each option for a limit sets that limit and no other.
func TestLimits(t *testing.T) {
	for option, set := range map[string]func(*server.Limits){
		"-limit-answer=3s":            func(l *server.Limits) { l.Answer = 3 * time.Second },
		"-limit-after=3s":             func(l *server.Limits) { l.After = 3 * time.Second },
		"-limit-handshake=3s":         func(l *server.Limits) { l.Handshake = 3 * time.Second },
		"-limit-idle=3s":              func(l *server.Limits) { l.Idle = 3 * time.Second },
		"-limit-line=3s":              func(l *server.Limits) { l.Line = 3 * time.Second },
		"-limit-write=3s":             func(l *server.Limits) { l.Write = 3 * time.Second },
		"-limit-silent=3s":            func(l *server.Limits) { l.Silent = 3 * time.Second },
		"-limit-lag=7":                func(l *server.Limits) { l.Lag = 7 },
		"-limit-stop=3s":              func(l *server.Limits) { l.Stop = 3 * time.Second },
		"-limit-line-bytes=7":         func(l *server.Limits) { l.LineBytes = 7 },
		"-limit-lines=7":              func(l *server.Limits) { l.Lines = 7 },
		"-limit-listings=7":           func(l *server.Limits) { l.Listings = 7 },
		"-limit-long-lines=7":         func(l *server.Limits) { l.LongLines = 7 },
		"-limit-changes=7":            func(l *server.Limits) { l.Changes = 7 },
		"-limit-reply-bytes=7":        func(l *server.Limits) { l.ReplyBytes = 7 },
		"-limit-connections=7":        func(l *server.Limits) { l.Connections = 7 },
		"-limit-handshakes=7":         func(l *server.Limits) { l.Handshakes = 7 },
		"-limit-address-handshakes=7": func(l *server.Limits) { l.AddressHandshakes = 7 },
		"-limit-caller-connections=7": func(l *server.Limits) { l.CallerConnections = 7 },
	} {
		want := server.UsualLimits
		set(&want)
		if s, err := parse([]string{"-domain", "ex.org", option}); err != nil || s.Limits != want {
			t.Errorf("%s: got %v, %v", option, s.Limits, err)
		}
	}
}

const (
	prune = `{"ops":[{"op":"prune","before":0}]}`
	show  = `{"ops":[{"op":"show"}]}`
)

// a site is an etcd in memory, and programs that use it.
type site struct {
	t     *testing.T
	store *etcdtest.Server
	log   *etcd.Log
}

func newSite(t *testing.T) site {
	store := etcdtest.New()
	t.Cleanup(store.CloseClientConnections)
	return site{t, store, etcd.New([]string{store.URL}, "p/", nil)}
}

// command returns the gateway, over a regd in miniature.
func (s site) command(words ...string) *exec.Cmd {
	words = append([]string{"gateway", "-domain", "ex.org", "-regd", os.Args[0], "-etcd",
		"http://127.0.0.1:1," + s.store.URL, "-prefix", "p/"}, words...)
	command := exec.Command(os.Args[0], words...)
	command.Stderr = os.Stderr
	return command
}

// start starts a gateway, and returns it with the address that it prints.
func (s site) start(words ...string) (*exec.Cmd, string) {
	command := s.command(words...)
	out, err := command.StdoutPipe()
	if err == nil {
		err = command.Start()
	}
	var first struct{ Listening string }
	late := time.AfterFunc(30*time.Second, func() { command.Process.Kill() })
	defer late.Stop()
	if err == nil {
		err = json.NewDecoder(out).Decode(&first)
	}
	if err != nil {
		s.t.Fatal(err)
	}
	s.t.Cleanup(func() { command.Process.Kill() })
	return command, first.Listening
}

// status waits for the end of a program, and returns its exit status. It starts a program that is not yet started.
func (s site) status(command *exec.Cmd) int {
	if command.Process == nil {
		if err := command.Start(); err != nil {
			s.t.Fatal(err)
		}
	}
	late := time.AfterFunc(30*time.Second, func() { command.Process.Kill() })
	defer late.Stop()
	command.Wait()
	return command.ProcessState.ExitCode()
}

// call sends a line, and returns the answer.
func (s site) call(address, line string) string {
	conn, err := net.Dial("tcp", address)
	if err != nil {
		s.t.Fatal(err)
	}
	defer conn.Close()
	return s.ask(conn, line)
}

// ask sends a line on a connection, and returns the answer, or "" if there is none within three seconds.
func (s site) ask(conn net.Conn, line string) string {
	conn.SetDeadline(time.Now().Add(3 * time.Second))
	fmt.Fprintln(conn, line)
	answer, err := bufio.NewReader(conn).ReadString('\n')
	if err != nil {
		return ""
	}
	return answer
}

func (s site) expect(what, got, want string) {
	s.t.Helper()
	if got != want {
		s.t.Errorf("%s: got %s, want %s", what, got, want)
	}
}

// get returns what an address answers over HTTP.
func (s site) get(url string) string {
	answer, err := http.Get(url)
	if err != nil {
		s.t.Fatal(err)
	}
	defer answer.Body.Close()
	text, _ := io.ReadAll(answer.Body)
	return string(text)
}

// freeAddress returns an address at which nothing listens.
func (s site) freeAddress() string {
	on, err := net.Listen("tcp", "127.0.0.1:0")
	if err != nil {
		s.t.Fatal(err)
	}
	defer on.Close()
	return on.Addr().String()
}

// TestProgram runs the program: its ports, its status, a signal, a snapshot, and the checksum of regd in the names of
// votes.
func TestProgram(t *testing.T) {
	s := newSite(t)
	fresh, state := s.freeAddress(), s.freeAddress()
	gateway, address := s.start("-fresh", fresh, "-status", state, "-name", "g", "-workers", "3")
	for place := 1; place <= 3; place++ {
		s.expect("a change", s.call(address, prune), fmt.Sprintf(
			`{"call":1,"place":%d,"replies":[{"pruned":["%d"]}],"result":"committed"}`+"\n", place, place))
	}
	s.expect("a fresh query", s.call(fresh, show), `{"call":1,"place":3,"replies":[],"result":"answered"}`+"\n")
	text := s.get("http://" + state + "/status")
	var values struct{ Name, Program string }
	if json.Unmarshal([]byte(text), &values); values.Name != "g" || values.Program != checksum(t) {
		t.Errorf("status: got %s", text)
	}
	if text := s.get("http://" + state + "/metrics"); !strings.Contains(text, "\nregd_gateway_ready 1\n") {
		t.Errorf("metrics: got %s", text)
	}
	s.store.Refuse(1 << 30)
	s.expect("a query while etcd refuses", s.call(address, show),
		`{"call":1,"place":3,"replies":[],"result":"answered"}`+"\n")
	s.expect("a fresh query while etcd refuses", s.call(fresh, show), "")
	s.store.Refuse(0)
	gateway.Process.Signal(syscall.SIGTERM)
	s.expect("the status after a signal", fmt.Sprint(s.status(gateway)), "0")
	s.expect("the status after a snapshot", fmt.Sprint(s.status(s.command("-snapshot", "-keep", "1"))), "0")
	keys, chunk := s.keysButNames(), regexp.MustCompile(`^p/2/snapshot/0000000000000002/[-0-9a-f]{36}00000000$`)
	s.expect("the keys after a snapshot", strings.Join(append(keys[:5:5], keys[6:]...), " "),
		"p/2/domain p/2/format p/2/head p/2/log/0000000000000003 p/2/snapshot p/domain")
	if !chunk.MatchString(keys[5]) {
		t.Errorf("the key of a piece is %s", keys[5])
	}
	_, address = s.start()
	s.expect("a query after a snapshot", s.call(address, show),
		`{"call":1,"place":3,"replies":[],"result":"answered"}`+"\n")
}

// keysButNames returns all keys but for the names of gateways, which stay for a time if etcd is slow when they end.
func (s site) keysButNames() (keys []string) {
	for _, key := range s.store.Keys() {
		if !strings.HasPrefix(key, "p/2/gateway/") {
			keys = append(keys, key)
		}
	}
	return keys
}

// TestReplacedProgram replaces the program regd by another file while a gateway runs, and ends the regd of its replica.
// The next one is the same program again, which the status names.
func TestReplacedProgram(t *testing.T) {
	s := newSite(t)
	t.Setenv("GOGC", "1") // a file that the gateway has forgotten is closed
	program, state := filepath.Join(t.TempDir(), "regd"), s.freeAddress()
	text, err := os.ReadFile(os.Args[0])
	if err == nil {
		err = os.WriteFile(program, text, 0o700)
	}
	if err == nil {
		err = os.WriteFile(program+".new", []byte("#!/bin/sh\nexit 1\n"), 0o700)
	}
	if err != nil {
		t.Fatal(err)
	}
	_, address := s.start("-regd", program, "-status", state)
	s.call(address, prune)
	var before, after struct {
		Program string
		Regd    int
	}
	json.Unmarshal([]byte(s.get("http://"+state+"/status")), &before)
	line, err := os.ReadFile(fmt.Sprintf("/proc/%d/cmdline", before.Regd))
	if err != nil || !strings.HasPrefix(string(line), "regd\x00serve\x00") {
		t.Errorf("the command is %q", line)
	}
	if err := os.Rename(program+".new", program); err != nil {
		t.Fatal(err)
	}
	syscall.Kill(before.Regd, syscall.SIGKILL)
	for begin := time.Now(); after.Regd == 0 || after.Regd == before.Regd; time.Sleep(10 * time.Millisecond) {
		after.Regd = 0
		json.Unmarshal([]byte(s.get("http://"+state+"/status")), &after)
		if time.Since(begin) > 5*time.Second {
			t.Fatal("there is no other replica")
		}
	}
	s.expect("a query", s.call(address, show), `{"call":1,"place":1,"replies":[],"result":"answered"}`+"\n")
	s.expect("the program", before.Program+" "+after.Program, checksum(t)+" "+checksum(t))
}

// checksum returns what the status says of this program as a regd.
func checksum(t *testing.T) string {
	text, err := os.ReadFile(os.Args[0])
	if err != nil {
		t.Fatal(err)
	}
	return fmt.Sprintf("%.8x", sha256.Sum256(text))
}

// TestOutvoted checks the exit status of a gateway whose checksum is wrong.
func TestOutvoted(t *testing.T) {
	s := newSite(t)
	ctx := context.Background()
	s.log.Open(ctx, "ex.org")
	end := etcd.Start
	for end.Entry < 1000 {
		d := etcd.Draft{ID: fmt.Sprint(end.Entry), Lines: [][]byte{[]byte(prune)}}
		var err error
		end, err = s.log.Append(ctx, end, d)
		if err != nil {
			t.Fatal(err)
		}
	}
	for _, name := range []string{"a", "b"} {
		s.log.Put(ctx, "gateway/"+name, []byte("run 2-1"))
		s.log.Put(ctx, "sum/2-1/00000000000003e8/"+end.Name+"/"+name, []byte("00"))
	}
	s.expect("the exit status", fmt.Sprint(s.status(s.command())), "4")
	gateway, _ := s.start("-replies", "2")
	for begin := time.Now(); ; time.Sleep(10 * time.Millisecond) {
		if votes, err := s.log.List(ctx, "sum/2-2/00000000000003e8/"+end.Name+"/"); len(votes) == 1 {
			break
		} else if err != nil || time.Since(begin) > 10*time.Second {
			t.Fatalf("the votes are %v, %v", votes, err)
		}
	}
	gateway.Process.Signal(syscall.SIGTERM)
	s.expect("the exit status with other replies", fmt.Sprint(s.status(gateway)), "0")
}

// TestSkipOption runs the program to skip a line.
func TestSkipOption(t *testing.T) {
	s := newSite(t)
	state := s.freeAddress()
	_, address := s.start("-status", state)
	for place := 1; place <= 3; place++ {
		s.call(address, prune)
	}
	if status := s.status(s.command("-skip", "2.1", "-status", state)); status != 0 {
		t.Fatalf("the status of a skip is %d", status)
	}
	s.expect("the status of a skip of nothing", fmt.Sprint(s.status(s.command("-skip", "99.1"))), "1")
	for begin := time.Now(); ; time.Sleep(10 * time.Millisecond) {
		if strings.Contains(s.call(address, show), `"place":2,`) {
			break
		}
		if time.Since(begin) > 10*time.Second {
			t.Fatal("the line is not skipped")
		}
	}
}

// TestSignal sends the program a signal while etcd refuses a change. The change is answered when etcd accepts it, and
// the program ends. A second signal ends the program immediately, and without one it ends when the time is over.
func TestSignal(t *testing.T) {
	for _, c := range []struct{ name, status string }{{"a change that is accepted", "0"}, {"two signals", "-1"},
		{"a change that isn't", "0"}} {
		s := newSite(t)
		state := s.freeAddress()
		gateway, address := s.start("-limit-stop", "3s", "-status", state)
		conn, err := net.Dial("tcp", address)
		if err != nil {
			t.Fatal(err)
		}
		defer conn.Close()
		s.store.Refuse(1 << 30)
		fmt.Fprintln(conn, prune)
		s.waits("it isn't appended", func() bool { return s.store.Counts().Refused > 0 })
		begin := time.Now()
		gateway.Process.Signal(syscall.SIGTERM)
		s.waits("it goes on", func() bool {
			return strings.Contains(s.get("http://"+state+"/status"), `"stopping":true`)
		})
		want := ""
		switch c.status {
		case "-1":
			gateway.Process.Signal(syscall.SIGTERM)
		default:
			if c.name == "a change that is accepted" {
				s.store.Refuse(0)
				want = `{"call":1,"place":1,"replies":[{"pruned":["1"]}],"result":"committed"}` + "\n"
			}
		}
		conn.SetDeadline(time.Now().Add(20 * time.Second))
		answer, _ := io.ReadAll(conn)
		s.expect(c.name, string(answer), want)
		s.expect("the exit status after "+c.name, fmt.Sprint(s.status(gateway)), c.status)
		if took := time.Since(begin); took > 12*time.Second {
			t.Errorf("%s: it took %v", c.name, took)
		}
		s.store.Refuse(0)
	}
}

// newCertificates writes a certificate, which is its own authority, into a folder.
func newCertificates(t *testing.T) (folder string, pair tls.Certificate) {
	folder = t.TempDir()
	key, err := ecdsa.GenerateKey(elliptic.P256(), rand.Reader)
	if err != nil {
		t.Fatal(err)
	}
	template := &x509.Certificate{SerialNumber: big.NewInt(1),
		URIs:        []*url.URL{{Scheme: "spiffe", Host: "ex.org", Path: "/o"}},
		IPAddresses: []net.IP{net.IPv4(127, 0, 0, 1)}, NotBefore: time.Now().Add(-time.Hour),
		NotAfter: time.Now().Add(time.Hour)}
	der, err := x509.CreateCertificate(rand.Reader, template, template, &key.PublicKey, key)
	if err != nil {
		t.Fatal(err)
	}
	keyDER, _ := x509.MarshalECPrivateKey(key)
	certificate, keyPEM := pem.EncodeToMemory(&pem.Block{Type: "CERTIFICATE", Bytes: der}),
		pem.EncodeToMemory(&pem.Block{Type: "EC PRIVATE KEY", Bytes: keyDER})
	for name, text := range map[string][]byte{"cert.pem": certificate, "ca.pem": certificate, "key.pem": keyPEM} {
		if err := os.WriteFile(filepath.Join(folder, name), text, 0o600); err != nil {
			t.Fatal(err)
		}
	}
	pair, err = tls.X509KeyPair(certificate, keyPEM)
	if err != nil {
		t.Fatal(err)
	}
	return folder, pair
}

// TestCertificates runs the program with certificates, over an etcd with certificates that doesn't speak TLS 1.3.
func TestCertificates(t *testing.T) {
	s := newSite(t)
	folder, pair := newCertificates(t)
	certificates, err := server.FilesIn(folder).Load()
	if err != nil {
		t.Fatal(err)
	}
	secure := httptest.NewUnstartedServer(s.store.Config.Handler)
	secure.TLS = &tls.Config{Certificates: []tls.Certificate{pair}, ClientAuth: tls.RequireAnyClientCert,
		MaxVersion: tls.VersionTLS12}
	secure.StartTLS()
	t.Cleanup(secure.CloseClientConnections)
	_, address := s.start("-etcd", secure.URL, "-etcd-files", folder,
		"-operators", "spiffe://ex.org/ci,spiffe://ex.org/o",
		"-certificate", filepath.Join(folder, "cert.pem"), "-key", filepath.Join(folder, "key.pem"),
		"-authorities", filepath.Join(folder, "ca.pem"))
	conn, err := certificates.Dial(context.Background(), "tcp", address)
	if err != nil {
		t.Fatal(err)
	}
	defer conn.Close()
	s.expect("an operator", s.ask(conn, prune),
		`{"call":1,"place":1,"replies":[{"pruned":["1"]}],"result":"committed"}`+"\n")
	if answer := s.call(address, show); strings.Contains(answer, "answered") {
		t.Errorf("a caller in plain text got %s", answer)
	}
}

// TestStatusOf checks the exit statuses for errors: 2 and 4 for those that another start doesn't cure.
func TestStatusOf(t *testing.T) {
	for err, want := range map[error]int{
		server.ErrNameTaken: 2, etcd.ErrDomain: 2, etcd.ErrFormat: 2, etcd.ErrOldFormat: 2,
		etcd.ErrUnfinished: 2, server.ErrOutvoted: 4, errors.New("x"): 1,
	} {
		if got := statusOf(fmt.Errorf("%w: more", err)); got != want {
			t.Errorf("%v: got %d", err, got)
		}
	}
}

// TestRolesOption runs the program with a file of roles, in which the caller is a reader.
func TestRolesOption(t *testing.T) {
	s := newSite(t)
	folder, _ := newCertificates(t)
	roles := filepath.Join(folder, "roles")
	if err := os.WriteFile(roles, []byte("reader spiffe://ex.org/o\n"), 0o600); err != nil {
		t.Fatal(err)
	}
	words := []string{"-certificate", filepath.Join(folder, "cert.pem"), "-key", filepath.Join(folder, "key.pem"),
		"-authorities", filepath.Join(folder, "ca.pem"), "-roles"}
	_, address := s.start(append(words, roles)...)
	certificates, err := server.FilesIn(folder).Load()
	if err != nil {
		t.Fatal(err)
	}
	conn, err := certificates.Dial(context.Background(), "tcp", address)
	if err != nil {
		t.Fatal(err)
	}
	defer conn.Close()
	s.expect("a change", s.ask(conn, prune), `{"code":"G1","line":1}`+"\n")
	s.expect("a query", s.ask(conn, show), `{"call":1,"place":0,"replies":[],"result":"answered"}`+"\n")
	s.expect("the exit status without the file", fmt.Sprint(s.status(s.command(append(words, "/none")...))), "1")
}

// TestFailuresAreLoggedOnce lets etcd refuse all requests, and then, for want of space, changes alone. The program logs
// each reason for each kind of request once, and once when such a request is answered again.
func TestFailuresAreLoggedOnce(t *testing.T) {
	s := newSite(t)
	var logged bytes.Buffer
	state := s.freeAddress()
	gateway := s.command("-status", state)
	gateway.Stderr = &logged
	out, err := gateway.StdoutPipe()
	if err == nil {
		err = gateway.Start()
	}
	if err != nil {
		t.Fatal(err)
	}
	t.Cleanup(func() { gateway.Process.Kill() })
	var first struct{ Listening string }
	if err := json.NewDecoder(out).Decode(&first); err != nil {
		t.Fatal(err)
	}
	failures := func() (count float64) {
		for _, line := range strings.Split(s.get("http://"+state+"/metrics"), "\n") {
			if value := strings.TrimPrefix(line, "regd_gateway_etcd_failures_total "); value != line {
				fmt.Sscan(value, &count)
			}
		}
		return count
	}
	s.store.Refuse(1 << 30)
	conn, err := net.Dial("tcp", first.Listening)
	if err != nil {
		t.Fatal(err)
	}
	defer conn.Close()
	fmt.Fprintln(conn, prune)
	s.waits("few requests fail", func() bool { return failures() > 4 })
	s.store.Fill(true)
	s.store.Refuse(0)
	before := failures()
	s.waits("no changes fail", func() bool { return failures() > before+4 })
	s.store.Fill(false)
	s.expect("the change", s.ask(conn, show),
		`{"call":1,"place":1,"replies":[{"pruned":["1"]}],"result":"committed"}`+"\n")
	gateway.Process.Signal(syscall.SIGTERM)
	s.status(gateway)
	for event, least := range map[string]int{
		`doesn't answer" request="append" error="etcd: 503`: 1,
		`doesn't answer" request="append" error="etcd: 429`: 1,
		`answers again" request="append"`:                   1,
		`doesn't answer" request="get" error="etcd: 503`:    0,
		`answers again" request="get"`:                      0,
	} {
		if count := strings.Count(logged.String(), event); count < least || count > 1 {
			t.Errorf("%s: %d times in %s", event, count, logged.String())
		}
	}
}

// TestSlowAppendIsLogged lets etcd accept a change after it had refused it, and not answer: the entry in the log is the
// end of the failure.
func TestSlowAppendIsLogged(t *testing.T) {
	s := newSite(t)
	var logged bytes.Buffer
	state := s.freeAddress()
	gateway := s.command("-status", state)
	gateway.Stderr = &logged
	out, err := gateway.StdoutPipe()
	if err == nil {
		err = gateway.Start()
	}
	if err != nil {
		t.Fatal(err)
	}
	t.Cleanup(func() { gateway.Process.Kill() })
	var first struct{ Listening string }
	if err := json.NewDecoder(out).Decode(&first); err != nil {
		t.Fatal(err)
	}
	s.store.Fill(true)
	conn, err := net.Dial("tcp", first.Listening)
	if err != nil {
		t.Fatal(err)
	}
	defer conn.Close()
	fmt.Fprintln(conn, prune)
	s.waits("no append fails", func() bool {
		return !strings.Contains(s.get("http://"+state+"/metrics"), "\nregd_gateway_etcd_failures_total 0\n")
	})
	defer s.store.HoldAnswers()()
	s.store.Fill(false)
	s.expect("the change", s.ask(conn, show),
		`{"call":1,"place":1,"replies":[{"pruned":["1"]}],"result":"committed"}`+"\n")
	s.waits("the append goes on", func() bool {
		return !strings.Contains(s.get("http://"+state+"/metrics"),
			"\nregd_gateway_append_duration_seconds_count 0\n")
	})
	gateway.Process.Signal(syscall.SIGTERM)
	s.status(gateway)
	if count := strings.Count(logged.String(), `event="etcd answers again" request="append"`); count != 1 {
		t.Errorf("logged %s", logged.String())
	}
}

// TestStartWithoutEtcd starts the program while etcd refuses everything: its status says so, and the log once. Then it
// goes on. A snapshot doesn't open the port of the status.
func TestStartWithoutEtcd(t *testing.T) {
	s := newSite(t)
	s.store.Refuse(1 << 30)
	var logged bytes.Buffer
	state := s.freeAddress()
	gateway := s.command("-status", state, "-name", "g")
	gateway.Stderr = &logged
	out, _ := gateway.StdoutPipe()
	if err := gateway.Start(); err != nil {
		t.Fatal(err)
	}
	t.Cleanup(func() { gateway.Process.Kill() })
	for begin := time.Now(); ; time.Sleep(10 * time.Millisecond) {
		if conn, err := net.Dial("tcp", state); err == nil {
			conn.Close()
			break
		} else if time.Since(begin) > 10*time.Second {
			t.Fatal(err)
		}
	}
	time.Sleep(500 * time.Millisecond) // in which etcd is asked again
	for path, want := range map[string]string{"/ready": "false\n", "/ready/changes": "false\n",
		"/status": `"name":"g"`, "/metrics": "\nregd_gateway_ready 0\n"} {
		answer, err := http.Get("http://" + state + path)
		if err != nil {
			t.Fatal(err)
		}
		text, _ := io.ReadAll(answer.Body)
		answer.Body.Close()
		if answer.StatusCode != map[bool]int{true: 200, false: 503}[path == "/metrics"] ||
			!strings.Contains(string(text), want) {
			t.Errorf("%s: got %d, %s", path, answer.StatusCode, text)
		}
	}
	s.store.Refuse(0)
	s.expect("the status after a snapshot", fmt.Sprint(s.status(s.command("-snapshot", "-status", state))), "0")
	var first struct{ Listening string }
	if err := json.NewDecoder(out).Decode(&first); err != nil {
		t.Fatal(err)
	}
	s.expect("a query", s.call(first.Listening, show), `{"call":1,"place":0,"replies":[],"result":"answered"}`+"\n")
	if text := s.get("http://" + state + "/ready"); text != "true\n" {
		t.Errorf("/ready: got %s", text)
	}
	gateway.Process.Signal(syscall.SIGTERM)
	s.expect("the status after a signal", fmt.Sprint(s.status(gateway)), "0")
	for _, event := range []string{`event="etcd doesn't answer"`, `event="etcd answers again"`} {
		if count := strings.Count(logged.String(), event); count != 1 {
			t.Errorf("%s: %d times in %s", event, count, logged.String())
		}
	}
}

// awayRegd returns a program that is a regd in miniature until the file that is named after it exists, and from then on
// never listens.
func (s site) awayRegd() (program, away string) {
	program = filepath.Join(s.t.TempDir(), "regd")
	away = program + ".away"
	text := fmt.Sprintf("#!/bin/sh\n[ -e %s ] && exec sleep 30\nexec %s \"$@\"\n", away, os.Args[0])
	if err := os.WriteFile(program, []byte(text), 0o700); err != nil {
		s.t.Fatal(err)
	}
	return program, away
}

// processorTime returns how long a process has had a processor.
func (s site) processorTime(process int) time.Duration {
	text, err := os.ReadFile(fmt.Sprintf("/proc/%d/stat", process))
	if err != nil {
		s.t.Fatal(err)
	}
	// the first one is the third of the file
	fields := strings.Fields(string(text[bytes.LastIndexByte(text, ')'):]))
	var user, kernel int64
	fmt.Sscan(fields[11], &user)
	fmt.Sscan(fields[12], &kernel)
	return time.Duration(user+kernel) * time.Second / 100
}

// sessions returns how many connections the status shows, and whether the gateway is ready.
func (s site) sessions(state string) (count int, isReady bool) {
	var values struct {
		Sessions int
		Ready    bool
	}
	if err := json.Unmarshal([]byte(s.get("http://"+state+"/status")), &values); err != nil {
		s.t.Fatal(err)
	}
	return values.Sessions, values.Ready
}

// waits waits until a condition holds.
func (s site) waits(what string, condition func() bool) {
	s.t.Helper()
	for begin := time.Now(); !condition(); time.Sleep(10 * time.Millisecond) {
		if time.Since(begin) > 20*time.Second {
			s.t.Fatal(what)
		}
	}
}

// TestWaitingCallers lets 2,000 callers wait for a gateway without a replica: they cost less than a tenth of a
// processor until their time is over. The connections of those that reset them are not kept.
func TestWaitingCallers(t *testing.T) {
	const callers, limit = 2000, 10 * time.Second
	s := newSite(t)
	program, away := s.awayRegd()
	state := s.freeAddress()
	gateway, address := s.start("-regd", program, "-status", state, "-limit-answer", limit.String())
	if err := os.WriteFile(away, nil, 0o600); err != nil {
		t.Fatal(err)
	}
	var values struct{ Regd int }
	json.Unmarshal([]byte(s.get("http://"+state+"/status")), &values)
	syscall.Kill(values.Regd, syscall.SIGKILL)
	s.waits("the replica stays", func() bool { _, isReady := s.sessions(state); return !isReady })
	connect := func(count int) (all []net.Conn) {
		for i := 0; i < count; i++ {
			conn, err := net.Dial("tcp", address)
			if err != nil {
				t.Fatal(err)
			}
			t.Cleanup(func() { conn.Close() })
			fmt.Fprintln(conn, show)
			all = append(all, conn)
		}
		return all
	}
	stays := connect(callers)
	s.waits("callers are missing", func() bool { count, _ := s.sessions(state); return count == callers })
	left := connect(50)
	s.waits("callers are missing", func() bool { count, _ := s.sessions(state); return count == callers+len(left) })
	begin, before := time.Now(), s.processorTime(gateway.Process.Pid)
	for _, conn := range left {
		conn.(*net.TCPConn).SetLinger(0)
		conn.Close()
	}
	s.waits("callers that have left stay", func() bool { count, _ := s.sessions(state); return count <= callers })
	stays[0].SetDeadline(time.Now().Add(3 * limit))
	if count, err := stays[0].Read(make([]byte, 1)); err != io.EOF {
		t.Errorf("got %d bytes, %v", count, err)
	}
	took, cost := time.Since(begin), s.processorTime(gateway.Process.Pid)-before
	if took < time.Second || cost > took/10 { // a slow machine needs some of the time to connect
		t.Errorf("%d callers cost %v in %v", callers, cost, took)
	}
	t.Logf("%d callers cost %v in %v", callers, cost, took)
	gateway.Process.Signal(syscall.SIGTERM) // which also ends what it has started
	s.expect("the status after a signal", fmt.Sprint(s.status(gateway)), "0")
}

// TestConvertOption starts the program with a log of format 1: it ends. After a conversion it serves.
func TestConvertOption(t *testing.T) {
	s := newSite(t)
	old := map[string][]byte{"p/domain": []byte("ex.org"), "p/head": []byte("1"),
		"p/log/0000000000000001": []byte("a\n" + prune + "\n")}
	s.store.Restore(old)
	s.expect("the exit status with format 1", fmt.Sprint(s.status(s.command())), "2")
	s.expect("that of a conversion", fmt.Sprint(s.status(s.command("-convert"))), "0")
	s.expect("that of another one", fmt.Sprint(s.status(s.command("-convert"))), "0")
	_, address := s.start()
	s.expect("a query", s.call(address, show), `{"call":1,"place":1,"replies":[],"result":"answered"}`+"\n")
	half := s.store.Backup()
	for _, key := range []string{"p/2/format", "p/2/domain", "p/2/head"} {
		delete(half, key)
	}
	s.store.Restore(half)
	s.expect("the exit status with half a conversion", fmt.Sprint(s.status(s.command())), "2")
}

// TestAuditOption checks that changes are recorded in the file that the option names.
func TestAuditOption(t *testing.T) {
	s := newSite(t)
	file := filepath.Join(t.TempDir(), "audit")
	_, address := s.start("-audit", file)
	s.call(address, prune)
	for begin := time.Now(); ; time.Sleep(10 * time.Millisecond) {
		text, err := os.ReadFile(file)
		if err == nil && strings.Contains(string(text), `"entry":1,"line":1,"place":1,"outcome":"committed"}`) {
			break
		}
		if time.Since(begin) > 10*time.Second {
			t.Fatalf("the record is %s, %v", text, err)
		}
	}
	s.expect("a record in no folder", fmt.Sprint(s.status(s.command("-audit", file+"/x"))), "1")
}

// TestExits checks the exit statuses of a gateway that can't begin, and of one that is outvoted.
func TestExits(t *testing.T) {
	s := newSite(t)
	for _, c := range []struct {
		name  string
		words []string
		want  int
	}{
		{"an invalid command line", []string{"-workers", "1"}, 2},
		{"no program", []string{"-regd", "/nonexistent"}, 1},
		{"a port that is taken", []string{"-listen", s.store.Listener.Addr().String()}, 1},
		{"another port that is taken", []string{"-fresh", s.store.Listener.Addr().String()}, 1},
		{"a third port that is taken", []string{"-status", s.store.Listener.Addr().String()}, 1},
		{"no certificate", []string{
			"-certificate", "/nonexistent", "-key", "/nonexistent", "-authorities", "/nonexistent",
		}, 1},
		{"no certificate for etcd", []string{"-etcd-files", "/nonexistent", "-etcd", "https://127.0.0.1:1"}, 1},
		{"another domain", []string{"-domain", "other.org"}, 2},
	} {
		s.expect(c.name, fmt.Sprint(s.status(s.command(c.words...))), fmt.Sprint(c.want))
	}
}
