package server

import (
	"bytes"
	"context"
	"crypto/rsa"
	"crypto/tls"
	"crypto/x509"
	"crypto/x509/pkix"
	"errors"
	"fmt"
	"io"
	"math/big"
	"net"
	"os"
	"strings"
	"testing"
	"time"

	"regd/gateway/internal/server/chaintest"
)

// parsed returns a chain as crypto/tls passes it, or false if that refuses it.
func parsed(raw [][]byte) (chain []*x509.Certificate, ok bool) {
	for _, der := range raw {
		one, err := x509.ParseCertificate(der)
		if err != nil {
			return nil, false
		}
		chain = append(chain, one)
	}
	return chain, true
}

// TestCheckChain checks which chains are refused, and with which reason, before anything is computed with their keys.
func TestCheckChain(t *testing.T) {
	a, m := newAuthority(t), chaintest.New(1)
	leaf, pool := a.leaf("agent", n1), x509.NewCertPool()
	pool.AddCert(a.cert)
	unknown, _ := parsed([][]byte{m.UnknownKey()})
	huge, _ := parsed([][]byte{m.HugeKey(8193)})
	large, _ := parsed([][]byte{m.HugeKey(8192)})
	_, raw := m.Chain(5)
	bulky, _ := parsed(raw)
	dsa := &x509.Certificate{PublicKeyAlgorithm: x509.DSA}
	for _, c := range []struct {
		name  string
		chain []*x509.Certificate
		want  string // a part of the reason, or ""
	}{
		{"a leaf", []*x509.Certificate{leaf}, ""},
		{"a leaf with its authority", []*x509.Certificate{leaf, a.cert}, ""},
		{"the longest", []*x509.Certificate{leaf, a.cert, a.cert, a.cert, a.cert}, ""},
		{"a longer one", []*x509.Certificate{leaf, a.cert, a.cert, a.cert, a.cert, a.cert}, "6 certificates"},
		{"none", nil, "0 certificates"},
		{"an unknown key", []*x509.Certificate{leaf, unknown[0]},
			"certificate 2 of the chain: a public key of"},
		{"an unknown leaf", []*x509.Certificate{unknown[0]}, "certificate 1 of the chain"},
		{"another unknown key", []*x509.Certificate{leaf, dsa}, "unknown type (DSA)"},
		{"a huge key", []*x509.Certificate{leaf, huge[0]}, "8193 bits"},
		{"the largest key", []*x509.Certificate{leaf, large[0]}, ""},
		{"many bytes", []*x509.Certificate{leaf, bulky[1]}, "bytes"},
		{"another authority", []*x509.Certificate{newAuthority(t).leaf("agent", n1)}, "unknown authority"},
	} {
		err := checkChain(c.chain, pool, "", x509.ExtKeyUsageClientAuth)
		if (err == nil) != (c.want == "") || err != nil && !strings.Contains(err.Error(), c.want) {
			t.Errorf("%s: got %v", c.name, err)
		}
	}
	for name, want := range map[string]bool{"127.0.0.1": true, "127.0.0.2": false, "": true} {
		err := checkChain([]*x509.Certificate{leaf}, pool, name, x509.ExtKeyUsageServerAuth)
		if (err == nil) != want {
			t.Errorf("a server with the name %q: got %v", name, err)
		}
	}
	if checkChain([]*x509.Certificate{leaf}, pool, "", x509.ExtKeyUsageCodeSigning) == nil {
		t.Error("another usage was accepted")
	}
}

// TestIntermediate checks a leaf whose issuer is in its chain, and that no leaf is accepted by an authority that is
// only in its chain.
func TestIntermediate(t *testing.T) {
	a := newAuthority(t)
	between := &authority{t: t, folder: t.TempDir(), serial: 7, long: time.Hour}
	template := &x509.Certificate{SerialNumber: big.NewInt(6),
		Subject: pkix.Name{CommonName: "between"}, IsCA: true,
		BasicConstraintsValid: true, KeyUsage: x509.KeyUsageCertSign,
		NotBefore: time.Now().Add(-time.Hour), NotAfter: time.Now().Add(time.Hour)}
	between.cert, between.key = a.sign("between", template, a)
	leaf, pool := between.leaf("agent", n1), x509.NewCertPool()
	pool.AddCert(a.cert)
	check := func(chain ...*x509.Certificate) error {
		return checkChain(chain, pool, "", x509.ExtKeyUsageClientAuth)
	}
	if err := check(leaf, between.cert); err != nil {
		t.Error(err)
	}
	other := newAuthority(t)
	if check(leaf) == nil || check(other.leaf("agent", n1), other.cert) == nil {
		t.Error("a leaf without its authority was accepted")
	}
}

// TestNoCertificate checks that a caller without a certificate is refused for that reason.
func TestNoCertificate(t *testing.T) {
	a := newAuthority(t)
	a.leaf("server")
	server := a.load("server")
	config := &tls.Config{InsecureSkipVerify: true}
	_, _, err := handshake(t, server, (&tls.Dialer{Config: config}).DialContext)
	if err == nil || !strings.Contains(err.Error(), "didn't provide a certificate") {
		t.Errorf("got %v", err)
	}
}

// TestDial checks that a client accepts only a server of its authorities with the name that it has dialled.
func TestDial(t *testing.T) {
	a, other := newAuthority(t), newAuthority(t)
	a.leaf("server")
	a.leaf("client")
	other.leaf("server")
	for name, c := range map[string]struct {
		server *Certificates
		host   string
		want   bool
	}{
		"its server":        {a.load("server"), "127.0.0.1", true},
		"another name":      {a.load("server"), "localhost", false},
		"another authority": {other.load("server"), "127.0.0.1", false},
	} {
		on, err := tls.Listen("tcp", "127.0.0.1:0", &tls.Config{Certificates: c.server.current().Certificates})
		if err != nil {
			t.Fatal(err)
		}
		go func() {
			conn, err := on.Accept()
			if err == nil {
				conn.(*tls.Conn).Handshake() // whose error is that of the client
				conn.Close()
			}
		}()
		_, port, _ := net.SplitHostPort(on.Addr().String())
		conn, err := a.load("client").Dial(context.Background(), "tcp", net.JoinHostPort(c.host, port))
		if (err == nil) != c.want {
			t.Errorf("%s: got %v", name, err)
		}
		if err == nil {
			conn.Close()
		}
		on.Close()
	}
}

// TestTurnInTime checks that a handshake which finds no turn ends with its time.
func TestTurnInTime(t *testing.T) {
	conn := &said{&written{}, strings.NewReader("x")}
	p := &paced{Conn: conn, turns: make(chan struct{}), end: time.Now().Add(10 * time.Millisecond)}
	ended := make(chan error, 1)
	go func() {
		_, err := p.Read(make([]byte, 1))
		ended <- err
	}()
	select {
	case err := <-ended:
		if !errors.Is(err, os.ErrDeadlineExceeded) {
			t.Errorf("got %v", err)
		}
	case <-time.After(10 * time.Second):
		t.Error("it waits")
	}
}

// TestCheckKey checks that a caller's key is of a type that has a limit.
func TestCheckKey(t *testing.T) {
	for bits, want := range map[int]bool{2048: true, 8192: true, 8193: false, 500_000: false} {
		key := &rsa.PublicKey{N: new(big.Int).Lsh(big.NewInt(1), uint(bits-1)), E: 65537}
		if err := checkKey(&x509.Certificate{PublicKey: key}); (err == nil) != want {
			t.Errorf("%d bits: got %v", bits, err)
		}
	}
	if checkKey(&x509.Certificate{}) == nil {
		t.Error("no key was accepted")
	}
}

// TestAuthorityKeys checks that a file of authorities with a key that can't be checked is refused.
func TestAuthorityKeys(t *testing.T) {
	a := newAuthority(t)
	a.leaf("agent", n1)
	files := a.files("agent")
	good, err := os.ReadFile(files.Authorities)
	if err != nil {
		t.Fatal(err)
	}
	m := chaintest.New(1)
	seeds := map[string][]byte{"unknown": m.UnknownKey(), "huge": m.HugeKey(9000), "noise": {1, 2, 3}}
	for name, der := range seeds {
		if _, err := poolOf(append(append([]byte{}, good...), pemOf(der)...)); err == nil {
			t.Errorf("%s: it was accepted", name)
		}
	}
	if _, err := poolOf(append([]byte("a comment\n"), good...)); err != nil {
		t.Error(err)
	}
}

// TestStrangers sends chains that no honest caller has, and parts of handshakes, to a gateway. It refuses each, and
// goes on; with an older Go, and without a check before that of crypto/x509, the process ends.
func TestStrangers(t *testing.T) {
	s := newSite(t)
	g, dial := s.secured(n2)
	address := s.address
	m := chaintest.New(2)
	const count = 40
	for number := 0; number < count; number++ {
		kind, chain := m.Chain(number)
		err := m.Shake(address, chain)
		if err == nil || errors.Is(err, os.ErrDeadlineExceeded) {
			t.Errorf("%s: got %v", kind, err)
		}
		conn, _ := s.dial(address)
		if _, err := conn.Write(m.Hello(number)); err != nil {
			t.Error(err)
		}
		if number%2 == 0 { // the others stay until their time is over
			conn.Close()
		}
	}
	conn, in := dial(n2)
	fmt.Fprintln(conn, show)
	if got, err := in.ReadString('\n'); got != answered(1, 0)+"\n" {
		t.Errorf("got %s, %v", got, err)
	}
	within(t, "a handshake goes on", func() bool { return len(g.gate.places) == 0 })
	if failed, panics := endedFor(t, g, "handshake"), endedFor(t, g, "panic"); failed != 2*count || panics != 0 {
		t.Errorf("%v handshakes failed, and there were %v panics", failed, panics)
	}
}

// TestPanic lets handshakes panic while they have a turn, and sessions that have a turn and a slot: each ends its
// connection alone, and gives back what it has.
func TestPanic(t *testing.T) {
	s := newSite(t)
	s.callers = &Certificates{} // which have no configuration
	g, address, _ := s.gateway("a")
	count := 3 * cap(g.handshakes)
	for i := 0; i < count; i++ {
		if err := chaintest.New(1).Shake(address, nil); err == nil {
			t.Error("a handshake without a certificate")
		}
	}
	within(t, "a turn is taken", func() bool { return len(g.handshakes)+len(g.gate.places) == 0 })
	s.callers = nil
	plain, _, _ := s.gateway("b")
	plain.receive(s.ctx, &broken{}, false)
	if got := endedFor(t, plain, "panic"); got != 1 || plain.sessions.Load() != 0 || plain.active.Load() != 0 {
		t.Errorf("%v panics, %d sessions, %d of them active", got, plain.sessions.Load(), plain.active.Load())
	}
}

// broken is a connection that sends a line, and whose second read panics.
type broken struct {
	net.Conn
	reads int
}

func (b *broken) Read(to []byte) (int, error) {
	b.reads++
	if b.reads > 1 {
		panic("a fault")
	}
	return copy(to, prune+"\n"+prune), nil
}

func (b *broken) Write(text []byte) (int, error)   { return len(text), nil }
func (b *broken) Close() error                     { return nil }
func (b *broken) SetReadDeadline(time.Time) error  { return nil }
func (b *broken) SetWriteDeadline(time.Time) error { return nil }
func (b *broken) RemoteAddr() net.Addr             { return &net.TCPAddr{} }

// FuzzChain checks that no chain makes the check of a caller panic, and that none is accepted that its authorities have
// not signed.
func FuzzChain(f *testing.F) {
	m := chaintest.New(3)
	for number := 0; number < 10; number++ {
		_, chain := m.Chain(number)
		f.Add(bytes.Join(chain, nil))
	}
	_, raw := chaintest.New(4).Chain(9)
	authority, _ := parsed(raw)
	pool := x509.NewCertPool()
	pool.AddCert(authority[0])
	f.Fuzz(func(t *testing.T, text []byte) {
		chain, err := x509.ParseCertificates(text)
		if err != nil {
			return
		}
		if err := checkChain(chain, pool, "", x509.ExtKeyUsageClientAuth); err == nil {
			t.Errorf("%d certificates were accepted", len(chain))
		}
	})
}

// FuzzHandshake checks that no first bytes of a caller make a handshake panic, and that none ends one without a
// certificate.
func FuzzHandshake(f *testing.F) {
	m := chaintest.New(5)
	for number := 0; number < 10; number++ {
		f.Add(m.Hello(number))
	}
	pair := tls.Certificate{Certificate: [][]byte{m.UnknownKey()}, PrivateKey: m.Key()}
	config := &tls.Config{Certificates: []tls.Certificate{pair}, ClientAuth: tls.RequireAnyClientCert,
		MinVersion: tls.VersionTLS13, SessionTicketsDisabled: true}
	f.Fuzz(func(t *testing.T, text []byte) {
		conn := &written{}
		if err := tls.Server(&said{conn, bytes.NewReader(text)}, config).Handshake(); err == nil {
			t.Error("a handshake without a certificate")
		}
	})
}

// said is a connection whose other side has sent a text, and then ended.
type said struct {
	*written
	text io.Reader
}

func (s *said) Read(to []byte) (int, error) { return s.text.Read(to) }
func (s *said) Close() error                { return nil }
