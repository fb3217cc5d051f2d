package server

import (
	"context"
	"crypto/ecdsa"
	"crypto/elliptic"
	"crypto/rand"
	"crypto/tls"
	"crypto/x509"
	"crypto/x509/pkix"
	"encoding/pem"
	"math/big"
	"net"
	"net/url"
	"os"
	"path/filepath"
	"testing"
	"time"
)

// an authority signs certificates, and writes them into a folder.
type authority struct {
	t      *testing.T
	folder string
	cert   *x509.Certificate
	key    *ecdsa.PrivateKey
	// of the certificates that it signs from now on
	serial int64
	long   time.Duration
}

func newAuthority(t *testing.T) *authority { return newAuthorityIn(t, t.TempDir()) }

func newAuthorityIn(t *testing.T, folder string) *authority {
	a := &authority{t: t, folder: folder, serial: 2, long: time.Hour}
	template := &x509.Certificate{
		SerialNumber: big.NewInt(1), Subject: pkix.Name{CommonName: "authority"}, IsCA: true,
		BasicConstraintsValid: true, KeyUsage: x509.KeyUsageCertSign,
		NotBefore: time.Now().Add(-time.Hour), NotAfter: time.Now().Add(time.Hour),
	}
	a.cert, a.key = a.sign("ca", template, nil)
	return a
}

func pemOf(der []byte) []byte {
	return pem.EncodeToMemory(&pem.Block{Type: "CERTIFICATE", Bytes: der})
}

func (a *authority) sign(
	name string, template *x509.Certificate, of *authority,
) (*x509.Certificate, *ecdsa.PrivateKey) {
	key, err := ecdsa.GenerateKey(elliptic.P256(), rand.Reader)
	if err != nil {
		a.t.Fatal(err)
	}
	parent, signer := template, key
	if of != nil {
		parent, signer = of.cert, of.key
	}
	der, err := x509.CreateCertificate(rand.Reader, template, parent, &key.PublicKey, signer)
	if err != nil {
		a.t.Fatal(err)
	}
	keyDER, _ := x509.MarshalECPrivateKey(key)
	write := func(file, kind string, bytes []byte) {
		if err := os.WriteFile(filepath.Join(a.folder, file),
			pem.EncodeToMemory(&pem.Block{Type: kind, Bytes: bytes}), 0o600); err != nil {
			a.t.Fatal(err)
		}
	}
	write(name+".pem", "CERTIFICATE", der)
	write(name+".key", "EC PRIVATE KEY", keyDER)
	cert, _ := x509.ParseCertificate(der)
	return cert, key
}

func (a *authority) leaf(name string, uris ...string) *x509.Certificate {
	template := &x509.Certificate{SerialNumber: big.NewInt(a.serial), Subject: pkix.Name{CommonName: name},
		IPAddresses: []net.IP{net.IPv4(127, 0, 0, 1)},
		ExtKeyUsage: []x509.ExtKeyUsage{x509.ExtKeyUsageClientAuth, x509.ExtKeyUsageServerAuth},
		NotBefore:   time.Now().Add(-time.Hour), NotAfter: time.Now().Add(a.long)}
	for _, uri := range uris {
		parsed, err := url.Parse(uri)
		if err != nil {
			a.t.Fatal(err)
		}
		template.URIs = append(template.URIs, parsed)
	}
	cert, _ := a.sign(name, template, a)
	return cert
}

func (a *authority) files(name string) Files {
	return Files{filepath.Join(a.folder, name+".pem"), filepath.Join(a.folder, name+".key"),
		filepath.Join(a.folder, "ca.pem")}
}

// load returns the certificates of a name.
func (a *authority) load(name string) *Certificates {
	a.t.Helper()
	made, err := a.files(name).Load()
	if err != nil {
		a.t.Fatal(err)
	}
	return made
}

// handshake connects to a server. It returns the SPIFFE ID that the server saw and the serial number that the client
// saw, or the server's error.
func handshake(
	t *testing.T, server *Certificates, dial func(ctx context.Context, network, address string) (net.Conn, error),
) (string, int64, error) {
	t.Helper()
	on, err := net.Listen("tcp", "127.0.0.1:0")
	if err != nil {
		t.Fatal(err)
	}
	defer on.Close()
	serials := make(chan int64, 1)
	go func() {
		conn, err := dial(context.Background(), "tcp", on.Addr().String())
		if err != nil {
			serials <- 0
			return
		}
		defer conn.Close()
		conn.Read(make([]byte, 1)) // with TLS 1.3 the server checks the certificate after the client is done
		serials <- conn.(*tls.Conn).ConnectionState().PeerCertificates[0].SerialNumber.Int64()
	}()
	inner, err := on.Accept()
	if err != nil {
		t.Fatal(err)
	}
	conn := tls.Server(inner, server.Server())
	conn.SetDeadline(time.Now().Add(5 * time.Second))
	err = conn.Handshake()
	inner.Close()
	serial := <-serials
	if err != nil {
		return "", 0, err
	}
	return callerOf(conn.ConnectionState().PeerCertificates[0], "ex.org"), serial, nil
}

func TestHandshakes(t *testing.T) {
	a, other := newAuthority(t), newAuthority(t)
	a.leaf("server")
	a.leaf("agent", n1)
	other.leaf("forged", n1)
	server, agent := a.load("server"), a.load("agent")
	dialer := func(change func(*tls.Config)) func(context.Context, string, string) (net.Conn, error) {
		config := agent.current().Clone()
		change(config)
		return (&tls.Dialer{Config: config}).DialContext
	}
	for _, c := range []struct {
		name string
		dial func(context.Context, string, string) (net.Conn, error)
		want string // "" for none
	}{
		{"an agent", agent.Dial, n1},
		{"a certificate of another authority", dialer(func(c *tls.Config) {
			c.Certificates = other.load("forged").current().Certificates
		}), ""},
		{"no certificate", dialer(func(c *tls.Config) { c.Certificates = nil }), ""},
		{"TLS 1.2", dialer(func(c *tls.Config) {
			c.MinVersion, c.MaxVersion = tls.VersionTLS12, tls.VersionTLS12
		}), ""},
		{"a client of another authority", other.load("forged").Dial, ""},
	} {
		if id, _, err := handshake(t, server, c.dial); id != c.want || (err == nil) != (c.want != "") {
			t.Errorf("%s: got %s, %v", c.name, id, err)
		}
	}
}

// TestReload replaces certificates and authorities: new ones count at the next handshake, and until they are valid the
// former ones do.
func TestReload(t *testing.T) {
	a := newAuthority(t)
	a.leaf("server")
	a.leaf("agent", n1)
	server, agent := a.load("server"), a.load("agent")
	expect := func(what, id string) {
		t.Helper()
		if got, _, err := handshake(t, server, agent.Dial); got != id || err != nil {
			t.Errorf("%s: got %s, %v", what, got, err)
		}
	}
	expect("at first", n1)
	a.leaf("agent", n2)
	expect("a renewed agent", n2)
	keyFile, certificateFile := a.files("agent").Key, a.files("agent").Certificate
	key, _ := os.ReadFile(keyFile)
	a.leaf("agent", n1)
	renewed, _ := os.ReadFile(keyFile)
	os.WriteFile(keyFile, key, 0o600)
	expect("a certificate that is renewed before its key", n2)
	os.WriteFile(keyFile, renewed, 0o600)
	expect("and then the key", n1)
	os.Remove(certificateFile)
	expect("a certificate that is not there", n1)
	a.serial = 9
	a.leaf("server")
	if _, serial, err := handshake(t, server, agent.Dial); serial != 9 || err != nil {
		t.Errorf("a renewed server: got %d, %v", serial, err)
	}
}

// TestReloadAuthorities adds an authority to those that a server accepts, and replaces a certificate by one that
// expires later.
func TestReloadAuthorities(t *testing.T) {
	a, other := newAuthority(t), newAuthority(t)
	a.leaf("server")
	server := a.load("server")
	other.leaf("agent", n2)
	config := other.load("agent").current().Clone()
	config.RootCAs = server.current().RootCAs
	dial := (&tls.Dialer{Config: config}).DialContext
	if _, _, err := handshake(t, server, dial); err == nil {
		t.Error("an unknown authority was accepted")
	}
	file := a.files("server").Authorities
	both, _ := os.ReadFile(file)
	more, _ := os.ReadFile(other.files("agent").Authorities)
	os.WriteFile(file, append(both, more...), 0o600)
	if id, _, err := handshake(t, server, dial); id != n2 || err != nil {
		t.Errorf("got %s, %v", id, err)
	}
	before := server.Expiry()
	a.long = 5 * time.Hour
	a.leaf("server")
	if after := server.Expiry(); after.Sub(before) < 3*time.Hour {
		t.Errorf("it expires at %v, before at %v", after, before)
	}
}

func TestFiles(t *testing.T) {
	a := newAuthority(t)
	a.leaf("agent", n1)
	if _, err := (Files{"no", "no", "no"}).Load(); err == nil {
		t.Error("missing files were accepted")
	}
	empty := a.files("agent")
	empty.Authorities = empty.Key
	if _, err := empty.Load(); err == nil {
		t.Error("a file without an authority was accepted")
	}
	if made, err := FilesIn("").Load(); made != nil || err != nil {
		t.Errorf("no files: got %v, %v", made, err)
	}
	if got, want := FilesIn("/x"), (Files{"/x/cert.pem", "/x/key.pem", "/x/ca.pem"}); got != want {
		t.Errorf("a folder: got %v", got)
	}
}
