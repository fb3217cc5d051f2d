package client

import (
	"context"
	"crypto/ecdsa"
	"crypto/elliptic"
	"crypto/rand"
	"crypto/tls"
	"crypto/x509"
	"crypto/x509/pkix"
	"encoding/pem"
	"math/big"
	"net"
	"os"
	"path/filepath"
	"strings"
	"testing"
	"time"
)

// An issuer signs certificates for tests.
type issuer struct {
	t    *testing.T
	cert *x509.Certificate
	key  *ecdsa.PrivateKey
}

func newIssuer(t *testing.T) *issuer {
	i := &issuer{t: t}
	template := &x509.Certificate{SerialNumber: big.NewInt(1), Subject: pkix.Name{CommonName: "issuer"}, IsCA: true,
		BasicConstraintsValid: true, KeyUsage: x509.KeyUsageCertSign, NotBefore: time.Now().Add(-time.Hour),
		NotAfter: time.Now().Add(time.Hour)}
	i.cert, i.key = i.sign(template)
	return i
}

func (i *issuer) sign(template *x509.Certificate) (*x509.Certificate, *ecdsa.PrivateKey) {
	i.t.Helper()
	key, err := ecdsa.GenerateKey(elliptic.P256(), rand.Reader)
	if err != nil {
		i.t.Fatal(err)
	}
	parent, signer := template, key
	if i.cert != nil {
		parent, signer = i.cert, i.key
	}
	der, err := x509.CreateCertificate(rand.Reader, template, parent, &key.PublicKey, signer)
	if err != nil {
		i.t.Fatal(err)
	}
	cert, err := x509.ParseCertificate(der)
	if err != nil {
		i.t.Fatal(err)
	}
	return cert, key
}

// issue writes the files of a caller, or of a server at 127.0.0.1, that are valid for some time from now on.
func (i *issuer) issue(folder string, serial int64, valid time.Duration) Files {
	i.t.Helper()
	cert, key := i.sign(&x509.Certificate{SerialNumber: big.NewInt(serial),
		IPAddresses: []net.IP{net.IPv4(127, 0, 0,
			1)},
		ExtKeyUsage: []x509.ExtKeyUsage{x509.ExtKeyUsageClientAuth, x509.ExtKeyUsageServerAuth},
		NotBefore:   time.Now().Add(-2 * time.Hour), NotAfter: time.Now().Add(valid)})
	der, err := x509.MarshalECPrivateKey(key)
	if err != nil {
		i.t.Fatal(err)
	}
	files := Files{filepath.Join(folder, "cert.pem"), filepath.Join(folder, "key.pem"),
		filepath.Join(folder, "ca.pem")}
	for _, one := range []struct {
		name, kind string
		bytes      []byte
	}{{files.Certificate, "CERTIFICATE", cert.Raw}, {files.Key, "EC PRIVATE KEY", der},
		{files.Authorities, "CERTIFICATE", i.cert.Raw}} {
		text := pem.EncodeToMemory(&pem.Block{Type: one.kind, Bytes: one.bytes})
		if err := os.WriteFile(one.name, text, 0o600); err != nil {
			i.t.Fatal(err)
		}
	}
	return files
}

// serveTLS starts a fake that wants certificates of an issuer. shown gets the serial numbers of its callers.
func serveTLS(t *testing.T, i *issuer, shown func(serial int64), texts ...string) *fake {
	t.Helper()
	config, err := i.issue(t.TempDir(), 2, time.Hour).read()
	if err != nil {
		t.Fatal(err)
	}
	config.ClientAuth, config.ClientCAs = tls.RequireAndVerifyClientCert, config.RootCAs
	config.VerifyPeerCertificate = func(_ [][]byte, chains [][]*x509.Certificate) error {
		shown(chains[0][0].SerialNumber.Int64())
		return nil
	}
	on, err := tls.Listen("tcp", "127.0.0.1:0", config)
	if err != nil {
		t.Fatal(err)
	}
	f := &fake{address: on.Addr().String(), answer: answers(texts...)}
	f.serveOn(t, on)
	return f
}

func callingTLS(t *testing.T, files Files, addresses ...string) (*Client, context.Context) {
	t.Helper()
	c, ctx := calling(t, addresses...)
	c.caller.files = files
	return c, ctx
}

// TestRenewed checks that each connection takes the certificate that is in the files then, and the last good one while
// the files are not valid.
func TestRenewed(t *testing.T) {
	i, folder := newIssuer(t), t.TempDir()
	shown := make(chan int64, 10)
	f := serveTLS(t, i, func(serial int64) { shown <- serial }, answered)
	files := i.issue(folder, 10, time.Hour)
	c, ctx := callingTLS(t, files, f.address)
	ask := func() {
		t.Helper()
		if _, err := c.Ask(ctx, Show("x")); err != nil {
			t.Fatal(err)
		}
		c.Close()
	}
	ask()
	i.issue(folder, 11, time.Hour)
	ask()
	if err := os.WriteFile(files.Key, []byte("half"), 0o600); err != nil {
		t.Fatal(err)
	}
	ask()
	for number, want := range []int64{10, 11, 11} {
		if got := <-shown; got != want {
			t.Errorf("connection %d has certificate %d", number, got)
		}
	}
}

// TestWrongCertificates checks that errors of certificates end a call without a wait, and name what is wrong.
func TestWrongCertificates(t *testing.T) {
	i, other := newIssuer(t), newIssuer(t)
	f := serveTLS(t, i, func(int64) {}, answered)
	good := i.issue(t.TempDir(), 10, time.Hour)
	foreign := other.issue(t.TempDir(), 10, time.Hour)
	mixed := foreign
	mixed.Authorities = good.Authorities
	name := strings.Replace(f.address, "127.0.0.1", "localhost", 1)
	plain := serve(t, answers(`{"code":"L2","line":1}`))
	for _, one := range []struct {
		what, address string
		files         Files
		want          string
	}{
		{"another authority of servers", f.address, foreign, "unknown authority"},
		{"another authority of callers", f.address, mixed, "the server refuses the certificate"},
		{"expired", f.address, i.issue(t.TempDir(), 10, -time.Minute), "has expired at"},
		{"another name", name, good, "localhost"},
		{"a file that is missing", f.address, Files{good.Certificate, good.Key + "x",
			good.Authorities}, "no such file"},
		{"a file without a certificate", f.address, Files{good.Certificate, good.Key, good.Key},
			"has no certificate"},
		{"a setting that is missing", f.address, Files{Certificate: good.Certificate,
			Authorities: good.Authorities}, "TLS takes -key"},
		{"a server without TLS", plain.address, good, "leave -keys out"},
	} {
		c, ctx := callingTLS(t, one.files, one.address)
		begin := time.Now()
		_, err := c.Change(ctx, SetAgent(someAgent))
		unreachable, isUnreachable := err.(*Unreachable)
		if !isUnreachable || !strings.Contains(unreachable.Error(), one.want) ||
			time.Since(begin) > 4*time.Second {
			t.Errorf("%s: got %v after %s", one.what, err, time.Since(begin))
		}
	}
	if lines := f.received(); len(lines) != 0 {
		t.Errorf("lines arrived: %q", lines)
	}
}

// TestOneOfTwo checks that an address with a wrong certificate doesn't keep a client from the other one.
func TestOneOfTwo(t *testing.T) {
	i, other := newIssuer(t), newIssuer(t)
	wrong := serveTLS(t, other, func(int64) {}, answered)
	right := serveTLS(t, i, func(int64) {}, answered)
	c, ctx := callingTLS(t, i.issue(t.TempDir(), 10, time.Hour), wrong.address, right.address)
	if _, err := c.Ask(ctx, Show("x")); err != nil || c.Address() != right.address {
		t.Errorf("got %v at %s", err, c.Address())
	}
}
