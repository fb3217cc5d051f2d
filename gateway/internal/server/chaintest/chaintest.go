// Package chaintest makes what strangers may send before they are known: chains of certificates that no honest caller
// shows, and handshakes that go wrong in the middle.
package chaintest

import (
	"bytes"
	"crypto/ecdsa"
	"crypto/elliptic"
	crypto "crypto/rand"
	"crypto/rsa"
	"crypto/tls"
	"crypto/x509"
	"crypto/x509/pkix"
	"encoding/pem"
	"math/big"
	"math/rand"
	"net"
	"net/url"
	"os"
	"path/filepath"
	"time"
)

// A Maker makes chains and hellos from random numbers.
type Maker struct {
	random *rand.Rand
	key    *ecdsa.PrivateKey
	serial int64
}

// New returns a maker.
func New(seed int64) *Maker {
	key, err := ecdsa.GenerateKey(elliptic.P256(), crypto.Reader)
	if err != nil {
		panic(err)
	}
	return &Maker{random: rand.New(rand.NewSource(seed)), key: key}
}

// Key returns the private key of all certificates whose key is no odd one.
func (m *Maker) Key() *ecdsa.PrivateKey { return m.key }

// certificate returns a certificate of a subject and an issuer, with a public key, and an extension of this size.
func (m *Maker) certificate(subject, issuer string, public any, bytes int) []byte {
	m.serial++
	id := &url.URL{Scheme: "spiffe", Host: "ex.org", Path: "/operator"}
	made := &x509.Certificate{SerialNumber: big.NewInt(m.serial), Subject: pkix.Name{CommonName: subject},
		NotBefore: time.Now().Add(-time.Hour), NotAfter: time.Now().Add(time.Hour), URIs: []*url.URL{id},
		IsCA: m.serial%2 == 0, BasicConstraintsValid: true,
		ExtKeyUsage: []x509.ExtKeyUsage{x509.ExtKeyUsageClientAuth}}
	if bytes > 0 {
		made.ExtraExtensions = []pkix.Extension{{Id: []int{1, 2, 3, 4}, Value: make([]byte, bytes)}}
	}
	signer := &x509.Certificate{Subject: pkix.Name{CommonName: issuer}}
	der, err := x509.CreateCertificate(crypto.Reader, made, signer, public, m.key)
	if err != nil {
		panic(err)
	}
	return der
}

// signed returns a certificate with the usual key.
func (m *Maker) signed(subject, issuer string, bytes int) []byte {
	return m.certificate(subject, issuer, &m.key.PublicKey, bytes)
}

func (m *Maker) usual() []byte { return m.signed("nobody", "nobody", 0) }

// UnknownKey returns a certificate whose public key is of a type that crypto/x509 doesn't know.
func (m *Maker) UnknownKey() []byte {
	known := []byte{6, 7, 0x2a, 0x86, 0x48, 0xce, 0x3d, 2, 1}
	unknown := append([]byte{}, known...)
	unknown[8] = 0x7f
	return bytes.Replace(m.usual(), known, unknown, 1)
}

// HugeKey returns a certificate with an RSA key of this size.
func (m *Maker) HugeKey(bits int) []byte {
	modulus := new(big.Int).Lsh(big.NewInt(1), uint(bits-1))
	modulus.Add(modulus, new(big.Int).Rand(m.random, modulus))
	return m.certificate("nobody", "nobody", &rsa.PublicKey{N: modulus.SetBit(modulus, 0, 1), E: 1<<31 - 1}, 0)
}

// Write writes cert.pem, key.pem and ca.pem into a folder: a certificate of the operator for 127.0.0.1 that vouches for
// itself.
func (m *Maker) Write(folder string) error {
	id := &url.URL{Scheme: "spiffe", Host: "ex.org", Path: "/operator"}
	made := &x509.Certificate{SerialNumber: big.NewInt(1), URIs: []*url.URL{id},
		IPAddresses: []net.IP{net.IPv4(127, 0, 0, 1)},
		NotBefore:   time.Now().Add(-time.Hour), NotAfter: time.Now().Add(time.Hour)}
	der, err := x509.CreateCertificate(crypto.Reader, made, made, &m.key.PublicKey, m.key)
	if err != nil {
		return err
	}
	key, err := x509.MarshalECPrivateKey(m.key)
	if err != nil {
		return err
	}
	certificate := pem.EncodeToMemory(&pem.Block{Type: "CERTIFICATE", Bytes: der})
	private := pem.EncodeToMemory(&pem.Block{Type: "EC PRIVATE KEY", Bytes: key})
	for name, text := range map[string][]byte{"cert.pem": certificate, "ca.pem": certificate, "key.pem": private} {
		if err := os.WriteFile(filepath.Join(folder, name), text, 0o600); err != nil {
			return err
		}
	}
	return nil
}

// Chain returns the chain with a number: each number of a row of ten is another kind. None is one of a known authority.
func (m *Maker) Chain(number int) (kind string, chain [][]byte) {
	switch number % 10 {
	case 0:
		return "an unknown key behind the leaf", [][]byte{m.usual(), m.UnknownKey()}
	case 1:
		return "an unknown key", [][]byte{m.UnknownKey(), m.usual()}
	case 2:
		return "a huge key behind the leaf", [][]byte{m.usual(), m.HugeKey(8193 + m.random.Intn(100_000))}
	case 3:
		return "a huge key", [][]byte{m.HugeKey(8193 + m.random.Intn(100_000))}
	case 4:
		for count := 6 + m.random.Intn(100); count > 0; count-- {
			chain = append(chain, m.usual())
		}
		return "a long chain", chain
	case 5:
		return "a large chain", [][]byte{m.usual(), m.signed("nobody", "nobody", 17_000+m.random.Intn(30_000))}
	case 6:
		return "a circle",
			[][]byte{m.usual(), m.signed("a", "b", 0), m.signed("b", "a", 0), m.signed("b", "nobody", 0)}
	case 7:
		return "damaged bytes", [][]byte{m.usual(), m.Damage(m.usual())}
	case 8:
		return "noise", [][]byte{m.noise(m.random.Intn(2000))}
	}
	return "an unknown authority", [][]byte{m.usual(), m.usual()}
}

func (m *Maker) noise(count int) []byte {
	made := make([]byte, count)
	m.random.Read(made)
	return made
}

// Damage returns a copy of a text with some other bytes.
func (m *Maker) Damage(text []byte) []byte {
	made := append([]byte{}, text...)
	for count := 1 + m.random.Intn(4); count > 0 && len(made) > 0; count-- {
		made[m.random.Intn(len(made))] = byte(m.random.Intn(256))
	}
	return made
}

// Hello returns what a client may send first: a hello, a part of one, a damaged one, an endless one, or noise.
func (m *Maker) Hello(number int) []byte {
	hello := usualHello()
	switch number % 5 {
	case 0:
		return hello[:1+m.random.Intn(len(hello)-1)]
	case 1:
		return m.Damage(hello)
	case 2:
		return m.endless(60_000)
	case 3:
		return m.noise(1 + m.random.Intn(3000))
	}
	return append(hello, m.noise(1+m.random.Intn(3000))...)
}

// usualHello returns the first bytes of an honest client.
func usualHello() []byte {
	inner, outer := net.Pipe()
	defer outer.Close()
	go tls.Client(inner, &tls.Config{InsecureSkipVerify: true}).Handshake() // which ends with the pipe
	made := make([]byte, 1<<14)
	count, err := outer.Read(made)
	if err != nil {
		panic(err)
	}
	return made[:count]
}

// endless returns the first bytes of a hello that has more of them, in records.
func (m *Maker) endless(size int) (made []byte) {
	text := append([]byte{1, 0, byte((size + 1) >> 8), byte(size + 1)}, m.noise(size)...)
	for len(text) > 0 {
		count := len(text)
		if count > 1<<14 {
			count = 1 << 14
		}
		made = append(append(made, 22, 3, 1, byte(count>>8), byte(count)), text[:count]...)
		text = text[count:]
	}
	return made
}

// Shake connects to an address, and makes a handshake with a chain. It returns what the server answers.
func (m *Maker) Shake(address string, chain [][]byte) error {
	conn, err := net.Dial("tcp", address)
	if err != nil {
		return err
	}
	defer conn.Close()
	err = conn.SetDeadline(time.Now().Add(20 * time.Second))
	if err != nil {
		return err
	}
	secure := tls.Client(conn, &tls.Config{InsecureSkipVerify: true,
		GetClientCertificate: func(*tls.CertificateRequestInfo) (*tls.Certificate, error) {
			return &tls.Certificate{Certificate: chain, PrivateKey: m.key}, nil
		}})
	err = secure.Handshake()
	if err != nil {
		return err
	}
	_, err = secure.Read(make([]byte, 1)) // with TLS 1.3 the server checks the certificate after the client is done
	return err
}
