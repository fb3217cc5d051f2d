package server

import (
	"crypto/ecdsa"
	"crypto/ed25519"
	"crypto/rsa"
	"crypto/x509"
	"encoding/pem"
	"errors"
	"fmt"
)

// limits of a peer's chain, which are checked before anything is computed with its keys
const (
	mostChain      = 5 // certificates
	mostChainBytes = 16 << 10
	mostRSABits    = 8192
)

// checkChain returns an error unless one of the authorities vouches for a peer's leaf, the first certificate of its
// chain, with this usage and this name, or with any name if it is "".
//
// It takes the place of the check that crypto/tls makes: that of an older Go panics at a key of an unknown type, and
// computes for seconds with a huge one.
func checkChain(chain []*x509.Certificate, authorities *x509.CertPool, name string, usage x509.ExtKeyUsage) error {
	if len(chain) == 0 || len(chain) > mostChain {
		return fmt.Errorf("a chain of %d certificates, and not 1 to %d", len(chain), mostChain)
	}
	size, others := 0, x509.NewCertPool()
	for i, one := range chain {
		size += len(one.Raw)
		if err := checkKey(one); err != nil {
			return fmt.Errorf("certificate %d of the chain: %w", i+1, err)
		}
		if i > 0 {
			others.AddCert(one)
		}
	}
	if size > mostChainBytes {
		return fmt.Errorf("a chain of %d bytes, and not of at most %d", size, mostChainBytes)
	}
	_, err := chain[0].Verify(x509.VerifyOptions{Roots: authorities, Intermediates: others, DNSName: name,
		KeyUsages: []x509.ExtKeyUsage{usage}})
	return err
}

// checkKey returns an error unless the public key of a certificate is of a type that TLS 1.3 knows, and not too large.
func checkKey(certificate *x509.Certificate) error {
	switch key := certificate.PublicKey.(type) {
	case *ecdsa.PublicKey, ed25519.PublicKey:
		return nil
	case *rsa.PublicKey:
		if bits := key.N.BitLen(); bits > mostRSABits {
			return fmt.Errorf("an RSA key of %d bits, and not of at most %d", bits, mostRSABits)
		}
		return nil
	}
	return fmt.Errorf("a public key of an unknown type (%v)", certificate.PublicKeyAlgorithm)
}

// poolOf reads authorities from a file's text. Their keys are computed with too, so they have the same limits.
func poolOf(text []byte) (*x509.CertPool, error) {
	pool, count := x509.NewCertPool(), 0
	for {
		var block *pem.Block
		block, text = pem.Decode(text)
		if block == nil {
			break
		}
		if block.Type != "CERTIFICATE" {
			continue
		}
		one, err := x509.ParseCertificate(block.Bytes)
		if err == nil {
			err = checkKey(one)
		}
		if err != nil {
			return nil, err
		}
		pool.AddCert(one)
		count++
	}
	if count == 0 {
		return nil, errors.New("no certificate")
	}
	return pool, nil
}
