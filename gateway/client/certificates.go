package client

import (
	"crypto/tls"
	"crypto/x509"
	"fmt"
	"os"
	"time"
)

// Files names the files of a caller: its certificate, its key, and the authorities that sign the certificates of
// servers.
type Files struct{ Certificate, Key, Authorities string }

// read reads the files as they are now.
func (f Files) read() (*tls.Config, error) {
	given := map[string]string{"-certificate": f.Certificate, "-key": f.Key, "-authorities": f.Authorities}
	for flag, name := range given {
		if name == "" {
			return nil, fmt.Errorf("TLS takes %s", flag)
		}
	}
	pair, err := tls.LoadX509KeyPair(f.Certificate, f.Key)
	if err != nil {
		return nil, err
	}
	if pair.Leaf, err = x509.ParseCertificate(pair.Certificate[0]); err != nil {
		return nil, fmt.Errorf("%s: %w", f.Certificate, err)
	}
	if end := pair.Leaf.NotAfter; time.Now().After(end) {
		return nil, fmt.Errorf("the certificate %s has expired at %s", f.Certificate,
			end.UTC().Format(time.RFC3339))
	}
	text, err := os.ReadFile(f.Authorities)
	if err != nil {
		return nil, err
	}
	pool := x509.NewCertPool()
	if !pool.AppendCertsFromPEM(text) {
		return nil, fmt.Errorf("%s has no certificate", f.Authorities)
	}
	return &tls.Config{Certificates: []tls.Certificate{pair}, RootCAs: pool, MinVersion: tls.VersionTLS13}, nil
}

// A caller has the certificate with which connections are opened.
type caller struct {
	files Files
	last  *tls.Config
}

// config returns what the files have, for each connection again, since certificates live for hours only. While the
// files are not valid, such as between the replacement of one and the next, it returns what they had before. It is nil
// without files.
func (c *caller) config() (*tls.Config, error) {
	if c.files == (Files{}) {
		return nil, nil
	}
	read, err := c.files.read()
	if err != nil && c.last == nil {
		return nil, err
	}
	if err == nil {
		c.last = read
	}
	return c.last, nil
}
