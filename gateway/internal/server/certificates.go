package server

import (
	"context"
	"crypto/tls"
	"crypto/x509"
	"fmt"
	"net"
	"os"
	"path/filepath"
	"sync"
	"time"

	"regd/gateway/internal/etcd"
	"regd/gateway/internal/logline"
)

// Files names the certificate of this process, its key, and the authorities that sign the certificates of its peers.
type Files struct{ Certificate, Key, Authorities string }

// FilesIn names the files cert.pem, key.pem and ca.pem of a folder, or none if there is no folder.
func FilesIn(folder string) Files {
	if folder == "" {
		return Files{}
	}
	return Files{filepath.Join(folder, "cert.pem"), filepath.Join(folder, "key.pem"),
		filepath.Join(folder, "ca.pem")}
}

// load reads the files. A caller has to show a certificate at each handshake, and to speak TLS 1.3.
func (f Files) load() (*tls.Config, error) {
	pair, err := tls.LoadX509KeyPair(f.Certificate, f.Key)
	if err != nil {
		return nil, err
	}
	if pair.Leaf, err = x509.ParseCertificate(pair.Certificate[0]); err != nil {
		return nil, err
	}
	text, err := os.ReadFile(f.Authorities)
	if err != nil {
		return nil, err
	}
	pool, err := poolOf(text)
	if err != nil {
		return nil, fmt.Errorf("%s: %w", f.Authorities, err)
	}
	return &tls.Config{
		Certificates: []tls.Certificate{pair}, ClientCAs: pool, RootCAs: pool, SessionTicketsDisabled: true,
		ClientAuth: tls.RequireAnyClientCert, MinVersion: tls.VersionTLS13,
	}, nil
}

// stamp changes when one of the files does.
func (f Files) stamp() (stamp string) {
	for _, name := range []string{f.Certificate, f.Key, f.Authorities} {
		stamp += stampOf(name)
	}
	return stamp
}

// Certificates are what Files name. They are read again when the files change, since such certificates live for hours
// only. While the files are not valid, such as between the replacement of one and the next, the former ones stay in
// use.
type Certificates struct {
	files Files

	mu     sync.Mutex
	config *tls.Config
	stamp  string // of the files that config was read from
	fails  logline.Rare
}

// Load reads the files. It returns nil if none are named.
func (f Files) Load() (*Certificates, error) {
	if f == (Files{}) {
		return nil, nil
	}
	stamp := f.stamp()
	config, err := f.load()
	return &Certificates{files: f, config: config, stamp: stamp}, err
}

// current returns a configuration with the files as they are now, or as they were when they were valid. It must not be
// changed.
func (c *Certificates) current() *tls.Config {
	c.mu.Lock()
	defer c.mu.Unlock()
	if stamp := c.files.stamp(); stamp != c.stamp {
		if config, err := c.files.load(); err != nil {
			c.fails.Error("certificates not loaded", "certificate", c.files.Certificate, "error", err)
		} else {
			if config.ClientCAs.Equal(c.config.ClientCAs) { // then no session has to be looked at
				config.ClientCAs = c.config.ClientCAs
			}
			c.config, c.stamp = config, stamp
			logline.Info("certificates loaded", "certificate", c.files.Certificate,
				"expiry", config.Certificates[0].Leaf.NotAfter.UTC().Format(time.RFC3339))
		}
	}
	return c.config
}

// Server returns a configuration for a server. A caller has to show a certificate of the authorities.
func (c *Certificates) Server() *tls.Config {
	return &tls.Config{GetConfigForClient: func(*tls.ClientHelloInfo) (*tls.Config, error) {
		config := c.current().Clone()
		config.VerifyConnection = func(state tls.ConnectionState) error {
			return checkChain(state.PeerCertificates, config.ClientCAs, "", x509.ExtKeyUsageClientAuth)
		}
		return config, nil
	}}
}

// Dial opens a connection as a client, which also accepts TLS 1.2.
func (c *Certificates) Dial(ctx context.Context, network, address string) (net.Conn, error) {
	host, _, err := net.SplitHostPort(address)
	if err != nil {
		return nil, err
	}
	config := c.current().Clone()
	config.MinVersion = tls.VersionTLS12
	config.InsecureSkipVerify = true // VerifyConnection makes the check
	config.VerifyConnection = func(state tls.ConnectionState) error {
		return checkChain(state.PeerCertificates, config.RootCAs, host, x509.ExtKeyUsageServerAuth)
	}
	return (&tls.Dialer{NetDialer: etcd.Dialer, Config: config}).DialContext(ctx, network, address)
}

// Expiry returns when the certificate expires.
func (c *Certificates) Expiry() time.Time { return c.current().Certificates[0].Leaf.NotAfter }
