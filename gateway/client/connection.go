package client

import (
	"bufio"
	"context"
	"crypto/tls"
	"crypto/x509"
	"errors"
	"fmt"
	"io"
	"net"
	"time"
)

// A connection to a server. Its lines are answered one after another.
type connection struct {
	stream   net.Conn
	in       *bufio.Reader
	answered bool
}

// dial connects to an address, by TLS if there is a configuration.
func dial(ctx context.Context, address string, config *tls.Config) (net.Conn, error) {
	if config == nil {
		return (&net.Dialer{}).DialContext(ctx, "tcp", address)
	}
	return (&tls.Dialer{Config: config}).DialContext(ctx, "tcp", address)
}

func (c *connection) close() {
	c.stream.Close() // its answers have been read, or no caller waits for them
}

// interruptible makes reads and writes fail when the context ends, until the returned function is called. From then on
// the end of the context has no effect, also if it comes immediately.
func (c *connection) interruptible(ctx context.Context) (end func()) {
	ended, gone := make(chan struct{}), make(chan struct{})
	go func() {
		defer close(gone)
		select {
		case <-ctx.Done():
			c.stream.Close() // a read under way then ends with an error
		case <-ended:
		}
	}()
	return func() {
		close(ended)
		<-gone
	}
}

// exchange sends a line and returns its answer, which has to come before the deadline. isSent is false only if nothing
// of the line can have reached the server.
func (c *connection) exchange(ctx context.Context, line []byte, deadline time.Time) (
	answer []byte, isSent bool, err error) {
	defer c.interruptible(ctx)()
	if err := c.stream.SetDeadline(deadline); err != nil {
		return nil, false, err
	}
	text := make([]byte, 0, len(line)+1)
	text = append(append(text, line...), '\n')
	if n, err := c.stream.Write(text); err != nil {
		return nil, n > 0, err
	}
	answer, err = c.in.ReadBytes('\n')
	if errors.Is(err, io.EOF) {
		err = errors.New("the server ended the connection before its answer")
	}
	if err != nil { // an alert on a new connection ends its handshake, so the line was not read
		return nil, c.answered || !isAlert(err), err
	}
	c.answered = true
	return answer[:len(answer)-1], true, nil
}

// unusable says that the files of the caller can't be used.
type unusable struct{ error }

func (u *unusable) Unwrap() error { return u.error }

// isAlert returns true if the server has ended the handshake, such as because it doesn't accept the certificate.
func isAlert(err error) bool {
	var remote *net.OpError
	return errors.As(err, &remote) && remote.Op == "remote error"
}

// isPermanent returns true if an error of a connection stays as long as addresses and certificates do.
func isPermanent(err error) bool {
	var files *unusable
	var authority x509.UnknownAuthorityError
	var name x509.HostnameError
	var invalid x509.CertificateInvalidError
	var record tls.RecordHeaderError
	var address *net.AddrError
	return errors.As(err, &files) || errors.As(err, &authority) || errors.As(err, &name) ||
		errors.As(err, &invalid) ||
		errors.As(err, &record) || errors.As(err, &address) || isAlert(err)
}

// explained adds to an error of TLS what an operator can do.
func explained(address string, err error) error {
	var record tls.RecordHeaderError
	switch {
	case errors.As(err, &record):
		return fmt.Errorf("%s: %w (the server may speak plain TCP: leave -keys out)", address, err)
	case isAlert(err):
		return fmt.Errorf("%s: the server refuses the certificate: %w", address, err)
	}
	return fmt.Errorf("%s: %w", address, err)
}
