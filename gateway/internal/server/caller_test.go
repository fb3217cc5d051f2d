package server

import (
	"crypto/x509"
	"crypto/x509/pkix"
	"encoding/asn1"
	"fmt"
	"math/big"
	"strings"
	"testing"
	"time"
)

const (
	n1 = "spiffe://ex.org/spire/agent/n1"
	n2 = "spiffe://ex.org/spire/agent/n2"
)

func TestCallerOf(t *testing.T) {
	a := newAuthority(t)
	operators := []string{"spiffe://ex.org/operator"}
	named := a.leaf("c", "spiffe://ex.org/operator")
	named.IsCA, named.BasicConstraintsValid = true, true
	signed, _ := a.sign("authority", named, a)
	for _, c := range []struct {
		name string
		cert *x509.Certificate
		id   string
	}{
		{"an empty fragment", a.unparsed("spiffe://ex.org/operator#"), ""},
		{"a URI that is an ID", a.unparsed("spiffe://ex.org/longer"), "spiffe://ex.org/longer"},
		{"another spelling of the scheme", a.unparsed("SPIFFE://ex.org/operator"), ""},
		{"an ID of another trust domain", a.leaf("t", "spiffe://example.org/operator"), ""},
		{"an ID of a longer trust domain", a.leaf("u", "spiffe://ex.org.evil.org/operator"), ""},
		{"an operator", a.leaf("o", "spiffe://ex.org/operator"), "spiffe://ex.org/operator"},
		{"an agent", a.leaf("n", n1), n1},
		{"a longer name", a.leaf("l", "spiffe://ex.org/operator2"), "spiffe://ex.org/operator2"},
		{"no URI", a.leaf("e"), ""},
		{"two URIs", a.leaf("d", "spiffe://ex.org/operator", n1), ""},
		{"another scheme", a.leaf("h", "https://ex.org/operator"), ""},
		{"an authority", signed, ""},
	} {
		id := callerOf(c.cert, "ex.org")
		isOperator := RolesOf(operators).Of(id).Kind == Operator
		if id != c.id || isOperator != (c.name == "an operator") {
			t.Errorf("%s: got %s, %v", c.name, id, isOperator)
		}
	}
	if id := callerOf(a.leaf("e"), "ex.org"); id != "" || RolesOf([]string{""}).Of(id).Kind != NoRole {
		t.Error("a caller without a name is an operator")
	}
}

// sanOf returns the extension with a URI as a certificate's only alternative name, unchanged.
func sanOf(t *testing.T, uri string) pkix.Extension {
	t.Helper()
	names := []asn1.RawValue{{Class: asn1.ClassContextSpecific, Tag: uriTag, Bytes: []byte(uri)}}
	value, err := asn1.Marshal(names)
	if err != nil {
		t.Fatal(err)
	}
	return pkix.Extension{Id: nameExtension, Value: value}
}

// unparsed returns a certificate with a URI that is not parsed before it is signed.
func (a *authority) unparsed(uri string) *x509.Certificate {
	template := &x509.Certificate{
		SerialNumber: big.NewInt(5), NotBefore: time.Now().Add(-time.Hour), NotAfter: time.Now().Add(time.Hour),
		ExtraExtensions: []pkix.Extension{sanOf(a.t, uri)}}
	cert, _ := a.sign("unparsed", template, a)
	return cert
}

// TestIsCallerID checks which texts are IDs of callers: those of the trust domain with a path that regd accepts.
func TestIsCallerID(t *testing.T) {
	long := "spiffe://ex.org/" + strings.Repeat("x", mostID-len("spiffe://ex.org/"))
	for id, want := range map[string]bool{
		"spiffe://ex.org/operator": true, n1: true, "spiffe://ex.org/A-b_c.9/...": true, long: true,
		long + "x": false, "": false, "spiffe://ex.org": false, "spiffe://ex.org/": false,
		"spiffe://ex.org/a/": false, "spiffe://ex.org//a": false, "spiffe://ex.org/a/.": false,
		"spiffe://ex.org/../a": false, "spiffe://ex.org/a#": false, "spiffe://ex.org/a?b": false,
		"spiffe://ex.org/%61": false, "spiffe://ex.org:443/a": false, "spiffe://u@ex.org/a": false,
		"SPIFFE://ex.org/a": false, "spiffe://EX.org/a": false, " spiffe://ex.org/a": false,
		"spiffe://ex.org/a\n": false, "spiffe://other.org/a": false, "spiffe://ex.organ/a": false,
		"spiffe://ex.org/é": false, "https://ex.org/a": false,
	} {
		if IsCallerID(id, "ex.org") != want {
			t.Errorf("%.60q: got %v", id, !want)
		}
	}
}

// TestCallers checks what callers with certificates may send, and that a connection outlives the time for a handshake.
func TestCallers(t *testing.T) {
	t.Parallel()
	s := newSite(t)
	s.limits.Handshake = 4 * time.Second
	_, dial := s.secured(n2)
	trust := `{"ops":[{"op":"trust","agent":"` + n1 + `"}]}`
	for _, c := range []struct {
		name string
		uris []string
		line string
		want string
	}{
		{"an agent", []string{n1}, trust, answered(1, 0)},
		{"an agent with a change", []string{n1}, prune, `{"code":"G1","line":1}`},
		{"another agent", []string{n1 + "0"}, trust, `{"code":"G1","line":1}`},
		{"nobody", nil, trust, `{"code":"G1","line":1}`},
		{"an operator", []string{n2}, show, answered(1, 0)},
		{"an operator with a change", []string{n2}, prune, committed(1, 1)},
	} {
		conn, in := dial(c.uris...)
		fmt.Fprintln(conn, c.line)
		got, err := in.ReadString('\n')
		s.expect(c.name, []string{got}, c.want+"\n")
		if c.name == "an operator" {
			time.Sleep(s.limits.Handshake * 3 / 2)
			fmt.Fprintln(conn, c.line)
			got, err = in.ReadString('\n')
			s.expect(c.name+" after the time for a handshake", []string{got}, answered(2, 0)+"\n")
		}
		if err != nil {
			t.Errorf("%s: %v", c.name, err)
		}
	}
}
