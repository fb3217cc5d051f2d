package server

import (
	"crypto/x509"
	"encoding/asn1"
	"regexp"
	"strings"
)

// callerOf returns the SPIFFE ID of a certificate, or "". A certificate names a caller if its only URI is a SPIFFE ID
// of the gateway's own trust domain, as the specification of X.509-SVIDs requires. Otherwise the caller has no name,
// and may send nothing.
func callerOf(leaf *x509.Certificate, domain string) string {
	uris := urisOf(leaf)
	if len(uris) != 1 || leaf.IsCA || !IsCallerID(uris[0], domain) {
		return ""
	}
	return uris[0]
}

// nameExtension is the number of the extension with the alternative names of a certificate's subject, and uriTag is
// that of a URI among them.
var nameExtension = asn1.ObjectIdentifier{2, 5, 29, 17}

const uriTag = 6

// urisOf returns the URIs of a certificate as its authority has signed them. Those in leaf.URIs are parsed, and printed
// in another spelling.
func urisOf(leaf *x509.Certificate) (uris []string) {
	for _, extension := range leaf.Extensions {
		if !extension.Id.Equal(nameExtension) {
			continue
		}
		var names []asn1.RawValue
		rest, err := asn1.Unmarshal(extension.Value, &names)
		if err != nil || len(rest) > 0 {
			return nil
		}
		for _, name := range names {
			if name.Class == asn1.ClassContextSpecific && name.Tag == uriTag {
				uris = append(uris, string(name.Bytes))
			}
		}
	}
	return uris
}

// mostID is the most bytes of a SPIFFE ID.
const mostID = 2048

// segments are those of the path of a SPIFFE ID, each after a slash.
var segments = regexp.MustCompile(`^(/[a-zA-Z0-9._-]+)+$`)

// IsCallerID returns true if a text is a SPIFFE ID of a trust domain, with a path, by the rules of regd, which has one
// text for each name.
func IsCallerID(text, domain string) bool {
	path := strings.TrimPrefix(text, "spiffe://"+domain)
	if path == text || len(text) > mostID || !segments.MatchString(path) {
		return false
	}
	for _, segment := range strings.Split(path, "/") {
		if segment == "." || segment == ".." {
			return false
		}
	}
	return true
}
