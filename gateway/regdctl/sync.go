package main

import (
	"context"
	"crypto/tls"
	"crypto/x509"
	"errors"
	"flag"
	"fmt"
	"io"
	"net/http"
	"os"
	"strings"
	"time"

	"regd/gateway/book"
	"regd/gateway/client"
	"regd/gateway/document"
)

// errSync says that some bundles could not be fetched or set. They were named.
var errSync = errors.New("not all bundles are up to date")

const (
	mostText   = 65536 // bytes of a bundle
	fetchLimit = 20 * time.Second
)

// syncBundles fetches the bundles of partners, and sets those that differ.
func syncBundles(flags *flag.FlagSet) runner {
	roots := flags.String("roots", "", "a `file` with further authorities of the servers that have the bundles")
	isDry := flags.Bool("dry-run", false, "fetch and compare, and change nothing")
	return func(s *session) error {
		if err := s.argumentCount(1, 1); err != nil {
			return err
		}
		places, err := s.readPlaces(s.arguments[0])
		if err != nil {
			return err
		}
		fetcher, err := fetcherOf(*roots)
		if err != nil {
			return err
		}
		rows, isFailed := [][]string{{"TRUST DOMAIN", "RESULT"}}, false
		results := map[string]string{}
		for _, m := range places.Members {
			result, err := s.syncBundle(fetcher, m.Key, m.Value.Text, *isDry)
			if err != nil {
				isFailed, result = true, "failed: "+err.Error()
			}
			results[m.Key] = result
			rows = append(rows, []string{m.Key, result})
		}
		err = s.show(map[string]any{"bundles": results}, func() string { return table(rows) })
		if err == nil && isFailed {
			err = errSync
		}
		return err
	}
}

// readPlaces reads a file with an address for each trust domain.
func (s *session) readPlaces(name string) (*document.Node, error) {
	text, err := s.readFile(name)
	if err != nil {
		return nil, err
	}
	places, err := document.Read(text)
	if err != nil {
		return nil, invalidf("%s: %v", name, err)
	}
	if places.Kind != document.Map {
		return nil, invalidf("%s: %v", name, places.As("a mapping from trust domains to addresses"))
	}
	for _, m := range places.Members {
		if m.Value.Kind != document.Text || !strings.HasPrefix(m.Value.Text, "https://") {
			return nil, invalidf("%s: %v", name, m.Value.As("an address that begins with https://"))
		}
	}
	return places, nil
}

// fetcherOf returns a client of HTTPS that follows no redirection to another scheme.
func fetcherOf(roots string) (*http.Client, error) {
	config := &tls.Config{MinVersion: tls.VersionTLS12}
	if roots != "" {
		text, err := os.ReadFile(roots)
		if err != nil {
			return nil, err
		}
		if config.RootCAs, err = x509.SystemCertPool(); err != nil {
			return nil, err
		}
		if !config.RootCAs.AppendCertsFromPEM(text) {
			return nil, invalidf("%s has no certificate", roots)
		}
	}
	check := func(request *http.Request, via []*http.Request) error {
		if request.URL.Scheme != "https" || len(via) > 3 {
			return errors.New("redirected too often, or to an address without https")
		}
		return nil
	}
	return &http.Client{Transport: &http.Transport{TLSClientConfig: config, Proxy: http.ProxyFromEnvironment},
		Timeout: fetchLimit, CheckRedirect: check}, nil
}

// syncBundle fetches a bundle, and sets it if it differs. It says what it did.
func (s *session) syncBundle(fetcher *http.Client, domain, address string, isDry bool) (string, error) {
	text, err := fetch(s.ctx, fetcher, address)
	if err != nil {
		return "", err
	}
	if fault := book.FaultOfBundle(text); fault != "" {
		return "", errors.New(fault)
	}
	answer, err := s.client.Ask(s.ctx, client.ShowBundle(domain))
	if err != nil {
		return "", err
	}
	before := answer.Replies[0].Bundle
	switch {
	case before != nil && before.Text == text:
		return "unchanged", nil
	case isDry:
		return "differs", nil
	}
	var sequence *uint64
	if before != nil {
		sequence = &before.Sequence
	}
	ops := []client.Op{client.SetBundle(domain, text)}
	condition := client.ExpectBundle(domain, sequence)
	isKnown, err := s.client.Expects(s.ctx, condition)
	if err != nil {
		return "", err
	}
	if isKnown {
		ops = append([]client.Op{condition}, ops...)
	}
	_, m, err := s.change(ops...)
	return strings.TrimSpace(m.text("set")), err
}

// fetch returns the text of an address.
func fetch(ctx context.Context, fetcher *http.Client, address string) (string, error) {
	request, err := http.NewRequestWithContext(ctx, http.MethodGet, address, nil)
	if err != nil {
		return "", err
	}
	answer, err := fetcher.Do(request)
	if err != nil {
		return "", err
	}
	text, err := io.ReadAll(io.LimitReader(answer.Body, mostText+1))
	if closed := answer.Body.Close(); err == nil {
		err = closed
	}
	switch {
	case err != nil:
		return "", err
	case answer.StatusCode != http.StatusOK:
		return "", fmt.Errorf("%s: %s", address, answer.Status)
	case len(text) > mostText:
		return "", fmt.Errorf("%s has more than %d bytes", address, mostText)
	}
	return string(text), nil
}
