package main

import (
	"flag"
	"path/filepath"
	"strings"
	"time"

	"regd/gateway/client"
)

// A lookup returns a variable of the environment.
type lookup func(name string) (value string, isSet bool)

// settings are what every command has: where the server is, and how to print.
type settings struct {
	address, fresh, keys          string
	certificate, key, authorities string
	domain, timeout, output       string
	record                        string
	isTraced                      bool

	wait    time.Duration
	sources map[string]string // of settings that are not the usual ones, by their flags
}

// A setting has a flag and a variable.
type setting struct {
	name, usual, about string
	value              func(*settings) *string
}

var allSettings = []setting{
	{"address", "127.0.0.1:8471", "the `addresses` of servers or gateways of one book, separated by commas",
		func(s *settings) *string { return &s.address }},
	{"fresh", "", "the `addresses` of gateways' ports of -fresh, for commands that read the whole book",
		func(s *settings) *string { return &s.fresh }},
	{"keys", "", "TLS: a `folder` with cert.pem, key.pem and ca.pem", func(s *settings) *string { return &s.keys }},
	{"certificate", "", "TLS: the `file` of the certificate, in place of cert.pem",
		func(s *settings) *string { return &s.certificate }},
	{"key", "", "TLS: the `file` of its key, in place of key.pem", func(s *settings) *string { return &s.key }},
	{"authorities", "", "TLS: the `file` of the authorities of servers, in place of ca.pem",
		func(s *settings) *string { return &s.authorities }},
	{"domain", "", "the trust `domain`, for IDs that are given as /path",
		func(s *settings) *string { return &s.domain }},
	{"timeout", "30s", "the `time` for the whole command, with its retries",
		func(s *settings) *string { return &s.timeout }},
	{"output", "table", "the `format`: table (or pretty), json, yaml, or lines: the answers as they come",
		func(s *settings) *string { return &s.output }},
	{"record", "", "a `file` to which the lines of changes that were made are appended: a request log",
		func(s *settings) *string { return &s.record }},
}

// variable returns the name of a setting's variable.
func (s setting) variable() string { return "REGDCTL_" + strings.ToUpper(s.name) }

// fromVariables takes the usual values, and those of variables that are set.
func (s *settings) fromVariables(env lookup) {
	s.sources = map[string]string{}
	for _, one := range allSettings {
		*one.value(s) = one.usual
		if value, isSet := env(one.variable()); isSet && value != "" {
			*one.value(s) = value
			s.sources[one.name] = one.variable()
		}
	}
}

// define adds the flags. Values that are known already are their defaults.
func (s *settings) define(flags *flag.FlagSet) {
	for _, one := range allSettings {
		flags.StringVar(one.value(s), one.name, *one.value(s), one.about)
	}
	flags.BoolVar(&s.isTraced, "trace", s.isTraced, "print request and reply lines on standard error")
}

// note records which flags were given.
func (s *settings) note(flags *flag.FlagSet) {
	flags.Visit(func(f *flag.Flag) {
		for _, one := range allSettings {
			if one.name == f.Name {
				s.sources[f.Name] = "-" + f.Name
			}
		}
	})
}

// check reads the values.
func (s *settings) check() (err error) {
	if s.wait, err = time.ParseDuration(s.timeout); err != nil || s.wait <= 0 {
		return invalidf("-timeout is not a time such as 30s: %s", s.timeout)
	}
	if s.output == "pretty" {
		s.output = "table"
	}
	if !isOneOf(s.output, "table", "json", "yaml", "lines") {
		return invalidf("-output is table, json, yaml or lines, and not %s", s.output)
	}
	s.domain = strings.TrimPrefix(s.domain, "spiffe://")
	for _, address := range append(s.addresses(), strings.Split(s.fresh, ",")...) {
		if colon := strings.LastIndexByte(address, ':'); address != "" &&
			(colon <= 0 || colon == len(address)-1) {
			return invalidf("an address has a port, such as 127.0.0.1:8471: %s", address)
		}
	}
	if s.address == "" {
		return invalidf("-address is empty")
	}
	return nil
}

func (s *settings) addresses() []string { return strings.Split(s.address, ",") }

// files returns the files for TLS.
func (s *settings) files() client.Files {
	files := client.Files{Certificate: s.certificate, Key: s.key, Authorities: s.authorities}
	if s.keys == "" {
		return files
	}
	names := map[string]*string{"cert.pem": &files.Certificate, "key.pem": &files.Key, "ca.pem": &files.Authorities}
	for name, file := range names {
		if *file == "" {
			*file = filepath.Join(s.keys, name)
		}
	}
	return files
}

func isOneOf(word string, words ...string) bool {
	for _, other := range words {
		if word == other {
			return true
		}
	}
	return false
}

// showEnv prints each setting and where it comes from.
func showEnv(*flag.FlagSet) runner {
	return func(s *session) error {
		rows := [][]string{{"VARIABLE", "VALUE", "FROM"}}
		values := map[string]any{}
		for _, one := range allSettings {
			source := s.settings.sources[one.name]
			if source == "" {
				source = "the default"
			}
			value := *one.value(&s.settings)
			values[one.variable()] = map[string]string{"value": value, "from": source}
			rows = append(rows, []string{one.variable(), orDash(value), source})
		}
		return s.show(values, func() string { return table(rows) })
	}
}

func orDash(text string) string {
	if text == "" {
		return "-"
	}
	return text
}

// noArguments refuses words that are no flags.
func (s *session) noArguments() error { return s.argumentCount(0, 0) }

// argumentCount refuses too few and too many words.
func (s *session) argumentCount(least, most int) error {
	switch count := len(s.arguments); {
	case count < least:
		return invalidf("regdctl %s %s: an argument is missing", s.command.name, s.command.words)
	case count > most:
		return invalidf("regdctl %s: an unknown word: %s", s.command.name, s.arguments[most])
	}
	return nil
}
