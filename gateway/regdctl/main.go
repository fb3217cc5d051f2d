// Command regdctl is the command line for operators of regd. docs/CTL.md describes it.
package main

import (
	"context"
	"errors"
	"flag"
	"fmt"
	"io"
	"os"
	"os/signal"
	"strings"
	"syscall"

	"regd/gateway/client"
)

// The exit statuses. Each error of a command has one.
const (
	statusDone    = 0
	statusFailed  = 1 // no connection, or a file can't be read or written
	statusInvalid = 2 // an invalid command line or file
	statusRefused = 3 // the server refused
	statusNo      = 4 // the answer is no
	statusUnknown = 5 // it is unknown whether a change was made
)

// errNo says that the answer of a command is no. The command has printed it.
var errNo = errors.New("no")

// errLineRefused says that the server refused a line of `call`, whose answer was printed.
var errLineRefused = errors.New("refused")

// invalid is a mistake in a command line or in a file of the caller's.
type invalid struct{ text string }

func (i *invalid) Error() string { return i.text }

func invalidf(format string, values ...any) error { return &invalid{fmt.Sprintf(format, values...)} }

func main() {
	ctx, stop := signal.NotifyContext(context.Background(), syscall.SIGINT, syscall.SIGTERM)
	status := run(ctx, os.Args[1:], os.Stdin, os.Stdout, os.Stderr, os.LookupEnv)
	stop()
	os.Exit(status)
}

// run runs a command and returns its exit status.
func run(ctx context.Context, words []string, in io.Reader, out, errs io.Writer, env lookup) int {
	s := &session{in: in, out: out, errs: errs}
	err := s.prepare(words, env)
	if err == nil && s.runner != nil {
		err = s.work(ctx)
	}
	return s.report(err)
}

// A session is one call of the program.
type session struct {
	in        io.Reader
	out, errs io.Writer
	settings  settings
	command   *command
	runner    runner
	// arguments are the words that are no flags.
	arguments []string
	base, ctx context.Context // of the program, and of the work that -timeout limits
	client    *client.Client
	progress  progress
	failure   error // the first text that could not be printed
}

// prepare reads the command line. Without a runner afterwards everything was printed.
func (s *session) prepare(words []string, env lookup) error {
	s.settings.fromVariables(env)
	flags := s.newFlags("regdctl")
	isVersion := flags.Bool("version", false, "print the version")
	if err := s.parse(flags, words, false); err != nil {
		return s.helped(err, helpText())
	}
	words = s.arguments
	switch {
	case *isVersion:
		return s.print(versionText())
	case len(words) == 0:
		return &invalid{"a command is missing\n\n" + helpText()}
	case words[0] == "help":
		return s.help(words[1:])
	case words[0] == completeWord:
		return s.complete(words[1:], env)
	}
	c, rest, err := findCommand(words)
	if err != nil {
		return err
	}
	s.command = c
	flags = s.newFlags("regdctl " + c.name)
	runner := c.define(flags)
	if err := s.parse(flags, rest, true); err != nil {
		return s.helped(err, commandText(c))
	}
	if err := s.settings.check(); err != nil {
		return err
	}
	s.runner = runner
	return nil
}

// helped prints a text if the command line asks for help.
func (s *session) helped(err error, text string) error {
	if errors.Is(err, flag.ErrHelp) {
		return s.print(text)
	}
	return err
}

func (s *session) newFlags(name string) *flag.FlagSet {
	flags := flag.NewFlagSet(name, flag.ContinueOnError)
	flags.SetOutput(io.Discard) // errors are printed at the end, with what to do
	s.settings.define(flags)
	return flags
}

// parse reads flags, and stores the other words. With isMixed flags may follow other words.
func (s *session) parse(flags *flag.FlagSet, words []string, isMixed bool) error {
	s.arguments = nil
	for {
		if err := flags.Parse(words); errors.Is(err, flag.ErrHelp) {
			return err
		} else if err != nil {
			return invalidf("%s\n  cure:   see `%s -h`", flagError(err), flags.Name())
		}
		s.settings.note(flags)
		words = flags.Args()
		if !isMixed || len(words) == 0 {
			s.arguments = append(s.arguments, words...)
			return nil
		}
		s.arguments = append(s.arguments, words[0])
		words = words[1:]
	}
}

// flagError adds to an unknown flag what it means in SPIRE.
func flagError(err error) string {
	text := err.Error()
	for _, name := range []string{"admin", "downstream", "dns", "storeSVID"} {
		if strings.HasSuffix(text, "not defined: -"+name) {
			return fmt.Sprintf("the book has no column for -%s of SPIRE, so it can't be kept", name)
		}
	}
	return text
}

// work connects and runs the command.
func (s *session) work(ctx context.Context) error {
	s.base = ctx
	defer s.limit()()
	s.client = client.New(s.options(s.settings.addresses()))
	s.progress.start(s.errs)
	defer s.client.Close()
	return s.runner(s)
}

// limit begins the time of -timeout. It returns what ends it.
func (s *session) limit() context.CancelFunc {
	limited, cancel := context.WithTimeout(s.base, s.settings.wait)
	s.ctx = limited
	return cancel
}

// options returns what a client of these addresses needs.
func (s *session) options(addresses []string) client.Options {
	options := client.Options{Addresses: addresses, Files: s.settings.files()}
	options.Notice = func(text string) { s.warn("regdctl: %s", text) }
	options.Read = s.progress.read
	if s.settings.record != "" {
		options.Committed = s.record
	}
	if s.settings.isTraced {
		options.Trace = func(isSent bool, line []byte) {
			mark := "<"
			if isSent {
				mark = ">"
			}
			s.warn("%s %s", mark, line)
		}
	}
	if s.settings.output == "lines" {
		options.Replied = func(line []byte) { s.note(s.print(string(line) + "\n")) }
	}
	return options
}

// fresh returns a client of the addresses whose answers miss no change that was answered before, if such are known.
func (s *session) fresh() *client.Client {
	if s.settings.fresh == "" {
		return s.client
	}
	s.client.Close()
	s.client = client.New(s.options(strings.Split(s.settings.fresh, ",")))
	return s.client
}

// warn prints a line on standard error.
func (s *session) warn(format string, values ...any) {
	s.progress.clear()
	_, err := fmt.Fprintf(s.errs, format+"\n", values...)
	s.note(err)
}

// print prints a text on standard output.
func (s *session) print(text string) error {
	_, err := io.WriteString(s.out, text)
	return err
}

// note records that a text could not be printed. The program goes on, and ends with a failure.
func (s *session) note(err error) {
	if s.failure == nil {
		s.failure = err
	}
}
