// Command regd-gateway puts many callers, several machines and a durable log in front of regd. docs/GATEWAY.md
// describes it.
package main

import (
	"context"
	"crypto/sha256"
	"errors"
	"flag"
	"fmt"
	"net"
	"net/url"
	"os"
	"os/exec"
	"os/signal"
	"strings"
	"syscall"

	"regd/gateway/internal/audit"
	"regd/gateway/internal/etcd"
	"regd/gateway/internal/logline"
	"regd/gateway/internal/replica"
	"regd/gateway/internal/server"
	"regd/gateway/internal/snapshot"
	"regd/gateway/internal/wire"
)

// sumVersion changes with the way in which replies make a checksum. Votes have it in front of the version of the
// replies.
const sumVersion = "2"

// tokenFactor is how many times the time for an answer tokens are retained. A caller may wait as long for an answer,
// and then send its change again several times.
const tokenFactor = 15

type settings struct {
	server.Options
	members               []string
	etcdFiles, prefix     string
	listen, fresh, status string
	files                 server.Files
	isSnapshot, isVersion bool
	isConversion          bool
	roles                 string
	audit                 string
	auditBytes            int64
	auditFiles            int
	keep                  uint64
	skip                  etcd.Line
}

// parse reads the command line, and prints what is wrong with it.
func parse(words []string) (s settings, err error) {
	flags := flag.NewFlagSet("regd-gateway", flag.ContinueOnError)
	given := addOptions(flags, &s)
	addLimits(flags, &s.Limits)
	if err := flags.Parse(words); err != nil {
		return s, err
	}
	if s.isVersion && flags.NArg() == 0 {
		return s, nil
	}
	err = s.take(given)
	if err == nil && flags.NArg() > 0 {
		err = fmt.Errorf("an unknown word: %s", flags.Arg(0))
	}
	if err == nil {
		err = s.check()
	}
	if err != nil {
		fmt.Fprintln(flags.Output(), "regd-gateway:", err)
	}
	return s, err
}

// texts are options that are read further.
type texts struct{ members, operators, roles, skip *string }

// addOptions adds the options but for limits.
func addOptions(flags *flag.FlagSet, s *settings) (given texts) {
	flags.StringVar(&s.Replica.Domain, "domain", "", "the trust `domain` (required)")
	given.members = flags.String("etcd", "http://127.0.0.1:2379",
		"the `URLs` of etcd's members, separated by commas")
	flags.StringVar(&s.etcdFiles, "etcd-files", "",
		"a `folder` with ca.pem, cert.pem and key.pem, for etcd over https")
	flags.StringVar(&s.prefix, "prefix", "regd/", "the prefix of all keys in etcd, which ends with a slash")
	flags.StringVar(&s.Replica.Program, "regd", "regd", "the `program` regd")
	flags.IntVar(&s.Replica.Workers, "workers", 4,
		"workers of regd, 2 to 32: one for changes, the others for queries")
	flags.StringVar(&s.Name, "name", "", "the `name` of this gateway, which stays the same "+
		"and is no other gateway's (default: the host and -listen)")
	flags.StringVar(&s.listen, "listen", "127.0.0.1:0", "the `address` for callers")
	flags.StringVar(&s.fresh, "fresh", "",
		"the `address` for callers whose queries see every change that was answered before")
	flags.StringVar(&s.status, "status", "", "the `address` of /status, /metrics and /ready over HTTP")
	flags.StringVar(&s.files.Certificate, "certificate", "",
		"TLS: the `file` of this gateway's certificate; all three are read again when they change")
	flags.StringVar(&s.files.Key, "key", "", "TLS: the `file` of its key")
	flags.StringVar(&s.files.Authorities, "authorities", "", "TLS: the `file` of the authorities of callers")
	given.operators = flags.String("operators", "",
		"TLS: the SPIFFE `IDs` of callers that may send every line, separated by commas")
	flags.DurationVar(&s.TokenTime, "token-time", 0,
		"how long tokens are retained, by the times of the log (default: 15 times -limit-answer)")
	flags.Int64Var(&s.TokenBytes, "token-bytes", replica.UsualRoom,
		"bytes that retained tokens may take, beyond which changes with other tokens are refused")
	flags.StringVar(&s.audit, "audit", "", "the `file` for a record of all changes, or - for standard output")
	flags.Int64Var(&s.auditBytes, "audit-bytes", 64<<20, "bytes of the file, after which another one begins")
	flags.IntVar(&s.auditFiles, "audit-files", 9, "how many former files are kept")
	given.roles = flags.String("roles", "",
		"TLS: a `file` with the roles of callers, in place of -operators; it is read again when it changes")
	flags.BoolVar(&s.isVersion, "version", false, "print the version, and exit")
	flags.BoolVar(&s.isConversion, "convert", false,
		"make a log of format 2 from one of format 1, while all gateways are stopped, and exit")
	flags.BoolVar(&s.isSnapshot, "snapshot", false, "make a snapshot, cut the log behind it, and exit")
	given.skip = flags.String("skip", "",
		"make all replicas leave out a `line`, given as the number of its entry, a point, "+
			"and its number there, and exit")
	flags.StringVar(&s.Replies, "replies", "1",
		"a `version`: gateways with the same one have to give the same replies")
	flags.Uint64Var(&s.keep, "keep", 10000, "with -snapshot: how many entries stay in the log")
	return given
}

// take reads the options that are lists, or a line, and chooses the default name.
func (s *settings) take(given texts) error {
	s.members, s.roles = strings.Split(*given.members, ","), *given.roles
	if *given.operators != "" {
		s.Operators = strings.Split(*given.operators, ",")
	}
	if *given.skip != "" {
		line, isLine := etcd.ParseLine(*given.skip)
		if !isLine {
			return errors.New("-skip takes a line, such as 17.1")
		}
		s.skip = line
	}
	if s.TokenTime == 0 {
		s.TokenTime = tokenFactor * s.Limits.Answer
	}
	if s.Name != "" {
		return nil
	}
	host, err := os.Hostname()
	s.Name = host + "/" + s.listen
	return err
}

// check returns an error if the options don't go together.
func (s *settings) check() error {
	isTLS := s.files != server.Files{}
	isLocal := isLoopback(s.listen) && (s.fresh == "" || isLoopback(s.fresh))
	switch {
	case s.Replica.Domain == "":
		return errors.New("-domain is required")
	case s.Replica.Workers < 2 || s.Replica.Workers > 32:
		return errors.New("-workers is not 2 to 32")
	case !s.Limits.IsValid():
		return fmt.Errorf("a limit is negative, or 0 although it is needed, or -limit-line-bytes is above %d",
			server.UsualLimits.LineBytes)
	case isTLS && (s.files.Certificate == "" || s.files.Key == "" || s.files.Authorities == ""):
		return errors.New("TLS takes -certificate, -key and -authorities")
	case !isTLS && (len(s.Operators) > 0 || s.roles != ""):
		return errors.New("-operators and -roles need TLS")
	case len(s.Operators) > 0 && s.roles != "":
		return errors.New("-roles takes the place of -operators")
	case !isTLS && !isLocal:
		return errors.New("without TLS the gateway listens on loopback addresses alone")
	case s.TokenTime < s.Limits.Answer || s.TokenBytes <= 0:
		return errors.New("-token-time is less than -limit-answer, or -token-bytes is not above 0")
	case s.auditBytes <= 0 || s.auditFiles < 0:
		return errors.New("-audit-bytes is not above 0, or -audit-files is below it")
	case !strings.HasSuffix(s.prefix, "/"):
		return errors.New("-prefix doesn't end with a slash")
	}
	for _, operator := range s.Operators {
		if !server.IsCallerID(operator, s.Replica.Domain) {
			return fmt.Errorf("-operators has %q, which is no SPIFFE ID of a caller in %s",
				operator, s.Replica.Domain)
		}
	}
	return s.checkMembers()
}

// checkMembers returns an error unless all members of etcd are URLs of an address and nothing else. Without TLS they
// are on this machine.
func (s *settings) checkMembers() error {
	for _, member := range s.members {
		parsed, err := url.Parse(member)
		isURL := err == nil && parsed.Port() != "" && member == parsed.Scheme+"://"+parsed.Host
		switch {
		case !isURL || parsed.Scheme != "http" && parsed.Scheme != "https":
			return fmt.Errorf("-etcd has %q, which is no URL such as https://10.0.0.1:2379", member)
		case parsed.Scheme == "http" && s.etcdFiles != "":
			return fmt.Errorf("-etcd-files needs https, and -etcd has %s", member)
		case parsed.Scheme == "http" && !isLoopback(parsed.Host):
			return fmt.Errorf("without TLS etcd is on loopback addresses alone, and -etcd has %s", member)
		}
	}
	return nil
}

// addLimits adds the options for limits.
func addLimits(flags *flag.FlagSet, l *server.Limits) {
	*l = server.UsualLimits
	flags.DurationVar(&l.Answer, "limit-answer", l.Answer, "the time for an answer, after which a connection ends")
	flags.DurationVar(&l.After, "limit-after", l.After,
		"the time that a query waits for the commit number in its after")
	flags.DurationVar(&l.Handshake, "limit-handshake", l.Handshake, "the time for a TLS handshake")
	flags.DurationVar(&l.Idle, "limit-idle", l.Idle, "the time between two lines of a connection")
	flags.DurationVar(&l.Line, "limit-line", l.Line, "the time from the first byte of a line to its last one")
	flags.DurationVar(&l.Write, "limit-write", l.Write,
		"the time for a caller to read when its answers fill all buffers")
	flags.DurationVar(&l.Silent, "limit-silent", l.Silent,
		"the time without an answer of etcd, after which queries are refused; 0 for none")
	flags.DurationVar(&l.Stop, "limit-stop", l.Stop, "the time for lines that are under way after SIGTERM")
	flags.IntVar(&l.Lag, "limit-lag", l.Lag,
		"entries of the log that are not executed, beyond which queries are refused; 0 for none")
	flags.IntVar(&l.LineBytes, "limit-line-bytes", l.LineBytes, "bytes of a line")
	flags.IntVar(&l.Lines, "limit-lines", l.Lines, "lines of a connection that are under way")
	flags.IntVar(&l.Listings, "limit-listings", l.Listings,
		"operations page, children, authorised and trust in a query")
	flags.IntVar(&l.LongLines, "limit-long-lines", l.LongLines,
		"lines of over 8 KiB, of all connections, that are under way")
	flags.IntVar(&l.Changes, "limit-changes", l.Changes, "changes that wait to be appended")
	flags.Int64Var(&l.ReplyBytes, "limit-reply-bytes", l.ReplyBytes, "bytes of all replies that are not yet sent")
	flags.IntVar(&l.Connections, "limit-connections", l.Connections, "connections")
	flags.IntVar(&l.CallerConnections, "limit-caller-connections", l.CallerConnections,
		"connections of one caller with a certificate")
	flags.IntVar(&l.Handshakes, "limit-handshakes", l.Handshakes, "TLS handshakes that are under way")
	flags.IntVar(&l.AddressHandshakes, "limit-address-handshakes", l.AddressHandshakes,
		"TLS handshakes of one address that are under way")
}

// isLoopback returns true if no other machine can connect to the address.
func isLoopback(address string) bool {
	host, _, err := net.SplitHostPort(address)
	ip := net.ParseIP(host)
	return err == nil && (host == "localhost" || ip != nil && ip.IsLoopback())
}

func main() {
	s, err := parse(os.Args[1:])
	if err != nil {
		os.Exit(2)
	}
	if s.isVersion {
		if _, err := fmt.Println("regd-gateway", version); err != nil {
			os.Exit(1)
		}
		return
	}
	ctx, stop := context.WithCancel(context.Background())
	signals := make(chan os.Signal, 1)
	signal.Notify(signals, syscall.SIGINT, syscall.SIGTERM)
	go func() {
		<-signals
		signal.Stop(signals) // so that a second signal ends the program immediately
		stop()
	}()
	if err := run(ctx, s); err != nil && ctx.Err() == nil {
		logline.Error("stopped", "error", err)
		os.Exit(statusOf(err))
	}
}

// statusOf returns the exit status for an error: 2 and 4 for those that another start doesn't cure.
func statusOf(err error) int {
	switch {
	case errors.Is(err, etcd.ErrDomain), errors.Is(err, etcd.ErrFormat), errors.Is(err, etcd.ErrOldFormat),
		errors.Is(err, etcd.ErrUnfinished), errors.Is(err, server.ErrNameTaken):
		return 2
	case errors.Is(err, server.ErrOutvoted):
		return 4
	}
	return 1
}

// openProgram opens the program regd, so that each replica runs this file, also when another one has taken its place.
func (s *settings) openProgram() (*os.File, error) {
	program, err := exec.LookPath(s.Replica.Program)
	if err != nil {
		return nil, err
	}
	file, err := os.Open(program)
	if err != nil {
		return nil, err
	}
	s.Replica.Program = fmt.Sprintf("/proc/%d/fd/%d", os.Getpid(), file.Fd())
	text, err := os.ReadFile(s.Replica.Program)
	if err != nil {
		file.Close()
		return nil, err
	}
	s.Program, s.Replies = fmt.Sprintf("%.8x", sha256.Sum256(text)), sumVersion+"-"+s.Replies
	return file, nil
}

// run runs a command, or the gateway until the context ends or an error stops it.
func run(ctx context.Context, s settings) error {
	file, err := s.openProgram()
	if err != nil {
		return err
	}
	defer file.Close()
	s.Callers, err = s.files.Load()
	if err != nil {
		return err
	}
	s.Etcd, err = server.FilesIn(s.etcdFiles).Load()
	if err != nil {
		return err
	}
	var dial etcd.Dial
	if s.Etcd != nil {
		dial = s.Etcd.Dial
	}
	log := etcd.New(s.members, s.prefix, dial)
	if s.isCommand() {
		return s.command(ctx, log)
	}
	return s.runGateway(ctx, log)
}

// isCommand returns true if the options say what to do in place of serving.
func (s *settings) isCommand() bool { return s.isConversion || s.isSnapshot || s.skip != etcd.Line{} }

// command does what the options say.
func (s *settings) command(ctx context.Context, log *etcd.Log) error {
	if s.isConversion {
		return snapshot.Convert(ctx, log, s.Replica.Domain)
	}
	err := log.Open(ctx, s.Replica.Domain)
	switch {
	case err != nil:
		return err
	case s.isSnapshot:
		return snapshot.Make(ctx, log, s.Replica, s.keep)
	}
	return snapshot.Skip(ctx, log, s.skip, wire.NewID())
}

// runGateway serves callers.
func (s *settings) runGateway(ctx context.Context, log *etcd.Log) error {
	if s.audit != "" {
		record, err := audit.Open(s.audit, s.auditBytes, s.auditFiles)
		if err != nil {
			return err
		}
		s.Audit = record
	}
	if s.roles != "" {
		roles, err := server.LoadRoles(s.roles, s.Replica.Domain)
		if err != nil {
			return err
		}
		s.Roles = roles
	}
	g := server.New(log, s.Options)
	if s.status != "" { // also while etcd doesn't answer
		on, err := net.Listen("tcp", s.status)
		if err != nil {
			return err
		}
		go func() { logline.Error("the status is no longer served", "error", g.ServeStatus(on)) }()
	}
	err := log.Open(ctx, s.Replica.Domain)
	if err != nil {
		return err
	}
	work, end := context.WithCancel(context.Background())
	defer end()
	go func() {
		<-ctx.Done()
		logline.Info("stopping")
		late, cancel := context.WithTimeout(work, s.Limits.Stop)
		defer cancel()
		g.Shutdown(late)
		end()
	}()
	return g.Run(work, func(ctx context.Context) error { return serve(ctx, g, *s) })
}

// serve accepts callers, and prints their address.
func serve(ctx context.Context, g *server.Gateway, s settings) error {
	on, err := net.Listen("tcp", s.listen)
	if err != nil {
		return err
	}
	ended := make(chan error, 2)
	if s.fresh != "" {
		on, err := net.Listen("tcp", s.fresh)
		if err != nil {
			return err
		}
		go func() { ended <- g.Serve(ctx, on, true) }()
	}
	go func() { ended <- g.Serve(ctx, on, false) }()
	fmt.Printf("{\"listening\":\"%s\"}\n", on.Addr())
	return <-ended
}
