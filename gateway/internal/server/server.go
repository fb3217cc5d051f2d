// Package server answers request lines of regd for many callers: queries by a regd of its own, and changes through a
// log that all gateways share.
package server

import (
	"bufio"
	"context"
	"crypto/tls"
	"net"
	"reflect"
	"runtime"
	"runtime/debug"
	"sync"
	"sync/atomic"
	"time"

	"regd/gateway/internal/audit"
	"regd/gateway/internal/etcd"
	"regd/gateway/internal/logline"
	"regd/gateway/internal/replica"
	"regd/gateway/internal/wire"
)

// Limits bound how long a gateway waits, and what it accepts.
type Limits struct {
	Answer    time.Duration // for an answer, after which the connection ends
	After     time.Duration // for the commit number that a query names
	Handshake time.Duration // for the TLS handshake of a caller
	Idle      time.Duration // for a caller to begin a line
	Line      time.Duration // for the rest of the line
	Write     time.Duration // for a caller to read when its answers fill all buffers
	Silent    time.Duration // of etcd, after which queries are refused; 0 for none
	Stop      time.Duration // for lines that are under way when the gateway shuts down
	Votes     time.Duration // between two looks at the votes
	Members   time.Duration // between two looks at the members of etcd
	Status    time.Duration // for a request for the status, and for its answer
	Presence  time.Duration // of a gateway's name without a sign of it

	Lag               int   // entries that the replica may be behind before queries are refused; 0 for none
	LineBytes         int   // of a line, without its line feed
	Lines             int   // of a connection that are under way
	Listings          int   // in a query: operations whose replies grow with the book
	LongLines         int   // of over 8 KiB, of all connections
	Changes           int   // that wait to be appended
	ReplyBytes        int64 // of replies that are not yet sent
	Connections       int
	CallerConnections int // of one caller with a certificate
	Handshakes        int // under way
	AddressHandshakes int // of one address
	StatusConnections int // for the status
}

// UsualLimits are the defaults of the program.
var UsualLimits = Limits{
	Answer: 20 * time.Second, After: 2 * time.Second, Handshake: 3 * time.Second, Idle: 15 * time.Minute,
	Line: 30 * time.Second, Write: 20 * time.Second, Silent: time.Minute, Lag: 10000, Stop: 25 * time.Second,
	Votes: 5 * time.Second, Members: 10 * time.Second, Status: 10 * time.Second,
	Presence:  15 * time.Second,
	LineBytes: wire.MaxLine, Lines: 256, Listings: 16, LongLines: 64, Changes: 4096, ReplyBytes: 512 << 20,
	Connections: 10000, CallerConnections: 100, Handshakes: 256, AddressHandshakes: 128, StatusConnections: 256,
}

// IsValid returns true if all limits are above 0, but for those that may be none, and lines are not longer than regd
// accepts them.
func (l Limits) IsValid() bool {
	if l.Silent < 0 || l.Lag < 0 {
		return false
	}
	l.Silent, l.Lag = 1, 1
	limits := reflect.ValueOf(l)
	for i := 0; i < limits.NumField(); i++ {
		if limits.Field(i).Int() <= 0 {
			return false
		}
	}
	return l.LineBytes <= wire.MaxLine
}

// Options configure a gateway.
type Options struct {
	Name    string // the same each time this gateway is started, and no other one's
	Program string // a checksum of the program regd, for the status
	Replies string // a version: gateways with the same one have to give the same replies
	Replica replica.Options
	Callers *Certificates // for callers; nil: they come in plain text, and all are operators
	Etcd    *Certificates // for etcd, or nil
	// how long tokens are retained, and how many bytes they may take; 0 for the usual time and room
	TokenTime  time.Duration
	TokenBytes int64
	Operators  []string      // SPIFFE IDs that may send every line, if there is no file of roles
	Roles      *Roles        // what the file says, or nil
	Audit      *audit.Record // of changes, or nil
	Limits     Limits
}

// retention returns what entries say of it: milliseconds and bytes, or 0 for what is usual.
func (o Options) retention() (keep, room int64) {
	if o.TokenTime != replica.UsualKeep {
		keep = o.TokenTime.Milliseconds()
	}
	if o.TokenBytes != replica.UsualRoom {
		room = o.TokenBytes
	}
	return keep, room
}

// A Gateway serves callers.
type Gateway struct {
	log        *etcd.Log
	options    Options
	run        string // no other gateway, and no other run of this one, has it
	board      board
	flights    sync.Map // from the names of this gateway's entries that are not yet answered to *flight
	changes    chan *request
	long       chan struct{}   // one for each long line that is under way
	turns      []chan struct{} // for each worker of regd, of callers that send many queries together
	flooding   atomic.Int64    // callers that send many queries together
	gate       *gate           // for connections before their handshake
	handshakes chan struct{}   // one for each that is computed
	held       atomic.Int64    // bytes of replies that are not yet sent
	active     atomic.Int64    // connections with lines that are under way
	isStopping atomic.Bool     // the gateway shuts down
	stop       chan struct{}   // closed then
	open       sync.Map        // connections of sessions
	crowd      crowd
	roles      *Roles
	fresh      fresh
	marks      chan replica.State // checksums to vote for

	isDisputed atomic.Bool
	isLogLost  atomic.Bool            // the log was found empty, and has not this gateway's book
	unverified atomic.Pointer[string] // why the log doesn't verify, or nil
	sessions   atomic.Int64           // open ones
	gateways   atomic.Int64           // that are there, when they were last counted
	started    time.Time              // when New was called
	head       atomic.Uint64          // where the log ended when etcd was last asked
	heardAfter atomic.Int64           // how long after started that was, in nanoseconds
	end        atomic.Pointer[logEnd]
	members    atomic.Pointer[[]etcd.Member]
	skips      atomic.Pointer[etcd.Skips]
	failure    atomic.Pointer[failure]
	stats

	acceptFails, readAgain, crowded, callerCrowded, changesWait logline.Rare
	longWait, noRoom, manyHandshakes, panics, nameFails         logline.Rare

	failedHandshakes logline.Few
}

// New returns a gateway of a log.
func New(log *etcd.Log, options Options) *Gateway {
	g := &Gateway{
		log: log, options: options, run: wire.NewID(), started: time.Now(),
		board:      board{changed: make(chan struct{})},
		changes:    make(chan *request, options.Limits.Changes),
		long:       make(chan struct{}, options.Limits.LongLines),
		gate:       newGate(options.Limits.Handshakes, options.Limits.AddressHandshakes),
		handshakes: make(chan struct{}, runtime.GOMAXPROCS(0)),
		stop:       make(chan struct{}),
		crowd:      crowd{counts: map[string]int{}},
		fresh:      fresh{asks: make(chan struct{}, 1)},
		marks:      make(chan replica.State, votesLeft),
	}
	for len(g.turns) == 0 || len(g.turns) < options.Replica.Workers-1 {
		g.turns = append(g.turns, make(chan struct{}, mostTurns))
	}
	g.roles = options.Roles
	if g.roles == nil {
		g.roles = RolesOf(options.Operators)
	}
	// those that are read take no more room than those that are not yet sent
	g.options.Replica.ReplyBytes = int(options.Limits.ReplyBytes) / 2 / len(g.turns)
	g.options.Replica.OnLate = g.late.Inc
	g.skips.Store(&etcd.Skips{})
	return g
}

// Run follows the log until the context ends or the gateway has to stop, and calls serve once queries can be answered.
// It returns the first error, also of serve.
func (g *Gateway) Run(ctx context.Context, serve func(context.Context) error) error {
	ctx, stop := context.WithCancel(ctx)
	defer stop()
	serving := func(ctx context.Context) error {
		if !g.board.wait(ctx, 0, 0) {
			return ctx.Err()
		}
		return serve(ctx)
	}
	parts := []func(context.Context) error{
		g.follow, g.appendChanges, g.compare, g.askHead, g.askMembers, g.endSessions, g.keepName,
		serving,
	}
	ended := make(chan error, len(parts))
	for _, part := range parts {
		go func(part func(context.Context) error) { ended <- part(ctx) }(part)
	}
	err := <-ended
	stop()
	for range parts[1:] {
		<-ended
	}
	return err
}

// Shutdown accepts no more callers, reads no more lines, and ends each connection when its lines are answered. It
// returns when no connection is left, or the context ends. It may be called once.
func (g *Gateway) Shutdown(ctx context.Context) {
	g.isStopping.Store(true)
	close(g.stop)
	g.open.Range(func(conn, _ any) bool {
		conn.(net.Conn).SetReadDeadline(time.Now())
		return true
	})
	for g.sessions.Load() > 0 && ctx.Err() == nil {
		etcd.Pause(ctx, 10*time.Millisecond)
	}
}

// Serve accepts callers until the context ends. Queries of fresh ones see every change that was answered to anybody
// before.
func (g *Gateway) Serve(ctx context.Context, on net.Listener, isFresh bool) error {
	go func() {
		select {
		case <-ctx.Done():
		case <-g.stop:
		}
		on.Close()
	}()
	for {
		conn, err := on.Accept()
		switch {
		case err == nil:
			go g.receive(ctx, conn, isFresh)
		case ctx.Err() != nil || g.isStopping.Load():
			<-ctx.Done() // for which connections go on
			return ctx.Err()
		default: // such as: no free descriptor
			g.acceptFails.Error("accept failed", "error", err)
			etcd.Pause(ctx, 10*time.Millisecond)
		}
	}
}

// receive serves one connection. A panic in it ends no other one.
func (g *Gateway) receive(ctx context.Context, conn net.Conn, isFresh bool) {
	defer func() { conn.Close() }() // whose error says nothing: the connection is of no more use
	defer g.survive(conn)
	s := &session{Gateway: g, conn: conn, role: Role{Kind: Operator}, isFresh: isFresh}
	if g.options.Callers != nil {
		secure := g.shakeHands(ctx, conn)
		if secure == nil {
			return
		}
		s.conn = secure
		s.lapse.chain = secure.ConnectionState().PeerCertificates // the handshake requires one
		s.agent = callerOf(s.lapse.chain[0], g.options.Replica.Domain)
		s.role = g.roles.Of(s.agent)
	}
	defer g.sessions.Add(-1)
	if g.sessions.Add(1) > int64(g.options.Limits.Connections) {
		g.ended.Inc("connections")
		g.crowded.Error("too many connections", "limit", g.options.Limits.Connections)
		return
	}
	s.number = int(g.accepted.Add(1))
	s.in = bufio.NewReaderSize(s.conn, readBuffer)
	g.admit(ctx, s)
	if !s.isBroken {
		part(s.conn)
	}
}

// admit serves a caller, or refuses it if it has too many connections.
func (g *Gateway) admit(ctx context.Context, s *session) {
	if g.options.Callers == nil {
		s.serve(ctx)
		return
	}
	defer g.crowd.leave(s.agent)
	if g.crowd.enter(s.agent, g.options.Limits.CallerConnections) {
		s.serve(ctx)
		return
	}
	g.ended.Inc("caller")
	g.callerCrowded.Error("too many connections of a caller", "limit", g.options.Limits.CallerConnections,
		"caller", s.agent)
	s.add(s.request(nil)).answer(wire.Refusal(wire.TooMany))
	s.writeAnswers(ctx, 0)
}

// shakeHands makes the handshake of a connection when there is a place for it. It returns nil if it fails.
func (g *Gateway) shakeHands(ctx context.Context, conn net.Conn) *tls.Conn {
	limits := g.options.Limits
	leave := g.gate.enter(ctx, originOf(conn), limits.Answer)
	if leave == nil {
		g.ended.Inc("handshakes")
		g.manyHandshakes.Error("too many handshakes", "limit", limits.Handshakes,
			"of_address", limits.AddressHandshakes, "address", conn.RemoteAddr())
		return nil
	}
	defer leave()
	turned := &paced{Conn: conn, turns: g.handshakes, end: time.Now().Add(limits.Handshake)}
	defer turned.done()
	secure := tls.Server(turned, g.options.Callers.Server())
	err := conn.SetDeadline(turned.end) // a session sets it again before it reads and writes
	if err == nil {
		err = secure.HandshakeContext(ctx)
	}
	if err != nil {
		g.ended.Inc("handshake")
		g.failedHandshakes.Error("handshake failed", "address", conn.RemoteAddr(), "error", err)
		return nil
	}
	return secure
}

// survive is deferred by what serves a caller. It ends a panic, which a caller may have caused by what it has sent.
func (g *Gateway) survive(conn net.Conn) {
	reason := recover()
	if reason == nil {
		return
	}
	g.ended.Inc("panic")
	g.panics.Error("panic", "address", conn.RemoteAddr(), "reason", reason, "stack", string(debug.Stack()))
}
