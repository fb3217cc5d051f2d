package server

import (
	"context"
	"encoding/json"
	"errors"
	"fmt"
	"math"
	"net"
	"net/http"
	"sync"
	"time"

	"regd/gateway/internal/etcd"
	"regd/gateway/internal/metrics"
	"regd/gateway/internal/replica"
	"regd/gateway/internal/wire"
)

// silentLimit is how long etcd may be silent before a balancer should send changes to another gateway. Limits has
// that for queries.
const silentLimit = 5 * time.Second

// stats are what a gateway counts.
type stats struct {
	changed, queries metrics.Histogram // the times from a line to its answer
	appends, replays metrics.Histogram // those of entries, and of replicas from their start until they are ready
	refusals         metrics.Vector    // answers with a code, by code
	accepted         metrics.Counter   // connections
	ended            metrics.Vector    // connections that this gateway ended, by reason
	dropped          metrics.Counter   // changes of callers that had left
	replicasEnded    metrics.Counter
	unverifiedTimes  metrics.Counter // how often the log didn't verify
	late             metrics.Counter // replies to queries
}

// ServeStatus answers requests for the state over HTTP.
func (g *Gateway) ServeStatus(on net.Listener) error {
	limits := g.options.Limits
	few := narrow{on, make(chan struct{}, limits.StatusConnections)}
	most := limits.Status
	return (&http.Server{Handler: g.Handler(), ReadTimeout: most, WriteTimeout: most}).Serve(few)
}

// A narrow listener has few connections, so that they don't take the descriptors of others. One more is accepted when
// another one ends.
type narrow struct {
	net.Listener
	places chan struct{} // has one value for each connection
}

// Accept waits for a place, and then for a connection.
func (n narrow) Accept() (net.Conn, error) {
	n.places <- struct{}{}
	conn, err := n.Listener.Accept()
	if err != nil {
		<-n.places
		return nil, err
	}
	return &placed{Conn: conn, places: n.places}, nil
}

// placed is a connection of a narrow listener.
type placed struct {
	net.Conn
	places chan struct{}
	once   sync.Once
}

// Close ends the connection and gives back its place.
func (p *placed) Close() error {
	p.once.Do(func() { <-p.places })
	return p.Conn.Close()
}

// Handler answers /status, /metrics, /ready and /ready/changes.
func (g *Gateway) Handler() http.Handler {
	mux := http.NewServeMux()
	mux.HandleFunc("/status", g.serveStatus)
	mux.HandleFunc("/metrics", g.serveMetrics)
	mux.HandleFunc("/ready", func(w http.ResponseWriter, _ *http.Request) { g.serveReady(w, g.isReady()) })
	mux.HandleFunc("/ready/changes", func(w http.ResponseWriter, _ *http.Request) {
		g.serveReady(w, g.isReady() && g.silence() <= silentLimit)
	})
	return mux
}

// isReady returns true if queries can be answered.
func (g *Gateway) isReady() bool {
	r, state := g.board.read()
	return r != nil && !g.isStopping.Load() && !g.isOutdated(state.Entry)
}

// isOutdated returns true if a book with this last entry may be older than queries of the usual port accept: etcd has
// not said for too long where the log ends, or there are too many entries behind this one.
func (g *Gateway) isOutdated(entry uint64) bool {
	limits := g.options.Limits
	isSilent := limits.Silent > 0 && g.silence() > limits.Silent
	return isSilent || limits.Lag > 0 && g.lag(entry) > uint64(limits.Lag)
}

// silence returns for how long etcd has not said where the log ends. It is asked once a second. A clock that is set
// makes no difference.
func (g *Gateway) silence() time.Duration {
	return time.Since(g.started) - time.Duration(g.heardAfter.Load())
}

// hear takes note of where the log ends, as etcd has just said.
func (g *Gateway) hear(head uint64) {
	g.head.Store(head)
	g.heardAfter.Store(int64(time.Since(g.started)))
}

// serveReady answers with 200 or 503, and with the reason if the log doesn't verify.
func (g *Gateway) serveReady(w http.ResponseWriter, isReady bool) {
	if !isReady {
		w.WriteHeader(http.StatusServiceUnavailable)
	}
	fmt.Fprintln(w, isReady)
	reason := g.unverified.Load()
	if reason != nil {
		fmt.Fprintln(w, *reason)
	}
}

// lag returns how many entries of the log the replica has not executed, as far as this gateway knows the log.
func (g *Gateway) lag(entry uint64) uint64 {
	if head := g.head.Load(); head > entry {
		return head - entry
	}
	return 0
}

// failing returns the line in which one replica after another ends, or nil.
func (g *Gateway) failing(executed uint64) *failure {
	if f := g.failure.Load(); f != nil && f.Times > 1 && f.Line.Entry > executed {
		return f
	}
	return nil
}

// serveStatus answers with the status of the gateway as JSON: with 200 if it answers queries, otherwise with 503.
func (g *Gateway) serveStatus(w http.ResponseWriter, _ *http.Request) {
	r, state := g.board.read()
	isReady := g.isReady()
	status := map[string]any{
		"name": g.options.Name, "program": g.options.Program, "ready": isReady,
		"disputed": g.isDisputed.Load(), "lost": g.isLogLost.Load(), "unverified": g.unverified.Load(),
		"entry": state.Entry, "place": state.Place, "sum": fmt.Sprintf("%x", state.Sum),
		"head": g.head.Load(), "lag": g.lag(state.Entry), "silent": g.silence().Seconds(),
		"sessions": g.sessions.Load(), "etcd": g.members.Load(),
		"stopping": g.isStopping.Load(), "skipped": g.skips.Load(), "failing": g.failing(state.Entry),
	}
	w.Header().Set("Content-Type", "application/json")
	if !isReady {
		w.WriteHeader(http.StatusServiceUnavailable)
	}
	if r != nil {
		status["regd"], status["tokens"] = r.Pid(), r.Table().Tokens
	}
	json.NewEncoder(w).Encode(status)
}

// A logEnd is where etcd has said that the log ends, 0 if it has none, and when it was asked.
type logEnd struct {
	entry uint64
	asked time.Time
}

// askHead keeps the end of the log, until the context ends.
func (g *Gateway) askHead(ctx context.Context) error {
	for ctx.Err() == nil {
		asked := time.Now()
		head, err := g.log.Head(ctx)
		if err == nil || errors.Is(err, etcd.ErrNoHead) {
			g.end.Store(&logEnd{head, asked})
		}
		if err == nil && !g.isLogLost.Load() {
			g.hear(head) // of another log it would mean nothing
		}
		etcd.Pause(ctx, time.Second)
	}
	return ctx.Err()
}

// askMembers keeps the states of etcd's members, until the context ends.
func (g *Gateway) askMembers(ctx context.Context) error {
	for ctx.Err() == nil {
		members := g.log.Members(ctx)
		g.members.Store(&members)
		etcd.Pause(ctx, g.options.Limits.Members)
	}
	return ctx.Err()
}

// serveMetrics answers with the metrics that docs/GATEWAY.md lists.
func (g *Gateway) serveMetrics(w http.ResponseWriter, _ *http.Request) {
	is := map[bool]float64{true: 1}
	var p metrics.Page
	r, state := g.board.read()
	const name = "regd_gateway_"
	p.Info(name+"info", "Names of the gateway and of its regd.",
		"name", g.options.Name, "program", g.options.Program)
	p.Gauge(name+"ready", "1 if queries can be answered.", is[g.isReady()])
	p.Gauge(name+"disputed", "1 if another gateway has another checksum.", is[g.isDisputed.Load()])
	p.Gauge(name+"gateways", "Gateways of the log that are there.", float64(g.gateways.Load()))
	p.Gauge(name+"log_lost", "1 if the log was found empty, and the book is kept.", is[g.isLogLost.Load()])
	p.Gauge(name+"log_unverified", "1 if the log doesn't verify, and nothing is served.",
		is[g.unverified.Load() != nil])
	p.Counter(name+"log_unverified_total", "How often the log, as a member has it, did not verify.",
		&g.unverifiedTimes)
	p.Gauge(name+"connections", "Open connections of callers.", float64(g.sessions.Load()))
	p.Counter(name+"connections_total", "Connections of callers.", &g.accepted)
	p.Vector(name+"connections_ended_total", "Connections that the gateway ended, by reason.", "reason", &g.ended,
		"answer", isUnknown, "caller", "connections", isExpired, "handshake", "handshakes", "idle", "left",
		"line", "panic", isOtherRole, "write")
	p.Histogram(name+"change_duration_seconds", "Times from a line that may be a change to its answer.", &g.changed)
	p.Histogram(name+"query_duration_seconds", "Times from any other line to its answer.", &g.queries)
	p.Vector(name+"refusals_total", "Answers with a code, by code.", "code", &g.refusals,
		wire.NotAllowed, wire.TooManyQueries, wire.NoRoom, wire.TooMany, wire.Busy, wire.TooLong, wire.Skipped,
		wire.Outdated, wire.Unverified)
	p.Histogram(name+"append_duration_seconds",
		"Times in which etcd accepted an entry of this gateway.", &g.appends)
	p.Gauge(name+"reply_bytes", "Bytes of replies that are not yet sent.", float64(g.held.Load()))
	p.Gauge(name+"changes_waiting", "Changes that wait to be appended.", float64(len(g.changes)))
	p.Counter(name+"changes_dropped_total",
		"Changes that were not appended because their callers had left.", &g.dropped)
	if g.options.Audit != nil {
		p.Counter(name+"audit_failures_total", "Changes that could not be recorded.", &g.options.Audit.Failures)
	}
	addTokens(&p, name, r, is[state.IsFull])
	p.Gauge(name+"log_entry", "The last entry that the replica has executed.", float64(state.Entry))
	p.Gauge(name+"log_lag_entries", "Entries that it has not executed.", float64(g.lag(state.Entry)))
	p.Gauge(name+"log_silent_seconds", "The time since etcd said where the log ends.", g.silence().Seconds())
	p.Gauge(name+"commit_number", "The commit number of the book.", float64(state.Place))
	p.Histogram(name+"replay_duration_seconds", "Times from the start of a replica until it was ready.", &g.replays)
	p.Counter(name+"replicas_ended_total", "Replicas that ended and were replaced.", &g.replicasEnded)
	p.Counter(name+"late_replies_total", "Replies to queries that regd owed for too long.", &g.late)
	failing := 0.0
	if f := g.failing(state.Entry); f != nil {
		failing = float64(f.Line.Entry)
	}
	p.Gauge(name+"failing_entry", "The entry with a line in which one replica after another ends, or 0.", failing)
	p.Gauge(name+"lines_skipped", "Lines that operators have skipped.", float64(len(*g.skips.Load())))
	g.addCertificates(&p, name)
	p.Counter(name+"etcd_failures_total", "Requests that no member of etcd answered.", &g.log.Unanswered)
	if members := g.members.Load(); members != nil {
		addMembers(&p, name+"etcd_", *members)
	}
	w.Header().Set("Content-Type", metrics.ContentType)
	p.WriteTo(w)
}

// addTokens adds the metrics of the tokens that a replica retains, if there is one.
func addTokens(p *metrics.Page, name string, r *replica.Replica, isFull float64) {
	var table replica.Table
	if r != nil {
		table = r.Table()
	}
	p.Gauge(name+"tokens", "Retained tokens.", float64(table.Tokens))
	p.Gauge(name+"token_bytes", "Bytes that they take, with their replies.", float64(table.Bytes))
	p.Gauge(name+"token_age_seconds", "The age of the oldest one, by the times of the log.", table.Age.Seconds())
	p.Gauge(name+"tokens_full", "1 if there is no room for another token.", isFull)
}

// addCertificates adds when certificates expire.
func (g *Gateway) addCertificates(p *metrics.Page, name string) {
	if c := g.options.Callers; c != nil {
		p.Gauge(name+"certificate_expiry_timestamp_seconds", "When the certificate for callers expires.",
			float64(c.Expiry().Unix()))
	}
	if c := g.options.Etcd; c != nil {
		p.Gauge(name+"etcd_certificate_expiry_timestamp_seconds", "When the certificate for etcd expires.",
			float64(c.Expiry().Unix()))
	}
}

// addMembers adds the metrics of etcd's members: of the one whose database is largest, and of the smallest quota.
func addMembers(p *metrics.Page, name string, members []etcd.Member) {
	var healthy, size, quota, alarms float64
	for _, m := range members {
		if m.Error == "" {
			healthy++
		}
		size = math.Max(size, float64(m.Bytes))
		if m.Quota > 0 && (quota == 0 || float64(m.Quota) < quota) {
			quota = float64(m.Quota)
		}
		alarms += float64(len(m.Alarms))
	}
	p.Gauge(name+"members", "Members of etcd that the gateway knows.", float64(len(members)))
	p.Gauge(name+"members_healthy", "Those of them that serve requests.", healthy)
	p.Gauge(name+"database_bytes", "The largest database of a member.", size)
	p.Gauge(name+"quota_bytes", "The smallest quota of a member.", quota)
	p.Gauge(name+"alarms", "Alarms that members of etcd report.", alarms)
}
