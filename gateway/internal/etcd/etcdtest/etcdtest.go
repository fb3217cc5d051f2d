// Package etcdtest has an etcd in memory for unit tests: one member, as far as the gateway calls it.
package etcdtest

import (
	"context"
	"encoding/json"
	"fmt"
	"net/http"
	"net/http/httptest"
	"sort"
	"strconv"
	"sync"
)

// A Server is such an etcd.
type Server struct {
	*httptest.Server
	mu       sync.Mutex
	values   map[string][]byte
	revision int64
	events   []event       // of all puts and deletes
	changed  chan struct{} // closed and replaced at each of them

	loseAnswers, refuse int
	isFull              bool
	holding             chan struct{} // closed when answers are no longer held; nil if none are
	held                int           // the number of the watch that is held
	told                []string      // lines that all open watches got
	alarms              []string
	counts              Counts

	untilBefore int // transactions
	before      func()

	leases map[string]map[string]bool // their keys

	untilRange  int // requests for keys
	beforeRange func()
}

// Counts says what a server was asked for.
type Counts struct {
	Requests     int // but for watches and states
	Transactions int // with a condition
	Refused      int // of those
	Pages        int // transactions without one
	Watches      int
	Pairs, Bytes int // the most pairs, and bytes of their values, in one answer
	Deleted      int // the most keys by one request
}

type event struct {
	revision   int64
	key, value []byte
	isDelete   bool
}

type object = map[string]any

// New starts a server.
func New() *Server {
	s := &Server{values: map[string][]byte{}, revision: 1, changed: make(chan struct{}),
		leases: map[string]map[string]bool{}}
	mux := http.NewServeMux()
	mux.HandleFunc("/v3/watch", s.watch)
	for path, handle := range map[string]func(*request) object{
		"/v3/kv/range": s.find, "/v3/kv/txn": s.transact,
		"/v3/maintenance/status": s.status, "/v3/lease/grant": s.grant, "/v3/lease/keepalive": s.renew,
		"/v3/lease/revoke": s.revoke,
	} {
		mux.HandleFunc(path, s.handler(handle))
	}
	mux.HandleFunc("/metrics", func(w http.ResponseWriter, _ *http.Request) {
		fmt.Fprint(w,
			"# TYPE etcd_server_quota_backend_bytes gauge\netcd_server_quota_backend_bytes 2.097152e+06\n")
	})
	s.Server = httptest.NewServer(mux)
	return s
}

// LoseAnswers makes the server execute the next transactions, and answer them with an error.
func (s *Server) LoseAnswers(count int) { s.mu.Lock(); s.loseAnswers = count; s.mu.Unlock() }

// Refuse makes the server answer the next requests with an error.
func (s *Server) Refuse(count int) { s.mu.Lock(); s.refuse = count; s.mu.Unlock() }

// Fill makes the server refuse what needs space, or no longer.
func (s *Server) Fill(isFull bool) { s.mu.Lock(); s.isFull = isFull; s.mu.Unlock() }

// HoldAnswers makes the server execute transactions with a condition, and not answer them until the function that it
// returns is called.
func (s *Server) HoldAnswers() (release func()) {
	holding := make(chan struct{})
	s.mu.Lock()
	s.holding = holding
	s.mu.Unlock()
	return func() { s.mu.Lock(); s.holding = nil; s.mu.Unlock(); close(holding) }
}

// HoldWatch makes the watch that was opened last bring nothing more.
func (s *Server) HoldWatch() { s.mu.Lock(); s.held = s.counts.Watches; s.mu.Unlock() }

// TellWatches sends a line to all watches that are open.
func (s *Server) TellWatches(line string) {
	s.mu.Lock()
	defer s.mu.Unlock()
	s.told = append(s.told, line)
	s.wake()
}

// Before calls a function before the transaction of a number, counted from now on from 1.
func (s *Server) Before(number int, call func()) {
	s.mu.Lock()
	s.untilBefore, s.before = number, call
	s.mu.Unlock()
}

// BeforeRange is Before for requests for keys that are no transactions.
func (s *Server) BeforeRange(number int, call func()) {
	s.mu.Lock()
	s.untilRange, s.beforeRange = number, call
	s.mu.Unlock()
}

// begin notes that a request has arrived.
func (s *Server) begin(isTransaction bool) {
	s.mu.Lock()
	left, call := &s.untilRange, s.beforeRange
	if isTransaction {
		left, call = &s.untilBefore, s.before
	}
	*left--
	isDue := *left == 0
	s.mu.Unlock()
	if isDue {
		call()
	}
}

// Counts returns what the server was asked for.
func (s *Server) Counts() Counts { s.mu.Lock(); defer s.mu.Unlock(); return s.counts }

// Recount sets all counts but that of watches to 0.
func (s *Server) Recount() { s.mu.Lock(); s.counts = Counts{Watches: s.counts.Watches}; s.mu.Unlock() }

// Keys returns all keys in order.
func (s *Server) Keys() []string {
	s.mu.Lock()
	defer s.mu.Unlock()
	keys := []string{}
	for key := range s.values {
		keys = append(keys, key)
	}
	sort.Strings(keys)
	return keys
}

// Backup returns all keys with their values.
func (s *Server) Backup() map[string][]byte {
	s.mu.Lock()
	defer s.mu.Unlock()
	backup := map[string][]byte{}
	for key, value := range s.values {
		backup[key] = value
	}
	return backup
}

// Restore makes the server have what a backup has, and nothing else.
func (s *Server) Restore(backup map[string][]byte) { s.mu.Lock(); s.values = backup; s.mu.Unlock() }

// Damage flips a bit of a value, as a broken disk does.
func (s *Server) Damage(key string, at int) {
	s.mu.Lock()
	defer s.mu.Unlock()
	value := append([]byte{}, s.values[key]...)
	value[at] ^= 1
	s.values[key] = value
}

// Puts returns the keys that were stored, in the order of that.
func (s *Server) Puts() (keys []string) {
	s.mu.Lock()
	defer s.mu.Unlock()
	for _, one := range s.events {
		if !one.isDelete {
			keys = append(keys, string(one.key))
		}
	}
	return keys
}

type request struct {
	Key           []byte
	RangeEnd      []byte `json:"range_end"`
	Value         []byte
	Lease, ID     string
	Limit         int  `json:"limit,string"`
	KeysOnly      bool `json:"keys_only"`
	Target        string
	Result        string
	Compare       []request
	Success       []step
	Failure       []step
	CreateRequest struct {
		Key           []byte
		RangeEnd      []byte `json:"range_end"`
		StartRevision int64  `json:"start_revision,string"`
		Filters       []string
	} `json:"create_request"`
}

type step struct {
	Put    *request `json:"request_put"`
	Range  *request `json:"request_range"`
	Delete *request `json:"request_delete_range"`
}

// puts returns true if a transaction may need space. etcd doesn't look at its conditions.
func (r *request) puts() bool {
	for _, one := range append(r.Success, r.Failure...) {
		if one.Put != nil {
			return true
		}
	}
	return false
}

// hold waits while answers are held. An answer that is short enough for the server's buffer is sent when its handler is
// over.
func (s *Server) hold(ctx context.Context) {
	s.mu.Lock()
	holding := s.holding
	s.mu.Unlock()
	if holding == nil {
		return
	}
	select {
	case <-holding:
	case <-ctx.Done():
	}
}

func (s *Server) handler(handle func(*request) object) http.HandlerFunc {
	return func(w http.ResponseWriter, r *http.Request) {
		var in request
		if err := json.NewDecoder(r.Body).Decode(&in); err != nil {
			http.Error(w, err.Error(), http.StatusBadRequest)
			return
		}
		s.begin(r.URL.Path == "/v3/kv/txn")
		if len(in.Compare) > 0 {
			defer s.hold(r.Context())
		}
		s.mu.Lock()
		defer s.mu.Unlock()
		if r.URL.Path != "/v3/maintenance/status" {
			s.counts.Requests++
		}
		if r.Header.Get("Grpc-Metadata-hasleader") != "true" {
			http.Error(w, "this member might answer without a majority", http.StatusBadRequest)
			return
		}
		if s.refuse > 0 {
			s.refuse--
			if len(in.Compare) > 0 {
				s.counts.Refused++
			}
			http.Error(w, "refused", http.StatusServiceUnavailable)
			return
		}
		if s.isFull && in.puts() {
			http.Error(w, "etcdserver: mvcc: database space exceeded", http.StatusTooManyRequests)
			return
		}
		answer := handle(&in)
		if answer == nil {
			http.Error(w, "etcdserver: requested lease not found", http.StatusNotFound)
			return
		}
		if r.URL.Path == "/v3/kv/txn" && s.loseAnswers > 0 {
			s.loseAnswers--
			http.Error(w, "answer lost", http.StatusServiceUnavailable)
			return
		}
		answer["header"] = object{"revision": strconv.FormatInt(s.revision, 10)}
		json.NewEncoder(w).Encode(answer)
	}
}

// Alarm makes the server report an alarm, or none.
func (s *Server) Alarm(alarms ...string) { s.mu.Lock(); s.alarms = alarms; s.mu.Unlock() }

func (s *Server) status(*request) object {
	return object{"dbSize": "1048576", "dbSizeInUse": "4096", "errors": s.alarms}
}

// grant answers with a new lease, which ends when EndLeases is called.
func (s *Server) grant(*request) object {
	id := strconv.Itoa(len(s.leases) + 1)
	s.leases[id] = map[string]bool{}
	return object{"ID": id}
}

// renew answers whether there is a lease.
func (s *Server) renew(in *request) object {
	if s.leases[in.ID] == nil {
		return object{"result": object{"ID": in.ID}}
	}
	return object{"result": object{"ID": in.ID, "TTL": "15"}}
}

// EndLeases ends all leases, as if they were not renewed, and deletes their keys.
func (s *Server) EndLeases() {
	s.mu.Lock()
	defer s.mu.Unlock()
	for id := range s.leases {
		s.endLease(id)
	}
}

// revoke ends a lease.
func (s *Server) revoke(in *request) object {
	s.endLease(in.ID)
	return object{}
}

// endLease deletes the keys of a lease. s.mu is locked.
func (s *Server) endLease(id string) {
	for key := range s.leases[id] {
		delete(s.values, key)
	}
	s.leases[id] = nil
}

func (s *Server) find(in *request) object {
	pairs := []object{}
	keys := []string{}
	for key := range s.values {
		if key == string(in.Key) || len(in.RangeEnd) > 0 && string(in.Key) <= key && key < string(in.RangeEnd) {
			keys = append(keys, key)
		}
	}
	sort.Strings(keys)
	if in.Limit > 0 && len(keys) > in.Limit {
		keys = keys[:in.Limit]
	}
	bytes := 0
	for _, key := range keys {
		value := s.values[key]
		if in.KeysOnly {
			value = nil
		}
		bytes += len(value)
		pairs = append(pairs, object{"key": []byte(key), "value": value})
	}
	s.counts.Pairs, s.counts.Bytes = larger(s.counts.Pairs, len(pairs)), larger(s.counts.Bytes, bytes)
	return object{"kvs": pairs}
}

func (s *Server) put(in *request) object {
	s.revision++
	s.values[string(in.Key)] = in.Value
	for _, keys := range s.leases { // a key has one lease at most
		delete(keys, string(in.Key))
	}
	if in.Lease != "" {
		s.leases[in.Lease][string(in.Key)] = true
	}
	s.tell(event{s.revision, in.Key, in.Value, false})
	return object{}
}

func (s *Server) tell(news event) {
	s.events = append(s.events, news)
	s.wake()
}

func (s *Server) wake() {
	close(s.changed)
	s.changed = make(chan struct{})
}

func larger(a, b int) int {
	if a > b {
		return a
	}
	return b
}

func (s *Server) delete(in *request) object {
	s.revision++
	count := 0
	for key := range s.values {
		if string(in.Key) <= key && key < string(in.RangeEnd) {
			delete(s.values, key)
			s.tell(event{s.revision, []byte(key), nil, true})
			count++
		}
	}
	s.counts.Deleted = larger(s.counts.Deleted, count)
	return object{}
}

func (s *Server) transact(in *request) object {
	holds := true
	for _, one := range in.Compare {
		value, has := s.values[string(one.Key)]
		holds = holds && (one.Target == "CREATE" && has == (one.Result == "GREATER") ||
			one.Target == "VALUE" && has && string(value) == string(one.Value))
	}
	steps := in.Success
	if !holds {
		steps = in.Failure
	}
	for _, one := range steps {
		if one.Put != nil && one.Put.Lease != "" && s.leases[one.Put.Lease] == nil {
			return nil
		}
	}
	if len(in.Compare) > 0 {
		s.counts.Transactions++
	} else {
		s.counts.Pages++
	}
	responses := []object{}
	for _, one := range steps {
		switch {
		case one.Put != nil:
			responses = append(responses, object{"response_put": s.put(one.Put)})
		case one.Delete != nil:
			responses = append(responses, object{"response_delete_range": s.delete(one.Delete)})
		default:
			responses = append(responses, object{"response_range": s.find(one.Range)})
		}
	}
	return object{"succeeded": holds, "responses": responses}
}

func (s *Server) watch(w http.ResponseWriter, r *http.Request) {
	var in request
	if err := json.NewDecoder(r.Body).Decode(&in); err != nil {
		http.Error(w, err.Error(), http.StatusBadRequest)
		return
	}
	s.mu.Lock()
	s.counts.Watches++
	number, told := s.counts.Watches, len(s.told)
	s.mu.Unlock()
	from, out := in.CreateRequest, json.NewEncoder(w)
	out.Encode(object{"result": object{"created": true}})
	for next := 0; ; {
		w.(http.Flusher).Flush()
		s.mu.Lock()
		news, changed := s.events[next:], s.changed
		next = len(s.events)
		if s.held == number {
			news = nil
		}
		lines := s.told[told:]
		told = len(s.told)
		s.mu.Unlock()
		for _, line := range lines {
			fmt.Fprintln(w, line)
		}
		for _, one := range news {
			if one.isDelete && len(from.Filters) > 0 { // which is NODELETE
				continue
			}
			if one.revision >= from.StartRevision && string(from.Key) <= string(one.key) &&
				string(one.key) < string(from.RangeEnd) {
				event := object{"kv": object{"key": one.key, "value": one.value}}
				out.Encode(object{"result": object{"events": []object{event}}})
			}
		}
		w.(http.Flusher).Flush()
		select {
		case <-changed:
		case <-r.Context().Done():
			return
		}
	}
}
