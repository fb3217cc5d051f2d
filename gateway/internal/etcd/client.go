package etcd

import (
	"bytes"
	"context"
	"encoding/json"
	"errors"
	"fmt"
	"io"
	"net"
	"net/http"
	"net/url"
	"time"

	"regd/gateway/internal/logline"
)

// times are those of requests. Tests have shorter ones.
type times struct {
	call   time.Duration // for a try, which is more than etcd's own limit
	byte   time.Duration // more for each byte of a value
	page   time.Duration // for a page of entries
	again  time.Duration // the first pause between a try and the next one
	rarely time.Duration // the longest one
}

var usualTimes = times{
	call: 6 * time.Second, byte: 10 * time.Microsecond, page: 15 * time.Second,
	again: 100 * time.Millisecond, rarely: time.Second,
}

type object = map[string]any

// A pair is a key with its value, and found is the answer to a range request.
type pair struct{ Key, Value []byte }

type found struct{ Kvs []pair }

func (l *Log) key(name string) []byte { return []byte(l.prefix + name) }

// open sends a request to one member after another, until one accepts it or the number of tries is used up. It stays
// with a member until a request fails there.
func (l *Log) open(ctx context.Context, tries int, path string, request any) (io.ReadCloser, error) {
	text, err := json.Marshal(request)
	if err != nil {
		return nil, err
	}
	for ; ; tries-- {
		failures := l.failures.Load()
		body, err := l.send(ctx, http.MethodPost, l.members[failures%uint64(len(l.members))]+path, text)
		if err == nil {
			return body, nil
		}
		l.failures.CompareAndSwap(failures, failures+1) // once for those that failed together
		if tries <= 1 || ctx.Err() != nil {
			return nil, err
		}
	}
}

// Distrust makes the next request go to another member, if there is one.
func (l *Log) Distrust() { l.failures.Add(1) }

// send sends a request to one member.
func (l *Log) send(ctx context.Context, method, url string, text []byte) (io.ReadCloser, error) {
	request, err := http.NewRequestWithContext(ctx, method, url, bytes.NewReader(text))
	if err != nil {
		return nil, err
	}
	request.Header.Set("Grpc-Metadata-hasleader", "true") // a member that has lost the others refuses
	response, err := l.http.Do(request)
	if err != nil {
		return nil, err
	}
	if response.StatusCode == http.StatusOK {
		return response.Body, nil
	}
	defer response.Body.Close()
	reason, err := io.ReadAll(io.LimitReader(response.Body, 300))
	if err != nil {
		return nil, fmt.Errorf("etcd: %s: %w", response.Status, err)
	}
	return nil, fmt.Errorf("etcd: %s %s", response.Status, bytes.TrimSpace(reason))
}

// read makes a request that changes nothing, of any member, and reads its answer.
func (l *Log) read(ctx context.Context, most time.Duration, path string, request, answer any) error {
	return l.call(ctx, most, len(l.members), path, request, answer)
}

// change makes a transaction that may change something, of one member alone. If it fails, etcd may have executed it. To
// send it to another member after that is a decision of the caller, who then has to know that it may be open.
func (l *Log) change(ctx context.Context, size int, request, answer any) error {
	return l.call(ctx, l.timeFor(size), 1, txnPath, request, answer)
}

// call makes one request of a number of members, one after another, and reads the answer of the first one that gives
// one.
func (l *Log) call(ctx context.Context, most time.Duration, tries int, path string, request, answer any) error {
	ctx, cancel := context.WithTimeout(ctx, most)
	defer cancel()
	body, err := l.open(ctx, tries, path, request)
	if err != nil {
		return err
	}
	defer body.Close()
	return json.NewDecoder(body).Decode(answer)
}

// insist repeats a request of a kind until it is answered, so it is for requests that may be executed twice. Its only
// error is that of the context.
func (l *Log) insist(ctx context.Context, kind string, request func() error) error {
	for pauses := l.pauses(); ; {
		err := request()
		if err == nil {
			l.answers(kind)
			return ctx.Err()
		}
		if ctx.Err() != nil {
			return ctx.Err()
		}
		l.fails(kind, err)
		pauses.Pause(ctx)
	}
}

// timeFor returns how long a try may take that carries a value of a size.
func (l *Log) timeFor(size int) time.Duration { return l.times.call + time.Duration(size)*l.times.byte }

// pauses returns those between tries.
func (l *Log) pauses() *Backoff { return &Backoff{First: l.times.again, Most: l.times.rarely} }

// mostReasons is how many reasons are logged of a kind of requests that fail.
const mostReasons = 8

// fails writes a log line when requests of a kind begin to fail, and when they fail for a reason that was not logged
// since they began.
func (l *Log) fails(kind string, err error) {
	l.Unanswered.Inc()
	if l.isNews(kind, reasonOf(err)) {
		logline.Error("etcd doesn't answer", "request", kind, "error", err)
	}
}

// isNews returns true if requests of a kind haven't failed for a reason since they began to fail.
func (l *Log) isNews(kind, reason string) bool {
	l.failingMu.Lock()
	defer l.failingMu.Unlock()
	reasons := l.failing[kind]
	if reasons == nil {
		reasons = map[string]bool{}
		l.failing[kind] = reasons
	}
	if reasons[reason] || len(reasons) == mostReasons {
		return false
	}
	reasons[reason] = true
	return true
}

// Appended takes note that an entry is in the log whose Append had no answer yet.
func (l *Log) Appended() { l.answers("append") }

// answers writes a log line when a request of a kind that had failed is answered again.
func (l *Log) answers(kind string) {
	l.failingMu.Lock()
	defer l.failingMu.Unlock()
	if l.failing[kind] != nil {
		delete(l.failing, kind)
		logline.Info("etcd answers again", "request", kind)
	}
}

// reasonOf returns why a request failed, without the addresses of a connection, which differ each time.
func reasonOf(err error) string {
	var network *net.OpError
	if errors.As(err, &network) {
		return network.Err.Error()
	}
	var other *url.Error
	if errors.As(err, &other) {
		return other.Err.Error()
	}
	return err.Error()
}

// Pause waits for some time, or until the context ends.
func Pause(ctx context.Context, long time.Duration) {
	late := time.NewTimer(long) // a context would make all that pause wait for one lock
	defer late.Stop()
	select {
	case <-late.C:
	case <-ctx.Done():
	}
}

func (l *Log) find(ctx context.Context, kind string, size int, request object) ([]pair, error) {
	var got found
	err := l.insist(ctx, kind, func() error {
		got = found{}
		return l.read(ctx, l.timeFor(size), "/v3/kv/range", request, &got)
	})
	return got.Kvs, err
}

// Get returns the value of a key, or nil, as a majority of the members has it.
func (l *Log) Get(ctx context.Context, name string) ([]byte, error) { return l.GetLarge(ctx, name, 0) }

// GetLarge is Get for a value that may have a number of bytes, and takes longer to arrive.
func (l *Log) GetLarge(ctx context.Context, name string, size int) ([]byte, error) {
	pairs, err := l.find(ctx, "get", size, object{"key": l.key(name)})
	if err != nil || len(pairs) == 0 {
		return nil, err
	}
	return pairs[0].Value, nil
}

// List returns all values whose keys begin with a folder's name, which ends with a slash, by the rest of the key.
func (l *Log) List(ctx context.Context, folder string) (map[string]string, error) {
	end := folder[:len(folder)-1] + "0" // which follows the slash
	pairs, err := l.find(ctx, "list", 0, object{"key": l.key(folder), "range_end": l.key(end)})
	all := map[string]string{}
	for _, one := range pairs {
		all[string(one.Key[len(l.key(folder)):])] = string(one.Value)
	}
	return all, err
}

// Has is a condition for Put, Delete and Cut: a key has this value.
func (l *Log) Has(name string, value []byte) object {
	return object{"target": "VALUE", "key": l.key(name), "value": value}
}

// lacks is a condition too: there is no such key.
func (l *Log) lacks(name string) object {
	return object{"target": "CREATE", "key": l.key(name), "create_revision": "0"}
}

// Exists is a condition too: there is a key.
func (l *Log) Exists(name string) object {
	return object{"target": "CREATE", "result": "GREATER", "key": l.key(name), "create_revision": "0"}
}

// Put stores a value. If a condition doesn't hold, it stores nothing and returns an error.
func (l *Log) Put(ctx context.Context, name string, value []byte, conditions ...object) error {
	return l.write(ctx, "put", len(value), l.writing(name, value), conditions)
}

// Delete deletes the keys from one name up to and without another. If a condition doesn't hold, it deletes nothing and
// returns an error.
func (l *Log) Delete(ctx context.Context, from, to string, conditions ...object) error {
	keys := object{"key": l.key(from), "range_end": l.key(to)}
	return l.write(ctx, "delete", 0, object{"request_delete_range": keys}, conditions)
}

func (l *Log) write(ctx context.Context, kind string, size int, part object, conditions []object) error {
	var done transaction
	size += len(conditions) << 20 // the value of a condition may be an entry, of up to a MiB
	request := object{"compare": conditions, "success": []object{part}}
	err := l.insist(ctx, kind, func() error {
		done = transaction{}
		return l.change(ctx, size, request, &done)
	})
	if err == nil && !done.Succeeded {
		err = errors.New(
			"the log was changed meanwhile: another call has cut it, or etcd was restored from a backup")
	}
	return err
}
