// Package etcd keeps the log of changes, and what belongs to it, in etcd. It calls etcd by its JSON gateway, which
// needs no library.
package etcd

import (
	"bytes"
	"context"
	"encoding/json"
	"errors"
	"fmt"
	"net"
	"net/http"
	"strconv"
	"sync"
	"sync/atomic"
	"time"

	"regd/gateway/internal/logline"
	"regd/gateway/internal/metrics"
)

// Errors of the log.
var (
	ErrCut        = errors.New("the next entry was cut off: a snapshot stands for it")
	ErrTurnedBack = errors.New(
		"the log no longer has the last entry that was read: etcd was restored from a backup")
	ErrUnknown = errors.New("it is not known whether an entry was made: the one of its number was cut off")
	ErrNoHead  = errors.New("the log has no head: etcd has lost it")
	ErrDamaged = errors.New("the log is damaged: it doesn't have the hashes that it names")
)

const txnPath = "/v3/kv/txn"

// pageSize is how many entries are read at a time. They may have a megabyte each, so there are fewer in the pages after
// one that took too long.
const pageSize = 64

// A Log is a list of entries, numbered from 1 without a gap in the order in which they were accepted. The entry n is
// the key log/n, and the key head has the position of the last one. The name of each entry is a hash of all that it
// has, also of the name of the entry before it. So what was changed, lost or replaced is noticed at the next entry.
type Log struct {
	Unanswered metrics.Counter // requests that no member answered

	members  []string
	outer    string // the prefix of all keys
	prefix   string // that of the keys of this format
	times    times
	failures atomic.Uint64 // of requests, which choose the member
	pageSize atomic.Int64  // of the next page
	http     http.Client

	failingMu sync.Mutex
	// the kinds of requests of which the last one failed, with the reasons that were logged
	failing map[string]map[string]bool
}

// A Dial opens a connection with TLS.
type Dial func(ctx context.Context, network, address string) (net.Conn, error)

// New returns the log whose keys begin with the prefix. The members of etcd are URLs, and dial is for those with https.
func New(members []string, prefix string, dial Dial) *Log {
	transport := &http.Transport{MaxIdleConnsPerHost: 16, DialContext: Dialer.DialContext, DialTLSContext: dial}
	l := &Log{members: members, outer: prefix, prefix: prefix + folder, times: usualTimes,
		http: http.Client{Transport: transport}, failing: map[string]map[string]bool{}}
	l.pageSize.Store(pageSize)
	return l
}

// EntryKey returns the key of an entry, without the prefix. Keys are in the order of the numbers.
func EntryKey(number uint64) string { return fmt.Sprintf("log/%016x", number) }

// writing and reading are parts of a transaction.
func (l *Log) writing(name string, value []byte) object {
	return object{"request_put": object{"key": l.key(name), "value": value}}
}

func (l *Log) reading(name string) object { return object{"request_range": object{"key": l.key(name)}} }

// End returns where the log ends. Every entry whose append had returned before the call is counted.
func (l *Log) End(ctx context.Context) (Position, error) {
	text, err := l.Get(ctx, "head")
	if err != nil {
		return Position{}, err
	}
	if text == nil {
		return Position{}, ErrNoHead
	}
	return readPosition(text)
}

// Head returns the number of the last entry.
func (l *Log) Head(ctx context.Context) (uint64, error) {
	end, err := l.End(ctx)
	return end.Entry, err
}

// IsEmpty returns true if the log has no entry and never had one, or if there is no log.
func (l *Log) IsEmpty(ctx context.Context) (bool, error) {
	head, err := l.Head(ctx)
	if errors.Is(err, ErrNoHead) {
		return true, nil
	}
	return err == nil && head == 0, err
}

// HasEntry returns true if the log has an entry with a number and a name.
func (l *Log) HasEntry(ctx context.Context, number uint64, name string) (bool, error) {
	value, err := l.GetLarge(ctx, EntryKey(number), 1<<20)
	if err != nil || value == nil {
		return false, err
	}
	e, err := ReadEntry(number, value)
	return e.Name == name, err
}

// A transaction is the answer to one that asked for entries and the head, or that wrote them.
type transaction struct {
	Header struct {
		Revision int64 `json:"revision,string"`
	}
	Succeeded bool
	Responses []struct {
		Range found `json:"response_range"`
	}
}

// read returns the entries and the end of the log.
func (t transaction) read() (entries []pair, end Position, err error) {
	if len(t.Responses) != 2 || len(t.Responses[1].Range.Kvs) == 0 {
		return nil, Position{}, ErrNoHead
	}
	end, err = readPosition(t.Responses[1].Range.Kvs[0].Value)
	return t.Responses[0].Range.Kvs, end, err
}

// Append makes a draft an entry, exactly once: the one after a position or, if the log doesn't end there, the first one
// after its end. It returns where the log ends then. Without an answer of etcd it sends the same again, which finds out
// whether the entry was made, because no two drafts have one ID. With ErrUnknown the entry may have been made. What
// else is written belongs to the same transaction.
func (l *Log) Append(ctx context.Context, after Position, d Draft, also ...object) (end Position, err error) {
	isOpen := false // a try without an answer may have made the entry, or may still make it
	value, at, err := d.after(after, time.Now())
	for pauses := l.pauses(); err == nil; {
		had, end, failed := l.tryAppend(ctx, after, at, value, also)
		if ctx.Err() != nil {
			return Position{}, ctx.Err()
		}
		if failed != nil {
			l.fails("append", failed)
			isOpen = true
			pauses.Pause(ctx)
			continue
		}
		l.answers("append")
		isMade, isOther := made(had, at.Entry, d.ID)
		switch {
		case isMade:
			return end, nil
		case isOpen && !isOther: // it was cut off, or is damaged, and may have been this one
			return end, ErrUnknown
		}
		after, isOpen = end, false
		value, at, err = d.after(after, time.Now())
	}
	return Position{}, err
}

// made returns whether the entry with a number, if there is one, is that of a draft, and whether it is another one.
func made(had []pair, number uint64, id string) (isMade, isOther bool) {
	if len(had) == 0 {
		return false, false
	}
	e, err := ReadEntry(number, had[0].Value)
	return err == nil && e.ID == id, err == nil && e.ID != id
}

// tryAppend sends the transaction that makes an entry to one member of etcd. It returns the entry with its number, if
// there is one then, and where the log ends.
func (l *Log) tryAppend(
	ctx context.Context, after, at Position, value []byte, also []object,
) ([]pair, Position, error) {
	key := EntryKey(at.Entry)
	request := object{
		"compare": []object{l.Has("head", after.text())},
		"success": append([]object{l.writing(key, value), l.writing("head", at.text())}, also...),
		"failure": []object{l.reading(key), l.reading("head")},
	}
	var done transaction
	// the answer may have a value of another gateway, which is about as large
	if err := l.change(ctx, len(value), request, &done); err != nil {
		return nil, Position{}, err
	}
	if done.Succeeded {
		return []pair{{l.key(key), value}}, at, nil
	}
	had, end, err := done.read()
	if len(had) > 0 && bytes.Equal(had[0].Value, value) {
		logline.Info("an append was made although its answer was lost", "entry", at.Entry)
	}
	return had, end, err
}

// Follow passes all entries after a position on to take, in order, without a gap, and each one verified: first those
// that exist, then, after a call of caughtUp, new ones. It ends with an error: ErrCut, ErrTurnedBack, ErrDamaged, or
// one of etcd or the context. It also returns the position of the last entry that it has passed on.
func (l *Log) Follow(
	ctx context.Context, from Position, caughtUp func(last uint64), take func(Entry),
) (Position, error) {
	pass := func(entries ...pair) error {
		for _, one := range entries {
			e, err := l.entryAfter(from, one)
			if err != nil {
				return err
			}
			take(e)
			from = e.Position
		}
		return nil
	}
	for isCaught := false; ; {
		entries, end, revision, err := l.page(ctx, from)
		if err == nil {
			err = pass(entries...)
		}
		isAtEnd := err == nil && from.Entry >= end.Entry
		switch {
		case isAtEnd && from != end:
			err = fmt.Errorf("%w: it ends with entry %d, and has others at its end", ErrDamaged, end.Entry)
		case isAtEnd && isCaught:
			err = l.watch(ctx, revision+1, pass) // ends with an error
		case isAtEnd:
			caughtUp(end.Entry) // then another page, since etcd may be restored while it waits
			isCaught = true
		}
		if err != nil {
			return from, err
		}
	}
}

// entryAfter reads the entry that has to follow a position.
func (l *Log) entryAfter(before Position, one pair) (Entry, error) {
	number := before.Entry + 1
	if string(one.Key) != l.prefix+EntryKey(number) {
		return Entry{}, ErrCut
	}
	e, err := ReadEntry(number, one.Value)
	if err == nil {
		err = e.follows(before)
	}
	return e, err
}

// page reads some entries after a position, the end of the log, and the revision of both.
func (l *Log) page(ctx context.Context, from Position) (entries []pair, end Position, revision int64, err error) {
	size := l.pageSize.Load()
	next := from.Entry + 1
	var page transaction
	err = l.read(ctx, l.times.page, txnPath, object{"success": []object{
		// bounded by keys: given a limit, etcd also counts all keys after the page
		{"request_range": object{
			"key": l.key(EntryKey(next)), "range_end": l.key(EntryKey(next + uint64(size))),
		}},
		l.reading("head"),
	}}, &page)
	l.resize(size, err)
	if err != nil {
		return nil, Position{}, 0, err
	}
	entries, end, err = page.read()
	switch {
	case err != nil:
	case len(entries) == 0 && end.Entry > from.Entry:
		err = ErrCut
	case end.Entry < from.Entry || end.Entry == from.Entry && end != from:
		err = ErrTurnedBack
	}
	return entries, end, page.Header.Revision, err
}

// resize chooses the size of the next page: half of one that took too long, and one more entry than one that came. A
// page of one entry always has the time for it.
func (l *Log) resize(size int64, err error) {
	switch {
	case errors.Is(err, context.DeadlineExceeded) && size > 1:
		l.pageSize.Store(size / 2)
	case err == nil && size < pageSize:
		l.pageSize.Store(size + 1)
	}
}

// watch passes on the entries that are made from a revision on.
func (l *Log) watch(ctx context.Context, revision int64, pass func(...pair) error) error {
	body, err := l.open(ctx, len(l.members), "/v3/watch", object{"create_request": object{
		"key": l.key("log/"), "range_end": l.key("log0"), // 0 follows the slash
		"start_revision": strconv.FormatInt(revision, 10), "filters": []string{"NODELETE"},
	}})
	if err != nil {
		return err
	}
	defer body.Close()
	for in := json.NewDecoder(body); ; {
		var news struct {
			Error  any
			Result struct {
				Canceled bool
				Events   []struct{ Kv pair }
			}
		}
		err := in.Decode(&news)
		if err != nil {
			return fmt.Errorf("watch: %w", err)
		}
		if news.Error != nil || news.Result.Canceled {
			return fmt.Errorf("watch: etcd has ended it: %v", news.Error)
		}
		for _, event := range news.Result.Events {
			if err := pass(event.Kv); err != nil {
				return err
			}
		}
	}
}

// Cut deletes the entries up to a number, some at a time, since etcd does nothing else while it deletes. It ends with
// an error when a condition doesn't hold any more.
func (l *Log) Cut(ctx context.Context, last uint64, conditions ...object) error {
	for {
		keys := object{
			"key": l.key("log/"), "range_end": l.key(EntryKey(last + 1)),
			"limit": "1000", "keys_only": true,
		}
		page, err := l.find(ctx, "list", 0, keys)
		if err != nil || len(page) == 0 {
			return err
		}
		end := string(page[len(page)-1].Key[len(l.prefix):]) + "\x00"
		if err := l.Delete(ctx, "log/", end, conditions...); err != nil {
			return err
		}
	}
}
