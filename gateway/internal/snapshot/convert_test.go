package snapshot

import (
	"context"
	"errors"
	"fmt"
	"reflect"
	"regexp"
	"strings"
	"testing"
	"time"

	"regd/gateway/internal/etcd"
	"regd/gateway/internal/etcd/etcdtest"
	"regd/gateway/internal/replica"
)

// formatOne returns the keys of a log of format 1, as a gateway of that format has written them: a snapshot of entry 3,
// the entries from 3 to 8, of which 5.1 is skipped, and a vote.
func formatOne() map[string][]byte {
	keys := map[string][]byte{
		"r/domain": []byte("ex.org"), "r/head": []byte("8"), "r/skip/5.1": []byte("2026-01-01T00:00:00Z"),
		"r/snapshot": []byte(`{"Entry":3,"ID":"x","Chunks":2}`),
		"r/snapshot/0000000000000003/x00000000": []byte(`{"Entry":3,"Name":"run.3","Place":3,"Sum":` +
			`[` + strings.Repeat("7,", 31) + `7],"Tokens":[{"Token":"t","Same":"s","Rep`),
		"r/snapshot/0000000000000003/x00000001": []byte(`ly":"e30="}],"Lines":["` +
			strings.ReplaceAll(replica.EmptyLine, `"`, `\"`) + `"]}`),
		"r/sum/2-1/0000000000000007/run.7/a": []byte("00"),
	}
	for number := uint64(3); number <= 8; number++ {
		text := fmt.Sprintf("run.%d\n%s\n", number, replica.EmptyLine)
		if number == 7 {
			text = "skip 5.1 run.7\n{\"skip\":\"5.1\"}\n"
		}
		keys["r/"+etcd.EntryKey(number)] = []byte(text)
	}
	return keys
}

// converted converts a log, and returns an error if that fails.
func converted(ctx context.Context, store *etcdtest.Server) error {
	return Convert(ctx, etcd.New([]string{store.URL}, "r/", nil), "ex.org")
}

// snapshotID matches the ID of a snapshot in the key of a piece.
var snapshotID = regexp.MustCompile(`/[0-9a-f]{8}-[-0-9a-f]{27}`)

// stateOf returns what a gateway finds in a log, and the keys but for the ID of a snapshot.
func stateOf(t *testing.T, store *etcdtest.Server) (state replica.State, tokens []*replica.Kept, keys []string) {
	t.Helper()
	ctx, cancel := context.WithTimeout(context.Background(), time.Minute)
	defer cancel()
	log := etcd.New([]string{store.URL}, "r/", nil)
	if err := log.Open(ctx, "ex.org"); err != nil {
		t.Fatal(err)
	}
	options, _, _ := miniature(t, ctx, 0)
	r, err := replica.Start(ctx, options, func(replica.State) {})
	if err != nil {
		t.Fatal(err)
	}
	defer r.Close()
	c, err := read(ctx, log)
	if err != nil {
		t.Fatal(err)
	}
	skips, err := log.Skips(ctx)
	if err == nil {
		err = replay(log, c, r, names{}, 8, skips)
	}
	if err != nil {
		t.Fatal(err)
	}
	for _, key := range store.Keys() {
		keys = append(keys, snapshotID.ReplaceAllString(key, "/ID"))
	}
	return r.State(), r.Tokens(), keys
}

// TestConvert converts a log: the new one makes the same book, has nothing of the old one, and is not that of a gateway
// of format 1.
func TestConvert(t *testing.T) {
	ctx, cancel := context.WithTimeout(context.Background(), time.Minute)
	defer cancel()
	store := etcdtest.New()
	t.Cleanup(store.CloseClientConnections)
	store.Restore(formatOne())
	log := etcd.New([]string{store.URL}, "r/", nil)
	if err := log.Open(ctx, "ex.org"); !errors.Is(err, etcd.ErrOldFormat) {
		t.Errorf("before the conversion: got %v", err)
	}
	if err := Convert(ctx, log, "other.org"); !errors.Is(err, etcd.ErrDomain) {
		t.Errorf("of another trust domain: got %v", err)
	}
	begin := time.Now().UnixMilli()
	if err := converted(ctx, store); err != nil {
		t.Fatal(err)
	}
	state, tokens, keys := stateOf(t, store)
	if state.Entry != 8 || state.Place != 3+3 || state.Skipped != 1 || state.Time < begin || len(tokens) != 1 ||
		tokens[0].Token != "t" || string(tokens[0].Reply) != "{}" || tokens[0].Time < begin {
		t.Errorf("got %v, %v", state, tokens)
	}
	want := []string{"r/2/domain", "r/2/format", "r/2/head"}
	for number := uint64(4); number <= 8; number++ {
		want = append(want, "r/2/"+etcd.EntryKey(number))
	}
	want = append(want, "r/2/skip/5.1", "r/2/snapshot", "r/2/snapshot/0000000000000003/ID00000000", "r/domain")
	if !reflect.DeepEqual(keys, want) {
		t.Errorf("the keys are %v", keys)
	}
	record, err := etcd.ReadEntry(7, store.Backup()["r/2/"+etcd.EntryKey(7)])
	if line, isRecord := record.Skipped(); err != nil || !isRecord || line != (etcd.Line{Entry: 5, Number: 1}) {
		t.Errorf("entry 7 is %v, %v", record, err)
	}
	first, err := read(ctx, log)
	if err != nil || len(first.Name) != len(etcd.Origin) || first.Name == etcd.Origin {
		t.Errorf("the snapshot ends with %s, %v", first.Name, err)
	}
	before := strings.Join(store.Keys(), " ")
	if err := converted(ctx, store); err != nil || strings.Join(store.Keys(), " ") != before {
		t.Errorf("again: got %v, %v", err, store.Keys())
	}
	if domain := string(store.Backup()["r/domain"]); domain == "ex.org" || domain == "" {
		t.Errorf("a gateway of format 1 finds the domain %q", domain)
	}
}

// TestConvertNothing checks that a log of another trust domain, and none, are not converted.
func TestConvertNothing(t *testing.T) {
	ctx, cancel := context.WithTimeout(context.Background(), time.Minute)
	defer cancel()
	store := etcdtest.New()
	t.Cleanup(store.CloseClientConnections)
	if err := converted(ctx, store); err == nil || len(store.Keys()) != 0 {
		t.Errorf("no log: got %v, %v", err, store.Keys())
	}
	other := formatOne()
	other["r/domain"] = []byte("other.org")
	store.Restore(other)
	before := len(store.Keys())
	if err := converted(ctx, store); !errors.Is(err, etcd.ErrDomain) || len(store.Keys()) != before {
		t.Errorf("another log: got %v", err)
	}
	cut := formatOne()
	delete(cut, "r/"+etcd.EntryKey(6))
	store.Restore(cut)
	if err := converted(ctx, store); !errors.Is(err, etcd.ErrCut) || store.Backup()["r/"+etcd.EntryKey(8)] == nil {
		t.Errorf("a log without entry 6: got %v", err)
	}
}

// TestConvertInterrupted interrupts a conversion before each of its transactions, and makes a backup there. Until the
// log of format 2 is complete, no gateway begins with it, and from the first change on none of format 1. After the
// backup is restored, another call makes the same log.
func TestConvertInterrupted(t *testing.T) {
	whole := etcdtest.New()
	t.Cleanup(whole.CloseClientConnections)
	whole.Restore(formatOne())
	if err := converted(context.Background(), whole); err != nil {
		t.Fatal(err)
	}
	want, _, wantKeys := stateOf(t, whole)
	for number, isInterrupted := 1, true; isInterrupted; number++ {
		store := etcdtest.New()
		t.Cleanup(store.CloseClientConnections)
		store.Restore(formatOne())
		ctx, stop := context.WithTimeout(context.Background(), time.Minute)
		isInterrupted = false
		store.Before(number, func() { isInterrupted = true; stop(); store.Refuse(1) })
		err := converted(ctx, store)
		store.Before(0, nil)
		stop()
		if (err != nil) != isInterrupted {
			t.Errorf("before request %d: got %v", number, err)
		}
		backup := store.Backup()
		isOld := string(backup["r/domain"]) == "ex.org" && backup["r/head"] != nil
		again, cancel := context.WithTimeout(context.Background(), time.Minute)
		err = etcd.New([]string{store.URL}, "r/", nil).Open(again, "ex.org")
		isNamed := isOld && errors.Is(err, etcd.ErrOldFormat) || !isOld && errors.Is(err, etcd.ErrUnfinished) ||
			!isOld && err == nil && backup["r/2/head"] != nil
		if isOld != (number == 1) || !isNamed {
			t.Errorf("before request %d: a gateway begins with %v; format 1: %v", number, err, isOld)
		}
		store.Restore(backup)
		if err := converted(again, store); err != nil {
			t.Fatalf("after request %d: got %v", number, err)
		}
		cancel()
		state, _, keys := stateOf(t, store)
		state.Time, state.Name = want.Time, want.Name // that of the conversion, and a hash of it
		if state != want || !reflect.DeepEqual(keys, wantKeys) {
			t.Errorf("after request %d: got %v, %v", number, state, keys)
		}
	}
}

// TestConvertVerifies checks that the log of format 1 is not deleted if the new one doesn't verify.
func TestConvertVerifies(t *testing.T) {
	ctx, cancel := context.WithTimeout(context.Background(), time.Minute)
	defer cancel()
	store := etcdtest.New()
	t.Cleanup(store.CloseClientConnections)
	store.Restore(formatOne())
	if err := converted(ctx, store); err != nil {
		t.Fatal(err)
	}
	both := store.Backup()
	for key, value := range formatOne() {
		if key != "r/domain" {
			both[key] = value
		}
	}
	store.Restore(both)
	store.Damage("r/2/"+etcd.EntryKey(6), 90)
	if err := converted(ctx, store); !errors.Is(err, etcd.ErrDamaged) || len(store.Keys()) != len(both) {
		t.Errorf("got %v, %v", err, store.Keys())
	}
}

// TestConvertTakenOver interrupts a call that has taken the conversion over from another one, which doesn't go on then.
// A third call converts the log.
func TestConvertTakenOver(t *testing.T) {
	for number, isReached := 2, true; isReached; number++ {
		store := etcdtest.New()
		t.Cleanup(store.CloseClientConnections)
		store.Restore(formatOne())
		ctx, stop := context.WithTimeout(context.Background(), time.Minute)
		isReached = false
		wasOver := false
		store.Before(number, func() {
			isReached, wasOver = true, store.Backup()["r/2/head"] != nil
			short, interrupt := context.WithCancel(ctx)
			store.Before(5, interrupt)
			if err := converted(short, store); err == nil && !wasOver {
				t.Errorf("request %d: the second call wasn't interrupted", number)
			}
			interrupt()
			store.Before(0, nil)
		})
		if err := converted(ctx, store); err == nil && isReached && !wasOver {
			t.Errorf("request %d: the first call has gone on", number)
		}
		store.Before(0, nil)
		if err := converted(ctx, store); err != nil {
			t.Errorf("request %d: the third call: %v", number, err)
		}
		stop()
		if state, _, _ := stateOf(t, store); state.Entry != 8 || state.Place != 6 {
			t.Errorf("request %d: got %v", number, state)
		}
	}
}

// TestConvertTogether lets a second call convert the log while the first one does: the first one takes nothing of it
// away.
func TestConvertTogether(t *testing.T) {
	overtaken := 0 // calls that have not noticed it
	for number, isReached := 1, true; isReached; number++ {
		store := etcdtest.New()
		t.Cleanup(store.CloseClientConnections)
		store.Restore(formatOne())
		ctx, stop := context.WithTimeout(context.Background(), time.Minute)
		isReached = false
		wasOver := false
		store.Before(number, func() {
			isReached, wasOver = true, store.Backup()["r/2/head"] != nil
			if err := converted(ctx, store); err != nil {
				t.Errorf("before request %d: got %v", number, err)
			}
		})
		err := converted(ctx, store)
		if ctx.Err() != nil || err != nil && (wasOver || !isReached) {
			t.Errorf("request %d: got %v, the conversion was over: %v", number, err, wasOver)
		}
		if err == nil && isReached && !wasOver {
			overtaken++
		}
		store.Before(0, nil)
		stop()
		if state, _, _ := stateOf(t, store); state.Entry != 8 || state.Place != 6 {
			t.Errorf("request %d: got %v", number, state)
		}
	}
	if overtaken > 1 { // the last request finds the log as it would have made it
		t.Errorf("%d calls have gone on", overtaken)
	}
}
