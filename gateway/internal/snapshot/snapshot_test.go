package snapshot

import (
	"context"
	"encoding/json"
	"errors"
	"fmt"
	"math/rand"
	"os"
	"path/filepath"
	"reflect"
	"strings"
	"testing"
	"time"

	"regd/gateway/internal/etcd"
	"regd/gateway/internal/etcd/etcdtest"
	"regd/gateway/internal/replica"
	"regd/gateway/internal/replica/regdtest"
)

func options(t *testing.T) replica.Options {
	program := os.Getenv("REGD")
	if program == "" {
		t.Skip("REGD names no program")
	}
	return replica.Options{Program: program, Domain: "ex.org", Workers: 2}
}

// miniature returns options for a regd in miniature, with a log of some entries.
func miniature(t *testing.T, ctx context.Context, entries uint64) (replica.Options, *etcdtest.Server, *etcd.Log) {
	store := etcdtest.New()
	t.Cleanup(store.CloseClientConnections)
	log := etcd.New([]string{store.URL}, "r/", nil)
	if err := log.Open(ctx, "ex.org"); err != nil {
		t.Fatal(err)
	}
	for entry := uint64(1); entry <= entries; entry++ {
		if err := appended(ctx, log, fmt.Sprint(entry), replica.EmptyLine); err != nil {
			t.Fatal(err)
		}
	}
	return replica.Options{Program: os.Args[0], Domain: "ex.org", Workers: 2}, store, log
}

// appended appends an entry with an ID.
func appended(ctx context.Context, log *etcd.Log, id string, lines ...string) error {
	d := etcd.Draft{ID: id}
	for _, line := range lines {
		d.Lines = append(d.Lines, []byte(line))
	}
	_, err := log.Append(ctx, etcd.Start, d)
	return err
}

// nameOf returns the name of an entry.
func nameOf(t *testing.T, ctx context.Context, log *etcd.Log, number uint64) etcd.Position {
	value, err := log.Get(ctx, etcd.EntryKey(number))
	if err != nil {
		t.Fatal(err)
	}
	e, err := etcd.ReadEntry(number, value)
	if err != nil {
		t.Fatal(err)
	}
	return e.Position
}

func TestMain(m *testing.M) {
	regdtest.Main()
	os.Exit(m.Run())
}

// TestMakeVerifies lets the regd end that would execute a snapshot for the second time: no snapshot is made, and
// nothing is cut.
func TestMakeVerifies(t *testing.T) {
	ctx, cancel := context.WithTimeout(context.Background(), time.Minute)
	defer cancel()
	options, store, log := miniature(t, ctx, 5)
	before := strings.Join(store.Keys(), " ")
	folder, program := t.TempDir(), options.Program
	options.Program = filepath.Join(folder, "once")
	text := fmt.Sprintf("#!/bin/sh\nmkdir %s/begun || exit 1\nexec %s \"$@\"\n", folder, program)
	if err := os.WriteFile(options.Program, []byte(text), 0o700); err != nil {
		t.Fatal(err)
	}
	if err := Make(ctx, log, options, 2); err == nil || strings.Join(store.Keys(), " ") != before {
		t.Errorf("got %v, %v", err, store.Keys())
	}
}

// TestPublish checks that the head of a snapshot is stored after its pieces, and that these are all read.
func TestPublish(t *testing.T) {
	ctx, cancel := context.WithTimeout(context.Background(), time.Minute)
	defer cancel()
	_, store, log := miniature(t, ctx, 0)
	c := content{State: replica.State{Entry: 7, Place: 3}, Lines: []string{strings.Repeat("x", 2*chunkSize), "y"}}
	log.Put(ctx, etcd.EntryKey(7), []byte("seven"))
	if _, err := c.publish(ctx, log, []byte("another")); err == nil {
		t.Error("a snapshot of an entry that is gone was published")
	}
	before := len(store.Puts())
	text, err := c.publish(ctx, log, []byte("seven"))
	var h head
	if json.Unmarshal(text, &h); err != nil || h.Chunks != 3 {
		t.Fatalf("got %v, %v", h, err)
	}
	keys := []string{"r/2/" + h.chunk(0), "r/2/" + h.chunk(1), "r/2/" + h.chunk(2), "r/2/snapshot"}
	var puts []string
	for _, key := range store.Puts()[before:] {
		if len(puts) == 0 || puts[len(puts)-1] != key { // a request without an answer is repeated
			puts = append(puts, key)
		}
	}
	if !reflect.DeepEqual(puts, keys) {
		t.Errorf("stored %v", puts)
	}
	if got, err := read(ctx, log); err != nil || !reflect.DeepEqual(got, c) {
		t.Errorf("read %v", err)
	}
	// a newer snapshot deletes all pieces together, so a reader misses the last ones
	for number := 2; number >= 0; number-- {
		log.Delete(ctx, h.chunk(number), h.chunk(number)+"0")
		if _, err := read(ctx, log); err == nil {
			t.Errorf("a snapshot of %d pieces was read", number)
		}
	}
}

// TestDamagedSnapshot flips a bit in each byte of a snapshot's head and in some of its pieces, one after another, and
// takes a piece away: it is not read. One that is replaced while it is read is not damaged.
func TestDamagedSnapshot(t *testing.T) {
	ctx, cancel := context.WithTimeout(context.Background(), time.Minute)
	defer cancel()
	_, store, log := miniature(t, ctx, 0)
	c := content{State: replica.State{Entry: 7, Name: etcd.Origin, Place: 3}, Lines: []string{replica.EmptyLine}}
	log.Put(ctx, etcd.EntryKey(7), []byte("seven"))
	if _, err := c.publish(ctx, log, []byte("seven")); err != nil {
		t.Fatal(err)
	}
	whole := store.Backup()
	for key, value := range whole {
		if !strings.HasPrefix(key, "r/2/snapshot") {
			continue
		}
		for at := range value {
			store.Damage(key, at)
			_, err := read(ctx, log)
			if !errors.Is(err, etcd.ErrDamaged) && !errors.Is(err, etcd.ErrFormat) {
				t.Errorf("%s, %d: got %v", key, at, err)
			}
			store.Damage(key, at)
		}
	}
	if got, err := read(ctx, log); err != nil || !reflect.DeepEqual(got, c) {
		t.Errorf("as it was: got %v, %v", got, err)
	}
	var h head
	if err := json.Unmarshal(whole["r/2/snapshot"], &h); err != nil {
		t.Fatal(err)
	}
	if err := log.Delete(ctx, h.chunk(0), h.chunk(0)+"0"); err != nil {
		t.Fatal(err)
	}
	if _, err := read(ctx, log); !errors.Is(err, etcd.ErrDamaged) {
		t.Errorf("without a piece: got %v", err)
	}
	if _, err := h.content(ctx, log); !errors.Is(err, etcd.ErrDamaged) {
		t.Errorf("without a piece: got %v", err)
	}
}

// TestReplacedSnapshot publishes another snapshot while one is read, and takes the pieces of that away.
func TestReplacedSnapshot(t *testing.T) {
	ctx, cancel := context.WithTimeout(context.Background(), time.Minute)
	defer cancel()
	_, store, log := miniature(t, ctx, 0)
	log.Put(ctx, etcd.EntryKey(7), []byte("seven"))
	c := content{State: replica.State{Entry: 7, Name: etcd.Origin, Place: 3}}
	first, err := c.publish(ctx, log, []byte("seven"))
	if err != nil {
		t.Fatal(err)
	}
	var h head
	if err := json.Unmarshal(first, &h); err != nil {
		t.Fatal(err)
	}
	store.BeforeRange(2, func() {
		if _, err := c.publish(ctx, log, []byte("seven")); err != nil {
			t.Error(err)
		}
		if err := log.Delete(ctx, h.chunk(0), h.chunk(0)+"0"); err != nil {
			t.Error(err)
		}
	})
	if _, err := read(ctx, log); err == nil || errors.Is(err, etcd.ErrDamaged) {
		t.Errorf("got %v", err)
	}
}

// TestPublishRestored restores a backup between the pieces of a snapshot: it is not published without the pieces that
// were lost.
func TestPublishRestored(t *testing.T) {
	ctx, cancel := context.WithTimeout(context.Background(), time.Minute)
	defer cancel()
	for number := 2; number <= 4; number++ {
		_, store, log := miniature(t, ctx, 0)
		log.Put(ctx, etcd.EntryKey(7), []byte("seven"))
		backup := store.Backup()
		store.Before(number, func() { store.Restore(backup) })
		c := content{State: replica.State{Entry: 7, Place: 3},
			Lines: []string{strings.Repeat("x", 2*chunkSize), "y"}}
		if _, err := c.publish(ctx, log, []byte("seven")); err == nil ||
			strings.Contains(strings.Join(store.Keys(), " "), "snapshot") {
			t.Errorf("before request %d: %v, %v", number, err, store.Keys())
		}
	}
}

// TestPublishTogether publishes two snapshots of one entry at the same time, which another version of regd may have
// made: none has a piece of the other.
func TestPublishTogether(t *testing.T) {
	ctx, cancel := context.WithTimeout(context.Background(), time.Minute)
	defer cancel()
	_, store, log := miniature(t, ctx, 0)
	log.Put(ctx, etcd.EntryKey(7), []byte("seven"))
	one := content{State: replica.State{Entry: 7, Place: 3}, Lines: []string{strings.Repeat("x", 3*chunkSize)}}
	other := content{State: replica.State{Entry: 7, Place: 3}, Lines: []string{strings.Repeat("y", chunkSize)}}
	store.Before(3, func() { other.publish(ctx, log, []byte("seven")) })
	if _, err := one.publish(ctx, log, []byte("seven")); err != nil {
		t.Fatal(err)
	}
	if got, err := read(ctx, log); err != nil || !reflect.DeepEqual(got, one) {
		t.Errorf("read another snapshot, %v", err)
	}
}

// TestMakeWhileRestored restores a backup, with an older snapshot, before each transaction of a snapshot, in turn, and
// the log grows again. If the snapshot counts, it can be read. Otherwise etcd has the older one. The log has all
// entries after it. The backup has the last entry of a snapshot that keeps more entries, and not that of one that keeps
// fewer.
func TestMakeWhileRestored(t *testing.T) {
	ctx, cancel := context.WithTimeout(context.Background(), time.Minute)
	defer cancel()
	for _, keep := range []uint64{2, 4} {
		for number, isRestored := 1, true; isRestored; number++ {
			options, store, log := miniature(t, ctx, 9)
			if err := Make(ctx, log, options, 6); err != nil {
				t.Fatal(err)
			}
			backup := store.Backup()
			grow := func(prefix string) {
				for entry := uint64(10); entry <= 12; entry++ {
					err := appended(ctx, log, prefix+fmt.Sprint(entry), replica.EmptyLine)
					if err != nil {
						t.Error(err)
					}
				}
			}
			grow("")
			isRestored = false
			store.Before(number, func() { isRestored = true; store.Restore(backup); grow("again ") })
			err := Make(ctx, log, options, keep)
			c, failed := read(ctx, log)
			isMade := err == nil
			if isMade != (c.Entry == 12-keep) || !isMade && c.Entry != 3 || failed != nil ||
				isMade && isRestored && keep == 2 || !isMade && !isRestored {
				t.Errorf("keep %d, before request %d: the snapshot of entry %d, %v, %v", keep, number,
					c.Entry, err, failed)
			}
			head, _ := log.Head(ctx)
			for entry := c.Entry + 1; entry <= head; entry++ {
				if value, _ := log.Get(ctx, etcd.EntryKey(entry)); value == nil {
					t.Errorf("keep %d, before request %d: entry %d is gone", keep, number, entry)
				}
			}
		}
	}
}

// TestReplayEnds checks that a replay ends at its entry, and fails if the log doesn't have it any more.
func TestReplayEnds(t *testing.T) {
	ctx, cancel := context.WithTimeout(context.Background(), 10*time.Second)
	defer cancel()
	options, _, log := miniature(t, ctx, 5)
	for _, last := range []uint64{3, 9} {
		r, err := replica.Start(ctx, options, func(replica.State) {})
		if err != nil {
			t.Fatal(err)
		}
		defer r.Close()
		err = replay(log, content{}, r, names{}, last, nil)
		if (err == nil) != (last == 3) || err == nil && r.State().Place != 3 || ctx.Err() != nil {
			t.Errorf("up to %d: got %v, %v", last, err, r.State())
		}
	}
}

// TestReplayTurnedBack checks that a replay doesn't go on with a log that isn't the one of the last snapshot.
func TestReplayTurnedBack(t *testing.T) {
	ctx, cancel := context.WithTimeout(context.Background(), time.Minute)
	defer cancel()
	options, _, log := miniature(t, ctx, 5)
	at := nameOf(t, ctx, log, 2)
	for name, isRight := range map[string]bool{at.Name: true, etcd.Origin: false} {
		r, err := replica.Start(ctx, options, func(replica.State) {})
		if err != nil {
			t.Fatal(err)
		}
		defer r.Close()
		old := content{State: replica.State{Entry: 2, Name: name, Time: at.Time, Place: 2}}
		if err := replay(log, old, r, names{}, 4, nil); (err == nil) != isRight {
			t.Errorf("after the entry %s: got %v", name, err)
		}
	}
}

// TestReplaySkips checks that a snapshot leaves out the lines that are skipped, and that none of its own can be
// skipped.
func TestReplaySkips(t *testing.T) {
	ctx, cancel := context.WithTimeout(context.Background(), time.Minute)
	defer cancel()
	options, store, log := miniature(t, ctx, 9)
	if err := Skip(ctx, log, etcd.Line{Entry: 2, Number: 1}, "a"); err != nil {
		t.Fatal(err)
	}
	copied := etcdtest.New() // with all entries
	t.Cleanup(copied.CloseClientConnections)
	copied.Restore(store.Backup())
	other := etcd.New([]string{copied.URL}, "r/", nil)
	if err := Make(ctx, log, options, 5); err != nil {
		t.Fatal(err)
	}
	c, err := read(ctx, log)
	at := nameOf(t, ctx, other, 5)
	want := replica.State{Entry: 5, Name: at.Name, Time: at.Time, Place: 4, Sum: c.Sum, Skipped: 1}
	if err != nil || c.State != want {
		t.Errorf("got %v, %v", c.State, err)
	}
	// which a snapshot deletes after it is published
	fifth, err := other.Get(ctx, etcd.EntryKey(5))
	if err != nil {
		t.Fatal(err)
	}
	log.Put(ctx, etcd.EntryKey(5), fifth)
	if err := Skip(ctx, log, etcd.Line{Entry: 5, Number: 1}, "b"); err == nil {
		t.Error("a line of the snapshot was skipped")
	}
	if err := Skip(ctx, log, etcd.Line{Entry: 6, Number: 1}, "c"); err != nil {
		t.Error(err)
	}
}

// TestSkipMeanwhile checks that no snapshot is published if a line was skipped while it was made.
func TestSkipMeanwhile(t *testing.T) {
	ctx, cancel := context.WithTimeout(context.Background(), time.Minute)
	defer cancel()
	options, store, log := miniature(t, ctx, 9)
	folder, program := t.TempDir(), options.Program
	options.Program = filepath.Join(folder, "slow") // which waits when it is started for the second time
	text := fmt.Sprintf(
		"#!/bin/sh\nmkdir %[1]s/begun || while [ ! -e %[1]s/go ]; do sleep 0.01; done\nexec %[2]s \"$@\"\n",
		folder, program)
	if err := os.WriteFile(options.Program, []byte(text), 0o700); err != nil {
		t.Fatal(err)
	}
	go func() {
		for ctx.Err() == nil {
			if _, err := os.Stat(folder + "/begun"); err == nil {
				break
			}
			time.Sleep(time.Millisecond)
		}
		if err := log.Skip(ctx, etcd.Line{Entry: 2, Number: 1}, "a"); err != nil {
			t.Error(err)
		}
		os.WriteFile(folder+"/go", nil, 0o600)
	}()
	if err := Make(ctx, log, options, 5); err == nil ||
		strings.Contains(strings.Join(store.Keys(), " "), "snapshot") {
		t.Errorf("got %v, %v", err, store.Keys())
	}
}

// TestNote checks that the names of a line are noted as regd takes them: of equal keys the last one counts, whatever
// the others are.
func TestNote(t *testing.T) {
	names := names{}
	names.note([]byte(
		`{"ops":5,"ops":[{"op":"set_agent","agent":7,"agent":"a"},` +
			`{"op":"set_bundle","domain":[],"domain":"b"},{"op":1,"op":"set_agent","agent":"c"}]}`))
	if len(names) != 3 || !names[`{"agent":"a","op":"show_agent"}`] || !names[`{"domain":"b","op":"show_bundle"}`] {
		t.Errorf("got %v", names)
	}
}

// TestTold checks which names a reply shows: those of its agents and bundles.
func TestTold(t *testing.T) {
	shown := names{}
	for _, reply := range []string{
		`{"call":3,"place":1,"replies":[{"agent":{"id":"a","selectors":["x:1"]}},{"entry":null},` +
			`{"agent":null}],"result":"committed"}`,
		`{"call":4,"place":2,"replies":[{"bundle":{"domain":"b","sequence":0,"text":"{\"agent\":1}"}},` +
			`{"bundle":null}],"result":"committed"}`,
		`{"call":5,"place":3,"replies":[{"pruned":[]}],"result":"committed"}`, `{"code":"L2","line":9}`,
		`{"call":6,"place":1,"replies":[{"agent":{"id":"dropped","selectors":[]}}],"result":"repeated"}`,
	} {
		if err := shown.told([]byte(reply)); err != nil {
			t.Errorf("%s: %v", reply, err)
		}
	}
	want := names{`{"agent":"a","op":"show_agent"}`: true, `{"domain":"b","op":"show_bundle"}`: true}
	if !reflect.DeepEqual(shown, want) {
		t.Errorf("got %v", shown)
	}
	if err := shown.told([]byte(`{"agent":,"result":"committed"}`)); err == nil {
		t.Error("half a reply was read")
	}
	if shown.without(want) != "" || shown.without(names{}) == "" {
		t.Error("names are compared wrongly")
	}
}

// TestMissedName makes a snapshot of a log of which regd shows an agent that the gateway hasn't found in any line:
// there is none, and the log stays.
func TestMissedName(t *testing.T) {
	ctx, cancel := context.WithTimeout(context.Background(), time.Minute)
	defer cancel()
	options, store, log := miniature(t, ctx, 3)
	if err := appended(ctx, log, "4", `{"ops":[{"op":"prune","hint":"AGENT"}]}`); err != nil {
		t.Fatal(err)
	}
	before := strings.Join(store.Keys(), " ")
	err := Make(ctx, log, options, 0)
	if err == nil || !strings.Contains(err.Error(), `"agent":"a"`) || strings.Join(store.Keys(), " ") != before {
		t.Errorf("got %v, %v", err, store.Keys())
	}
}

// TestVerifyStored checks that a snapshot is verified as it is stored: JSON can't hold each text.
func TestVerifyStored(t *testing.T) {
	ctx, cancel := context.WithTimeout(context.Background(), time.Minute)
	defer cancel()
	options, _, _ := miniature(t, ctx, 0)
	for name, isRight := range map[string]bool{"plain": true, "\xff": false} {
		c := content{State: replica.State{Entry: 1, Name: name}, Tokens: []*replica.Kept{}}
		if err := c.verify(ctx, options, names{}); (err == nil) != isRight {
			t.Errorf("%q: got %v", name, err)
		}
	}
}

// TestShow checks that a regd that runs out of memory makes no snapshot, and neither does one of whose last commit the
// queries don't know yet.
func TestShow(t *testing.T) {
	ctx, cancel := context.WithTimeout(context.Background(), time.Minute)
	defer cancel()
	options, _, _ := miniature(t, ctx, 0)
	r, err := replica.Start(ctx, options, func(replica.State) {})
	if err != nil {
		t.Fatal(err)
	}
	defer r.Close()
	for i, query := range []string{`{"op":"show"}`, `{"op":"show"}`, `{"op":"show","hint":"L6"}`,
		`{"op":"show","hint":"KILL"}`} {
		if i == 1 {
			late := []byte(`{"ops":[{"op":"prune","hint":"LATE"}]}`)
			r.Apply(replica.Entry{Number: 1, Lines: [][]byte{late}}, nil, func(int, []byte) {})
			r.Settle()
		}
		if _, err := show(r, query); (err == nil) != (i == 0) {
			t.Errorf("%s: got %v", query, err)
		}
	}
}

// TestPages makes a snapshot of more entries than a page has. It needs REGD.
func TestPages(t *testing.T) {
	ctx, cancel := context.WithTimeout(context.Background(), time.Minute)
	defer cancel()
	r := started(t, ctx)
	var ops []string
	for number := 0; number < 1200; number++ {
		ops = append(ops, fmt.Sprintf(`{"op":"create","id":"00000000-0000-4000-8000-%012x",`+
			`"parent":"spiffe://ex.org/spire/agent/n","identity":"spiffe://ex.org/w%d",`+
			`"selectors":["u:1"]}`,
			number, number))
	}
	if err := r.Restore(replica.State{Place: uint64(len(batches(ops)))}, batches(ops), nil); err != nil {
		t.Fatal(err)
	}
	lines, err := bookLines(r, names{})
	if count := strings.Count(strings.Join(lines, "\n"), `"op":"create"`); count != len(ops) || err != nil {
		t.Errorf("%d entries, %v", count, err)
	}
}

// randomLine returns a change of one of a few rows, sometimes with a token, and sometimes one that regd refuses.
func randomLine(random *rand.Rand, number int) string {
	id := fmt.Sprintf(`"id":"00000000-0000-4000-8000-%012x"`, random.Intn(30))
	entry := fmt.Sprintf(`%s,"parent":"spiffe://ex.org/spire/agent/n%d","identity":"spiffe://ex.org/w%d",`+
		`"selectors":["u:%d"],"hint":"%d","domains":[%s]`,
		id, random.Intn(3), random.Intn(9), random.Intn(3), number,
		[]string{"", `"b0.org"`, `"b0.org","b1.org"`}[random.Intn(3)])
	agent := fmt.Sprintf(`"agent":"spiffe://ex.org/spire/agent/n%d"`, random.Intn(3))
	op := []string{
		`{"op":"create",` + entry + `}`, `{"op":"create",` + entry + `}`, `{"op":"update",` + entry + `}`,
		`{"op":"delete",` + id + `}`,
		`{"op":"set_agent",` + agent + `,"selectors":["x:1"]}`,
		`{"op":"set_\u0061gent",` + agent + `,"selectors":[]}`, `{"op":"drop_agent",` + agent + `}`,
		fmt.Sprintf(`{"op":"set_bundle","domain":"b%d.org","text":"\"\\%d"}`, random.Intn(3), number),
		`{"op":"drop_bundle","domain":"b1.org","mode":"dissociate"}`,
	}[random.Intn(9)]
	token := ""
	if random.Intn(3) == 0 {
		token = fmt.Sprintf(`,"token":"00000000-0000-4000-9000-%012x"`, random.Intn(200))
	}
	return `{"ops":[` + op + `]` + token + `}`
}

// site returns a log of 400 entries and a replica that has executed all of it.
func site(t *testing.T, ctx context.Context) (*etcdtest.Server, *etcd.Log, *replica.Replica, names) {
	store := etcdtest.New()
	t.Cleanup(store.CloseClientConnections)
	log := etcd.New([]string{store.URL}, "r/", nil)
	if err := log.Open(ctx, "ex.org"); err != nil {
		t.Fatal(err)
	}
	random := rand.New(rand.NewSource(1))
	for entry := uint64(1); entry <= 400; entry++ {
		line := randomLine(random, int(entry))
		if err := appended(ctx, log, fmt.Sprint(entry), line, replica.EmptyLine); err != nil {
			t.Fatal(err)
		}
	}
	r, names := started(t, ctx), names{}
	if err := replay(log, content{}, r, names, 400, nil); err != nil {
		t.Fatal(err)
	}
	return store, log, r, names
}

func started(t *testing.T, ctx context.Context) *replica.Replica {
	r, err := replica.Start(ctx, options(t), func(replica.State) {})
	if err != nil {
		t.Fatal(err)
	}
	t.Cleanup(r.Close)
	return r
}

// TestMake compares a replica that begins with a snapshot with one that has executed the whole log. It needs REGD.
func TestMake(t *testing.T) {
	ctx, cancel := context.WithTimeout(context.Background(), time.Minute)
	defer cancel()
	store, log, whole, noted := site(t, ctx)
	for _, keep := range []uint64{300, 100, 7} {
		if err := Make(ctx, log, options(t), keep); err != nil {
			t.Fatal(err)
		}
		loaded, err := Load(ctx, log, started(t, ctx))
		if last := 400 - keep; err != nil || loaded.Entry != last {
			t.Fatalf("the snapshot ends at %v, %v", loaded, err)
		}
		r, again := started(t, ctx), names{}
		c, err := read(ctx, log)
		if err == nil {
			err = replay(log, c, r, again, 400, nil)
		}
		if err != nil {
			t.Fatal(err)
		}
		if r.State() != whole.State() || !reflect.DeepEqual(r.Tokens(), whole.Tokens()) {
			t.Errorf("keep %d: got %v, want %v", keep, r.State(), whole.State())
		}
		got, _ := bookLines(r, again)
		want, _ := bookLines(whole, noted)
		if len(want) == 0 || strings.Join(got, "\n") != strings.Join(want, "\n") {
			t.Errorf("keep %d: another book", keep)
		}
		if keys := store.Keys(); len(keys) > int(keep)+6 {
			t.Errorf("keep %d: %d keys stay", keep, len(keys))
		}
	}
	before := strings.Join(store.Keys(), " ")
	if err := Make(ctx, log, options(t), 7); err != nil || strings.Join(store.Keys(), " ") != before {
		t.Errorf("a snapshot of nothing new: %v", err)
	}
}

// TestSizes makes a snapshot with several chunks and with more bytes than a line has, and none if that would be longer
// than the log. It needs REGD.
func TestSizes(t *testing.T) {
	ctx, cancel := context.WithTimeout(context.Background(), time.Minute)
	defer cancel()
	store := etcdtest.New()
	t.Cleanup(store.CloseClientConnections)
	log := etcd.New([]string{store.URL}, "r/", nil)
	log.Open(ctx, "ex.org")
	text := strings.Repeat("x", 60000)
	bundle := func(number int) string {
		return fmt.Sprintf(`{"op":"set_bundle","domain":"b%d.org","text":"%s"}`, number, text)
	}
	add := func(entry uint64, ops ...string) {
		if err := appended(ctx, log, fmt.Sprint(entry), `{"ops":[`+strings.Join(ops, ",")+`]}`); err != nil {
			t.Fatal(err)
		}
	}
	add(1, bundle(1), bundle(2), bundle(3), bundle(4), bundle(5))
	if err := Make(ctx, log, options(t), 0); err != nil {
		t.Fatal(err)
	}
	if value, _ := log.Get(ctx, etcd.EntryKey(1)); value == nil {
		t.Error("the log was cut behind a longer snapshot")
	}
	var agents []string
	for number := 6; number < 26; number++ {
		agents = append(agents, fmt.Sprintf(
			`{"op":"set_agent","agent":"spiffe://ex.org/spire/agent/n%d","selectors":[]}`, number))
		add(uint64(number-4), bundle(number))
	}
	for entry := uint64(22); entry < 26; entry++ {
		add(entry, strings.Split(strings.ReplaceAll(strings.Join(agents, "\n"), "agent/n",
			fmt.Sprintf("agent/n%d-", entry)), "\n")...)
	}
	if err := Make(ctx, log, options(t), 0); err != nil {
		t.Fatal(err)
	}
	r := started(t, ctx)
	last, err := Load(ctx, log, r)
	if keys := strings.Join(store.Keys(), " "); err != nil || last.Entry != 25 || r.State().Place != 25 ||
		strings.Count(keys, "r/2/snapshot/") < 3 {
		t.Errorf("got %v, %d, %v, %s", last, r.State().Place, err, keys)
	}
}

// TestVerify checks that a snapshot that makes another book is refused. It needs REGD.
func TestVerify(t *testing.T) {
	ctx, cancel := context.WithTimeout(context.Background(), time.Minute)
	defer cancel()
	_, _, r, names := site(t, ctx)
	lines, err := bookLines(r, names)
	if err != nil {
		t.Fatal(err)
	}
	state, smaller := r.State(), r.State()
	smaller.Place = uint64(len(lines)) - 1
	changed := append([]string{}, lines...)
	changed[len(changed)-1] = strings.Replace(changed[len(changed)-1], `"hint":"`, `"hint":"x`, 1)
	for _, c := range []struct {
		name    string
		content content
		isRight bool
	}{
		{"as it is", content{state, r.Tokens(), lines}, true},
		{"a line changed", content{state, r.Tokens(), changed}, false},
		{"a smaller commit number", content{smaller, r.Tokens(), lines}, false},
		{"a line less", content{state, r.Tokens(), lines[1:]}, false},
	} {
		if err := c.content.verify(ctx, options(t), names); (err == nil) != c.isRight {
			t.Errorf("%s: got %v", c.name, err)
		}
	}
}
