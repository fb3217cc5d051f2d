package etcd_test

import (
	"context"
	"errors"
	"fmt"
	"reflect"
	"strings"
	"testing"
	"time"

	"regd/gateway/internal/etcd"
	"regd/gateway/internal/etcd/etcdtest"
)

func open(t *testing.T) (*etcdtest.Server, *etcd.Log, context.Context) {
	server := etcdtest.New()
	t.Cleanup(server.CloseClientConnections)
	ctx, cancel := context.WithTimeout(context.Background(), time.Minute)
	t.Cleanup(cancel)
	log := etcd.New([]string{server.URL}, "r/", nil)
	if err := log.Open(ctx, "ex.org"); err != nil {
		t.Fatal(err)
	}
	return server, log, ctx
}

// draft returns what becomes an entry of one line.
func draft(id string) etcd.Draft { return etcd.Draft{ID: id, Lines: [][]byte{[]byte(id)}} }

// fill appends entries with the IDs 1, 2 and so on, up to a number.
func fill(t *testing.T, ctx context.Context, log *etcd.Log, prefix string, last uint64) etcd.Position {
	end, err := log.End(ctx)
	for end.Entry < last && err == nil {
		end, err = log.Append(ctx, end, draft(fmt.Sprint(prefix, end.Entry+1)))
	}
	if err != nil {
		t.Fatal(err)
	}
	return end
}

func TestOpen(t *testing.T) {
	_, log, ctx := open(t)
	if _, err := log.Append(ctx, etcd.Start, draft("a")); err != nil {
		t.Fatal(err)
	}
	if err := log.Open(ctx, "ex.org"); err != nil {
		t.Error(err)
	}
	if err := log.Open(ctx, "other.org"); !errors.Is(err, etcd.ErrDomain) {
		t.Errorf("the log of another trust domain: got %v", err)
	}
	if head, err := log.Head(ctx); head != 1 || err != nil {
		t.Errorf("head: got %d, %v", head, err)
	}
}

// TestOpenWithDamagedMember opens a log of which one member has another format, another domain, or none of them: the
// other member decides, and if none is right, the first one.
func TestOpenWithDamagedMember(t *testing.T) {
	right, log, ctx := open(t)
	if _, err := log.Append(ctx, etcd.Start, draft("a")); err != nil {
		t.Fatal(err)
	}
	whole := right.Backup()
	for text, change := range map[string]func(map[string][]byte){
		"another format": func(has map[string][]byte) { has["r/2/format"] = []byte(`{"reader":6,"writer":2}`) },
		"no format":      func(has map[string][]byte) { delete(has, "r/2/format") },
		"a torn format":  func(has map[string][]byte) { has["r/2/format"] = []byte(`{"reader`) },
		"another domain": func(has map[string][]byte) { has["r/2/domain"] = []byte("ez.org") },
	} {
		damaged, _, _ := open(t)
		values := map[string][]byte{}
		for key, value := range whole {
			values[key] = value
		}
		change(values)
		damaged.Restore(values)
		if err := etcd.New([]string{damaged.URL, right.URL}, "r/", nil).Open(ctx, "ex.org"); err != nil {
			t.Errorf("%s: got %v", text, err)
		}
		err := etcd.New([]string{damaged.URL, damaged.URL}, "r/", nil).Open(ctx, "ex.org")
		isNamed := errors.Is(err, etcd.ErrFormat) || errors.Is(err, etcd.ErrDamaged)
		if !isNamed && !errors.Is(err, etcd.ErrDomain) {
			t.Errorf("%s in both: got %v", text, err)
		}
		err = etcd.New([]string{damaged.URL, "http://127.0.0.1:1"}, "r/", nil).Open(ctx, "ex.org")
		if err == nil {
			t.Errorf("%s, and no other member: opened", text)
		}
	}
}

// TestOpenTogether lets another gateway create a log, and append to it, when this one has found none: it doesn't create
// it again.
func TestOpenTogether(t *testing.T) {
	server := etcdtest.New()
	defer server.CloseClientConnections()
	ctx, cancel := context.WithTimeout(context.Background(), time.Minute)
	defer cancel()
	log := etcd.New([]string{server.URL}, "r/", nil)
	server.Before(1, func() {
		if err := log.Open(ctx, "ex.org"); err != nil {
			t.Error(err)
		}
		if _, err := log.Append(ctx, etcd.Start, draft("a")); err != nil {
			t.Error(err)
		}
	})
	if err := log.Open(ctx, "ex.org"); err != nil {
		t.Error(err)
	}
	if head, err := log.Head(ctx); head != 1 || err != nil {
		t.Errorf("head: got %d, %v", head, err)
	}
}

// TestLogFormat checks which logs a gateway begins with: those that say that their readers and writers need no newer
// format. It makes none next to one of format 1, or of one whose format is lost.
func TestLogFormat(t *testing.T) {
	whole := map[string]string{"r/domain": "(none: ", "r/2/domain": "ex.org", "r/2/head": "0 0 " + etcd.Origin}
	for text, want := range map[string]error{
		`{"reader":2,"writer":2}`: nil, `{"reader":1,"writer":2}`: nil, `{"reader":1,"writer":1}`: nil,
		`{"reader":3,"writer":3}`: etcd.ErrFormat, `{"reader":2,"writer":3}`: etcd.ErrFormat,
		`{"reader":3,"writer":2}`: etcd.ErrFormat, `{"writer":2}`: etcd.ErrFormat,
		`{"reader":2}`: etcd.ErrFormat,
		`{"reader":`:   etcd.ErrDamaged, "": etcd.ErrDamaged,
	} {
		server, log, ctx := open(t)
		values := map[string][]byte{"r/2/format": []byte(text)}
		for key, value := range whole {
			values[key] = []byte(value)
		}
		server.Restore(values)
		if err := log.Open(ctx, "ex.org"); !errors.Is(err, want) {
			t.Errorf("%s: got %v", text, err)
		}
	}
	guard := guardOf(t)
	for name, c := range map[string]struct {
		values map[string]string
		want   error
	}{
		"format 1":               {map[string]string{"r/domain": "ex.org", "r/head": "0"}, etcd.ErrOldFormat},
		"format 1, another one":  {map[string]string{"r/domain": "b.org", "r/head": "0"}, etcd.ErrOldFormat},
		"format 1 without head":  {map[string]string{"r/domain": "ex.org"}, etcd.ErrOldFormat},
		"format 1 with the head": {map[string]string{"r/head": "7"}, etcd.ErrOldFormat},
		"a lost format":          {map[string]string{"r/2/head": "7 0 " + etcd.Origin}, etcd.ErrDamaged},
		"half a conversion":      {map[string]string{"r/domain": guard, "r/2/from": "{}"}, etcd.ErrUnfinished},
	} {
		server, log, ctx := open(t)
		values := map[string][]byte{}
		for key, value := range c.values {
			values[key] = []byte(value)
		}
		server.Restore(values)
		if err := log.Open(ctx, "ex.org"); !errors.Is(err, c.want) || len(server.Keys()) != len(c.values) {
			t.Errorf("%s: got %v, %v", name, err, server.Keys())
		}
	}
}

// guardOf returns what a gateway of format 1 finds in place of the trust domain of a log of format 2.
func guardOf(t *testing.T) string {
	server, _, _ := open(t)
	return string(server.Backup()["r/domain"])
}

func TestAppend(t *testing.T) {
	server, log, ctx := open(t)
	ends := []etcd.Position{etcd.Start}
	for _, c := range []struct {
		name  string
		after int
		id    string
		lose  int // answers
		last  uint64
		err   error
	}{
		{"the first", 0, "a", 0, 1, nil},
		{"two answers lost", 1, "b", 2, 2, nil},
		{"taken", 0, "c", 0, 3, nil},
		{"not yet due", 9, "d", 0, 4, nil},
		{"taken, and an answer lost", 0, "e", 1, 5, nil},
		{"made before", 3, "d", 0, 5, nil},
		{"made before, and an answer lost", 3, "d", 1, 5, nil},
		{"not made, and an answer lost", 9, "f", 1, 5, etcd.ErrUnknown},
	} {
		server.LoseAnswers(c.lose)
		after := etcd.Position{Entry: uint64(c.after), Name: etcd.Origin}
		if c.after < len(ends) {
			after = ends[c.after]
		}
		last, err := log.Append(ctx, after, draft(c.id))
		if last.Entry != c.last || !errors.Is(err, c.err) {
			t.Errorf("%s: got %v, %v", c.name, last, err)
		}
		if int(last.Entry) == len(ends) {
			ends = append(ends, last)
		}
	}
	for number, want := range []string{"a", "b", "c", "d", "e", ""} {
		value, err := log.Get(ctx, etcd.EntryKey(uint64(number+1)))
		if e, _ := etcd.ReadEntry(uint64(number+1), value); e.ID != want || err != nil {
			t.Errorf("entry %d is %s, %v", number+1, value, err)
		}
	}
	head, err := log.Get(ctx, "head")
	if err != nil {
		t.Fatal(err)
	}
	if err := log.Cut(ctx, 4, log.Has("head", []byte("4"))); err == nil {
		t.Error("cut although a condition does not hold")
	}
	if err := log.Cut(ctx, 4, log.Has("head", head)); err != nil {
		t.Error(err)
	}
	const want = "r/2/domain r/2/format r/2/head r/2/log/0000000000000005 r/domain"
	if keys := strings.Join(server.Keys(), " "); keys != want {
		t.Errorf("keys: %s", keys)
	}
	if last, err := log.Append(ctx, ends[1], draft("g")); last.Entry != 6 || err != nil {
		t.Errorf("cut off: got %v, %v", last, err)
	}
	server.LoseAnswers(1)
	if _, err := log.Append(ctx, ends[1], draft("h")); !errors.Is(err, etcd.ErrUnknown) {
		t.Errorf("cut off, and an answer lost: got %v", err)
	}
}

// TestAppendDamaged loses the answer to an append, and then a bit of the entry: it isn't made a second time, and
// another one that doesn't verify is not taken for it.
func TestAppendDamaged(t *testing.T) {
	server, log, ctx := open(t)
	end := fill(t, ctx, log, "", 1)
	server.LoseAnswers(1)
	server.Before(2, func() { server.Damage("r/2/"+etcd.EntryKey(2), 90) })
	if last, err := log.Append(ctx, end, draft("b")); last.Entry != 2 || !errors.Is(err, etcd.ErrUnknown) {
		t.Errorf("got %v, %v", last, err)
	}
}

// TestTimes checks that no entry is older than the one before, whatever the clock says.
func TestTimes(t *testing.T) {
	_, log, ctx := open(t)
	begin := time.Now().UnixMilli()
	end := fill(t, ctx, log, "", 1)
	if end.Time < begin || end.Time > time.Now().UnixMilli() {
		t.Errorf("the first entry has the time %d", end.Time)
	}
	future := etcd.Position{Entry: 1, Name: end.Name, Time: end.Time + 1e9}
	if err := log.Put(ctx, "head", []byte(fmt.Sprint(1, " ", future.Time, " ", future.Name))); err != nil {
		t.Fatal(err)
	}
	if last, err := log.Append(ctx, future, draft("b")); last.Time != future.Time || err != nil {
		t.Errorf("got %v, %v", last, err)
	}
}

func TestFollow(t *testing.T) {
	server, log, ctx := open(t)
	const before = 1203
	end := fill(t, ctx, log, "", before)
	reading, stop := context.WithCancel(ctx)
	defer stop()
	caught, taken := uint64(0), uint64(0)
	last, err := log.Follow(reading, etcd.Start, func(last uint64) {
		if caught = last; taken != last {
			t.Errorf("entry %d is announced as the last one after entry %d", last, taken)
		}
		go func() {
			for server.Counts().Watches == 0 && ctx.Err() == nil {
				time.Sleep(time.Millisecond)
			}
			log.Cut(ctx, 3) // of which the watch says nothing
			fill(t, ctx, log, "", before+5)
		}()
	}, func(e etcd.Entry) {
		if e.Entry != taken+1 || e.ID != fmt.Sprint(e.Entry) {
			t.Errorf("after %d came %d with %s", taken, e.Entry, e.ID)
		}
		if taken = e.Entry; taken == before+5 {
			stop()
		}
	})
	if err == nil || caught != before || taken != before+5 || last.Entry != before+5 {
		t.Errorf("caught up at %d, ended at %d, last %v, %v", caught, taken, last, err)
	}
	none := func(etcd.Entry) {}
	log.Cut(ctx, 100)
	for name, c := range map[string]struct {
		from etcd.Position
		want error
	}{
		"cut off in front": {etcd.Position{Entry: 49, Name: etcd.Origin}, etcd.ErrCut},
		"behind the end":   {etcd.Position{Entry: before + 6, Name: last.Name}, etcd.ErrTurnedBack},
		"another entry":    {etcd.Position{Entry: before, Name: etcd.Origin}, etcd.ErrTurnedBack},
		"another end":      {etcd.Position{Entry: before + 5, Name: end.Name}, etcd.ErrTurnedBack},
		"an older entry":   {etcd.Position{Entry: before, Name: end.Name, Time: 1e15}, etcd.ErrDamaged},
		"the entry":        {end, context.Canceled},
		"the end":          {last, context.Canceled},
	} {
		reading, stop := context.WithCancel(ctx)
		_, err := log.Follow(reading, c.from, func(uint64) { stop() }, none)
		if !errors.Is(err, c.want) {
			t.Errorf("%s: got %v", name, err)
		}
		stop()
	}
	log.Cut(ctx, before+5)
	from := etcd.Position{Entry: 49, Name: etcd.Origin}
	if _, err := log.Follow(ctx, from, func(uint64) {}, none); !errors.Is(err, etcd.ErrCut) {
		t.Errorf("all cut off: got %v", err)
	}
}

// TestFollowRestored restores a log of as many other entries, before a page and while what was read is executed.
func TestFollowRestored(t *testing.T) {
	for _, when := range []string{"a page", "caught up"} {
		server, log, ctx := open(t)
		short, stop := context.WithTimeout(ctx, 30*time.Second)
		defer stop()
		empty := server.Backup()
		fill(t, ctx, log, "other ", 200)
		other := server.Backup()
		server.Restore(empty)
		fill(t, ctx, log, "", 200)
		if when == "a page" {
			server.Before(3, func() { server.Restore(other) })
		}
		_, err := log.Follow(short, etcd.Start, func(uint64) {
			server.Restore(other)
		}, func(e etcd.Entry) {
			if e.ID != fmt.Sprint(e.Entry) {
				t.Errorf("%s: took the entry %s", when, e.ID)
			}
		})
		if !errors.Is(err, etcd.ErrTurnedBack) {
			t.Errorf("%s: got %v", when, err)
		}
	}
}

// TestDamaged flips a bit in each byte of an entry and of the log's end, one after another: no entry with another bit
// is passed on, and no reader catches up with the log.
func TestDamaged(t *testing.T) {
	server, log, ctx := open(t)
	ctx, stop := context.WithTimeout(ctx, 30*time.Second)
	defer stop()
	fill(t, ctx, log, "", 3)
	whole := server.Backup()
	for _, key := range []string{"r/2/" + etcd.EntryKey(2), "r/2/head"} {
		for at := range whole[key] {
			server.Damage(key, at)
			_, err := log.Follow(ctx, etcd.Start, func(uint64) { t.Errorf("%s, %d: caught up", key, at) },
				func(e etcd.Entry) {
					if e.Entry == 2 && key != "r/2/head" {
						t.Errorf("%s, %d: passed on %v", key, at, e)
					}
				})
			isNamed := errors.Is(err, etcd.ErrDamaged) || key == "r/2/head" &&
				(errors.Is(err, etcd.ErrCut) || errors.Is(err, etcd.ErrTurnedBack))
			if !isNamed {
				t.Errorf("%s, %d: got %v", key, at, err)
			}
			server.Damage(key, at)
		}
	}
}

// TestCutBehindLostEntry restores a log, and cuts it exactly behind the last entry that was read, of the lost log:
// what was read is noticed to be lost, whether or not there are entries after the cut.
func TestCutBehindLostEntry(t *testing.T) {
	for _, more := range []uint64{0, 20} {
		server, log, ctx := open(t)
		backup := server.Backup()
		lost := fill(t, ctx, log, "lost ", 40)
		server.Restore(backup)
		fill(t, ctx, log, "", 40+more)
		if err := log.Cut(ctx, 40); err != nil {
			t.Fatal(err)
		}
		_, err := log.Follow(ctx, lost, func(uint64) { t.Error("caught up") },
			func(e etcd.Entry) { t.Errorf("passed on %v", e) })
		if !errors.Is(err, etcd.ErrTurnedBack) {
			t.Errorf("%d more: got %v", more, err)
		}
	}
}

func TestInsist(t *testing.T) {
	server, log, ctx := open(t)
	server.Refuse(2)
	if err := log.Put(ctx, "x/a", []byte("1")); err != nil {
		t.Error(err)
	}
	log.Put(ctx, "x/b", []byte("2"))
	all, err := log.List(ctx, "x/")
	if err != nil || len(all) != 2 || all["b"] != "2" {
		t.Errorf("got %v, %v", all, err)
	}
	short, cancel := context.WithTimeout(ctx, 50*time.Millisecond)
	defer cancel()
	server.Refuse(1000)
	if _, err := log.Get(short, "x/a"); !errors.Is(err, context.DeadlineExceeded) {
		t.Errorf("got %v", err)
	}
	server.Refuse(0)
}

// TestMembers uses the members that answer.
func TestMembers(t *testing.T) {
	server, _, ctx := open(t)
	log := etcd.New([]string{"http://127.0.0.1:1", server.URL}, "r/", nil)
	for i := 0; i < 3; i++ {
		if had, err := log.Get(ctx, "domain"); err != nil || string(had) != "ex.org" {
			t.Errorf("got %s, %v", had, err)
		}
	}
}

// TestEntry checks that an entry has what was appended.
func TestEntry(t *testing.T) {
	_, log, ctx := open(t)
	first := fill(t, ctx, log, "", 1)
	lines := [][]byte{[]byte("a"), {}, []byte("b\r")}
	d := etcd.Draft{ID: "n.1", Skip: "7.2", Callers: []string{"spiffe://ex.org/x", ""}, By: []int{1, 0, 7}}
	d.Lines, d.Keep, d.Room = lines, 7000, 1<<30
	end, err := log.Append(ctx, first, d)
	if err != nil {
		t.Fatal(err)
	}
	value, err := log.Get(ctx, etcd.EntryKey(2))
	if err != nil {
		t.Fatal(err)
	}
	got, err := etcd.ReadEntry(2, value)
	want := etcd.Entry{Position: end, Before: first.Name, Draft: d}
	if err != nil || !reflect.DeepEqual(got, want) {
		t.Errorf("got %v, %v, want %v", got, err, want)
	}
	for line, want := range []string{"", "spiffe://ex.org/x", "", ""} {
		if got.Caller(line) != want {
			t.Errorf("the caller of line %d is %q", line, got.Caller(line))
		}
	}
	if _, err := etcd.ReadEntry(3, value); !errors.Is(err, etcd.ErrDamaged) {
		t.Errorf("under another number: got %v", err)
	}
	if skipped, isSkip := got.Skipped(); !isSkip || skipped != (etcd.Line{Entry: 7, Number: 2}) {
		t.Errorf("got %v, %v", skipped, isSkip)
	}
}

// TestSkip checks what the log has of a skipped line.
func TestSkip(t *testing.T) {
	server, log, ctx := open(t)
	for number := uint64(1); number <= 20; number++ {
		d := etcd.Draft{ID: fmt.Sprint(number), Lines: [][]byte{[]byte("a"), []byte("b")}}
		if _, err := log.Append(ctx, etcd.Start, d); err != nil {
			t.Fatal(err)
		}
	}
	for _, line := range []etcd.Line{{Entry: 21, Number: 1}, {Entry: 17, Number: 3}, {Entry: 17}} {
		if err := log.Skip(ctx, line, "x"); err == nil {
			t.Errorf("line %v was skipped, which is not there", line)
		}
	}
	if skips, err := log.Skips(ctx); len(skips) != 0 || err != nil {
		t.Errorf("got %v, %v", skips, err)
	}
	server.Before(1, func() { // another gateway makes an entry first
		fill(t, ctx, log, "", 21)
		server.Before(1, func() {
			if skips, _ := log.Skips(ctx); len(skips) != 0 {
				t.Errorf("%v is there before its record", skips)
			}
		})
	})
	second := etcd.Line{Entry: 17, Number: 2}
	for _, id := range []string{"x", "y"} { // such as again, when the first one was not answered
		if err := log.Skip(ctx, second, id); err != nil {
			t.Fatal(err)
		}
	}
	skips, err := log.Skips(ctx)
	if when, bad := time.Parse(time.RFC3339, skips[second]); len(skips) != 1 || err != nil || bad != nil ||
		time.Since(when) > time.Minute {
		t.Errorf("got %v, %v", skips, err)
	}
	for number, id := range map[uint64]string{22: "x", 23: "y"} {
		value, _ := log.Get(ctx, etcd.EntryKey(number))
		e, err := etcd.ReadEntry(number, value)
		if line, isRecord := e.Skipped(); err != nil || e.ID != id || !isRecord || line != second ||
			len(e.Lines) != 1 || string(e.Lines[0]) != `{"skip":"17.2"}` {
			t.Errorf("entry %d is %s", number, value)
		}
	}
	for skip, want := range map[string]bool{"17.2": true, "": false, "17": false, "x": false} {
		line, isRecord := (etcd.Draft{Skip: skip}).Skipped()
		if isRecord != want || isRecord && line != second {
			t.Errorf("%s: got %v, %v", skip, line, isRecord)
		}
	}
	for text, want := range map[string]bool{"17.2": true, "17": false, "17.2.": false, "017.2": false, "": false,
		"-1.2": false} {
		if line, ok := etcd.ParseLine(text); ok != want || ok && line != second {
			t.Errorf("%s: got %v, %v", text, line, ok)
		}
	}
}
