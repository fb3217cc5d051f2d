package main

import (
	"context"
	"fmt"
	"strings"
	"testing"
	"time"

	"regd/gateway/book"
	"regd/gateway/internal/booktest"
)

// TestBackup backs a book up, restores it into an empty server, and finds no difference.
func TestBackup(t *testing.T) {
	s := applied(t, false)
	got := s.do("backup")
	if got.status != 0 || got.errs != "book of ex.org at commit 1: 4 entries, 2 agents, 1 bundle\n" ||
		!strings.HasPrefix(got.out,
			`{"ops":[{"domain":"partner.org","op":"set_bundle","text":"{\"keys\":[]}"},{"agent":`) {
		t.Errorf("%v", got)
	}
	s.file("backup", got.out)
	other := newStand(t, false)
	other.folder = s.folder
	other.expect("restore @/backup", 0, "7 operations restored by 1 batch; at commit 1\n")
	other.expect("restore @/backup", 0, "7 operations restored by 1 batch, of which 1 made before; at commit 1\n")
	if got := other.do("diff @/backup %" + s.Address); got.status != 0 {
		t.Errorf("%v", got)
	}
	other.change(`{"op":"create","id":"24bbb05c-58d9-4fc7-bdb2-747061ad2046","parent":"spiffe://ex.org/p",` +
		`"identity":"spiffe://ex.org/i","selectors":["x:1"]}`)
	if got := other.do("restore @/backup"); got.status != 4 || !strings.Contains(got.errs,
		"has other entries at commit 2") {
		t.Errorf("%v", got)
	}
	if got := other.do("restore -into @/backup"); got.status != 0 {
		t.Errorf("%v", got)
	}
	s.file("bad", "x\n")
	if got := other.do("restore @/bad"); got.status != 2 || !strings.Contains(got.errs,
		"line 1 is not a request line") {
		t.Errorf("%v", got)
	}
}

// TestBackupOfOlderServer refuses a backup that may lack agents, and takes those of a request log.
func TestBackupOfOlderServer(t *testing.T) {
	s := applied(t, true)
	if got := s.do("backup"); got.status != 4 || got.out != "" || !strings.Contains(got.errs, "add -partial") {
		t.Errorf("%v", got)
	}
	if got := s.do("backup -partial"); got.status != 0 || strings.Contains(got.out, "set_agent") {
		t.Errorf("%v", got)
	}
	s.file("log", `{"ops":[{"op":"set_agent","agent":"spiffe://ex.org/spire/agent/a","selectors":[]}]}`)
	if got := s.do("backup -names @/log"); got.status != 0 || strings.Count(got.out, "set_agent") != 1 {
		t.Errorf("%v", got)
	}
}

// TestBackupRevisions makes entries and bundles with their revisions, and a large book in several lines.
func TestBackupRevisions(t *testing.T) {
	s := applied(t, false)
	for i := 0; i < 3; i++ {
		if got := s.do(fmt.Sprintf("entry set -entryID %s -hint %d", idOf("/node/rack-1 /web"),
			i)); got.status != 0 {
			t.Fatalf("%v", got)
		}
	}
	s.change(`{"op":"set_bundle","domain":"partner.org","text":"x"}`)
	got := s.do("backup -revisions")
	m := booktest.New("ex.org")
	for _, line := range strings.Split(strings.TrimSpace(got.out), "\n") {
		m.Answer(line)
	}
	if fmt.Sprint(m.Rows().Entries, m.Rows().Bundles) != fmt.Sprint(s.model.Rows().Entries,
		s.model.Rows().Bundles) {
		t.Errorf("got %v, want %v", m.Rows(), s.model.Rows())
	}
	m = booktest.New("ex.org")
	for i := 0; i < 200; i++ {
		id := fmt.Sprintf("%08d-0000-4000-8000-000000000000", i)
		m.Entries[id] = book.Entry{ID: id, Parent: "spiffe://ex.org/p", Identity: "spiffe://ex.org/i",
			Selectors: []string{fmt.Sprintf("x:%d", i)}, Domains: []string{},
			Hint: strings.Repeat("x", 1000)}
	}
	large := &stand{t, booktest.Serve(t, m), m, t.TempDir()}
	got = large.do("backup")
	for _, line := range strings.Split(strings.TrimSpace(got.out), "\n") {
		if len(line) > 256<<10 || strings.Count(line, `"op":`) > 64 {
			t.Errorf("%d bytes", len(line))
		}
	}
}

// TestDiff compares places, files and servers.
func TestDiff(t *testing.T) {
	s := applied(t, false)
	before := s.do("backup").out
	s.file("before", before)
	if got := s.do("apply -yes @/later.yaml"); got.status != 0 {
		t.Fatalf("%v", got)
	}
	web, api, migrate := idOf("/node/rack-1 /web"), idOf("/node/rack-11 /api"), idOf("/node/rack-1 /migrate")
	marker := "~ /regdctl/set  " + markerID() + "\n"
	got := s.do("diff 1 2")
	if got.status != 4 || !strings.Contains(got.out, "~ /web  "+web+"\n      hint           \"\" -> \"www\"\n") ||
		!strings.HasSuffix(got.out, "+ /api  "+api+"\n- /migrate  "+migrate+"\n") ||
		!strings.HasPrefix(got.out, marker[:30]) {
		t.Errorf("%v", got)
	}
	if got := s.do("diff 2 2"); got.status != 0 || got.out != "no difference between commit 2 and commit 2\n" {
		t.Errorf("%v", got)
	}
	if got := s.do("diff 2 %" + s.Address); got.status != 0 {
		t.Errorf("%v", got)
	}
	if got := s.do("diff 2 99"); got.status != 3 || !strings.Contains(got.errs, "refused: O8") {
		t.Errorf("%v", got)
	}
	got = s.do("diff @/before %" + s.Address)
	if got.status != 4 || !strings.HasPrefix(got.out, "~ /spire/agent/b  agent\n      selectors      \"host:b "+
		"rack:1\" -> "+
		"\"host:b rack:2\"\n") {
		t.Errorf("%v", got)
	}
	if got := s.do("diff @/later.yaml %" + s.Address); got.status != 0 {
		t.Errorf("%v", got)
	}
	if got := s.do("diff @/prod.yaml @/later.yaml"); got.status != 4 || strings.Count(got.out, "\n") != 6 {
		t.Errorf("%v", got)
	}
	if got := s.do("diff @/missing 1"); got.status != 2 || !strings.Contains(got.errs,
		"neither a place, nor a file") {
		t.Errorf("%v", got)
	}
}

func markerID() string { return "aa07b090-d004-8000-8000-000000000000" }

// TestWatch prints each commit by itself, also those that came while it slept, and says which it has missed.
func TestWatch(t *testing.T) {
	s := applied(t, false)
	const id = "24bbb05c-58d9-4fc7-bdb2-747061ad2046"
	set := `{"op":"set_agent","agent":"spiffe://ex.org/spire/agent/z","selectors":[]}`
	create := `{"op":"create","id":"` + id + `","parent":"spiffe://ex.org/p","identity":"spiffe://ex.org/i",` +
		`"selectors":["x:1"]}`
	isFast := false // 71 commits between a look and the reading
	changes := [][]string{nil, {set, create}, {`{"op":"delete","id":"` + id + `"}`}, strings.Split(
		strings.Repeat(set+"\n", 69)+set, "\n")}
	s.Before(func(_ int, line string) bool {
		if strings.Contains(line, `"size":1`) && len(changes) > 0 {
			for _, one := range changes[0] {
				s.change(one)
			}
			changes = changes[1:]
		}
		if strings.Contains(line, `"at":74`) && !isFast {
			isFast = true
			for i := 0; i < 71; i++ {
				s.change(set)
			}
		}
		return false
	})
	got := s.do("watch -interval 1ms -until 145")
	want := "commit 2  no entry changed\ncommit 3  + /i  24bbb05c-58d9-4fc7-bdb2-747061ad2046\n" +
		"commit 4  - /i  24bbb05c-58d9-4fc7-bdb2-747061ad2046\ncommit 11  no entry changed\n"
	if got.status != 0 || !strings.HasPrefix(got.out, want) || !strings.HasSuffix(got.out,
		"commit 145  no entry changed\n") ||
		!strings.HasPrefix(got.errs, "regdctl: commits 5 to 10 are too old by now") {
		t.Errorf("%v", got)
	}
	s.Before(nil)
	if got := s.do("watch -set prod -parentID /p -until 0"); got.status != 0 || got.out != "" {
		t.Errorf("%v", got)
	}
	ctx, cancel := context.WithTimeout(context.Background(), 50*time.Millisecond)
	defer cancel()
	var out strings.Builder
	env := func(name string) (string, bool) { return s.Address, name == "REGDCTL_ADDRESS" }
	if status := run(ctx, []string{"watch"}, strings.NewReader(""), &out, &out, env); status != 0 {
		t.Errorf("%d %s", status, out.String())
	}
}
