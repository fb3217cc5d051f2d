package audit

import (
	"encoding/json"
	"fmt"
	"os"
	"path/filepath"
	"strings"
	"testing"
)

// TestTake checks what a record says of a reply.
func TestTake(t *testing.T) {
	for reply, want := range map[string]Change{
		`{"call":1,"place":7,"replies":[],"result":"committed"}`: {Place: 7, Outcome: "committed"},
		`{"call":1,"place":7,"replies":[],"result":"repeated"}`:  {Place: 7, Outcome: "repeated"},
		`{"call":1,"place":7,"replies":[],"result":"answered"}`:  {Place: 7, Outcome: "answered"},
		`{"call":1,"code":"O3","place":7,"result":"refused"}`:    {Place: 7, Outcome: "refused", Code: "O3"},
		`{"code":"L2","line":4}`:                                 {Outcome: "refused", Code: "L2"},
		"":                                                       {Outcome: Unknown},
	} {
		var got Change
		if reply == "" {
			got.Take(nil)
		} else {
			got.Take([]byte(reply))
		}
		if got != want {
			t.Errorf("%s: got %v", reply, got)
		}
	}
	if got := TimeText(1_000_000_000_123); got != "2001-09-09T01:46:40.123Z" {
		t.Errorf("the time is %s", got)
	}
}

// entries returns the entries of the changes in a file.
func entries(t *testing.T, path string) (text string) {
	t.Helper()
	written, err := os.ReadFile(path)
	if err != nil {
		t.Fatal(err)
	}
	for _, line := range strings.Split(strings.TrimSuffix(string(written), "\n"), "\n") {
		var c Change
		if err := json.Unmarshal([]byte(line), &c); err != nil {
			t.Fatalf("%s: %v", line, err)
		}
		text += fmt.Sprint(c.Entry, " ")
	}
	return text
}

// TestRecordFile writes changes into files that rotate, also after the record is opened again.
func TestRecordFile(t *testing.T) {
	path := filepath.Join(t.TempDir(), "audit")
	line, _ := json.Marshal(Change{Entry: 1})
	most := int64(3*len(line) + 3)
	for entry := uint64(1); entry <= 9; entry += 2 {
		r, err := Open(path, most, 2)
		if err != nil {
			t.Fatal(err)
		}
		r.Write([]Change{{Entry: entry}})
		r.Write([]Change{{Entry: entry + 1}})
		if r.Failures.Load() != 0 {
			t.Errorf("%d failures", r.Failures.Load())
		}
		r.out.Close()
	}
	for name, want := range map[string]string{path: "10 ", path + ".1": "7 8 9 ", path + ".2": "4 5 6 "} {
		if got := entries(t, name); got != want {
			t.Errorf("%s has %s", name, got)
		}
	}
	if _, err := os.Stat(path + ".3"); err == nil {
		t.Error("too many files are kept")
	}
	alone := filepath.Join(t.TempDir(), "audit")
	r, err := Open(alone, 1, 0)
	if err != nil {
		t.Fatal(err)
	}
	r.Write([]Change{{Entry: 1}, {Entry: 2}})
	r.Write([]Change{{Entry: 3}})
	if got := entries(t, alone); got != "3 " {
		t.Errorf("the only file has %s", got)
	}
}

// TestRecordFails lets a record fail: changes are counted, and it goes on when it can.
func TestRecordFails(t *testing.T) {
	folder := filepath.Join(t.TempDir(), "folder")
	path := filepath.Join(folder, "audit")
	if _, err := Open(path, 1, 1); err == nil {
		t.Error("a record in no folder was opened")
	}
	if err := os.Mkdir(folder, 0o700); err != nil {
		t.Fatal(err)
	}
	r, err := Open(path, 1, 1)
	if err != nil {
		t.Fatal(err)
	}
	r.Write([]Change{{Entry: 1}})
	if err := os.Rename(folder, folder+"2"); err != nil {
		t.Fatal(err)
	}
	r.Write([]Change{{Entry: 2}, {Entry: 3}})
	if r.Failures.Load() != 2 {
		t.Errorf("%d failures", r.Failures.Load())
	}
	if err := os.Mkdir(folder, 0o700); err != nil {
		t.Fatal(err)
	}
	r.Write([]Change{{Entry: 4}})
	if got := entries(t, path); got != "4 " || r.Failures.Load() != 2 {
		t.Errorf("got %s, %d failures", got, r.Failures.Load())
	}
}

// TestTornLine fills the space for a record in the middle of a line: the next record begins a line of its own.
func TestTornLine(t *testing.T) {
	path := filepath.Join(t.TempDir(), "audit")
	r, err := Open(path, 1<<20, 1)
	if err != nil {
		t.Fatal(err)
	}
	if _, err := r.out.WriteString(`{"entry":`); err != nil {
		t.Fatal(err)
	}
	r.isTorn = true // as a write says that has no space left
	r.Write([]Change{{Entry: 7}})
	text, err := os.ReadFile(path)
	if err != nil || !strings.HasPrefix(string(text), "{\"entry\":\n{\"time\"") || r.isTorn {
		t.Errorf("got %s, %v", text, err)
	}
	full, err := os.OpenFile("/dev/full", os.O_WRONLY, 0)
	if err != nil {
		t.Skip("no /dev/full")
	}
	r.out = full
	r.Write([]Change{{Entry: 8}})
	if r.Failures.Load() != 1 || r.isTorn {
		t.Errorf("without space: %d failures, torn: %v", r.Failures.Load(), r.isTorn)
	}
}
