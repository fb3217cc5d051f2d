package logline

import (
	"bufio"
	"fmt"
	"io"
	"os"
	"os/exec"
	"strings"
	"testing"
	"time"

	"regd/gateway/internal/clocktest"
)

// TestMain makes this program one that logs a rare event for each line that it reads, if the arguments say so.
func TestMain(m *testing.M) {
	if len(os.Args) > 1 && os.Args[1] == "log" {
		var r Rare
		for in := bufio.NewScanner(os.Stdin); in.Scan(); fmt.Println() {
			r.Error(in.Text())
		}
		os.Exit(0)
	}
	os.Exit(m.Run())
}

// TestRareClock moves the clock of a process forward and back: a rare event is logged once in a minute by any clock.
func TestRareClock(t *testing.T) {
	if !clocktest.IsPossible {
		t.Skip("the clock of a process can be moved on Linux and amd64 alone")
	}
	command := exec.Command(os.Args[0], "log")
	var logged strings.Builder
	command.Stderr = &logged
	in, err := command.StdinPipe()
	if err != nil {
		t.Fatal(err)
	}
	out, err := command.StdoutPipe()
	if err == nil {
		err = command.Start()
	}
	if err != nil {
		t.Fatal(err)
	}
	read := bufio.NewReader(out)
	for _, by := range []time.Duration{0, 2 * time.Minute, -time.Hour} {
		if err := clocktest.Move(command.Process.Pid, by); err != nil {
			t.Fatal(err)
		}
		fmt.Fprintf(in, "moved by %v\n", by)
		if _, err := read.ReadString('\n'); err != nil && err != io.EOF {
			t.Fatal(err)
		}
	}
	in.Close()
	if err := command.Wait(); err != nil {
		t.Fatal(err)
	}
	if text := logged.String(); strings.Count(text, "\n") != 1 || !strings.Contains(text, "moved by 0s") {
		t.Errorf("logged %s", text)
	}
}
