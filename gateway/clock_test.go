package main

import (
	"encoding/json"
	"net/http"
	"testing"
	"time"

	"regd/gateway/internal/clocktest"
)

// TestClock moves the clock of a gateway that etcd doesn't answer back by an hour: it notices the silence nevertheless,
// and says for how long that has lasted. A clock that goes forward doesn't make etcd silent.
func TestClock(t *testing.T) {
	if !clocktest.IsPossible {
		t.Skip("the clock of a process can be moved on Linux and amd64 alone")
	}
	t.Parallel()
	s := newSite(t)
	state := s.freeAddress()
	gateway, _ := s.start("-status", state)
	isReady := func() bool {
		answer, err := http.Get("http://" + state + "/ready/changes")
		if err != nil {
			t.Fatal(err)
		}
		answer.Body.Close()
		return answer.StatusCode == http.StatusOK
	}
	move := func(by time.Duration) {
		if err := clocktest.Move(gateway.Process.Pid, by); err != nil {
			t.Fatal(err)
		}
	}
	s.waits("it is not ready", isReady)
	move(2 * time.Hour)
	if !isReady() {
		t.Error("a clock that goes forward makes etcd silent")
	}
	s.store.Refuse(1 << 30)
	move(-time.Hour)
	s.waits("it is ready for changes", func() bool { return !isReady() })
	var status struct{ Silent float64 }
	err := json.Unmarshal([]byte(s.get("http://"+state+"/status")), &status)
	if err != nil || status.Silent < 5 || status.Silent > 60 {
		t.Errorf("etcd is silent for %v seconds, %v", status.Silent, err)
	}
	s.store.Refuse(0)
	s.waits("it is not ready again", isReady)
}
