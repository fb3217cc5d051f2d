package etcd

import (
	"net/http"
	"net/http/httptest"
	"reflect"
	"strings"
	"testing"
)

// TestMembersStates asks a member that serves, one with an alarm, one that refuses, one that is down, and one that
// shows no metrics.
func TestMembersStates(t *testing.T) {
	usual, _, ctx := openLog(t)
	alarmed, _, _ := openLog(t)
	alarmed.Alarm("memberID:1 alarm:NOSPACE ")
	refusing := httptest.NewServer(http.HandlerFunc(func(w http.ResponseWriter, _ *http.Request) {
		http.Error(w, "no leader", http.StatusServiceUnavailable)
	}))
	defer refusing.Close()
	store, _, _ := openLog(t)
	unmeasured := httptest.NewServer(http.HandlerFunc(func(w http.ResponseWriter, r *http.Request) {
		if r.URL.Path == "/metrics" {
			http.NotFound(w, r)
			return
		}
		store.Config.Handler.ServeHTTP(w, r)
	}))
	defer unmeasured.Close()
	urls := []string{usual.URL, alarmed.URL, refusing.URL, "http://127.0.0.1:1", unmeasured.URL}
	log := New(urls, "r/", nil)
	got := log.Members(ctx)
	if text := got[4].QuotaError; !strings.Contains(text, "404") {
		t.Errorf("a member without metrics: got %s", text)
	}
	got[4].QuotaError = ""
	for i, part := range []string{"", "", "no leader", "refused", ""} {
		if text := got[i].Error; (text == "") != (part == "") || !strings.Contains(text, part) {
			t.Errorf("%s: got the error %s", got[i].URL, text)
		}
		got[i].Error = ""
	}
	want := []Member{{URL: urls[0], Bytes: 1 << 20, Used: 4096, Quota: 1 << 21},
		{URL: urls[1], Bytes: 1 << 20, Used: 4096, Quota: 1 << 21,
			Alarms: []string{"memberID:1 alarm:NOSPACE "}}, {URL: urls[2]}, {URL: urls[3]},
		{URL: urls[4], Bytes: 1 << 20, Used: 4096}}
	if !reflect.DeepEqual(got, want) {
		t.Errorf("got %v", got)
	}
	if failures := log.failures.Load(); failures != 0 {
		t.Errorf("the member for other requests was changed %d times", failures)
	}
}
