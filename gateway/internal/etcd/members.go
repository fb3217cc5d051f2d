package etcd

import (
	"bufio"
	"context"
	"encoding/json"
	"net/http"
	"strconv"
	"strings"
	"sync"
)

// A Member is the state of a member of etcd.
type Member struct {
	URL    string   `json:"url"`
	Bytes  int64    `json:"bytes"` // of its database file
	Used   int64    `json:"used"`  // of them in use
	Quota  int64    `json:"quota"` // of the file, or 0 if unknown
	Alarms []string `json:"alarms,omitempty"`
	Error  string   `json:"error,omitempty"` // why it doesn't serve requests
	// why the quota is unknown of a member that serves requests
	QuotaError string `json:"quota_error,omitempty"`
}

// Members asks each member for its state.
func (l *Log) Members(ctx context.Context) []Member {
	ctx, cancel := context.WithTimeout(ctx, l.times.call)
	defer cancel()
	all := make([]Member, len(l.members))
	var asking sync.WaitGroup
	for i, url := range l.members {
		asking.Add(1)
		go func(i int, url string) {
			defer asking.Done()
			all[i].URL = url
			if err := l.ask(ctx, &all[i]); err != nil {
				all[i].Error = err.Error()
			}
		}(i, url)
	}
	asking.Wait()
	return all
}

// ask fills in the state of a member.
func (l *Log) ask(ctx context.Context, m *Member) error {
	body, err := l.send(ctx, http.MethodPost, m.URL+"/v3/maintenance/status", []byte("{}"))
	if err != nil {
		return err
	}
	defer body.Close()
	var status struct {
		Bytes  int64 `json:"dbSize,string"`
		Used   int64 `json:"dbSizeInUse,string"`
		Errors []string
	}
	if err := json.NewDecoder(body).Decode(&status); err != nil {
		return err
	}
	m.Bytes, m.Used, m.Alarms = status.Bytes, status.Used, status.Errors
	if m.Quota, err = l.quota(ctx, m.URL); err != nil { // its metrics may be at another address
		m.QuotaError = err.Error()
	}
	return nil
}

// quota returns the quota of a member, which it reports as a metric alone.
func (l *Log) quota(ctx context.Context, url string) (int64, error) {
	body, err := l.send(ctx, http.MethodGet, url+"/metrics", nil)
	if err != nil {
		return 0, err
	}
	defer body.Close()
	in := bufio.NewScanner(body)
	for in.Scan() {
		if value := strings.TrimPrefix(in.Text(), "etcd_server_quota_backend_bytes "); value != in.Text() {
			quota, err := strconv.ParseFloat(value, 64)
			return int64(quota), err
		}
	}
	return 0, in.Err()
}
