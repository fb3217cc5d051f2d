package etcd

import (
	"context"
	"errors"
	"strconv"
	"time"
)

// A lease ends if it is not renewed for its time, and its keys are deleted then. So they say which gateways are there.

// ErrLeaseEnded is returned for a lease that etcd doesn't have any more.
var ErrLeaseEnded = errors.New("the lease has ended")

// Grant returns a new lease for a time.
func (l *Log) Grant(ctx context.Context, long time.Duration) (lease string, err error) {
	var granted struct{ ID string }
	seconds := strconv.FormatInt(int64(long/time.Second), 10)
	err = l.call(ctx, l.times.call, 1, "/v3/lease/grant", object{"TTL": seconds}, &granted)
	if err == nil && granted.ID == "" {
		err = errors.New("etcd has granted no lease")
	}
	return granted.ID, err
}

// Renew renews a lease.
func (l *Log) Renew(ctx context.Context, lease string) error {
	var renewed struct {
		Result struct{ TTL string }
	}
	err := l.call(ctx, l.times.call, 1, "/v3/lease/keepalive", object{"ID": lease}, &renewed)
	if err == nil && (renewed.Result.TTL == "" || renewed.Result.TTL == "0") {
		err = ErrLeaseEnded
	}
	return err
}

// Revoke ends a lease.
func (l *Log) Revoke(ctx context.Context, lease string) error {
	return l.call(ctx, l.times.call, 1, "/v3/lease/revoke", object{"ID": lease}, &struct{}{})
}

// Claim stores a value under a key, for as long as a lease is renewed, if the key has the former value; if that is nil,
// if there is no key. It returns the value that the key then has, or nil if there is none.
func (l *Log) Claim(ctx context.Context, name string, former, value []byte, lease string) (has []byte, err error) {
	put := object{"key": l.key(name), "value": value, "lease": lease}
	condition := l.lacks(name)
	if former != nil {
		condition = l.Has(name, former)
	}
	request := object{
		"compare": []object{condition},
		"success": []object{{"request_put": put}},
		"failure": []object{l.reading(name)},
	}
	var done transaction
	err = l.change(ctx, len(value), request, &done)
	switch {
	case err != nil:
		return nil, err
	case done.Succeeded:
		return value, nil
	case len(done.Responses) != 1:
		return nil, errors.New("etcd has not answered who has the key")
	case len(done.Responses[0].Range.Kvs) == 0:
		return nil, nil
	}
	return done.Responses[0].Range.Kvs[0].Value, nil
}
