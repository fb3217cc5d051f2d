package server

import (
	"errors"

	"regd/gateway/internal/etcd"
	"regd/gateway/internal/logline"
)

// A verdict finds out from the ends of replicas whether the log verifies. From a log that doesn't, a gateway serves
// nothing: it refuses all lines until a replica has executed the log to its end.
type verdict struct {
	*Gateway
	broken int // replicas, one after another, that could not be made because the log has not all entries
}

// take takes the end of a replica. The next one reads another member of etcd, if the log doesn't verify.
//
// A replica that is not yet ready was made from the log alone. If entries are missing then, or two don't follow one
// another, a snapshot or a restored backup may be the reason once, but not again and again.
func (v *verdict) take(isReady bool, err error) {
	isBroken := errors.Is(err, etcd.ErrCut) || errors.Is(err, etcd.ErrTurnedBack)
	isDamaged := errors.Is(err, etcd.ErrDamaged) || errors.Is(err, etcd.ErrFormat)
	if isReady || !isBroken {
		v.broken = 0
	} else {
		v.broken++
	}
	if !isDamaged && v.broken < 2 {
		return
	}
	reason := err.Error()
	v.unverified.Store(&reason)
	v.unverifiedTimes.Inc()
	v.log.Distrust()
	logline.Error("the log doesn't verify, and nothing is served", "error", err)
}
