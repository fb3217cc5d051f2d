package server

import (
	"context"
	"crypto/x509"
	"time"

	"regd/gateway/internal/etcd"
)

// A session ends when its caller would not be let in any more: its certificate has expired, no authority vouches for
// it, or its role is another one. A gateway looks each second.

// lapseTime is how long a session that ends may take to write the answers to lines that are under way.
const lapseTime = 3 * time.Second

// reasons for which a session ends, as the metric of ended connections has them
const isExpired, isUnknown, isOtherRole = "expired", "authority", "role"

// lapse is what a session has for that. All but the chain is of the goroutine that looks.
type lapse struct {
	chain   []*x509.Certificate // of the caller
	checked *x509.CertPool      // the authorities that last vouched for it
	ended   time.Time           // when that began
}

// endSessions ends those sessions whose callers would not be let in, until the context ends.
func (g *Gateway) endSessions(ctx context.Context) error {
	for ctx.Err() == nil {
		etcd.Pause(ctx, time.Second)
		if g.options.Callers == nil || g.sessions.Load() == 0 {
			continue
		}
		rights := rights{g.options.Callers.current().ClientCAs, g.roles.current(), time.Now()}
		g.open.Range(func(_, value any) bool {
			s := value.(*session)
			s.endIfLapsed(rights)
			return true
		})
	}
	return ctx.Err()
}

// rights decide who would be let in.
type rights struct {
	authorities *x509.CertPool
	roles       *roleTable
	now         time.Time
}

// endIfLapsed ends a session whose caller would not be let in, and closes its connection if that takes too long.
func (s *session) endIfLapsed(r rights) {
	if s.isOver.Load() {
		if r.now.Sub(s.lapse.ended) > lapseTime {
			s.conn.Close()
		}
		return
	}
	reason := s.lapseReason(r)
	if reason == "" {
		return
	}
	s.lapse.ended = r.now
	s.isOver.Store(true)
	s.Gateway.ended.Inc(reason)
	err := s.conn.SetReadDeadline(time.Now()) // which ends the wait for a line
	if err != nil {
		s.conn.Close()
	}
}

// lapseReason returns why the caller would not be let in, or "".
func (s *session) lapseReason(r rights) string {
	if r.now.After(s.lapse.chain[0].NotAfter) {
		return isExpired
	}
	if s.lapse.checked != r.authorities {
		err := checkChain(s.lapse.chain, r.authorities, "", x509.ExtKeyUsageClientAuth)
		if err != nil {
			return isUnknown
		}
		s.lapse.checked = r.authorities
	}
	if r.roles.of(s.agent) != s.role {
		return isOtherRole
	}
	return ""
}

// mustEnd returns true if the session reads no further line.
func (s *session) mustEnd() bool { return s.isStopping.Load() || s.isOver.Load() }
