package server

import (
	"bytes"
	"context"
	"errors"
	"fmt"
	"strings"
	"time"

	"regd/gateway/internal/etcd"
	"regd/gateway/internal/logline"
)

// presenceFolder has a key for each gateway that is there, with its name. The value is the run that has the name, how
// often it has renewed it, and its version of replies. The key is there as long as the run renews its lease. So a name
// is that of one gateway, and the number of gateways is known of which a majority decides.
const presenceFolder = "gateway/"

// leftAfter is for how many times of a lease the value of another run has to stay the same before its name counts as
// left behind. The lease alone doesn't tell: etcd makes each one longer when it elects a leader, again and again if its
// leaders end.
const leftAfter = 2

// refusals is for how many times of a lease another run has to renew the name before a gateway ends.
const refusals = 4

// ErrNameTaken is returned when another gateway has the same name.
var ErrNameTaken = errors.New("another gateway has this name")

// A claim is that of a gateway to its name.
type claim struct {
	lease    string    // "" if there is none
	renewals int       // of the name
	value    []byte    // of the key when it was seen last, or nil if there was none
	isOwn    bool      // the value is that of this run
	seen     time.Time // since when the key has this value of another run
	refused  time.Time // since when another run is known to renew the name
}

// keepName keeps the name of this gateway, until the context ends or another gateway has had the name for longer than a
// run that has ended could. Without an answer of etcd it tries again: the gateway serves meanwhile.
func (g *Gateway) keepName(ctx context.Context) error {
	var c claim
	defer g.giveBack(&c)
	for ctx.Err() == nil {
		err := g.renewClaim(ctx, &c)
		if errors.Is(err, ErrNameTaken) {
			return err
		}
		if err != nil && ctx.Err() == nil {
			g.nameFails.Error("the name is not renewed", "name", g.options.Name, "error", err)
		}
		etcd.Pause(ctx, g.options.Limits.Presence/3)
	}
	return ctx.Err()
}

// backTime is how long a gateway that ends tries to give its name back.
const backTime = 3 * time.Second

// giveBack ends the lease, so that the name is free, and the gateway doesn't count, immediately.
func (g *Gateway) giveBack(c *claim) {
	if c.lease == "" {
		return
	}
	ctx, cancel := context.WithTimeout(context.Background(), backTime)
	defer cancel()
	err := g.log.Revoke(ctx, c.lease)
	if err != nil {
		g.nameFails.Error("the name is not renewed", "name", g.options.Name, "error", err)
	}
}

// renewClaim renews the lease and the name, and claims the name again if the lease has ended.
func (g *Gateway) renewClaim(ctx context.Context, c *claim) (err error) {
	if c.lease != "" {
		err = g.log.Renew(ctx, c.lease)
	}
	if errors.Is(err, etcd.ErrLeaseEnded) {
		c.lease, c.value, c.isOwn, err = "", nil, false, nil
	}
	if err == nil && c.lease == "" {
		c.lease, err = g.log.Grant(ctx, g.options.Limits.Presence)
	}
	if err != nil {
		return err
	}
	former := c.value
	if !c.isOwn && time.Since(c.seen) < leftAfter*g.options.Limits.Presence {
		former = nil
	}
	c.renewals++
	has, err := g.log.Claim(ctx, presenceFolder+g.options.Name, former, g.presence(c.renewals), c.lease)
	if err != nil {
		return err
	}
	c.take(has, g.run)
	if !c.refused.IsZero() && time.Since(c.refused) > refusals*g.options.Limits.Presence {
		return fmt.Errorf("%w: %s", ErrNameTaken, g.options.Name)
	}
	return nil
}

// take takes note of the value that the key of the name has. Another run that changes its value is alive.
func (c *claim) take(has []byte, run string) {
	before := c.value
	c.value, c.isOwn = has, bytes.HasPrefix(has, []byte(run+" "))
	switch {
	case c.isOwn || has == nil:
		c.seen, c.refused = time.Time{}, time.Time{}
	case bytes.Equal(has, before):
	case before != nil && runOf(has) == runOf(before) && c.refused.IsZero():
		c.seen, c.refused = time.Now(), time.Now()
	default:
		c.seen = time.Now()
	}
}

// runOf returns the run in the value of a key.
func runOf(value []byte) string {
	run, _, _ := strings.Cut(string(value), " ")
	return run
}

// presence returns the value of the key of this gateway when it has renewed its name so often.
func (g *Gateway) presence(renewals int) []byte {
	return []byte(fmt.Sprintf("%s %d %s", g.run, renewals, g.options.Replies))
}

// gatewaysThere returns the names of the gateways that are there and have the same version of replies, also of this
// one.
func (g *Gateway) gatewaysThere(ctx context.Context) (map[string]string, error) {
	all, err := g.log.List(ctx, presenceFolder)
	if err != nil {
		return nil, err
	}
	all[g.options.Name] = string(g.presence(0))
	g.gateways.Store(int64(len(all)))
	for name, value := range all {
		if !strings.HasSuffix(value, " "+g.options.Replies) {
			delete(all, name)
		}
	}
	return all, nil
}

// logDispute writes a log line about votes that differ.
func logDispute(entry uint64, own string, votes map[string]string, gateways int) {
	logline.Error("checksums differ", "entry", entry, "sum", own, "votes", votes, "gateways", gateways)
}
