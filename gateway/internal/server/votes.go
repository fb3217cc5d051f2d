package server

import (
	"context"
	"errors"
	"fmt"
	"time"

	"regd/gateway/internal/replica"
)

// voteInterval is how many entries are between two votes.
const voteInterval = 1000

// entries of which a gateway looks at the votes, and of which it leaves its own
const votesWatched, votesLeft = 4, 64

// ErrOutvoted is returned when a majority of the gateways has another checksum.
var ErrOutvoted = errors.New("a majority of the gateways has another checksum")

// judge returns what votes, which are checksums by the names of gateways, say about one of them: whether any is
// different, and whether a majority of the gateways that are there agrees on another checksum. There is a value for
// each of these.
func judge(own string, votes, there map[string]string) (isDisputed, isOutvoted bool) {
	counts := map[string]int{}
	for name, sum := range votes {
		isDisputed = isDisputed || sum != own
		if there[name] == "" {
			continue
		}
		counts[sum]++
		isOutvoted = isOutvoted || sum != own && 2*counts[sum] > len(there)
	}
	return isDisputed, isOutvoted
}

// compare votes, and looks at the votes of the other gateways, until this one is outvoted or the context ends.
//
// A vote is the checksum of all commits and refusals up to an entry, stored under the version of the replies, the
// entry's number and name, and the gateway. Votes of different versions are not compared, and neither are those of
// replicas that have left out different lines. After etcd was restored from a backup, an entry that was lost may have
// the number of a new one, but not its name. Two votes that differ don't decide anything: both gateways go on until a
// third one votes.
func (g *Gateway) compare(ctx context.Context) error {
	for last := []replica.State{}; ; {
		select {
		case <-ctx.Done():
			return ctx.Err()
		case <-time.After(g.options.Limits.Votes):
		case mark := <-g.marks:
			last = append(last, mark)
			if len(last) > votesWatched {
				last = last[1:]
			}
			if err := g.vote(ctx, mark); err != nil {
				return err
			}
		}
		err := g.look(ctx, last)
		if err != nil {
			return err
		}
	}
}

// look looks at the votes on some entries. It returns ErrOutvoted if this gateway is outvoted.
func (g *Gateway) look(ctx context.Context, last []replica.State) error {
	there, err := g.gatewaysThere(ctx)
	if err != nil {
		return err
	}
	isDisputed := false
	for _, mark := range last {
		votes, err := g.log.List(ctx, g.votesOn(mark))
		if err != nil {
			return err
		}
		own := fmt.Sprintf("%x", mark.Sum)
		votes[g.options.Name] = own
		isDifferent, isOutvoted := judge(own, votes, there)
		if isDifferent {
			logDispute(mark.Entry, own, votes, len(there))
		}
		if isOutvoted {
			return ErrOutvoted
		}
		isDisputed = isDisputed || isDifferent
	}
	g.isDisputed.Store(isDisputed)
	return nil
}

// votesOn returns the folder of the votes on the entry of a mark. It is in a folder of all entries with this number.
func (g *Gateway) votesOn(mark replica.State) string {
	version := g.options.Replies
	if mark.Skipped > 0 {
		version += fmt.Sprintf("+%d", mark.Skipped)
	}
	return fmt.Sprintf("sum/%s/%016x/%s/", version, mark.Entry, mark.Name)
}

// vote stores a vote, and deletes old ones.
func (g *Gateway) vote(ctx context.Context, mark replica.State) error {
	err := g.log.Put(ctx, g.votesOn(mark)+g.options.Name, []byte(fmt.Sprintf("%x", mark.Sum)))
	if err == nil && mark.Entry > votesLeft*voteInterval {
		mark.Entry, mark.Name = mark.Entry-votesLeft*voteInterval, ""
		old := g.votesOn(mark) // with two slashes at its end
		err = g.log.Delete(ctx, old[:len(old)-1], old[:len(old)-2]+"0")
	}
	return err
}
