package server

import (
	"context"

	"regd/gateway/internal/etcd"
	"regd/gateway/internal/logline"
)

// An etcd that comes back empty, or whose data were replaced by those of another one, has a log of which this gateway's
// book is no part. To follow an empty log would replace the book by an empty one, without a word. So a gateway that has
// executed an entry, and then finds the log empty, keeps its book: it executes and appends nothing, until the log has
// the last entry of the book again, or an operator restarts the gateway, which then has no book.

// checkLog finds out whether the log was lost, after it could not be read on. It returns true if the gateway has to
// keep its book. Its error is that of the context.
func (g *Gateway) checkLog(ctx context.Context) (isLost bool, err error) {
	book := g.board.last()
	if book.Entry == 0 {
		return false, nil
	}
	if g.isLogLost.Load() {
		isBack, err := g.log.HasEntry(ctx, book.Entry, book.Name)
		if err == nil && isBack {
			logline.Info("the log is back", "entry", book.Entry)
			g.isLogLost.Store(false)
		}
		return !isBack, err
	}
	isEmpty, err := g.log.IsEmpty(ctx)
	if err == nil && isEmpty {
		logline.Error("the log is empty, and the book is kept", "entry", book.Entry, "place", book.Place,
			"cure", "restore etcd, or restart the gateway to follow the empty log")
		g.isLogLost.Store(true)
	}
	return isEmpty, err
}

// awaitLog waits while the log is lost, and returns true if it was.
func (g *Gateway) awaitLog(ctx context.Context) (wasLost bool, err error) {
	pauses := etcd.Backoff{First: againTime, Most: mostAgainTime}
	for {
		isLost, err := g.checkLog(ctx)
		if err != nil || !isLost {
			return wasLost, err
		}
		wasLost = true
		pauses.Pause(ctx)
	}
}
