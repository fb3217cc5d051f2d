package snapshot

import (
	"context"
	"encoding/json"
	"errors"
	"fmt"

	"regd/gateway/internal/etcd"
	"regd/gateway/internal/logline"
	"regd/gateway/internal/wire"
)

// Convert makes a log of format 2 from one of format 1, verifies it, and then deletes the one of format 1. All gateways
// have to be stopped. If it is interrupted, it has to be run again.
func Convert(ctx context.Context, log *etcd.Log, domain string) error {
	c, err := log.Freeze(ctx, domain, wire.NewID())
	if err == nil {
		err = convert(ctx, log, c)
	}
	if err != nil && !errors.Is(err, etcd.ErrConverted) {
		return err
	}
	end, err := verifyLog(ctx, log)
	if err != nil {
		return err
	}
	logline.Info("the log has format 2", "entry", end.Entry)
	return c.Clean(ctx)
}

// convert makes the log of format 2.
func convert(ctx context.Context, log *etcd.Log, c *etcd.Conversion) error {
	err := c.Clear(ctx)
	if err != nil {
		return err
	}
	old, err := readOld(ctx, c.Old())
	if err != nil {
		return err
	}
	last := c.After(old.Entry, old.Name)
	old.Name, old.Time = last.Name, last.Time
	for _, kept := range old.Tokens { // from now on they are retained for the usual time
		kept.Time = c.Time()
	}
	if old.Entry > 0 {
		_, err = old.store(ctx, log, c.IsOurs())
	}
	if err == nil {
		last, err = c.Copy(ctx, last)
	}
	if err != nil {
		return err
	}
	return c.Finish(ctx, last)
}

// readOld reads the snapshot of a log of format 1, which has no hash. It is empty if there is none.
func readOld(ctx context.Context, old *etcd.Log) (c content, err error) {
	text, err := old.Get(ctx, "snapshot")
	if err != nil || text == nil {
		return c, err
	}
	var h head
	err = json.Unmarshal(text, &h)
	text = nil
	for i := 0; i < h.Chunks && err == nil; i++ {
		var chunk []byte
		chunk, err = old.GetLarge(ctx, h.chunk(i), chunkSize)
		text = append(text, chunk...)
	}
	if err == nil {
		err = json.Unmarshal(text, &c)
	}
	if err == nil && c.Entry != h.Entry {
		err = fmt.Errorf("the snapshot of entry %d has entry %d", h.Entry, c.Entry)
	}
	return c, err
}

// verifyLog reads the newest snapshot and all entries after it, and returns where the log ends.
func verifyLog(ctx context.Context, log *etcd.Log) (etcd.Position, error) {
	c, err := read(ctx, log)
	if err != nil {
		return etcd.Position{}, err
	}
	reading, stop := context.WithCancel(ctx)
	defer stop()
	isWhole := false
	end, err := log.Follow(reading, c.position(), func(uint64) { isWhole = true; stop() }, func(etcd.Entry) {})
	if isWhole {
		return end, ctx.Err()
	}
	return end, err
}
