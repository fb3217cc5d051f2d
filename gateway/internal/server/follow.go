package server

import (
	"context"
	"errors"
	"fmt"
	"time"

	"regd/gateway/internal/etcd"
	"regd/gateway/internal/logline"
	"regd/gateway/internal/replica"
	"regd/gateway/internal/snapshot"
)

// againTime is the time before another replica is started. The pauses before the log is read again begin with it, and
// end with the other one.
const againTime, mostAgainTime = 200 * time.Millisecond, time.Second

// silentTime is how long a watch may bring nothing although there are new entries.
const silentTime = 3 * time.Second

// A failure is a line in which one replica after another has ended.
type failure struct {
	Line  etcd.Line `json:"line"`
	Times int       `json:"times"`
	sent  uint64    // the last entry that any of them has got
}

// follow keeps a replica at the end of the log, and starts another one when it ends, until the context ends.
func (g *Gateway) follow(ctx context.Context) error {
	for v := (verdict{Gateway: g}); ; {
		isReady, err := g.runReplica(ctx)
		if ctx.Err() != nil {
			return ctx.Err()
		}
		v.take(isReady, err)
		g.replicasEnded.Inc()
		logline.Error("replica ended", "error", err)
		if f := g.failure.Load(); f != nil && f.Times > 1 {
			logline.Error("a line ends replicas", "line", f.Line, "times", f.Times)
		}
		etcd.Pause(ctx, againTime)
	}
}

// runReplica makes a replica from the newest snapshot and the log, and keeps it at the end of the log until it ends. It
// returns whether it was ready.
func (g *Gateway) runReplica(ctx context.Context) (isReady bool, err error) {
	_, err = g.awaitLog(ctx)
	if err != nil {
		return false, err
	}
	began := time.Now()
	r, err := replica.Start(ctx, g.options.Replica, g.executed)
	if err != nil {
		return false, err
	}
	defer r.Close()
	f := follower{Gateway: g, r: r, began: began, before: g.failure.Load()}
	f.pauses = etcd.Backoff{First: againTime, Most: mostAgainTime}
	err = f.load()
	if err != nil {
		return false, err
	}
	defer g.board.clear()
	defer f.noteFailure()
	for {
		err = f.read()
		if err != nil {
			return f.isReady, err
		}
		f.pauses.Pause(r.Context())
	}
}

// A follower keeps one replica at the end of the log.
type follower struct {
	*Gateway
	r       *replica.Replica
	began   time.Time
	skips   etcd.Skips
	last    etcd.Position // of the entry that it has got last
	isReady bool
	pauses  etcd.Backoff

	before *failure  // of the replicas before this one
	at     etcd.Line // the line that is executed, while lines are executed one at a time
}

// load makes the replica from the newest snapshot.
func (f *follower) load() error {
	ctx := f.r.Context()
	skips, err := f.log.Skips(ctx)
	if err != nil {
		return err
	}
	f.skips = skips
	f.Gateway.skips.Store(&skips)
	f.last, err = snapshot.Load(ctx, f.log, f.r)
	return err
}

// noteFailure stores what is known of a line in which the replica has ended.
func (f *follower) noteFailure() {
	f.failure.Store(f.before.after(f.r.State().Entry, f.at, f.last.Entry))
}

// read executes the log from the next entry on, and waits for more, until that fails. Then it returns an error if the
// replica has ended, or is one of another log.
func (f *follower) read() error {
	ctx := f.r.Context()
	reading, cut := context.WithCancel(ctx)
	caughtUp := func(end uint64) {
		f.caughtUp(end)
		go f.guard(reading, cut, f.r)
	}
	last, err := f.log.Follow(reading, f.last, caughtUp, f.take)
	cut()
	f.last = last
	if ctx.Err() != nil {
		return errors.New("regd ended")
	}
	if errors.Is(err, etcd.ErrDamaged) {
		f.r.Settle() // so that no line is taken for the reason
		return err
	}
	isOther := errors.Is(err, etcd.ErrCut) || errors.Is(err, etcd.ErrTurnedBack)
	if isOther || errors.Is(err, etcd.ErrNoHead) {
		wasLost, failed := f.awaitLog(ctx)
		if failed != nil {
			return failed
		}
		if isOther && !wasLost {
			return err
		}
	}
	f.readAgain.Error("reading the log again", "last", last.Entry, "error", err)
	return nil
}

// caughtUp shows the replica to callers when it has executed all entries up to the last one.
func (f *follower) caughtUp(last uint64) {
	f.r.Settle()
	state := f.r.State()
	if state.Entry < last { // regd has ended
		return
	}
	f.board.update(func() { f.board.replica, f.board.state = f.r, f.r.State() })
	f.unverified.Store(nil)
	f.giveUpLost(state.Entry)
	f.pauses.Reset()
	if f.isReady {
		return
	}
	f.isReady = true
	took := time.Since(f.began)
	f.replays.Observe(took)
	logline.Info("replica ready", "entry", last, "place", state.Place,
		"seconds", fmt.Sprintf("%.2f", took.Seconds()))
}

// take sends an entry to the replica.
func (f *follower) take(e etcd.Entry) {
	f.pass(e)
	line, isRecord := e.Skipped()
	if isRecord && f.skips[line] == "" {
		logline.Info("a line is skipped of which the replica did not know", "line", line)
		f.r.Close()
	}
	isSkipped := func(i int) bool {
		line := etcd.Line{Entry: e.Entry, Number: i + 1}
		f.search(line)
		return f.skips[line] != ""
	}
	f.r.Apply(snapshot.Executable(e), isSkipped, func(i int, reply []byte) { f.answer(e, i, reply) })
}

// search executes the lines before the given one to their ends, if it may be the one that ends replicas. So that one is
// the last one before which the replica had not ended.
func (f *follower) search(line etcd.Line) {
	if !f.before.concerns(line.Entry) {
		return
	}
	f.r.Settle()
	if !f.r.HasEnded() {
		f.at = line
	}
}

// concerns returns true if a line of an entry may be the one that ends replicas.
func (f *failure) concerns(entry uint64) bool {
	return f != nil && f.Line.Entry <= entry && entry <= f.sent
}

// after returns the failure after a replica has ended which had executed one entry and got another one, or nil if it
// had executed all. If the lines were executed one at a time, it has ended in the given one.
func (f *failure) after(executed uint64, at etcd.Line, sent uint64) *failure {
	if executed >= sent {
		return nil
	}
	if at.Entry != executed+1 {
		at = etcd.Line{Entry: executed + 1, Number: 1}
	}
	if f != nil && f.Line == at {
		return &failure{at, f.Times + 1, f.sent}
	}
	return &failure{at, 1, sent}
}

// executed takes note that the replica has executed an entry.
func (g *Gateway) executed(state replica.State) {
	g.board.update(func() { g.board.state = state })
	g.giveUpLost(state.Entry)
	if state.Entry%voteInterval == 0 {
		select {
		case g.marks <- state:
		default: // while etcd doesn't answer, those that there is no room for don't count
		}
	}
}

// guard cuts a watch of the log when that brings nothing although the log ends elsewhere: it has grown, or was lost or
// turned back before the watch began, which then waits for a revision that is far away. The pages before the watch may
// be large, and have a limit of their own.
func (g *Gateway) guard(ctx context.Context, cut func(), r *replica.Replica) {
	defer cut()
	entry, came := r.State().Entry, time.Now()
	for moved := came; ctx.Err() == nil && time.Since(moved) < silentTime; {
		etcd.Pause(ctx, time.Second)
		if now := r.State().Entry; now != entry {
			entry, came = now, time.Now()
			moved = came
		} else if g.end.Load().fits(entry, came) {
			moved = time.Now()
		}
	}
}

// fits returns true if an end of the log doesn't show that a watch misses something, which has brought this entry at
// that time: it is this entry, or was asked for before the entry came, or isn't known.
func (e *logEnd) fits(entry uint64, came time.Time) bool {
	return e == nil || e.entry == entry || e.entry < entry && e.asked.Before(came)
}
