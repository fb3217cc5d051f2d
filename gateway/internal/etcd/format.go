package etcd

import (
	"context"
	"encoding/json"
	"errors"
	"fmt"

	"regd/gateway/internal/logline"
)

// Format is the version of what a log has. All keys of a log are in a folder of its own, so a gateway of another
// version never appends to it.
const Format, folder = 2, "2/"

// Errors of Open, which another start doesn't cure.
var (
	ErrDomain     = errors.New("the log is that of another trust domain")
	ErrFormat     = errors.New("the log needs a newer gateway")
	ErrOldFormat  = errors.New("the log has format 1: make a backup, stop all gateways, and run one with -convert")
	ErrUnfinished = errors.New("the conversion of the log has not ended: run it again, with -convert")
)

// guard is the value of the key that had the trust domain of a log of format 1. A gateway of that format prints it,
// and ends.
const guard = "(none: the log has format 2, and this gateway knows format 1 alone)"

// versions is the value of the key format: the lowest versions that may read the log, and append to it.
type versions struct {
	Reader int `json:"reader"`
	Writer int `json:"writer"`
}

// check returns an error unless a gateway of this version may read the log and append to it.
func (v versions) check() error {
	if v.Reader < 1 || v.Writer < 1 || v.Reader > Format || v.Writer > Format {
		return fmt.Errorf("%w: one that reads format %d and writes format %d; this one has format %d",
			ErrFormat, v.Reader, v.Writer, Format)
	}
	return nil
}

// formatText is the value of the key format of a log that this version makes.
func formatText() ([]byte, error) { return json.Marshal(versions{Format, Format}) }

// Open prepares the log for a trust domain. It returns ErrDomain if the log is that of another one, and one of the
// other errors above if the log has another format. It writes nothing if there is a log, so a full etcd doesn't prevent
// it. Since the file of one member may be damaged, it fails with these errors only if no member has a log for this
// gateway.
func (l *Log) Open(ctx context.Context, domain string) error {
	var first error
	for range l.members {
		err := l.openThere(ctx, domain)
		if err == nil && first != nil {
			logline.Error("a member of etcd has another log", "error", first)
		}
		if err == nil || first == nil && !isOfLog(err) {
			return err
		}
		if first == nil {
			first = err
		}
		l.Distrust()
	}
	return first
}

// isOfLog returns whether an error says what is in the log, and not that etcd doesn't answer.
func isOfLog(err error) bool {
	for _, one := range []error{ErrDomain, ErrFormat, ErrOldFormat, ErrUnfinished, ErrDamaged} {
		if errors.Is(err, one) {
			return true
		}
	}
	return false
}

// openThere is Open with what the present member has.
func (l *Log) openThere(ctx context.Context, domain string) error {
	isThere, err := l.check(ctx, domain)
	if err == nil && !isThere {
		err = l.create(ctx, domain)
		if err == nil {
			isThere, err = l.check(ctx, domain) // another gateway may have created the log
		}
	}
	if err == nil && !isThere {
		return l.oldError(ctx)
	}
	return err
}

// check returns whether there is a log of this format, and an error if it is not for this gateway.
func (l *Log) check(ctx context.Context, domain string) (isThere bool, err error) {
	text, err := l.Get(ctx, "format")
	if err != nil || text == nil {
		return false, err
	}
	var v versions
	err = json.Unmarshal(text, &v)
	if err != nil {
		return false, fmt.Errorf("%w: its format is %.100q", ErrDamaged, text)
	}
	err = v.check()
	if err != nil {
		return false, err
	}
	had, err := l.Get(ctx, "domain")
	if err == nil && string(had) != domain {
		err = fmt.Errorf("%w: %s", ErrDomain, had)
	}
	return true, err
}

// create makes an empty log, if there is none, also none of format 1.
func (l *Log) create(ctx context.Context, domain string) error {
	format, err := formatText()
	if err != nil {
		return err
	}
	request := object{
		"compare": []object{l.lacks("head"), l.old().lacks("head"), l.old().lacks("domain")},
		"success": []object{
			l.writing("head", Start.text()), l.writing("domain", []byte(domain)),
			l.writing("format", format),
			l.old().writing("domain", []byte(guard)),
		},
	}
	return l.insist(ctx, "open", func() error { return l.change(ctx, 0, request, &struct{}{}) })
}

// oldError returns why there is no log although none can be created.
func (l *Log) oldError(ctx context.Context) error {
	head, err := l.Get(ctx, "head")
	if err != nil {
		return err
	}
	had, err := l.old().Get(ctx, "domain")
	switch {
	case err != nil:
		return err
	case head != nil:
		return fmt.Errorf("%w: it has lost its format", ErrDamaged)
	case string(had) == guard:
		return ErrUnfinished
	}
	return ErrOldFormat
}

// old returns what reads and writes the keys of a log of format 1.
func (l *Log) old() *Log {
	o := &Log{members: l.members, outer: l.outer, prefix: l.outer, times: l.times, http: l.http,
		failing: map[string]map[string]bool{}}
	o.pageSize.Store(l.pageSize.Load())
	o.failures.Store(l.failures.Load())
	return o
}
