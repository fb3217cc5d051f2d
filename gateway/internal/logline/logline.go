// Package logline writes log lines to standard error, as words of the form key="value".
package logline

import (
	"fmt"
	"os"
	"sync/atomic"
	"time"
)

// Info writes a line about the normal course of things. The pairs are keys, each followed by its value.
func Info(event string, pairs ...any) {
	os.Stderr.WriteString(format(time.Now(), "info", event, pairs))
}

// Error writes a line about something that an operator should look at.
func Error(event string, pairs ...any) {
	os.Stderr.WriteString(format(time.Now(), "error", event, pairs))
}

// started is when the process began to count. The time since then doesn't follow a clock that is set.
var started = time.Now()

// A Rare is for an event that may come often: it writes at most one line in a minute. The zero value is ready.
type Rare struct{ next atomic.Int64 } // when the next line is due: nanoseconds since the process started

// Error writes a line as the function Error does, if it is time for one.
func (r *Rare) Error(event string, pairs ...any) {
	if r.isDue(time.Since(started)) {
		Error(event, pairs...)
	}
}

// isDue returns true if a line may be written, and then none is due for a minute.
func (r *Rare) isDue(now time.Duration) bool {
	next := r.next.Load()
	if int64(now) < next {
		return false
	}
	return r.next.CompareAndSwap(next, int64(now+time.Minute))
}

// format returns the line. The event and the values are quoted, so that no text of a caller looks like another word or
// line.
func format(now time.Time, level, event string, pairs []any) string {
	line := fmt.Sprintf("time=%s level=%s event=%q", now.UTC().Format("2006-01-02T15:04:05.000Z"), level, event)
	for i := 0; i+1 < len(pairs); i += 2 {
		line += fmt.Sprintf(" %v=%q", pairs[i], fmt.Sprint(pairs[i+1]))
	}
	return line + "\n"
}
