package logline

import (
	"sync"
	"time"
)

// how many lines a Few writes in which time
const fewLines, fewTime = 10, time.Minute

// A Few is for an event of which each one is of interest, but which strangers may cause often. It writes at most ten
// lines in a minute, and the next line says how many were left out. The zero value is ready.
type Few struct {
	mu      sync.Mutex
	begin   time.Time // of the minute
	written int
	leftOut int
}

// Error writes a line as the function Error does, if few have been written in this minute.
func (f *Few) Error(event string, pairs ...any) {
	isDue, leftOut := f.take(time.Now())
	if !isDue {
		return
	}
	if leftOut > 0 {
		pairs = append(pairs, "left_out", leftOut)
	}
	Error(event, pairs...)
}

// take returns whether a line may be written, and how many were left out before it.
func (f *Few) take(now time.Time) (isDue bool, leftOut int) {
	f.mu.Lock()
	defer f.mu.Unlock()
	if now.Sub(f.begin) >= fewTime {
		f.begin, f.written = now, 0
	}
	if f.written == fewLines {
		f.leftOut++
		return false, 0
	}
	leftOut = f.leftOut
	f.written, f.leftOut = f.written+1, 0
	return true, leftOut
}
