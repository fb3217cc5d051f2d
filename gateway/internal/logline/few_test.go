package logline

import (
	"testing"
	"time"
)

// TestFew checks how many lines are written in a minute, and that the next one says how many were left out.
func TestFew(t *testing.T) {
	var f Few
	begin := time.Now()
	for i := 0; i < 3*fewLines; i++ {
		if isDue, leftOut := f.take(begin.Add(time.Duration(i))); isDue != (i < fewLines) || leftOut != 0 {
			t.Errorf("line %d: got %v, %d", i, isDue, leftOut)
		}
	}
	for i, want := range []int{2 * fewLines, 0} {
		if isDue, leftOut := f.take(begin.Add(fewTime)); !isDue || leftOut != want {
			t.Errorf("line %d of the next minute: got %v, %d", i, isDue, leftOut)
		}
	}
}
