// Package metrics has counters and histograms, and writes them in the text format of Prometheus.
package metrics

import (
	"bytes"
	"fmt"
	"sort"
	"strconv"
	"strings"
	"sync"
	"sync/atomic"
	"time"
)

// ContentType is the type of a Page.
const ContentType = "text/plain; version=0.0.4; charset=utf-8"

// A Counter is a number that only grows. The zero value is ready, and so are those of the other types.
type Counter struct{ atomic.Uint64 }

// Inc adds 1.
func (c *Counter) Inc() { c.Add(1) }

// A Vector has a counter for each value of a label.
type Vector struct{ counters sync.Map } // from values to *Counter

// Inc adds 1 to the counter of a value. The values have to be few.
func (v *Vector) Inc(value string) { v.counter(value).Inc() }

func (v *Vector) counter(value string) *Counter {
	counter, ok := v.counters.Load(value)
	if !ok {
		counter, _ = v.counters.LoadOrStore(value, new(Counter))
	}
	return counter.(*Counter)
}

// bounds has the upper bounds of the buckets of a histogram, in seconds.
var bounds = [...]float64{.0001, .00025, .0005, .001, .0025, .005, .01, .025, .05, .1, .25, .5, 1, 2.5, 5, 10,
	20, 60, 300}

// A Histogram counts durations.
type Histogram struct {
	counts [len(bounds) + 1]atomic.Uint64 // of each bucket, without those below it
	sum    atomic.Int64                   // nanoseconds
}

// Observe adds a duration.
func (h *Histogram) Observe(took time.Duration) {
	h.counts[sort.SearchFloat64s(bounds[:], took.Seconds())].Add(1)
	h.sum.Add(int64(took))
}

// A Page is a text for Prometheus. Each method adds a metric with its help.
type Page struct{ bytes.Buffer }

func (p *Page) begin(kind, name, help string) {
	fmt.Fprintf(p, "# HELP %s %s\n# TYPE %s %s\n", name, help, name, kind)
}

func (p *Page) sample(name string, value float64) {
	fmt.Fprintf(p, "%s %s\n", name, strconv.FormatFloat(value, 'f', -1, 64))
}

// Gauge adds a number that may grow and shrink.
func (p *Page) Gauge(name, help string, value float64) {
	p.begin("gauge", name, help)
	p.sample(name, value)
}

// Info adds the value 1 with two labels.
func (p *Page) Info(name, help, first, one, second, other string) {
	p.begin("gauge", name, help)
	p.sample(fmt.Sprintf("%s{%s=%s,%s=%s}", name, first, quote(one), second, quote(other)), 1)
}

// escapes are those of the text format in a value of a label, which knows no others.
var escapes = strings.NewReplacer(`\`, `\\`, `"`, `\"`, "\n", `\n`)

// quote returns a value of a label in quotes.
func quote(value string) string {
	return `"` + escapes.Replace(strings.ToValidUTF8(value, "\uFFFD")) + `"`
}

// Counter adds a counter.
func (p *Page) Counter(name, help string, c *Counter) {
	p.begin("counter", name, help)
	p.sample(name, float64(c.Load()))
}

// Vector adds the counters of all values of a label. The known ones are there from the beginning, so that their first
// increase is seen.
func (p *Page) Vector(name, help, label string, v *Vector, known ...string) {
	p.begin("counter", name, help)
	for _, value := range known {
		v.counter(value)
	}
	var samples []string
	v.counters.Range(func(value, counter any) bool {
		text := fmt.Sprintf("%s{%s=%s} %d\n", name, label, quote(value.(string)), counter.(*Counter).Load())
		samples = append(samples, text)
		return true
	})
	sort.Strings(samples)
	p.WriteString(strings.Join(samples, ""))
}

// Histogram adds a histogram.
func (p *Page) Histogram(name, help string, h *Histogram) {
	p.begin("histogram", name, help)
	count := uint64(0)
	for i := range h.counts {
		bound := "+Inf"
		if i < len(bounds) {
			bound = strconv.FormatFloat(bounds[i], 'f', -1, 64)
		}
		count += h.counts[i].Load()
		p.sample(fmt.Sprintf("%s_bucket{le=%q}", name, bound), float64(count))
	}
	p.sample(name+"_sum", time.Duration(h.sum.Load()).Seconds())
	p.sample(name+"_count", float64(count))
}
