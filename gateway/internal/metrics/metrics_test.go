package metrics

import (
	"strings"
	"sync"
	"testing"
	"time"
)

func TestPage(t *testing.T) {
	var c Counter
	c.Inc()
	c.Inc()
	var v Vector
	for _, value := range []string{"b", "a\"\n", "b", "\té\x01\\\xff"} {
		v.Inc(value)
	}
	for _, one := range []struct {
		name string
		add  func(*Page)
		want string
	}{
		{"a gauge", func(p *Page) {
			p.Gauge("g", "A number.", -0.5)
		}, "# HELP g A number.\n# TYPE g gauge\ng -0.5\n"},
		{"a large gauge", func(p *Page) {
			p.Gauge("g", "A number.", 1<<40)
		}, "# HELP g A number.\n# TYPE g gauge\ng 1099511627776\n"},
		{"labels", func(p *Page) {
			p.Info("g", "Names.", "a", "x", "b", "y\n")
		}, "# HELP g Names.\n# TYPE g gauge\ng{a=\"x\",b=\"y\\n\"} 1\n"},
		{"a counter", func(p *Page) {
			p.Counter("c_total", "Events.", &c)
		}, "# HELP c_total Events.\n# TYPE c_total counter\nc_total 2\n"},
		{"a vector", func(p *Page) { p.Vector("v_total", "Events.", "code", &v) },
			"# HELP v_total Events.\n# TYPE v_total counter\nv_total{code=\"\té\x01\\\\\uFFFD\"} 1\n" +
				"v_total{code=\"a\\\"\\n\"} 1\nv_total{code=\"b\"} 2\n"},
	} {
		var p Page
		if one.add(&p); p.String() != one.want {
			t.Errorf("%s: got %s", one.name, p.String())
		}
	}
}

// TestHistogram checks that a bucket counts what is at most its bound, also what is in the buckets below it.
func TestHistogram(t *testing.T) {
	var h Histogram
	for _, took := range []time.Duration{0, 100 * time.Microsecond, 101 * time.Microsecond, time.Second,
		time.Minute} {
		h.Observe(took)
	}
	var p Page
	p.Histogram("h_seconds", "Times.", &h)
	lines := strings.Split(strings.TrimSpace(p.String()), "\n")
	if lines[0] != "# HELP h_seconds Times." || lines[1] != "# TYPE h_seconds histogram" ||
		len(lines) != 2+len(bounds)+3 {
		t.Fatalf("got %q", lines)
	}
	for _, want := range []string{
		`h_seconds_bucket{le="0.0001"} 2`, `h_seconds_bucket{le="0.00025"} 3`, `h_seconds_bucket{le="0.5"} 3`,
		`h_seconds_bucket{le="1"} 4`, `h_seconds_bucket{le="20"} 4`, `h_seconds_bucket{le="+Inf"} 5`,
		"h_seconds_sum 61.000201", "h_seconds_count 5",
	} {
		if !strings.Contains(p.String(), want+"\n") {
			t.Errorf("%s is missing in %s", want, p.String())
		}
	}
}

// TestTogether counts from several goroutines.
func TestTogether(t *testing.T) {
	var c Counter
	var v Vector
	var h Histogram
	var all sync.WaitGroup
	for i := 0; i < 8; i++ {
		all.Add(1)
		go func() {
			defer all.Done()
			for i := 0; i < 1000; i++ {
				c.Inc()
				v.Inc("x")
				h.Observe(time.Millisecond)
			}
		}()
	}
	all.Wait()
	var p Page
	p.Counter("c", "", &c)
	p.Vector("v", "", "l", &v)
	p.Histogram("h", "", &h)
	for _, want := range []string{"c 8000\n", "v{l=\"x\"} 8000\n", "h_count 8000\n"} {
		if !strings.Contains(p.String(), want) {
			t.Errorf("%s is missing in %s", want, p.String())
		}
	}
}
