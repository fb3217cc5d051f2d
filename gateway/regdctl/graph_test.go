package main

import (
	"bufio"
	"context"
	"encoding/json"
	"encoding/pem"
	"encoding/xml"
	"errors"
	"fmt"
	"io"
	"net/http"
	"net/http/httptest"
	"strings"
	"testing"

	"regd/gateway/internal/booktest"
)

// graphIn returns the graph of a page.
func graphIn(t *testing.T, page string) graph {
	t.Helper()
	_, text, isThere := strings.Cut(page, "const graph = ")
	var g graph
	if err := json.NewDecoder(strings.NewReader(text)).Decode(&g); err != nil || !isThere {
		t.Fatalf("%v: %.200s", err, page)
	}
	return g
}

// names returns the nodes and edges of a graph.
func (g graph) text() string {
	var words []string
	for _, n := range g.Nodes {
		mark := ""
		if !n.IsServed {
			mark = "!"
		}
		words = append(words, n.Kind+" "+n.Name+mark)
	}
	for _, e := range g.Edges {
		words = append(words, g.Nodes[e[0]].Name+" > "+g.Nodes[e[1]].Name)
	}
	return strings.Join(words, ", ")
}

// TestGraph draws a book in each format, and parts of it.
func TestGraph(t *testing.T) {
	s := applied(t, false)
	s.change(`{"op":"create","id":"24bbb05c-58d9-4fc7-bdb2-747061ad2046","parent":"spiffe://ex.org/none",` +
		`"identity":"spiffe://ex.org/lost","selectors":["x:1"],"hint":"</script>"}`)
	got := s.do("graph")
	if got.status != 0 || strings.Count(got.out, "</script>") != 1 || strings.Contains(got.out, "http://www.") {
		t.Errorf("%v", got)
	}
	g := graphIn(t, got.out)
	want := "agent /spire/agent/a, agent /spire/agent/b, entry /lost!, entry /migrate, alias /node/rack-1, entry " +
		"/web, " +
		"/spire/agent/a > /node/rack-1, /spire/agent/b > /node/rack-1, /node/rack-1 > /migrate, /node/rack-1 " +
		"> /web"
	sortNodes(&g)
	if g.text() != want || !g.IsWhole || len(g.Findings) != 1+1 {
		t.Errorf("%s, %v", g.text(), g.Findings)
	}
	for line, want := range map[string]string{
		"graph -agent /spire/agent/b": "agent /spire/agent/b, entry /migrate, alias /node/rack-1, entry " +
			"/web, " +
			"/spire/agent/b > /node/rack-1, /node/rack-1 > /migrate, /node/rack-1 > /web",
		"graph -spiffeID /web": "agent /spire/agent/a, agent /spire/agent/b, alias /node/rack-1, entry /web, " +
			"/spire/agent/a > /node/rack-1, /spire/agent/b > /node/rack-1, /node/rack-1 > /web",
		"graph -spiffeID /none": "",
	} {
		g := graphIn(t, s.do(line).out)
		sortNodes(&g)
		if g.text() != want {
			t.Errorf("%s: %s", line, g.text())
		}
	}
	got = s.do("graph -format dot")
	if got.status != 0 || !strings.HasPrefix(got.out, "digraph regd {") || strings.Count(got.out, " -> ") != 4 ||
		strings.Count(got.out, "color=red") != 1 {
		t.Errorf("%v", got)
	}
	if got = s.do("graph -format png"); got.status != 2 {
		t.Errorf("%v", got)
	}
}

// sortNodes puts nodes and edges in the order of names, since ids are in that of hashes.
func sortNodes(g *graph) {
	order := make([]int, len(g.Nodes))
	for i := range order {
		order[i] = i
	}
	key := func(n int) string { return strings.TrimPrefix(g.Nodes[n].Name, "/spire") }
	for i := range order {
		for j := i + 1; j < len(order); j++ {
			if key(order[j]) < key(order[i]) {
				order[i], order[j] = order[j], order[i]
			}
		}
	}
	place, nodes := map[int]int{}, make([]graphNode, len(order))
	for to, from := range order {
		nodes[to], place[from] = g.Nodes[from], to
	}
	g.Nodes = nodes
	for i, e := range g.Edges {
		g.Edges[i] = [2]int{place[e[0]], place[e[1]]}
	}
	for i := range g.Edges {
		for j := i + 1; j < len(g.Edges); j++ {
			a, b := g.Edges[i], g.Edges[j]
			if b[0] < a[0] || b[0] == a[0] && b[1] < a[1] {
				g.Edges[i], g.Edges[j] = b, a
			}
		}
	}
}

// TestDrawing checks that a drawing is XML with each row, and that a book may be too large for one.
func TestDrawing(t *testing.T) {
	s := applied(t, false)
	s.change(`{"op":"create","id":"24bbb05c-58d9-4fc7-bdb2-747061ad2046","parent":"spiffe://ex.org/none",` +
		`"identity":"spiffe://ex.org/lost","selectors":["x:<1>&"]}`)
	got := s.do("graph -format svg")
	texts, rects, reds := 0, 0, strings.Count(got.out, "#c00")
	for decoder := xml.NewDecoder(strings.NewReader(got.out)); ; {
		token, err := decoder.Token()
		if errors.Is(err, io.EOF) {
			break
		}
		if err != nil {
			t.Fatalf("%v: %s", err, got.out)
		}
		if begin, isBegin := token.(xml.StartElement); isBegin {
			texts += map[string]int{"text": 1}[begin.Name.Local]
			rects += map[string]int{"rect": 1}[begin.Name.Local]
		}
	}
	if got.status != 0 || rects != 6 || texts != 12 || reds != 1 {
		t.Errorf("%d %d %d %v", rects, texts, reds, got)
	}
	s.Do(func(m *booktest.Model) {
		for i := 0; i < 301; i++ {
			m.Agents[fmt.Sprintf("spiffe://ex.org/spire/agent/n%d", i)] = []string{}
		}
	})
	if got := s.do("graph -format svg"); got.status != 2 || !strings.Contains(got.errs, "add -agent or -spiffeID") {
		t.Errorf("%v", got)
	}
}

// serving starts a command that serves, and returns its address.
func serving(t *testing.T, s *stand, words ...string) string {
	t.Helper()
	ctx, cancel := context.WithCancel(context.Background())
	read, write := io.Pipe()
	ended := make(chan int, 1)
	env := func(name string) (string, bool) {
		value, isSet := map[string]string{"REGDCTL_ADDRESS": s.Address, "REGDCTL_DOMAIN": "ex.org"}[name]
		return value, isSet
	}
	go func() { ended <- run(ctx, words, strings.NewReader(""), write, io.Discard, env) }()
	t.Cleanup(func() {
		cancel()
		if status := <-ended; status != 0 {
			t.Errorf("status %d", status)
		}
	})
	line, err := bufio.NewReader(read).ReadString('\n')
	if err != nil {
		t.Fatal(err)
	}
	return strings.TrimSpace(line)
}

// request sends a request, and returns its status and its body.
func request(t *testing.T, method, url, body string, headers ...string) (int, string) {
	t.Helper()
	r, err := http.NewRequest(method, url, strings.NewReader(body))
	if err != nil {
		t.Fatal(err)
	}
	for i := 0; i < len(headers); i += 2 {
		r.Header.Set(headers[i], headers[i+1])
		if headers[i] == "Host" {
			r.Host = headers[i+1]
		}
	}
	answer, err := http.DefaultClient.Do(r)
	if err != nil {
		t.Fatal(err)
	}
	defer answer.Body.Close()
	text, err := io.ReadAll(answer.Body)
	if err != nil {
		t.Fatal(err)
	}
	return answer.StatusCode, string(text)
}

// TestBrowse serves the page from live data, at a path that can't be guessed, for this machine alone.
func TestBrowse(t *testing.T) {
	s := applied(t, false)
	url := serving(t, s, "browse")
	for i := 0; i < 2; i++ {
		status, page := request(t, "GET", url, "")
		if g := graphIn(t, page); status != 200 || g.Place != uint64(1+i) {
			t.Errorf("%d %d", status, g.Place)
		}
		s.change(`{"op":"set_agent","agent":"spiffe://ex.org/spire/agent/z","selectors":[]}`)
	}
	root := url[:strings.IndexByte(url[7:], '/')+8]
	for _, one := range []struct {
		status                  int
		method, url, key, value string
	}{{404, "GET", root, "", ""}, {405, "POST", url, "", ""}, {403, "GET", url, "Host", "evil.example:80"},
		{403, "GET", url, "Origin", "http://evil.example"}, {403, "GET", url, "Sec-Fetch-Site", "cross-site"},
		{200, "GET", url, "Sec-Fetch-Site", "none"}, {200, "GET", url, "Host", "localhost"}} {
		headers := []string{one.key, one.value}
		if one.key == "" {
			headers = nil
		}
		if status, text := request(t, one.method, one.url, "", headers...); status != one.status {
			t.Errorf("%v: %d %s", one, status, text)
		}
	}
	if got := s.do("browse -listen 0.0.0.0:0"); got.status != 2 || !strings.Contains(got.errs,
		"loopback address alone") {
		t.Errorf("%v", got)
	}
}

// TestProxy sends lines as they are, and returns their answers.
func TestProxy(t *testing.T) {
	s := newStand(t, false)
	url := serving(t, s, "proxy", "-listen", "127.0.0.1:0")
	if !strings.HasSuffix(url, "/lines") {
		t.Error(url)
	}
	set := `{"ops":[{"op":"set_agent","agent":"spiffe://ex.org/spire/agent/z","selectors":[]}]}`
	status, text := request(t, "POST", url, set+"\n"+`{"ops":[{"op":"drop_agent","agent":"x"}]}`+"\n"+set)
	lines := strings.Split(text, "\n")
	if status != 200 || len(lines) != 4 || !strings.Contains(lines[0], "committed") ||
		!strings.Contains(lines[1], "O7") ||
		s.model.Place != 2 {
		t.Errorf("%d %s", status, text)
	}
	if status, _ := request(t, "GET", url, ""); status != 405 {
		t.Error(status)
	}
	if status, _ := request(t, "POST", url, set, "Origin", "http://evil.example"); status != 403 ||
		s.model.Place != 2 {
		t.Error(status)
	}
	s.Before(func(int, string) bool { return true })
	if status, text := request(t, "POST", url, set); status != 502 || !strings.Contains(text, "unknown whether") {
		t.Errorf("%d %s", status, text)
	}
	s.Before(nil)
}

// TestSync fetches bundles over HTTPS, sets those that differ, and goes on after a failure.
func TestSync(t *testing.T) {
	texts := map[string]string{"/a": `{"keys":[1]}`, "/b": `{"keys":[2]}`, "/bad": `{}`,
		"/long": strings.Repeat("x", 65537)}
	web := httptest.NewTLSServer(http.HandlerFunc(func(w http.ResponseWriter, r *http.Request) {
		if r.URL.Path == "/moved" {
			http.Redirect(w, r, "http://127.0.0.1/", http.StatusFound)
			return
		}
		text, isThere := texts[r.URL.Path]
		if !isThere {
			w.WriteHeader(http.StatusNotFound)
		}
		fmt.Fprint(w, text)
	}))
	defer web.Close()
	s := newStand(t, false)
	s.file("roots", string(pem.EncodeToMemory(&pem.Block{Type: "CERTIFICATE", Bytes: web.Certificate().Raw})))
	s.file("places", strings.ReplaceAll("a.org: URL/a\nb.org: URL/b\n", "URL", web.URL))
	sync := "bundle sync -roots @/roots @/places"
	s.expect(sync+" -dry-run", 0, "TRUST DOMAIN  RESULT\na.org         differs\nb.org         differs\n")
	s.expect(sync, 0, "TRUST DOMAIN  RESULT\na.org         set at commit 1\nb.org         set at commit 2\n")
	texts["/a"] = `{"keys":[3]}`
	s.expect(sync, 0, "TRUST DOMAIN  RESULT\na.org         set at commit 3\nb.org         unchanged\n")
	s.file("places", strings.ReplaceAll("c.org: URL/none\nd.org: URL/bad\ne.org: URL/long\nf.org: "+
		"URL/moved\nb.org: URL/a\n",
		"URL", web.URL))
	got := s.do(sync)
	for _, want := range []string{"failed: " + web.URL + "/none: 404", "its text has no list `keys`",
		"more than 65536 bytes",
		"redirected too often", "b.org         set at commit 4\n"} {
		if got.status != 1 || !strings.Contains(got.out, want) {
			t.Errorf("%s: %v", want, got)
		}
	}
	if got := s.do("bundle sync @/places"); got.status != 1 || !strings.Contains(got.out, "certificate") {
		t.Errorf("%v", got)
	}
	s.file("places", "a.org: http://a.org/\n")
	if got := s.do(sync); got.status != 2 || !strings.Contains(got.errs, "begins with https://") {
		t.Errorf("%v", got)
	}
}
