package main

import (
	"encoding/json"
	"flag"
	"fmt"
	"html"
	"html/template"
	"strings"
	"time"

	"regd/gateway/book"
	"regd/gateway/client"
)

// A graph is what the formats draw: agents, aliases and entries, and which leads to which.
type graph struct {
	Domain   string         `json:"domain"`
	Place    uint64         `json:"place"`
	IsWhole  bool           `json:"complete"`
	Nodes    []graphNode    `json:"nodes"`
	Edges    [][2]int       `json:"edges"`
	Findings []book.Finding `json:"findings"`
}

// A graphNode is an agent, an alias or an entry.
type graphNode struct {
	Kind      string   `json:"kind"` // agent, alias or entry
	Name      string   `json:"name"`
	ID        string   `json:"id"`
	Selectors []string `json:"selectors"`
	Hint      string   `json:"hint,omitempty"`
	Domains   []string `json:"domains,omitempty"`
	// IsServed is true if a known agent may serve it.
	IsServed bool `json:"served"`
}

func defineGraph(flags *flag.FlagSet) func(*session) (*graph, error) {
	agent := flags.String("agent", "", "only what an agent may serve, by its SPIFFE `ID`")
	identity := flags.String("spiffeID", "", "only what is above and below this SPIFFE `ID`")
	names := defineNames(flags)
	return func(s *session) (*graph, error) {
		known, err := names(s)
		if err != nil {
			return nil, err
		}
		id, err := s.id(*agent)
		if err != nil {
			return nil, err
		}
		around, err := s.id(*identity)
		if err != nil {
			return nil, err
		}
		if id != "" {
			known.agents = append(known.agents, id)
		}
		b, err := s.readCopy(client.Reading{Agents: true, Names: known.agents, Bundles: true, Texts: true,
			Domains: known.domains})
		if err != nil {
			return nil, err
		}
		return s.graphOf(b, id, around, len(known.agents) > 0), nil
	}
}

// graphOf returns the graph of a book, or a part of it.
func (s *session) graphOf(b *book.Book, agent, around string, isNamed bool) *graph {
	g := &graph{Domain: b.Domain, Place: b.Place, IsWhole: b.AllAgents, Nodes: []graphNode{}, Edges: [][2]int{}}
	g.Findings = b.Check(time.Now(), 7*24*time.Hour)
	if !b.AllAgents && !isNamed {
		g.Findings = certain(g.Findings)
	}
	served := b.Served()
	numbers := map[any]int{}
	for i := range b.Agents {
		a := &b.Agents[i]
		numbers[a] = len(g.Nodes)
		g.Nodes = append(g.Nodes, graphNode{Kind: "agent", Name: s.short(a.ID), ID: a.ID,
			Selectors: a.Selectors,
			IsServed:  true})
	}
	for i := range b.Entries {
		e := &b.Entries[i]
		if e.IsMarker() {
			continue
		}
		kind := "entry"
		if e.IsAlias() {
			kind = "alias"
		}
		_, isServed := served[e]
		numbers[e] = len(g.Nodes)
		g.Nodes = append(g.Nodes, graphNode{kind, s.short(e.Identity), e.ID, e.Selectors, e.Hint, e.Domains,
			isServed})
	}
	g.connect(b, numbers)
	if agent != "" || around != "" {
		g.keep(s.short(agent), s.short(around))
	}
	return g
}

// connect adds an edge from each agent and each entry to what is right below it.
func (g *graph) connect(b *book.Book, numbers map[any]int) {
	add := func(from int, below []*book.Entry) {
		for _, e := range below {
			if to, isIn := numbers[e]; isIn {
				g.Edges = append(g.Edges, [2]int{from, to})
			}
		}
	}
	for i := range b.Agents {
		a := &b.Agents[i]
		add(numbers[a], append(b.Held(a), b.Children(a.ID)...))
	}
	for i := range b.Entries {
		if e := &b.Entries[i]; !e.IsMarker() {
			add(numbers[e], b.Children(e.Identity))
		}
	}
}

// keep leaves what is below an agent, or above and below an identity.
func (g *graph) keep(agent, around string) {
	down, up := map[int][]int{}, map[int][]int{}
	for _, edge := range g.Edges {
		down[edge[0]] = append(down[edge[0]], edge[1])
		up[edge[1]] = append(up[edge[1]], edge[0])
	}
	kept := map[int]bool{}
	var follow func(n int, next map[int][]int, seen map[int]bool)
	follow = func(n int, next map[int][]int, seen map[int]bool) {
		if seen[n] {
			return
		}
		seen[n], kept[n] = true, true
		for _, other := range next[n] {
			follow(other, next, seen)
		}
	}
	below, above := map[int]bool{}, map[int]bool{}
	for n, node := range g.Nodes {
		if node.Kind == "agent" && node.Name == agent {
			follow(n, down, below)
		}
		if node.Kind != "agent" && node.Name == around {
			follow(n, down, below)
			follow(n, up, above)
		}
	}
	g.restrict(kept)
}

// restrict leaves some nodes, and the edges between them.
func (g *graph) restrict(kept map[int]bool) {
	numbers := map[int]int{}
	var nodes []graphNode
	for n, node := range g.Nodes {
		if kept[n] {
			numbers[n] = len(nodes)
			nodes = append(nodes, node)
		}
	}
	edges := [][2]int{}
	for _, edge := range g.Edges {
		if kept[edge[0]] && kept[edge[1]] {
			edges = append(edges, [2]int{numbers[edge[0]], numbers[edge[1]]})
		}
	}
	g.Nodes, g.Edges = nodes, edges
}

// drawGraph prints the graph in a format.
func drawGraph(flags *flag.FlagSet) runner {
	read := defineGraph(flags)
	format := flags.String("format", "html", "the `format`: html, svg, or dot for Graphviz")
	return func(s *session) error {
		if err := s.noArguments(); err != nil {
			return err
		}
		if !isOneOf(*format, "html", "svg", "dot") {
			return invalidf("-format is html, svg or dot, and not %s", *format)
		}
		g, err := read(s)
		if err != nil {
			return err
		}
		if !g.IsWhole {
			s.warn("regdctl: %s", otherAgents)
		}
		switch *format {
		case "svg":
			if len(g.Nodes) > mostDrawn {
				return invalidf("%d rows are too many for a drawing of %d\n  cure:   add -agent or "+
					"-spiffeID, or "+
					"take html", len(g.Nodes), mostDrawn)
			}
			return s.print(g.svg())
		case "dot":
			return s.print(g.dot())
		}
		page, err := g.page()
		if err != nil {
			return err
		}
		return s.print(page)
	}
}

// dot returns the graph for Graphviz.
func (g *graph) dot() string {
	var out strings.Builder
	out.WriteString("digraph regd {\n  rankdir=LR;\n  node [shape=box, fontname=\"sans-serif\"];\n")
	for n, node := range g.Nodes {
		color := "black"
		if !node.IsServed {
			color = "red"
		}
		shape := map[string]string{"agent": "ellipse", "alias": "hexagon", "entry": "box"}[node.Kind]
		fmt.Fprintf(&out, "  n%d [label=%q, shape=%s, color=%s];\n", n,
			node.Name+"\n"+strings.Join(node.Selectors, "\n"), shape, color)
	}
	for _, edge := range g.Edges {
		fmt.Fprintf(&out, "  n%d -> n%d;\n", edge[0], edge[1])
	}
	return out.String() + "}\n"
}

const (
	mostDrawn              = 300
	columnWidth, rowHeight = 340, 46
	boxWidth, boxHeight    = 260, 36
)

// svg returns a drawing: agents, aliases, and entries by their distance, each in a column.
func (g *graph) svg() string {
	columns := g.columns()
	places := make([][2]int, len(g.Nodes))
	counts := map[int]int{}
	widest, highest := 0, 0
	for n := range g.Nodes {
		c := columns[n]
		places[n] = [2]int{20 + c*columnWidth, 20 + counts[c]*rowHeight}
		counts[c]++
		widest, highest = larger(widest, places[n][0]+boxWidth+20), larger(highest, places[n][1]+rowHeight+20)
	}
	var out strings.Builder
	fmt.Fprintf(&out, `<svg xmlns="http://www.w3.org/2000/svg" viewBox="0 0 %d %d" width="%d" height="%d" `+
		`font-family="sans-serif" font-size="12">`+"\n", widest, highest, widest, highest)
	for _, edge := range g.Edges {
		from, to := places[edge[0]], places[edge[1]]
		x1, y1, x2, y2 := from[0]+boxWidth, from[1]+boxHeight/2, to[0], to[1]+boxHeight/2
		fmt.Fprintf(&out, `<path d="M%d %d C%d %d %d %d %d %d" fill="none" stroke="#888"/>`+"\n", x1, y1,
			x1+60, y1,
			x2-60, y2, x2, y2)
	}
	for n, node := range g.Nodes {
		x, y := places[n][0], places[n][1]
		stroke, fill := "#333", map[string]string{"agent": "#dfe9f7", "alias": "#f4efd9",
			"entry": "#fff"}[node.Kind]
		if !node.IsServed {
			stroke, fill = "#c00", "#fbe3e3"
		}
		fmt.Fprintf(&out, `<g><title>%s</title><rect x="%d" y="%d" width="%d" height="%d" rx="4" fill="%s" `+
			`stroke="%s"/>`+
			`<text x="%d" y="%d">%s</text><text x="%d" y="%d" fill="#555" `+
			`font-size="10">%s</text></g>`+"\n",
			html.EscapeString(node.ID), x, y, boxWidth, boxHeight, fill, stroke, x+8, y+15,
			html.EscapeString(shortened(node.Name, 38)), x+8, y+29,
			html.EscapeString(shortened(strings.Join(node.Selectors, " "), 46)))
	}
	return out.String() + "</svg>\n"
}

func larger(a, b int) int {
	if a > b {
		return a
	}
	return b
}

// shortened returns a text of at most `most` letters.
func shortened(text string, most int) string {
	letters := []rune(text)
	if len(letters) <= most {
		return text
	}
	return string(letters[:most-1]) + "…"
}

// columns returns the column of each node: 0 for agents, 1 for aliases, and then by the distance from these.
func (g *graph) columns() []int {
	columns := make([]int, len(g.Nodes))
	isPlaced := make([]bool, len(g.Nodes))
	var work []int
	for _, kind := range []string{"agent", "alias"} {
		for n, node := range g.Nodes {
			if node.Kind == kind {
				columns[n], isPlaced[n] = map[string]int{"agent": 0, "alias": 1}[kind], true
				work = append(work, n)
			}
		}
	}
	down := map[int][]int{}
	for _, edge := range g.Edges {
		down[edge[0]] = append(down[edge[0]], edge[1])
	}
	for next := 0; next < len(work); next++ {
		for _, n := range down[work[next]] {
			if !isPlaced[n] {
				columns[n], isPlaced[n] = larger(2, columns[work[next]]+1), true
				work = append(work, n)
			}
		}
	}
	for n := range columns {
		if !isPlaced[n] {
			columns[n] = 2 // nothing leads to it
		}
	}
	return columns
}

// page returns the page of one file, with the graph in it.
func (g *graph) page() (string, error) {
	data, err := json.Marshal(g) // with < and > as escapes, so the text can't end the script
	if err != nil {
		return "", err
	}
	var out strings.Builder
	err = graphPage.Execute(&out, map[string]any{"Data": template.JS(data), "Domain": g.Domain, "Place": g.Place})
	return out.String(), err
}
