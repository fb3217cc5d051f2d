package book

// A Node is an entry of a tree with the entries below it. Above is true if these are printed elsewhere.
type Node struct {
	Entry    *Entry
	Children []*Node
	Above    bool
}

// A View is what an agent sees: the aliases that it holds, and the entries whose parent it is.
type View struct {
	Agent    *Agent
	Held     []*Node
	Children []*Node
}

// A Tree has each entry of a book. The children of a SPIFFE ID are in it once, below the first entry of that ID.
type Tree struct {
	Agents  []View
	Aliases []*Node
	// Loose are entries whose parent is neither an entry nor a known agent, and one entry of each cycle that is
	// reached from nowhere else.
	Loose []*Node
	// Markers are those of sets.
	Markers []*Entry
}

type planter struct {
	book     *Book
	followed map[string]bool
	planted  map[*Entry]bool
}

func (p *planter) nodes(entries []*Entry) []*Node {
	nodes := make([]*Node, 0, len(entries))
	for _, e := range entries {
		nodes = append(nodes, p.node(e))
	}
	return nodes
}

func (p *planter) node(e *Entry) *Node {
	p.planted[e] = true
	children := p.book.Children(e.Identity)
	if p.followed[e.Identity] {
		return &Node{Entry: e, Above: len(children) > 0}
	}
	p.followed[e.Identity] = true
	return &Node{Entry: e, Children: p.nodes(children)}
}

// Tree returns all entries, below agents, aliases or nothing.
func (b *Book) Tree() Tree {
	p := &planter{b, map[string]bool{}, map[*Entry]bool{}}
	var t Tree
	for i := range b.Agents {
		a := &b.Agents[i]
		v := View{Agent: a, Children: p.nodes(b.Children(a.ID))}
		for _, alias := range b.Held(a) {
			v.Held = append(v.Held, &Node{Entry: alias, Above: true})
		}
		t.Agents = append(t.Agents, v)
	}
	t.Aliases = p.nodes(b.find().aliases)
	for _, isRoot := range []bool{true, false} { // the second time only cycles are left
		for i := range b.Entries {
			e := &b.Entries[i]
			if e.IsMarker() && len(b.WithIdentity(e.Parent)) == 0 {
				if isRoot {
					t.Markers = append(t.Markers, e)
				}
				continue
			}
			if !p.planted[e] && (!isRoot || len(b.WithIdentity(e.Parent)) == 0) {
				t.Loose = append(t.Loose, p.node(e))
			}
		}
	}
	return t
}

// View returns what one agent sees.
func (b *Book) View(a *Agent) View {
	p := &planter{b, map[string]bool{}, map[*Entry]bool{}}
	return View{Agent: a, Held: p.nodes(b.Held(a)), Children: p.nodes(b.Children(a.ID))}
}
