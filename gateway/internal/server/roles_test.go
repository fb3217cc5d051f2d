package server

import (
	"bufio"
	"fmt"
	"net"
	"os"
	"path/filepath"
	"strings"
	"testing"
	"time"

	"regd/gateway/internal/wire"
)

// TestReadRoles checks what a file of roles says.
func TestReadRoles(t *testing.T) {
	const text = "# roles\n\noperator spiffe://ex.org/operator\n  reader\tspiffe://ex.org/monitor\n" +
		"registrar spiffe://ex.org/ci spiffe://ex.org/team/\n"
	const agents = "agent spiffe://ex.org/spire/agent/\nagent spiffe://ex.org/alone\n"
	for _, c := range []struct {
		text, id string
		want     Role
	}{
		{text, "spiffe://ex.org/operator", Role{Kind: Operator}},
		{text, "spiffe://ex.org/monitor", Role{Kind: Reader}},
		{text, "spiffe://ex.org/ci", Role{Registrar, "spiffe://ex.org/team/"}}, {text, n1, Role{Kind: Agent}},
		{text, "", Role{}}, {"", n1, Role{Kind: Agent}}, {agents, n1, Role{Kind: Agent}},
		{agents, "spiffe://ex.org/alone", Role{Kind: Agent}}, {agents, "spiffe://ex.org/alone/x", Role{}},
		{agents, "spiffe://ex.org/other", Role{}}, {agents, "spiffe://ex.org/spire/agentx", Role{}},
		{text + agents, "spiffe://ex.org/operator", Role{Kind: Operator}},
	} {
		table, err := readRoles([]byte(c.text), "ex.org")
		if err != nil {
			t.Fatal(err)
		}
		if got := table.of(c.id); got != c.want {
			t.Errorf("%s: got %v", c.id, got)
		}
	}
	for _, line := range []string{"king spiffe://ex.org/a", "operator", "operator spiffe://ex.org/a x",
		"operator spiffe://other.org/a", "operator a", "registrar spiffe://ex.org/a",
		"registrar spiffe://ex.org/a spiffe://ex.org/team",
		"registrar spiffe://ex.org/a spiffe://other.org/team/",
		"registrar spiffe://ex.org/a spiffe://ex.org/", "agent spiffe://other.org/",
		"agent spiffe://ex.org/../",
		"reader spiffe://ex.org/a\noperator spiffe://ex.org/a", "reader spiffe://ex.org/team/"} {
		if _, err := readRoles([]byte(line), "ex.org"); err == nil {
			t.Errorf("%q was read", line)
		}
	}
}

// TestRolesFile replaces a file of roles: a valid one counts immediately, and until then the former one.
func TestRolesFile(t *testing.T) {
	file := filepath.Join(t.TempDir(), "roles")
	write := func(text string) {
		if err := os.WriteFile(file, []byte(text), 0o600); err != nil {
			t.Fatal(err)
		}
	}
	if _, err := LoadRoles(file, "ex.org"); err == nil {
		t.Error("a missing file was read")
	}
	write("king x\n")
	if _, err := LoadRoles(file, "ex.org"); err == nil {
		t.Error("a file that isn't valid was read")
	}
	write("operator " + n1 + "\n")
	roles, err := LoadRoles(file, "ex.org")
	if err != nil {
		t.Fatal(err)
	}
	for _, c := range []struct {
		text string
		want Kind
	}{{"operator " + n1 + "\n", Operator}, {"", Agent}, {"reader  " + n1 + "\n", Reader}, {"king\n", Reader},
		{"agent " + n2 + "\n", NoRole}} {
		if write(c.text); roles.Of(n1).Kind != c.want {
			t.Errorf("%q: got %v", c.text, roles.Of(n1))
		}
	}
	if err := os.Remove(file); err != nil || roles.Of(n1).Kind != NoRole {
		t.Errorf("without the file: got %v, %v", roles.Of(n1), err)
	}
}

// operations has a line for each operation of regd. The entry 1 is one of the team, and 2 is not.
var operations = map[string]string{
	"create":        `{"op":"create","identity":"spiffe://ex.org/team/a"},{"op":"prune","before":0}`,
	"create below":  `{"op":"create","identity":"spiffe://ex.org/team/a","hint":"L5"}`,
	"create beside": `{"op":"create","identity":"spiffe://ex.org/other/a","hint":"L5"}`,
	"update below": `{"op":"update","id":"00000000-0000-4000-8000-000000000001",` +
		`"identity":"spiffe://ex.org/team/b"}`,
	"update out": `{"op":"update","id":"00000000-0000-4000-8000-000000000001",` +
		`"identity":"spiffe://ex.org/other/b"}`,
	"update in": `{"op":"update","id":"00000000-0000-4000-8000-000000000002",` +
		`"identity":"spiffe://ex.org/team/b"}`,
	"delete below":  `{"op":"delete","id":"00000000-0000-4000-8000-000000000001"}`,
	"delete beside": `{"op":"delete","id":"00000000-0000-4000-8000-000000000002"}`,
	"prune":         `{"op":"prune","before":0}`,
	"set_agent":     `{"op":"set_agent","agent":"` + n1 + `","selectors":[]}`,
	"drop_agent":    `{"op":"drop_agent","agent":"` + n1 + `"}`,
	"set_bundle":    `{"op":"set_bundle","domain":"b.org","text":""}`,
	"drop_bundle":   `{"op":"drop_bundle","domain":"b.org"}`,
	"show":          `{"op":"show","id":"00000000-0000-4000-8000-000000000002"}`,
	"show_agent":    `{"op":"show_agent","agent":"` + n1 + `"}`,
	"show_bundle":   `{"op":"show_bundle","domain":"b.org"}`,
	"children":      `{"op":"children","parent":"` + n1 + `"}`,
	"page":          `{"op":"page","size":1}`,
	"authorised":    `{"op":"authorised","agent":"` + n1 + `"}`,
	"trust":         `{"op":"trust","agent":"` + n1 + `"}`,
	"of another":    `{"op":"trust","agent":"` + n2 + `"}`,
}

const queries, about = "show show_agent show_bundle children page authorised trust of another", "authorised trust"

// allowed has the operations that each role may send.
var allowed = map[string]string{
	"operator": "everything", "reader": queries, "agent": about, "nobody": "",
	"registrar": queries + ", create below, update below, delete below",
}

// TestRolesAndOperations sends each operation by a caller of each role. What it may not send is G1, and not in the log.
func TestRolesAndOperations(t *testing.T) {
	t.Parallel()
	s := newSite(t)
	file := filepath.Join(t.TempDir(), "roles")
	roles := "operator spiffe://ex.org/operator\nreader spiffe://ex.org/reader\nagent " + n1 + "\n" +
		"registrar spiffe://ex.org/registrar spiffe://ex.org/team/\n"
	if err := os.WriteFile(file, []byte(roles), 0o600); err != nil {
		t.Fatal(err)
	}
	var err error
	s.roles, err = LoadRoles(file, "ex.org")
	if err != nil {
		t.Fatal(err)
	}
	_, dial := s.secured()
	for role, may := range allowed {
		id := "spiffe://ex.org/" + role
		if role == "agent" {
			id = n1
		}
		conn, in := dial(id)
		for name, op := range operations {
			head, err := s.log.Head(s.ctx)
			if err != nil {
				t.Fatal(err)
			}
			fmt.Fprintf(conn, `{"ops":[%s]}`+"\n", op)
			answer, err := in.ReadString('\n')
			isRefused := strings.HasPrefix(answer, `{"code":"`+wire.NotAllowed)
			mayIt := may == "everything" || strings.Contains(may+",", name) && name != "create"
			if err != nil || isRefused == mayIt {
				t.Errorf("%s: %s: got %s, %v", role, name, answer, err)
			}
			now, err := s.log.Head(s.ctx)
			if err != nil || isRefused && now != head {
				t.Errorf("%s: %s: it is in the log, %v", role, name, err)
			}
		}
	}
}

// TestRegistrarRevision checks that the log has the revision of the entry that a registrar changes, and that the change
// is repeated when it comes again, whatever the revision is then.
func TestRegistrarRevision(t *testing.T) {
	t.Parallel()
	s := newSite(t)
	roles := map[string]Role{"spiffe://ex.org/ci": {Registrar, "spiffe://ex.org/team/"}}
	s.roles = &Roles{table: &roleTable{roles: roles}}
	_, dial := s.secured()
	conn, in := dial("spiffe://ex.org/ci")
	const line = `{"ops":[{"op":"delete","id":"00000000-0000-4000-8000-00000000000%d"}]}` + "\n"
	for number, want := range []string{`"revision":3}]}`, "", `"revision":18446744073709551615}]}`} {
		fmt.Fprintf(conn, line, number+1)
		answer, err := in.ReadString('\n')
		if err != nil || (want == "") != strings.HasPrefix(answer, `{"code":"G1"`) {
			t.Errorf("entry %d: got %s, %v", number+1, answer, err)
		}
		head, err := s.log.Head(s.ctx)
		if err != nil {
			t.Fatal(err)
		}
		e := s.entry(head)
		if want != "" && (!strings.HasSuffix(string(e.Lines[0]), want) || len(e.Added) != 1) {
			t.Errorf("entry %d: the log has %s, %v", number+1, e.Lines[0], e.Added)
		}
	}
}

// TestRegistrarOfRegd sends changes of a registrar to regd itself. It needs REGD.
func TestRegistrarOfRegd(t *testing.T) {
	s := newSite(t)
	s.program = os.Getenv("REGD")
	if s.program == "" {
		t.Skip("REGD names no program")
	}
	s.roles = &Roles{table: &roleTable{roles: map[string]Role{
		"spiffe://ex.org/ci":       {Registrar, "spiffe://ex.org/team/"},
		"spiffe://ex.org/operator": {Kind: Operator},
	}}}
	_, dial := s.secured()
	operator, operatorIn := dial("spiffe://ex.org/operator")
	ci, ciIn := dial("spiffe://ex.org/ci")
	entry := func(op string, number int, name, more string) string {
		return fmt.Sprintf(`{"ops":[{"op":"%s","id":"00000000-0000-4000-8000-00000000000%d","parent":"%s",`+
			`"identity":"spiffe://ex.org/%s","selectors":["u:1"]}]%s}`, op, number, n1, name, more)
	}
	gone := func(number int) string {
		return fmt.Sprintf(`{"ops":[{"op":"delete","id":"00000000-0000-4000-8000-00000000000%d"}]}`, number)
	}
	const token = `,"token":"00000000-0000-4000-9000-000000000001"`
	for i, c := range []struct {
		conn net.Conn
		in   *bufio.Reader
		line string
		want string
	}{
		{operator, operatorIn, entry("create", 1, "team/a", ""), `"result":"committed"`},
		{operator, operatorIn, entry("create", 2, "other/b", ""), `"result":"committed"`},
		{ci, ciIn, entry("update", 1, "team/b", token), `"revision":1`},
		{ci, ciIn, entry("update", 1, "team/b", token), `"result":"repeated"`},
		{ci, ciIn, entry("update", 1, "team/c", token), `"code":"O9"`},
		{ci, ciIn, entry("update", 2, "team/b", ""), `"code":"G1"`},
		{ci, ciIn, entry("update", 1, "other/b", ""), `"code":"G1"`},
		{ci, ciIn, entry("update", 3, "team/b", ""), `"code":"O3"`},
		{ci, ciIn, entry("create", 3, "team/c", ""), `"result":"committed"`},
		{operator, operatorIn, entry("update", 3, "other/c", ""), `"revision":1`},
		{ci, ciIn, gone(3), `"code":"G1"`},
		{ci, ciIn, gone(2), `"code":"G1"`},
		{ci, ciIn, gone(1), `"result":"committed"`},
		{ci, ciIn, gone(1), `"code":"O3"`},
		{ci, ciIn, `{"ops":[{"op":"delete","id":"x"}]}`, `"code":"`},
	} {
		fmt.Fprintln(c.conn, c.line)
		if got, err := c.in.ReadString('\n'); err != nil || !strings.Contains(got, c.want) {
			t.Errorf("line %d: %s: got %s, %v", i, c.line, got, err)
		}
	}
}

// lapsed waits for the end of a session, which has to come within 5 seconds, and for a reason.
func lapsed(t *testing.T, g *Gateway, conn net.Conn, in *bufio.Reader, reason string) {
	t.Helper()
	begin := time.Now()
	if err := conn.SetReadDeadline(begin.Add(5 * time.Second)); err != nil {
		t.Fatal(err)
	}
	if text, err := in.ReadString('\n'); err == nil || text != "" || time.Since(begin) > 5*time.Second {
		t.Errorf("%s: got %q, %v", reason, text, err)
	}
	if got := endedFor(t, g, reason); got != 1 {
		t.Errorf("%s: %v connections ended", reason, got)
	}
}

// asks sends a query, which has to be answered.
func asks(t *testing.T, conn net.Conn, in *bufio.Reader) {
	t.Helper()
	fmt.Fprintf(conn, `{"ops":[{"op":"trust","agent":"%s"}]}`+"\n", n1)
	if text, err := in.ReadString('\n'); err != nil || !strings.Contains(text, `"answered"`) {
		t.Errorf("got %s, %v", text, err)
	}
}

// TestLapse ends sessions whose callers would not be let in any more: an expired certificate, another role, and an
// authority that is taken away. Another session goes on.
func TestLapse(t *testing.T) {
	t.Parallel()
	s := newSite(t)
	a, other := newAuthority(t), newAuthority(t)
	a.leaf("server")
	a.leaf("operator", "spiffe://ex.org/operator")
	a.leaf("agent", n1)
	other.leaf("foreign", n1)
	authorities := a.files("server").Authorities
	own, err := os.ReadFile(authorities)
	if err != nil {
		t.Fatal(err)
	}
	both, err := os.ReadFile(other.files("foreign").Authorities)
	if err != nil {
		t.Fatal(err)
	}
	replace := func(file string, text []byte) {
		if err := os.WriteFile(file, text, 0o600); err != nil {
			t.Fatal(err)
		}
	}
	replace(authorities, append(both, own...))
	s.callers = a.load("server")
	file := filepath.Join(t.TempDir(), "roles")
	replace(file, []byte("operator spiffe://ex.org/operator\n"))
	s.roles, err = LoadRoles(file, "ex.org")
	if err != nil {
		t.Fatal(err)
	}
	g, address, _ := s.gateway("a")
	dial := func(c *Certificates) (net.Conn, *bufio.Reader) {
		config := c.current().Clone()
		config.InsecureSkipVerify = true
		conn := s.secureTo(address, config)
		return conn, bufio.NewReader(conn)
	}
	stays, staysIn := dial(a.load("agent"))
	asks(t, stays, staysIn)
	operator, operatorIn := dial(a.load("operator"))
	asks(t, operator, operatorIn)
	replace(file, []byte("reader spiffe://ex.org/monitor\n"))
	lapsed(t, g, operator, operatorIn, "role")
	foreign, foreignIn := dial(other.load("foreign"))
	asks(t, foreign, foreignIn)
	replace(authorities, own)
	lapsed(t, g, foreign, foreignIn, "authority")
	a.long = 4 * time.Second
	a.leaf("short", n2)
	short, shortIn := dial(a.load("short"))
	fmt.Fprintln(short, show)
	if text, err := shortIn.ReadString('\n'); err != nil || text == "" {
		t.Errorf("got %s, %v", text, err)
	}
	time.Sleep(3 * time.Second)
	lapsed(t, g, short, shortIn, "expired")
	asks(t, stays, staysIn)
}

// TestLapseWhileWaiting ends a session whose line gets no answer.
func TestLapseWhileWaiting(t *testing.T) {
	inner, outer := net.Pipe()
	g := New(newSite(t).log, Options{Limits: UsualLimits})
	a := newAuthority(t)
	s := &session{Gateway: g, conn: inner, role: Role{Kind: Agent}}
	s.lapse.chain = append(s.lapse.chain, a.leaf("agent", n1))
	later := s.lapse.chain[0].NotAfter.Add(time.Second)
	s.endIfLapsed(rights{now: later})
	late := time.AfterFunc(5*time.Second, func() { outer.Close() })
	if _, err := inner.Read(make([]byte, 1)); !os.IsTimeout(err) {
		t.Errorf("it goes on to wait for a line: %v", err)
	}
	late.Stop()
	s.endIfLapsed(rights{now: later.Add(lapseTime)})
	if err := outer.SetDeadline(time.Now().Add(50 * time.Millisecond)); err != nil {
		t.Fatal(err)
	}
	if _, err := outer.Read(make([]byte, 1)); !os.IsTimeout(err) || !s.mustEnd() {
		t.Errorf("it has no time for its answers: %v", err)
	}
	if err := outer.SetDeadline(time.Now().Add(5 * time.Second)); err != nil {
		t.Fatal(err)
	}
	s.endIfLapsed(rights{now: later.Add(lapseTime + time.Second)})
	if _, err := outer.Read(make([]byte, 1)); err == nil || os.IsTimeout(err) {
		t.Errorf("it stays: %v", err)
	}
}
